#!/usr/bin/env python3
"""Sums up what the harness has noted of its counters (fuzz/src/coverage.rs): bin/fuzz runs it.

    python3 fuzz/coverage.py HARNESS NOTED

For the original, the library and the replay program it prints how many of the counters and of the functions were reached, and
the names of functions that were not.
"""
import bisect
import subprocess
import sys


def symbols(harness):
    """The functions of the harness by rising address."""
    lines = subprocess.check_output(['nm', '-C', '--defined-only', '-n', harness], text=True).splitlines()
    found = []
    for line in lines:
        address, kind, name = line.split(' ', 2)
        if kind in 'tTwW':
            found.append((int(address, 16), name))
    return found


def main(harness, noted):
    names = symbols(harness)
    starts = [address for address, _ in names]
    parts = {'original': [], 'library': [], 'program': []}
    with open(noted, encoding='utf-8') as file:
        for line in file:
            part, address, entry, reached = line.split()
            name = names[bisect.bisect(starts, int(address, 16)) - 1][1]
            if part == 'rust':
                # The rest of the Rust is the harness, the oracle and the generator.
                if not name.startswith(('original::', '<original::')):
                    continue
                part = 'original'
            parts[part].append((name, entry == '1', reached == '1'))
    for part, counters in parts.items():
        reached = sum(1 for _, _, reached in counters if reached)
        functions = {name: False for name, _, _ in counters}
        for name, _, hit in counters:
            functions[name] |= hit
        entered = sum(functions.values())
        share = 100 * reached / max(1, len(counters))
        print(f'{part}: {reached} of {len(counters)} counters reached ({share:.1f} percent), {entered} of {len(functions)} functions')
        for name, hit in sorted(functions.items()):
            if not hit:
                print(f'  not entered: {name}')


main(*sys.argv[1:])
