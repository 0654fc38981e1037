#!/usr/bin/env python3
"""Counts the instructions of each command, observation and retired test of the port, and says how
many such calls a second a quarter of one core sustains.

Run it from the root of the repository, after the libraries and the oracle were built
(oracle/README.md, `bench-control`):

    python3 scripts/count.py target/control/support.so target/control/thin.so

It runs `oracle once-control` under valgrind's callgrind, which counts what is done between the
entry of a call and its return, copies by the C library included. CYCLES a second, a quarter of
them, and PER_CYCLE instructions in each are what the last column assumes: one is a cautious floor,
below what the timed calls reach (docs/PERFORMANCE.md).
"""
import glob
import os
import re
import subprocess
import sys
import tempfile

CALLS = ['x_begin', 'x_advance', 'x_marker', 'x_apply', 'x_observe', 'x_retired']
CYCLES = 2.1e9
PER_CYCLE = 1
# The C library copies and clears by vectors: callgrind counts a repeated instruction once for each
# byte.
COPIES = 'glibc.cpu.x86_rep_movsb_threshold=1000000000:glibc.cpu.x86_rep_stosb_threshold=1000000000'


def main():
    if len(sys.argv) != 3:
        sys.exit(__doc__)

    with tempfile.TemporaryDirectory() as folder:
        words = ['valgrind', '--tool=callgrind', '--compress-strings=no', '--compress-pos=no', '--callgrind-out-file=' + os.path.join(folder, 'out')]
        ran = subprocess.run(words + ['--dump-after=' + name for name in CALLS] + ['oracle/target/release/oracle', 'once-control'] + sys.argv[1:], capture_output=True, text=True, env=dict(os.environ, GLIBC_TUNABLES=COPIES))
        if ran.returncode:
            sys.exit(ran.stderr)
        counts = []
        for path in sorted(glob.glob(os.path.join(folder, 'out.*')), key=lambda name: int(name.rsplit('.', 1)[1])):
            with open(path, encoding='utf-8') as file:
                # A file for each call; in it stands what its caller spent in it.
                spent = re.search(r'^cfn=(?:%s)\ncalls=1 .*\n\S+ (\d+)$' % '|'.join(CALLS), file.read(), re.M)
            if spent:
                counts.append(int(spent.group(1)))
    tasks = [line.split('\t') for line in ran.stdout.splitlines()]
    if len(counts) != 2 * len(tasks):
        sys.exit('%d calls were counted, of %d' % (len(counts), 2 * len(tasks)))
    print('%-22s%6s  %-26s%14s%22s' % ('call', 'slots', 'state', 'instructions', 'calls a second'))
    for (name, slots, state), count in zip(tasks, counts[1::2]):
        print('%-22s%6s  %-26s%14d%22d' % (name, slots, state, count, CYCLES / 4 * PER_CYCLE / count))


if __name__ == '__main__':
    main()
