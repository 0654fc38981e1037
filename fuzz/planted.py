#!/usr/bin/env python3
"""Shows that the fuzzer finds a wrong port: for each edit it builds the port with that edit and fuzzes it until the difference is found.

    python3 fuzz/planted.py [--bare] SECONDS EDIT...

Run it from the root of the repository, after bin/fuzz. An EDIT is one of near-misses/CRATE/*.edit or crates/CRATE/must-fail/*.edit that
changes code: the prover refuses it, so it is built by scripts/unproved.py, which proves nothing, in a copy. Each takes half a minute to build,
and at most so many SECONDS to be found. Printed are the seconds and the number of logs that were played until then.
It fails where an edit is not found. Only what is stored in samples/ is at hand for the start, not what earlier runs of bin/fuzz have kept;
with --bare there is nothing at the start, and the fuzzer makes every log itself.
"""
import os
import re
import shutil
import subprocess
import sys
import time

import build

WORK = 'target/fuzz/planted'


def edited(edit):
    """A copy of the crates with the edit made."""
    copy = build.code_copy('planted')
    crate = re.search(r'(?:near-misses|crates)/(\w+)/', edit).group(1)
    path = None
    with open(edit, encoding='utf-8') as file:
        for line in file.read().splitlines():
            if line.startswith('file: '):
                path = f'{copy}/crates/{crate}/{line[6:]}'
            elif line.startswith('old: '):
                old = line[5:]
            elif line.startswith('new:'):
                with open(path, encoding='utf-8') as code:
                    text = code.read()
                if text.count(old) != 1:
                    sys.exit(f'{edit}: its text is not there once')
                with open(path, 'w', encoding='utf-8') as code:
                    code.write(text.replace(old, line[5:]))
    return copy


def built(edit):
    """The harness with the edited port in place of the delivered one."""
    harness = WORK + '/harness'
    build.main(harness, *build.compiled(edited(edit), ''))
    return harness


def main(*words):
    bare = words[0] == '--bare'
    seconds, *edits = words[bare:]
    starts = [] if bare else ['target/fuzz/seeds']
    shutil.rmtree(WORK, ignore_errors=True)
    os.makedirs(WORK)
    missed = 0
    for edit in edits:
        harness = built(edit)
        corpus = WORK + '/corpus'
        shutil.rmtree(corpus, ignore_errors=True)
        os.makedirs(corpus)
        began = time.monotonic()
        words = ['nice', '-n', '19', harness, corpus, *starts, '-max_total_time=' + seconds, '-max_len=70000', '-timeout=120', '-len_control=0', f'-artifact_prefix={WORK}/']
        ran = subprocess.run(words, stdout=subprocess.DEVNULL, stderr=subprocess.PIPE, check=False)
        said = ran.stderr.decode(errors='replace')
        found = re.search(r'DIFFERENCE: (.*)', said)
        missed += found is None
        played = re.findall(r'^#(\d+)', said, re.M)
        with open(edit, encoding='utf-8') as file:
            wrong = file.readline().strip()
        result = f'found by {found.group(1)}' if found else 'NOT FOUND'
        print(f'{edit}: {result}, {time.monotonic() - began:.0f} s, after {played[-1] if played else 0} logs ({wrong})', flush=True)
    sys.exit(1 if missed else 0)


main(*sys.argv[1:])
