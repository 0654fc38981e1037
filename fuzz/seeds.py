#!/usr/bin/env python3
"""Writes the first inputs of the fuzzer, made from the stored samples: bin/fuzz runs it, from the root of the repository.

    python3 fuzz/seeds.py ORACLE FOLDER

They are: each log of samples/; for each of its records the table before it and the record; each table of the stored questions
(TR in crates/cases/stdin), valid and damaged; and short logs of the oracle's generator.
"""
import glob
import hashlib
import os
import subprocess
import sys

sys.path.insert(0, 'scripts')
import explain  # noqa: E402

# Short logs of the generator, and the records of each.
FRESH, RECORDS = 200, 14


def record(mark, body):
    return mark + len(body).to_bytes(2, 'big') + body


def with_tables(oracle, log):
    """For each whole record of a log the table before it and the record."""
    lines = subprocess.run([oracle, 'tables'], input=log, stdout=subprocess.PIPE, check=True).stdout.split(b'\n')
    table = b''
    for (mark, body, _), line in zip(explain.records(log), lines):
        if body is None:
            return
        if mark == b'TB':
            yield record(mark, body)
        else:
            yield record(b'TB', table) + record(mark, body)
        after = line.split()[-1]
        if after != b'=':
            table = b'' if after == b'-' else bytes.fromhex(after.decode())


def tables(questions):
    """The tables of the questions TR: a mark, a size of four bytes, the body."""
    at = 0
    while at < len(questions):
        size = int.from_bytes(questions[at + 2:at + 6], 'big')
        if questions[at:at + 2] == b'TR' and size < 65536:
            yield record(b'TB', questions[at + 6:at + 6 + size])
        at += 6 + size


def main(oracle, folder):
    os.makedirs(folder, exist_ok=True)
    seeds = []
    for name in sorted(glob.glob('samples/*.log')):
        with open(name, 'rb') as file:
            log = file.read()
        seeds += [log, *with_tables(oracle, log)]
    with open('crates/cases/stdin', 'rb') as file:
        seeds += tables(file.read())
    for seed in range(1, FRESH + 1):
        seeds.append(subprocess.check_output([oracle, 'generate', str(seed), str(RECORDS), 'log']))
    for seed in seeds:
        with open(os.path.join(folder, hashlib.sha1(seed).hexdigest()), 'wb') as file:
            file.write(seed)
    print(f'{len(os.listdir(folder))} seeds')


main(*sys.argv[1:])
