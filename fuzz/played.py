#!/usr/bin/env python3
"""Plays the logs of some folders with the replay program and with the original, and fails on any difference: bin/fuzz runs it.

    python3 fuzz/played.py PROGRAM ORACLE FOLDER...
"""
import os
import subprocess
import sys


def lines(words, log):
    with open(log, 'rb') as file:
        ran = subprocess.run(words, stdin=file, stdout=subprocess.PIPE, stderr=subprocess.PIPE, timeout=60, check=False)
    return ran.returncode, ran.stdout, ran.stderr


def main(program, oracle, *folders):
    logs = sorted(os.path.join(folder, name) for folder in folders for name in os.listdir(folder))
    for log in logs:
        expected, given = lines([oracle, 'replay'], log), lines([program], log)
        if expected != given:
            sys.exit(f'fuzz: DIFFERENCE: {log}\n  original: {expected}\n  port:     {given}')
    print(f'fuzz: {len(logs)} logs played by {program} and by the original, no difference')


main(*sys.argv[1:])
