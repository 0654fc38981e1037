#!/usr/bin/env python3
"""Writes the answers' files that `rt check` prints for functions of a crate that have none: each goal
that the search does not prove, with a hole.

Run it from the repository's root: scripts/skeletons.py CRATE. A function shows its goals only where
what it calls is proved or has an answers' file, so run it again until it writes nothing. (For one
function `rt check --start FUNCTION --allow-holes` does the same.)
"""
import os
import re
import subprocess
import sys

if len(sys.argv) != 2:
    sys.exit("usage: scripts/skeletons.py CRATE")
folder = f"crates/{sys.argv[1]}"
run = subprocess.run(["rt", "check", "--allow-holes"], cwd=folder, capture_output=True, text=True, errors="replace")
for m in re.finditer(r"help: write (\S+) with these lines[^\n]*\n((?:    [^\n]*\n|\s*\n)*)", run.stdout + run.stderr):
    path, lines = os.path.normpath(f"{folder}/{m.group(1)}"), m.group(2).split("\n")
    if not os.path.exists(path):
        os.makedirs(os.path.dirname(path), exist_ok=True)
        with open(path, "w", encoding="utf-8") as file:
            # The places in the source that it names would soon be wrong.
            kept = [line[4:] for line in lines if not re.match(r"    -- src/", line)]
            file.write("\n".join(kept).rstrip() + "\n")
        print("wrote", path)
