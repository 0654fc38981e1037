#!/usr/bin/env python3
"""Says what can be named in the answer to a goal: scripts/places.py CRATE MODULE/FUNCTION:GOAL ..

A goal is named as in the answers' file (`returns`, `returns-then-starts_with`). For each it prints
what is to be proved, and the names by the steps that lead there (`c.starts_with: .result, .ensures`).
It puts a hole in place of the answer, or adds one, checks that function, reads what `rt check` says
of the hole, and puts the file back; what is refused besides is printed too. Run it from the
repository's root.
"""
import os
import re
import subprocess
import sys

if len(sys.argv) < 3:
    sys.exit("usage: scripts/places.py CRATE MODULE/FUNCTION:GOAL ..")
crate = sys.argv[1]
old, flags = {}, []
try:
    for item in sys.argv[2:]:
        function, goal = item.split(":")
        path = f"crates/{crate}/proofs/{function}/Answers.antt"
        text = ""
        if os.path.exists(path):
            with open(path, encoding="utf-8") as file:
                text = file.read()
        if path not in old:
            old[path] = text
        answer = re.compile(rf"^((?:pub )?{re.escape(goal)} : goal\.{re.escape(goal)}\n)(?:.*\n)*?(?=\n|\Z)", re.M)
        hole = f"{goal} c = ?\n"
        opened = f"use Rattle.{crate}.proofs.{function.replace('/', '.')}.Goals as goal\n"
        if answer.search(text):
            text = answer.sub(lambda m: m[1] + hole, text, count=1)
        else:
            text += ("" if "Goals as goal" in text else opened) + f"\npub {goal} : goal.{goal}\n{hole}"
        with open(path, "w", encoding="utf-8") as file:
            file.write(text)
        flags += ["--only", function.replace("/", "::")]
    run = subprocess.run(["rt", "check", *flags, "--allow-holes"], cwd=f"crates/{crate}", capture_output=True, text=True, errors="replace")
finally:
    for path, text in old.items():
        if text:
            with open(path, "w", encoding="utf-8") as file:
                file.write(text)
        else:
            os.remove(path)
said = run.stdout + run.stderr
for hole in re.findall(r"^\S+ goal \? in `[^\n]*\n(?:  [^\n]*\n)*", said, re.M):
    print(hole)
for line in re.findall(r"[^\n]*: error: [^\n]*", said):
    print(line[:300])
