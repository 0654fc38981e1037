#!/usr/bin/env python3
"""Holds near programs to the rows of crates/proved_cases: bin/near-rows runs it, from the root of the
repository.

    python3 scripts/near_rows.py

Each near-misses/rows/*.edit makes a definition of control that of a near program, and a row must no
longer compute: the theorem over the rows, `cases`, must be refused, and nothing before it. The copy
has control's types and definitions and the rows, as modules of one crate. What was said of an edit
is kept in target/near-rows/LABEL/.log.
"""
import os
import re
import shutil
import sys

from edits import ROWS, ROWS_CRATE, BadEdit, all_edits, replaced
from trial import Room, errors_at, read
import kit

LOGS = 'target/near-rows'
DEFINITIONS = ('Blank', 'Control', 'Held', 'History', 'Line', 'Observation', 'Quorum', 'Retired')
CASES = ('Calls', 'Cases', 'ControlRows', 'Row', 'Tables')


def write(path, text):
    os.makedirs(os.path.dirname(path), exist_ok=True)
    with open(path, 'w', encoding='utf-8') as file:
        file.write(text)


def without_journal(text):
    """The rows of the replay program need the crate `journal`, above control: they are left out."""
    lines = re.findall(r'^use Rattle\.journal\..*\{(.*)\}$', text, re.M)
    names = [word.split(' as ')[-1].strip() for line in lines for word in line.split(',')]
    text = re.sub(r'^use Rattle\.journal\..*\n|^use .*\.LogRows\..*\n', '', text, flags=re.M)
    text, count = re.subn(r'\n *-- the replay program\n *\+\+ replay_rows\)', ')', text)
    if count != 1:
        sys.exit('bin/near-rows: the rows of the replay program do not stand last in Cases.antt')
    return re.sub(r'^unfolding (.*)$', lambda line: 'unfolding ' + ' '.join(word for word in line[1].split() if word not in names), text, flags=re.M)


def crate_of_rows(crate):
    """Makes the copy's control that of the definitions and the rows."""
    for part in ('src', 'specs', 'proofs'):
        shutil.rmtree(f'{crate}/{part}', ignore_errors=True)
    # The types alone: the conversions between them cite the definitions of the code's calls.
    types = re.sub(r'^// [^\n]*\nimpl .*?^\}\n', '', read('crates/control/src/control.rt'), flags=re.M | re.S)
    write(f'{crate}/src/control.rt', types)
    write(f'{crate}/src/lib.rt', '#![tactic(auto)]\n\npub mod control;\n')
    for name in DEFINITIONS:
        write(f'{crate}/specs/{name}.antt', read(f'crates/control/specs/{name}.antt'))
    for name in CASES:
        text = read(f'crates/proved_cases/specs/{name}.antt').replace('Rattle.proved_cases.specs.', 'Rattle.control.specs.')
        write(f'{crate}/specs/{name}.antt', without_journal(text) if name == 'Cases' else text)
    write(f'{crate}/specs/Lib.antt', ''.join(f'pub mod {name}\n' for name in sorted(DEFINITIONS + CASES)))


def main():
    edits = [edit for edit in all_edits() if edit.folder == ROWS]
    room = Room('bin/near-rows', kit.room('near-rows'), [ROWS_CRATE])
    print(f'checked in {room.folder}', flush=True)
    crate_of_rows(f'{room.folder}/crates/{ROWS_CRATE}')
    said, status, took = room.run(ROWS_CRATE, 'unchanged', True)
    if status:
        sys.exit(f'bin/near-rows: the rows are not proved: see {room.folder}/log/unchanged')
    print(f'the rows, unchanged: proved ({took:.0f} s)', flush=True)
    room.keep(ROWS_CRATE)
    bad = 0
    for edit in edits:
        texts = {path: read(path) for path in edit.files()}
        room.write(replaced([edit], texts))
        said, _, took = room.check(ROWS_CRATE, edit.label)
        room.write(texts)
        write(f'{LOGS}/{edit.label}/.log', said)
        errors = errors_at(said, '')
        by_a_row = bool(errors) and re.match(r'specs/Cases\.antt:\d+:\d+: error: `cases`', errors[0]) is not None
        bad += not by_a_row
        print(f"{edit.label}: {'refused by a row' if by_a_row else 'NOT REFUSED BY A ROW: ' + (errors[0][:160] if errors else 'no error')} ({took:.0f} s)", flush=True)
    print(f'bin/near-rows: {len(edits) - bad} refused by a row, {bad} failed')
    return 1 if bad else 0


if __name__ == '__main__':
    try:
        sys.exit(main())
    except BadEdit as bad_edit:
        sys.exit(f'bin/near-rows: {bad_edit}')
