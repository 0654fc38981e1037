#!/usr/bin/env python3
"""Shows that bin/faults can fail: wrong forms of the example service, each of which it must find.
`bin/faults --wrong` runs it.

    python3 scripts/faults_wrong.py SHIM FOLDER

Each form is the example with some lines changed, built in a copy of bindings/rust. Printed is which
fault finds it first.
"""
import os
import shutil
import subprocess
import sys

import faults

STORE = '''        if let (Ok(Change::Changed), Some(table)) = (done, &state.table) {
            state.store(path, table)?;
        }
'''
CONFIRM = '''        println!("{} {answer} {revision}", state.place);
'''
# What is wrong, and the lines that are changed.
WRONG = (
    ('it confirms before it stores', ((STORE, ''), (CONFIRM, CONFIRM + STORE))),
    ('it writes in place', (('with_suffix(path, ".new")', 'with_suffix(path, "")'), ('        fs::rename(&new, path)?;\n', ''))),
    ('it goes on where storing fails', (('state.store(path, table)?;', 'let _ = state.store(path, table);'),)),
    ('it takes a short write for a whole one', (('file.write_all(table.as_bytes())?;', 'let _ = file.write(table.as_bytes())?;'),)),
    ('it stores a wrong place', (('self.place.to_be_bytes()', '(self.place - 1).to_be_bytes()'),)),
    ('it does not sync the file', (('        file.sync_all()?;\n', ''),)),
    ('it does not sync the folder', (('File::open(folder(path))?.sync_all()', 'File::open(folder(path)).map(drop)'),)),
)
PARTS = (
    ('killed at a call', faults.killed_at_every_call),
    ('a call that fails', faults.errors_at_every_call),
    ('the power fails', faults.power_cuts),
)


def built(folder, changes):
    """The service with these changes."""
    example = os.path.join(folder, 'rust/examples/journal_service.rs')
    with open('bindings/rust/examples/journal_service.rs', encoding='utf-8') as file:
        text = file.read()
    for old, new in changes:
        if text.count(old) != 1:
            sys.exit(f'faults: the example does not have once: {old}')
        text = text.replace(old, new)
    with open(example, 'w', encoding='utf-8') as file:
        file.write(text)
    target = os.path.abspath('target/faults/wrong')
    environment = dict(os.environ, VOTER_SLOTS_LIB=os.path.abspath('target/staticlib'), CARGO_TARGET_DIR=target)
    subprocess.run(['cargo', 'build', '--offline', '--quiet', '--example', 'journal_service'], cwd=folder + '/rust', env=environment, check=True)
    return target + '/debug/examples/journal_service'


def found(program, logs):
    """The part that finds the program wrong."""
    name = faults.SERVED[0]
    for part, run in PARTS:
        try:
            run([faults.Service(program, name, *logs[name])])
        except faults.Difference as difference:
            return f'{part}: {str(difference).splitlines()[0]}'
    return None


def main():
    logs = {name: (log, lines) for name, log, lines in faults.stored()}
    shutil.copytree('bindings/rust', faults.FOLDER + '/rust')
    missed = 0
    for wrong, changes in WRONG:
        by = found(built(faults.FOLDER, changes), logs)
        missed += by is None
        print(f'faults: a service that is wrong, {wrong}: {"found, " + by if by else "NOT FOUND"}', flush=True)
    print(f'faults: {len(WRONG)} wrong services, {missed} not found')
    return 1 if missed else 0


if __name__ == '__main__':
    faults.SHIM, faults.FOLDER = map(os.path.abspath, sys.argv[1:])
    sys.exit(main())
