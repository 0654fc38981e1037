#!/usr/bin/env python3
"""Writes the tables of docs/NEAR-MISSES.md from the edits: crates/CRATE/must-fail/*.edit and
near-misses/CRATE/*.edit.

Run it from the root of the repository, after an edit was added, changed or moved. It takes less
than a second:

    python3 scripts/near_misses.py

The line of text of each edit becomes a row of the table that stands between `<!-- edits: CRATE -->`
and `<!-- end -->`; what stands outside of these marks is written by hand. It is an error where an
edit has no text or more than one line of it, where its `old:` text does not stand exactly once in
the file that it names (such an edit would try nothing), where two edits of a crate have one name,
where an edit has no table, and where a table has no edits.
"""
import re
import sys

import edits

PAGE = 'docs/NEAR-MISSES.md'


def fail(message):
    sys.exit(f'scripts/near_misses.py: {message}')


def collect():
    """The rows of each table, those of the gate first, each by name; and how many edits there are
    of which kind."""
    tables, names, counts = {}, set(), {'gate': 0, 'near-misses': 0, 'near-rows': 0}
    for edit in edits.all_edits():
        if (edit.folder, edit.label) in names:
            fail(f'{edit.path}: two edits of {edit.folder} have this name')
        if '|' in edit.text:
            fail(f'{edit.path}: its text has a |, which ends a cell of the table')
        names.add((edit.folder, edit.label))
        counts[edit.runs] += 1
        files = ', '.join(f"`{path.removeprefix(f'crates/{edit.crate}/')}`" for path in edit.files())
        tables.setdefault(edit.folder, []).append(f'| `{edit.label}` | {edit.runs} | {edit.kind}, {files} | {edit.text} |')
    return tables, counts


def main():
    tables, counts = collect()
    tables = {crate: ['| edit | runs in | changes | what it shows |', '|---|---|---|---|'] + rows for crate, rows in tables.items()}
    tables['counts'] = ['| runs in | edits |', '|---|---|']
    tables['counts'] += [f'| {name} | {counts[name]} |' for name in counts]
    with open(PAGE) as file:
        page = file.read()

    filled = set()

    def fill(match):
        crate = match.group(1)
        if crate not in tables:
            fail(f'{PAGE}: there are no edits of {crate}')
        filled.add(crate)
        return f'<!-- edits: {crate} -->\n' + '\n'.join(tables[crate]) + '\n<!-- end -->'

    page = re.sub(r'<!-- edits: (\S+) -->\n.*?<!-- end -->', fill, page, flags=re.S)
    missing = sorted(set(tables) - filled)
    if missing:
        fail(f'{PAGE} has no table for the edits of {", ".join(missing)}')
    with open(PAGE, 'w') as file:
        file.write(page)


if __name__ == '__main__':
    try:
        main()
    except edits.BadEdit as bad:
        fail(bad)
