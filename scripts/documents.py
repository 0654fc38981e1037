#!/usr/bin/env python3
"""Tests the documents against the tree: scripts/generated runs it in each run of bin/test. It takes
less than a second.

    python3 scripts/documents.py

- docs/REVIEW.md: each definition that a row names stands in the file that the row names. A row has
  the rule, the files and the definitions; where it has several files, the definitions of each are
  set apart by a semicolon. A file without a folder is in the folder of the file before it. Tables
  of two columns are not tested.
- docs/PROMISES.md: each name in backquotes stands somewhere in the crates.
- every page but docs/PORT.md, which tells of files that went: each file that it names in backquotes
  is there.
- every page: a line of prose has at most 100 characters and a paragraph at most six lines. Tables,
  code and headings are free.
"""
import glob
import os
import re
import sys

PAGES = ['README.md', 'fuzz/README.md'] + sorted(page for page in glob.glob('docs/*.md') + glob.glob('oracle/*.md') if page != 'docs/01-scope.md')
HISTORY = 'docs/PORT.md'
LINE, PARAGRAPH = 100, 6
ENDINGS = ('.antt', '.rt', '.rs', '.py', '.md', '.txt', '.log', '.lines', '.h', '.c', '.edit', '.svg', '.toml')
# Files of the original, which are named as document 01 names them, and some of the kit.
ELSEWHERE = {'validation.rs', 'control.rs', 'codec.rs', 'identity.rs', 'records.rs', 'mod.rs', 'port.py'}
faults = []


def fault(page, number, message):
    faults.append(f'{page}:{number}: {message}')


def quoted(text):
    return re.findall(r'`([^`]+)`', text)


def read(path):
    with open(path) as file:
        return file.read()


def is_defined(name, text):
    """Whether the text of a specs file has a definition, a law or a type of this name."""
    return re.search(rf'^ *(?:unfoldable |abbrev )?(?:pub )?(?:data |record )?{re.escape(name)}(?: | *:)', text, re.M) is not None


def review(page):
    """Each row names definitions that stand in its files."""
    for number, line in enumerate(read(page).split('\n'), 1):
        cells = [cell.strip() for cell in line.strip().strip('|').split(' | ')]
        if not line.startswith('| ') or len(cells) != 3 or cells[1] == 'file':
            continue
        paths, folder = [], ''
        for name in quoted(cells[1]):
            folder = os.path.dirname(name) or folder
            paths.append(f'crates/{folder}/{os.path.basename(name)}')
        groups = [quoted(group) for group in cells[2].split(';')]
        if not paths or len(paths) != len(groups) or not all(groups):
            fault(page, number, 'a row names definitions for each of its files, those of each file set apart by a semicolon')
            continue
        for path, names in zip(paths, groups):
            if not os.path.isfile(path):
                fault(page, number, f'{path} is not there')
                continue
            text = read(path)
            for name in names:
                if not is_defined(name, text):
                    fault(page, number, f'{path} has no definition `{name}`')


def promises(page):
    """Each name stands in the crates."""
    words = set()
    for path in glob.glob('crates/*/s[rp]*/**/*.[ar]*', recursive=True) + glob.glob('crates/*/proofs/*.antt'):
        words.update(re.findall(r"[^\s(){}\[\],;:.«»\"]+", read(path)))
    for number, line in enumerate(read(page).split('\n'), 1):
        for name in quoted(line):
            parts = re.split(r'::|\.', name)
            if re.fullmatch(r"[A-Za-z0-9_'-]+(?:(?:::|\.)[A-Za-z0-9_'-]+)*", name) and not name.endswith(ENDINGS):
                missing = [part for part in parts if part not in words]
                if missing and not os.path.exists(f'crates/{name}') and name not in ('rt',):
                    fault(page, number, f'no crate has `{missing[0]}`')


def files(page):
    """Each file that is named is there: from the root, from crates/, from docs/, from the page's
    folder, or somewhere by its bare name."""
    for number, line in enumerate(read(page).split('\n'), 1):
        for name in quoted(line):
            named = re.fullmatch(r'[\w./-]+', name) and (name.endswith(ENDINGS) or re.match(r'(bin|scripts|docs|samples)/\w', name))
            if not named or name.startswith(('../', 'target/')) or 'NAME' in name or name in ELSEWHERE:
                continue
            if any(os.path.exists(os.path.join(folder, name)) for folder in ('.', 'crates', 'docs', 'scripts', os.path.dirname(page))):
                continue
            if not glob.glob(f'crates/*/**/{name}', recursive=True) + glob.glob(f'oracle/**/{name}', recursive=True):
                fault(page, number, f'{name} is not there')


def prose(page):
    """Lines of at most 100 characters, paragraphs of at most six lines."""
    started, length, code = 0, 0, False
    for number, line in enumerate(read(page).split('\n') + [''], 1):
        if line.startswith('```'):
            code = not code
        free = code or line.startswith(('|', '#', '```', '<!--')) or (line.startswith('    ') and length == 0)
        begins = re.match(r'\s*(?:[-*:]|\d+\.) ', line)
        if free or not line.strip() or begins:
            if length > PARAGRAPH:
                fault(page, started, f'a paragraph of {length} lines, and not at most {PARAGRAPH}')
            length = 0
        if not free and line.strip():
            started, length = (started, length + 1) if length else (number, 1)
            if len(line) > LINE:
                fault(page, number, f'a line of {len(line)} characters, and not at most {LINE}')


def main():
    review('docs/REVIEW.md')
    promises('docs/PROMISES.md')
    for page in PAGES:
        if page != HISTORY:
            files(page)
        prose(page)
    if faults:
        print('\n'.join(faults), file=sys.stderr)
        sys.exit('scripts/documents.py: the documents and the tree do not agree')


if __name__ == '__main__':
    main()
