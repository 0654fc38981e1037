#!/usr/bin/env python3
"""Brings the names of definitions and lemmas to the spelling of today's Rattle: words in snake case.

usage: python3 tools/respell.py      at the top of the repository, once, after the kit's port.py

A name of specs/ or proofs/ that is written in lower camel case gets underscores: applyControl is
apply_control, sameVoterSlotLogId-true is same_voter_slot_log_id-true. A part of a name that begins
with a capital (a type, a module, a variant) stays, and so do names of src/, since Rust's are in
snake case already. Another name for a module (`as theVoterSlotTable`) gets a capital.
It reads the names from the .antt files of crates/, and writes those files, the clauses and comments
of the .rt files, and the pages and must-fail edits that speak of them.
"""

import glob
import re

NAME = re.compile(r"(?<![A-Za-z0-9_'])[a-z][A-Za-z0-9_'₀-₉\-]*")
HUMP = re.compile(r'(?<=[a-z0-9])([A-Z])')


def is_camel(name):
    return any(part[:1].islower() and HUMP.search(part) for part in name.split('-'))


def snake(name):
    parts = name.split('-')
    return '-'.join(HUMP.sub(lambda m: '_' + m[1].lower(), p) if p[:1].islower() else p for p in parts)


def antt_files():
    return sorted(glob.glob('crates/*/specs/**/*.antt', recursive=True) + glob.glob('crates/*/proofs/**/*.antt', recursive=True))


def names():
    """The names to be turned, each with its new spelling."""
    found, aliases = set(), set()
    for path in antt_files():
        text = re.sub(r'--[^\n]*', '', open(path, encoding='utf-8').read())
        found |= {name for name in NAME.findall(text) if is_camel(name)}
        aliases |= set(re.findall(r' as ([a-z]\w*)$', text, re.M))
    table = {name: snake(name) for name in found}
    table |= {name: name[0].upper() + name[1:] for name in aliases if is_camel(name)}
    return table


def all_names():
    """Every name in the .antt files, as they stand before the names are turned."""
    return {name for path in antt_files() for name in NAME.findall(open(path, encoding='utf-8').read())}


def kit_turned(name, taken):
    """A name in a page or an edit that port.py has turned in the .antt files already."""
    return snake(name) if is_camel(name) and snake(name) in taken else name


def format_of_results():
    """`result` is what a function returns in a clause of today: the format of that name gets another."""
    bare = r"(?<![A-Za-z0-9_'.\-])result(?![A-Za-z0-9_'\-])"
    cites = re.compile(r'layout\.specs\.Layout\.\{[^}]*' + bare)
    for path in antt_files() + glob.glob('crates/*/src/**/*.rt', recursive=True):
        text = open(path, encoding='utf-8').read()
        if cites.search(text) or path == 'crates/layout/specs/Layout.antt':
            text = re.sub(bare, 'replacement_result', text)
        open(path, 'w', encoding='utf-8').write(re.sub(r'\blayout\.result\b', 'layout.replacement_result', text))


def main():
    format_of_results()
    table = names()
    new = {}
    for name, to in table.items():
        if new.setdefault(to, name) != name:
            raise SystemExit('%s and %s would both be %s' % (name, new[to], to))
    pages = ['README.md'] + glob.glob('docs/*.md') + glob.glob('oracle/*.md') + glob.glob('fuzz/*.md')
    sources = glob.glob('crates/*/src/**/*.rt', recursive=True)
    edits = glob.glob('crates/*/must-fail/*') + glob.glob('near-misses/**/*', recursive=True) + glob.glob('bench/**/*.shape', recursive=True)
    taken = all_names()
    for path in antt_files() + sources + pages + [p for p in edits if p.endswith(('.edit', '.md', '.shape', '.txt'))]:
        text = open(path, encoding='utf-8').read()
        turned = NAME.sub(lambda m: table.get(m[0]) or kit_turned(m[0], taken), text)
        if turned != text:
            open(path, 'w', encoding='utf-8').write(turned)


main()
