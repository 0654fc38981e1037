#!/usr/bin/env python3
"""Counts the places that the design pass looks at (docs/DESIGN-PASS.md), in the tree that it is run in.

usage: python3 tools/design_pass.py           at the top of a checkout: a line for each kind of place
       python3 tools/design_pass.py --list    and each place: its file, its line, the text

It reads crates/*/src/*.rt by regular expressions, one for each kind of place, and for point 8 the
proofs; it knows nothing of what a place means.
"""
import collections
import glob
import re
import sys

# The kinds of places: the point, what it is, and the line that it stands on.
KINDS = [
    (1, 'enum of the shape of a Result or an Option',
     r'^\s+(Refused?|Err)\((Answer|Refusal)\)|^\s+(Malformed|Bad),$|^pub enum Retirement'),
    (1, 'struct with an answer beside a value', r'^\s+(pub )?(answer|result): (Answer|Extent|VoterSlotsResult)\b'),
    (1, 'yes or no beside a value', r'^\s+(pub )?(is_some|has_\w+|found|formed|stands|whole|good): bool,'),
    (1, 'answer that is tested by hand', r'!accepted\('),
    (1, 'number for a kind, a phase or a step', r'^pub const [A-Z_]+: (u8|u64|u32) = \d+;'),
    (2, 'function of a family, one for each type or size',
     r'^\s*(pub )?fn (read_array\d+|zeros\d+|refused_\w+|why_?\w*|same\d+|same_voter\w*|same_spiffe\w*|same_snapshot\w*|same_optional\w*|same_lost\w*'
     r'|is_blank_\w+|blank_\w+|put_optional_\w+|read_optional_\w+|read_(members|slots)|put_(members|slots)|make_\w+|\w+_in_place)\('),
    (2, 'type of a family, one for each value', r'^pub (struct|enum) \w+Read\b'),
    (3, 'loop with a condition (`while`)', r'^\s+while '),
    (3, 'index that is counted by hand', r'^\s+[ijk] [+-]= 1;'),
    (4, 'equality by hand', r'^\s*(pub )?fn same\w*\('),
    (4, 'blank by hand', r'^\s*(pub )?fn (blank_\w+|zeros\d+)\('),
    (4, 'test for a blank by hand', r'^\s*(pub )?fn is_blank_\w+\('),
    (4, 'conversion or text by hand', r'^\s*(pub )?fn (number|mark_of|mark_text|advance_of|begin_of|question_of|named\w*)\('),
    (6, 'buffer or array with a length beside it', r'^\s+(pub )?(len|count): usize,'),
    (7, 'number for which step to run', r'\b(ROUTE|MAKER)_[A-Z_]+\b|\broute\w*\('),
]


def sources():
    for path in sorted(glob.glob('crates/*/src/*.rt')):
        with open(path, encoding='utf-8') as file:
            yield path, file.read().split('\n')


def facts():
    """Point 5: the clauses `requires` by their text, and the functions that each stands in."""
    found = collections.defaultdict(list)
    for path, lines in sources():
        for number, line in enumerate(lines, 1):
            met = re.match(r'^\s*requires(?: \w+)? \{ (.*) \}$', line)
            if met:
                for part in re.split(r' × ', met[1]):
                    part = re.sub(r'\b(table|configuration|new|self)(\.old|\.now)?\.', 'X.', part.strip('() '))
                    found[part].append(f'{path}:{number}')
    return {fact: places for fact, places in found.items() if len(places) >= 3}


def main():
    every = '--list' in sys.argv
    for point, kind, pattern in KINDS:
        places = [(path, number, line.strip()) for path, lines in sources()
                  for number, line in enumerate(lines, 1)
                  if re.search(pattern, line) and not line.strip().startswith('//')]
        print(f'{point}  {len(places):4}  {kind}')
        if every:
            for path, number, line in places:
                print(f'         {path}:{number}: {line}')
    repeated = facts()
    print(f'5  {sum(map(len, repeated.values())):4}  clauses, of {len(repeated)} facts that three or more functions ask')
    if every:
        for fact, places in sorted(repeated.items(), key=lambda item: -len(item[1])):
            print(f'         {len(places)} times: {fact}')
    files = [path for path in glob.glob('crates/*/proofs/**/*.antt', recursive=True)]
    lines = sum(open(path, encoding='utf-8').read().count('\n') for path in files)
    print(f'8  {len(files):4}  files of proofs, {lines} lines')


if __name__ == '__main__':
    main()
