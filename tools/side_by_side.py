#!/usr/bin/env python3
"""Prints old and new side by side: each public type, function (signature and clauses), definition
and law that changed since the commit in the first line of docs/DESIGN-PASS.md, crate by crate, as
that page has them. With --gone the names that are gone. It goes by text, and reads with the kit's
contracts.py, whose folder is the argument; `module _ (..)` lines are not shown.

    python3 tools/side_by_side.py FOLDER [--gone]
"""
import collections
import glob
import io
import re
import subprocess
import sys
import tarfile
import tempfile

sys.path.insert(0, sys.argv[1])
import contracts

DEFINITION = r'(?:pub )?(?:abbrev|unfoldable|opaque|data|record|pattern)\b'


def tidy(text):
    return re.sub(r',? \)', ')', re.sub(r'\( ', '(', contracts.squeeze(text)))


def types(root):
    found = {}
    for path in glob.glob(f'{root}/crates/*/src/*.rt'):
        with open(path) as file:
            raw = file.read()
        text = contracts.blank(raw)
        for m in re.finditer(r'^pub (struct|enum|type|trait) (\w+)', text, re.M):
            at = re.compile(r'[{(=]').search(text, m.end()).start()
            end = text.find(';', at) if text[at] == '=' else contracts.closing(text, at, text[at], '})'[text[at] == '('])
            found[path.split('/')[-3], 'src', m[2]] = tidy(re.sub(r'//[^\n]*', '', raw[m.start():end]))
    return found


def functions(root):
    found = {}
    for key, entries in contracts.read(root)[1].items():
        for entry in entries:
            clauses = ''.join(f' {word} {name + " " if name else ""}{{ {text} }}' for word, name, text in entry['requires'] + entry['ensures'])
            if entry['pub']:
                found[key[0], key[1], '::'.join(part for part in key[2:] if part)] = tidy(f'{key[3]}{entry["sign"]}{clauses}')
    return found


def laws(root):
    """Public definitions whole, public laws without their proofs."""
    found = {}
    for path in sorted(glob.glob(f'{root}/crates/*/specs/*.antt') + glob.glob(f'{root}/crates/*/proofs/*.antt')):
        crate, folder, name = path.split('/')[-3:]
        with open(path) as file:
            for key, texts in contracts.definitions(file.read()).items():
                for text in texts:
                    if re.match(DEFINITION, text.strip()):
                        shown = text.strip()
                    else:
                        cut = re.search(r' (?:unfolding |' + re.escape(key) + r' (?:[^≡:]*?)= )', text)
                        shown = (text[:cut.start()] if cut else text).strip()
                    if re.search(r'\bpub\b', shown[:30]):
                        found[crate, f'{folder}/{name}', key] = shown
    return found


def is_definition(text):
    return re.match(DEFINITION, text) is not None


def main():
    with open('docs/DESIGN-PASS.md') as file:
        commit = file.readline().strip()
    with tempfile.TemporaryDirectory() as old:
        packed = subprocess.run(['git', 'archive', commit, 'crates'], check=True, stdout=subprocess.PIPE).stdout
        tarfile.open(fileobj=io.BytesIO(packed)).extractall(old)
        rows, gone = collections.defaultdict(list), collections.defaultdict(list)
        for read in (types, functions, laws):
            before, after = read(old), read('.')
            elsewhere = {}
            for key, text in after.items():
                elsewhere.setdefault((key[0], key[2].split('::')[-1]), []).append((key, text))
            for key, text in sorted(before.items()):
                others = [pair for pair in elsewhere.get((key[0], key[2].split('::')[-1]), []) if pair[0] not in before and is_definition(pair[1]) == is_definition(text)]
                place, new = (key, after[key]) if key in after else others[0] if len(others) == 1 else (key, None)
                if new is None:
                    gone[key[0], key[1]].append(key[2])
                elif new != text:
                    rows[key[0]].append((key[1] if key[1] == place[1] else f'{key[1]}, now {place[1]}', text, new))
    if '--gone' in sys.argv:
        for place, names in sorted(gone.items()):
            print(*place, ' '.join(names))
        return
    for crate, changed in sorted(rows.items()):
        print(f'`{crate}`:\n')
        at = None
        for place, text, new in changed:
            if place != at:
                print(f'    -- {place}')
                at = place
            print(f'    was  {text}\n    now  {new}')
        print()


if __name__ == '__main__':
    main()
