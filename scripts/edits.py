"""Reads the near misses: crates/CRATE/must-fail/*.edit and near-misses/CRATE/*.edit
(docs/NEAR-MISSES.md).

An edit file has one line of text, which says what the edit shows, and then `file:`, `old:` and
`new:` lines, as `rt must-fail` takes them.
"""
import glob
import os
import re

# The edits of this folder change definitions of the crate on the right; bin/near-rows tries them.
ROWS, ROWS_CRATE = 'rows', 'control'


class BadEdit(Exception):
    """An edit that would try nothing, or whose file has another form."""


class Edit:
    """An edit: where it runs, what it shows, its replacements, and whether it changes the code, a
    contract or a definition."""

    def __init__(self, path):
        parts = path.split('/')
        self.path, self.folder, self.label = path, parts[1], parts[-1].removesuffix('.edit')
        self.crate = ROWS_CRATE if self.folder == ROWS else self.folder
        self.runs = 'gate' if parts[0] == 'crates' else 'near-rows' if self.folder == ROWS else 'near-misses'
        self.pairs = []
        self.text = self.parse()
        self.kind = self.kind_of_change()
        replaced([self], sources([self]))

    def parse(self):
        text, name, old = [], '', ''
        with open(self.path) as file:
            for line in file.read().split('\n'):
                if line.startswith('file: '):
                    name = line.removeprefix('file: ')
                elif line.startswith('old: '):
                    old = line.removeprefix('old: ')
                elif line.startswith('new:'):
                    self.pairs.append((f'crates/{self.crate}/{name}', old, line.removeprefix('new:').removeprefix(' ')))
                elif line.strip():
                    text.append(line.strip())
        if len(text) != 1 or not self.pairs:
            raise BadEdit(f'{self.path}: an edit has one line of text that says what it shows, and `file:`, `old:` and `new:` lines')
        return text[0]

    def files(self):
        """The files that it changes, in order."""
        return list(dict.fromkeys(path for path, _, _ in self.pairs))

    def changes(self):
        """Its replacements but for those of imports."""
        return [pair for pair in self.pairs if not pair[1].startswith(('ghost use ', 'use '))]

    def kind_of_change(self):
        kinds = set()
        for path, old, new in self.changes():
            if path.startswith(f'crates/{self.crate}/specs/'):
                kinds.add('definition')
            else:
                # A contract that is repeated in the new text, with code after it, is an edit of the
                # code. A method that a trait declares has a contract alone.
                changed = re.search(r'ensures( \w+)? \{', old) and not new.startswith(old)
                planted = old.endswith(';') and new.startswith(old[:-1] + ' ensures')
                kinds.add('contract' if changed or planted else 'code')
        if len(kinds) != 1:
            raise BadEdit(f'{self.path}: it changes {" and ".join(sorted(kinds)) or "nothing but imports"}, and not one kind of thing')
        return kinds.pop()


def sources(edits):
    """The texts of the files that edits change, by path."""
    texts = {}
    for edit in edits:
        for path in edit.files():
            if not os.path.isfile(path):
                raise BadEdit(f'{edit.path}: {path} is not there')
            with open(path) as file:
                texts[path] = file.read()
    return texts


def replaced(edits, texts):
    """The texts with the edits applied, as `rt must-fail` applies them: one replacement after the
    other, each of a text that stands once."""
    texts = dict(texts)
    for edit in edits:
        for path, old, new in edit.pairs:
            count = texts[path].count(old)
            if not old or count != 1:
                raise BadEdit(f'{edit.path}: its `old:` text stands {count} times in {path}, and not once: {old.strip()}')
            texts[path] = texts[path].replace(old, new)
    return texts


def all_edits():
    """Every edit, those of the gate first, each by name."""
    return [Edit(path) for path in sorted(glob.glob('crates/*/must-fail/*.edit')) + sorted(glob.glob('near-misses/*/*.edit'))]
