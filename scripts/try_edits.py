#!/usr/bin/env python3
"""Has the prover refuse each near miss, and says what kind its first error is: bin/near-misses runs
it, from the root of the repository.

    python3 scripts/try_edits.py [CRATE[/LABEL] ..]    all crates where none is named; all edits of a crate, or one

An edit of code or of a contract is about the functions that it changes, one of a constant about
those that name it. It is judged by what the prover says of these: a fact must fail in the proof of
one of them. Edits that are about different functions are checked together (scripts/trial.py). An
edit of a definition is checked alone, and judged by the first error of all. Where an edit of code gives a
goal another name, since a number in a test is part of it, it is judged with that name in the
answers: `refused: its shape, then a fact`.

The run fails where an edit is not refused, is refused for its shape alone, does not compile, or
could not be judged. What the prover said of each edit is target/near-misses/CRATE/LABEL/.log. The
copy that is checked, and what was said in each check, stand in a folder outside of the checkout,
which the run names.
"""
import os
import re
import shutil
import sys

import kit
from edits import ROWS, BadEdit, all_edits, replaced, sources
from source import Source
from trial import TOGETHER, Room, errors_at, judge, kind_of_errors, own_errors, reached_prover, read

LOGS = 'target/near-misses'
# What is said of a verdict, the best first: an edit that is about several functions has the best of
# theirs.
VERDICTS = {
    'fact': 'refused: a fact fails',
    'shape and fact': 'refused: its shape, then a fact',
    'shape': 'REFUSED FOR ITS SHAPE ALONE',
    'waits': 'NOT JUDGED: only a function that it calls is refused',
    'no verdict': 'NOT JUDGED: its proof has no error of its own, or the prover could not tell',
    'let through': 'NOT REFUSED',
    'compiler': 'BAD EDIT: it is not well formed',
}
REFUSED = ('fact', 'shape and fact')


def users(source, crate, before):
    """The functions of a crate that name the constant that a text ends in, directly or through
    constants made of it; or, where it ends in the cases of an enum, those that are given such a case
    and cast it to its number; or, where it ends in a method that a trait declares, those of the
    types."""
    kind, name = (re.findall(r'\b(const|enum|trait) (\w+)', before) or [('', '')])[-1]
    if kind == 'trait':
        method = re.findall(r'\bfn (\w+)', before)[-1]
        return [f for f, full in source.of_traits.items() if f.crate == crate and full.endswith(f'{name}::{method}')]
    if kind == 'enum':
        kinds = {name} | {alias for alias, value in source.aliases.items() if name in re.findall(r'\w+', value)}
        return [f for f in source.functions if f.crate == crate and casts(f) and any(kinds & set(re.findall(r'\w+', given)) for _, given in f.parameters)]
    names = {name}
    while True:
        more = {name for name, value in source.values.items() if names & set(re.findall(r'\w+', value))}
        if more <= names:
            break
        names |= more
    return [f for f in source.functions if f.crate == crate and any(f.tokens[i].text in names for i in range(*f.body))]


def casts(f):
    """Whether a function has a cast."""
    return any(f.tokens[i].text == 'as' for i in range(*f.body))


def functions_of(source, edit):
    """The functions that an edit is about; none where it changes a definition."""
    found = {}
    for path, old, _ in edit.changes() if edit.kind != 'definition' else []:
        text = source.texts[path][0]
        first = text.find(old)
        last = first + len(old)
        inside = [f for f in source.functions if f.path == path and f.span[0] < last and first <= f.span[1]]
        for f in inside or users(source, edit.crate, text[:last]):
            found[f.full] = f
    if edit.kind != 'definition' and not found:
        raise BadEdit(f'{edit.path}: it changes no function and no constant that a function names')
    return list(found.values())


class Trial:
    """An edit with the functions that it is about, and what the prover says of it."""

    def __init__(self, source, edit):
        self.edit, self.name = edit, f'{edit.crate}/{edit.label}'
        self.functions = functions_of(source, edit)
        self.verdict, self.why, self.where = '', '', ''

    def names(self):
        return {f.full for f in self.functions}

    def judge(self, said):
        """What a check says of this edit: of each of its functions, or, of a definition, of the
        crate."""
        if not self.functions:
            self.judge_definition(said)
            return
        found = [(*judge(said, f, self.edit.kind == 'code'), f.full) for f in self.functions]
        self.verdict, self.why, self.where = min(found, key=lambda one: list(VERDICTS).index(one[0]))

    def judge_definition(self, said):
        """A definition must be well formed itself: it is some law, proof or row that must fail."""
        errors = errors_at(said, '')
        own = [error for name, path in self.declarations() for error in errors if error.startswith(path) and f': error: `{name}`:' in error]
        if own:
            self.verdict, self.why = 'compiler', own[0]
        elif errors:
            self.verdict, self.why = kind_of_errors(errors), errors[0]
        else:
            self.verdict = 'let through' if re.search(r'^logic=proved', said, re.M) else 'no verdict'

    def declarations(self):
        """The definitions that this edit changes, each with its file in the crate."""
        found = []
        for path, old, _ in self.edit.changes():
            text = read(path)
            before = text[:text.find(old) + len(old)]
            found.append((re.findall(r'^(?:\w+ )*(\S+) : ', before, re.M)[-1], path.removeprefix(f'crates/{self.edit.crate}/')))
        return found

    def log(self, said):
        """What was said of this edit, for a reader."""
        folder = f'{LOGS}/{self.edit.folder}/{self.edit.label}'
        shutil.rmtree(folder, ignore_errors=True)
        os.makedirs(folder)
        mine = said
        if self.functions and self.verdict != 'compiler':
            mine = ''.join(f'proofs of {f.full}: {error}\n' for f in self.functions for error in own_errors(said, f))
            mine += '\n'.join(line for line in said.split('\n') for f in self.functions if line.startswith(f'fn {f.full}: '))
        with open(f'{folder}/.log', 'w') as file:
            file.write(mine + '\n')


def report(trials):
    for trial in trials:
        where, why = trial.where and ' in ' + trial.where, re.sub(r'\s+', ' ', trial.why)[:160]
        print(f"{trial.name}: {VERDICTS[trial.verdict]}{where}{': ' + why if why else ''}", flush=True)


def meets(source, one, other, aside):
    """Whether one edit matters to what the other is about: the same function, or a contract that
    the other's function relies on; with aside, any function that the other's calls."""
    calls = {g for f in other.functions for g in source.calls[f.full]} if aside or one.edit.kind == 'contract' else set()
    return bool(one.names() & (other.names() | calls))


def together(source, trials, aside):
    """Sets of trials that are checked together; with aside, functions that call each other are kept
    apart too."""
    rows = []
    for trial in trials:
        for row in rows:
            clash = any(meets(source, a, b, aside) for other in row for a, b in ((trial, other), (other, trial)))
            if len(row) < TOGETHER and not clash and applies(row + [trial]):
                row.append(trial)
                break
        else:
            rows.append([trial])
    return rows


def applies(row):
    """Whether the edits can stand together: none changes a line that another one replaces."""
    try:
        edits = [trial.edit for trial in row]
        replaced(edits, sources(edits))
    except BadEdit:
        return False
    return True


def strays(source, crate, row, said):
    """The functions whose own proofs fail though no edit is about them: an edit would reach further
    than was assumed. A changed contract may fail those that call its function."""
    about = {name for trial in row for name in trial.names()}
    contracts = {name for trial in row if trial.edit.kind == 'contract' for name in trial.names()}
    others = [f for f in source.functions if f.crate == crate and f.full not in about and not contracts & source.calls[f.full]]
    return [f.full for f in others if own_errors(said, f)]


def check(room, source, crate, row, label):
    """Checks a set of trials. Where the compiler refuses it, each half is checked, down to the edit
    that it refuses."""
    edits = [trial.edit for trial in row]
    texts = sources(edits)
    room.write(replaced(edits, texts))
    print(f'{crate}: check {label}, {len(row)} edits', flush=True)
    said, _, took = room.check(crate, f'{crate}.{label}')
    for trial in row if reached_prover(said) else []:
        trial.judge(said)
    shapes = [trial for trial in row if trial.verdict == 'shape' and trial.edit.kind != 'definition']
    renamed = room.check_by_name(crate, f'{crate}.{label}', [f for trial in shapes for f in trial.functions], said) if shapes else None
    room.write(texts)
    if reached_prover(said) or not row[0].functions:
        more = strays(source, crate, row, said) if row[0].functions else []
        if more:
            sys.exit(f"bin/near-misses: {crate}, check {label}: refused too, with no edit about them: {' '.join(more)}")
        for trial in row:
            trial.judge(said)
            if trial in shapes and renamed:
                trial.judge(renamed)
                trial.verdict = 'shape and fact' if trial.verdict == 'fact' else trial.verdict
                trial.log(renamed)
            else:
                trial.log(said)
    elif len(row) == 1:
        row[0].verdict = 'compiler'
        row[0].why = next((line for line in said.split('\n') if 'error' in line), '')
        row[0].log(said)
    else:
        half = len(row) // 2
        check(room, source, crate, row[:half], f'{label}a')
        check(room, source, crate, row[half:], f'{label}b')
        return
    print(f'{crate}: check {label}, {took:.0f} s', flush=True)


def run_crate(room, source, crate, trials):
    """Tries the edits of a crate. One that was not judged because a function that it calls is
    changed too is tried again without that one."""
    code = [trial for trial in trials if trial.functions]
    rows = together(source, code, False)
    for n, row in enumerate(rows, 1):
        check(room, source, crate, row, f'code-{n}-of-{len(rows)}')
        report([trial for trial in row if trial.verdict != 'waits'])
    for n, row in enumerate(together(source, [trial for trial in code if trial.verdict == 'waits'], True), 1):
        check(room, source, crate, row, f'again-{n}')
        report(row)
    # A definition changes what many proofs need: each is checked over what the edits of code have
    # left.
    if code and not room.kept(crate)[1]:
        room.keep(crate)
    for trial in trials:
        if not trial.functions:
            check(room, source, crate, [trial], trial.edit.label)
            report([trial])


def main():
    source = Source(sorted(os.listdir('crates')))
    edits = [edit for edit in all_edits() if edit.folder != ROWS]
    wanted = sys.argv[1:] or sorted({edit.crate for edit in edits})
    chosen = [edit for edit in edits if edit.crate in wanted or f'{edit.crate}/{edit.label}' in wanted]
    unknown = set(wanted) - {edit.crate for edit in chosen} - {f'{edit.crate}/{edit.label}' for edit in chosen}
    if unknown:
        print(f"bin/near-misses: there is no crate and no edit {' '.join(sorted(unknown))}", file=sys.stderr)
        return 2
    # The order of crates.txt, from the bottom up.
    crates = [crate for crate in kit.listed() if any(edit.crate == crate for edit in chosen)]
    trials = [Trial(source, edit) for edit in chosen]
    room = Room('bin/near-misses', kit.room('near-misses'), crates)
    print(f'checked in {room.folder}', flush=True)
    for crate in crates:
        run_crate(room, source, crate, [trial for trial in trials if trial.edit.crate == crate])
    bad = [trial for trial in trials if trial.verdict not in REFUSED]
    for trial in bad:
        print(f'bin/near-misses: {trial.name}: {VERDICTS[trial.verdict]}', file=sys.stderr)
    print(f'bin/near-misses: {len(trials) - len(bad)} refused, {len(bad)} failed')
    return 1 if bad else 0


if __name__ == '__main__':
    try:
        sys.exit(main())
    except BadEdit as bad_edit:
        sys.exit(f'bin/near-misses: {bad_edit}')
