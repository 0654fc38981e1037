"""Has the prover judge changed code, in a copy of the crates: what bin/mutate and bin/near-misses
share.

A function's body matters to the proof of that function alone, since callers use its contract. So
changes of several functions of a crate are checked together, and each function has its own line in
the verdict and its own errors. A check is the kit's `rattle check`, run as `rt check` runs it.
"""
import hashlib
import os
import re
import shutil
import subprocess
import sys
import time

import kit

TOGETHER = 40  # changes in one check


def read(path):
    with open(path) as file:
        return file.read()


def linked(source, to):
    """Copies a folder, what was proved by links where these can be made: a check replaces such a
    file, and changes none."""
    def copy(one, other):
        try:
            if one.endswith('.oantt') or '/rlib/' in one:
                return os.link(one, other)
        except OSError:
            pass
        return shutil.copy2(one, other)
    shutil.rmtree(to, ignore_errors=True)
    shutil.copytree(source, to, copy_function=copy)


def sum_of(names):
    """A sum of the files of some crates."""
    found = hashlib.sha256()
    for name in names:
        for part in ('src', 'specs', 'proofs'):
            for folder, folders, files in os.walk(f'crates/{name}/{part}'):
                folders.sort()
                for file in sorted(files):
                    with open(os.path.join(folder, file), 'rb') as it:
                        found.update(repr((folder, file, it.read())).encode())
    return found.hexdigest()


class Room:
    """The copy in which changes are checked, outside of the checkout. The libraries below the crates
    are built first, where they are not as new as their files."""

    def __init__(self, command, folder, crates):
        self.command, self.folder = command, folder
        os.makedirs(f'{folder}/log', exist_ok=True)
        libraries = []
        for crate in crates:
            libraries += [one for one in kit.below(crate)[0] if one not in libraries]
        shutil.rmtree(f'{folder}/crates', ignore_errors=True)
        shutil.copytree('crates', f'{folder}/crates', ignore=shutil.ignore_patterns('must-fail', 'out'))
        shutil.copy('crates.txt', f'{folder}/crates.txt')
        for library in libraries:
            print(f'{library}: a library below', flush=True)
            with open(f'{folder}/log/{library}.library', 'wb') as log:
                if subprocess.run(['rt', 'lib'], cwd=f'crates/{library}', stdin=subprocess.DEVNULL, stdout=log, stderr=log, check=False).returncode:
                    sys.exit(f'{command}: {library} is not proved: see {folder}/log/{library}.library')
            linked(f'crates/{library}/out/rlib', f'{folder}/crates/{library}/out/rlib')
        self.sums = {crate: sum_of(kit.below(crate)[0] + [crate]) for crate in crates}

    def write(self, texts):
        for path, text in texts.items():
            with open(f'{self.folder}/{path}', 'w') as file:
                file.write(text)

    def run(self, crate, log, keeps):
        """Checks the crate as it stands in the copy, from nothing or over what the last check left."""
        began = time.time()
        jobs = str(min(4, len(os.sched_getaffinity(0))))
        words = [f'{kit.folder()}/bin/rattle', 'check', *kit.check_words(crate), '--jobs', jobs, *(['--incremental', 'out/incremental'] if keeps else [])]
        os.makedirs(f'{self.folder}/crates/{crate}/out', exist_ok=True)
        run = subprocess.run(words, cwd=f'{self.folder}/crates/{crate}', stdin=subprocess.DEVNULL, stdout=subprocess.PIPE, stderr=subprocess.STDOUT, check=False)
        said = run.stdout.decode(errors='replace')
        with open(f'{self.folder}/log/{log}', 'w') as file:
            file.write(said)
        return said, run.returncode, time.time() - began

    def left(self, crate):
        """Where a check leaves its work for the next one."""
        return f'{self.folder}/crates/{crate}/out/incremental'

    def kept(self, crate):
        """Where what a check left is kept for others, until the crate changes; and whether it is
        there."""
        folder = f'{self.folder}/kept/{crate}'
        return folder, os.path.exists(f'{folder}.sum') and read(f'{folder}.sum') == self.sums[crate]

    def keep(self, crate):
        """Keeps what the last check left."""
        folder, _ = self.kept(crate)
        os.makedirs(os.path.dirname(folder), exist_ok=True)
        linked(self.left(crate), folder)
        with open(f'{folder}.sum', 'w') as file:
            file.write(self.sums[crate])

    def begin(self, crate):
        """Has the first check of a crate begin with what `rt check` kept in the repository."""
        if not os.path.isdir(self.left(crate)) and os.path.isdir(f'crates/{crate}/out/incremental'):
            linked(f'crates/{crate}/out/incremental', self.left(crate))

    def prime(self, crate):
        """Checks the unchanged crate, and keeps what was checked."""
        if self.kept(crate)[1]:
            return
        self.begin(crate)
        _, status, took = self.run(crate, f'{crate}.unchanged', True)
        if status != 0:
            sys.exit(f'{self.command}: the unchanged crate {crate} is not proved: see {self.folder}/log/{crate}.unchanged')
        print(f'{crate}: unchanged, proved ({took:.0f} s)', flush=True)
        self.keep(crate)

    def check(self, crate, log):
        """Checks the crate as it stands in the copy: over what was kept, or else over what the last
        check left."""
        folder, there = self.kept(crate)
        if there:
            linked(folder, self.left(crate))
        else:
            self.begin(crate)
        return self.run(crate, log, True)

    def check_by_name(self, crate, log, functions, said):
        """Checks the crate once more where a change has given goals other names, so that what is said
        of these functions is only that their answers' goals are gone: with the new names in the
        answers. A goal is named by the tests that lead to it, so a number in one is part of it.
        Gives what was said, or None where the new names cannot be told."""
        lost = {f: lost_goals(said, f) for f in functions}
        paths = {f: f'crates/{crate}/{proofs_of(f)}Answers.antt' for f in functions if lost[f] and os.path.exists(f'crates/{crate}/{proofs_of(f)}Answers.antt')}
        answers = {path: read(path) for path in paths.values()}
        if not paths:
            return None
        try:
            self.write({path: without(answers[path], lost[f]) for f, path in paths.items()})
            opened, _, _ = self.check(crate, log + '.opened')
            now = {f: open_goals(opened, f) for f in paths}
            told = {f: path for f, path in paths.items() if len(now[f]) == len(lost[f])}
            if not told:
                return None
            for f, path in paths.items():
                text = answers[path]
                for old, new in zip(lost[f], now[f]) if f in told else []:
                    text = re.sub(rf"(?<![\w'-]){re.escape(old)}(?![\w'-])", new, text)
                    # the test itself, `c.if-code-gt12288.true` of the goal `returns-then-code-gt12288`
                    text = re.sub(rf"(?<=if-){re.escape(old.split('-then-')[-1])}(?![\w'-])", new.split('-then-')[-1], text)
                self.write({path: text})
            return self.check(crate, log + '.renamed')[0]
        finally:
            self.write(answers)

    def check_anew(self, crate, log):
        """Checks the crate as it stands in the copy, from nothing."""
        return self.run(crate, log, False)


# What the prover says where a proof names what the changed code does not have: refused for its
# shape, and not for a fact.
SHAPE = re.compile(r'has no (field )?`|this pattern needs|is not in scope')


def errors_at(said, place):
    """What the prover said of the files of a crate under a path; what only waits for another
    declaration is left out."""
    found, mine = [], False
    for line in said.split('\n'):
        if line.startswith('  '):
            if mine:
                found[-1] += line[1:]
        else:
            line = line.removeprefix('./')
            mine = line.startswith(place) and ': error: ' in line and 'was not admitted' not in line
            if mine:
                found.append(line.removeprefix(place))
    return found


def proofs_of(f):
    """The folder of a function's proof, in its crate."""
    return 'proofs/' + '/'.join(f.full.split('::')[1:]) + '/'


def own_errors(said, f):
    """What the prover said of a function's own proof."""
    return errors_at(said, proofs_of(f))


def lost_goals(said, f):
    """The goals that a function's answers name and that it does not have any more, in order."""
    return list(dict.fromkeys(re.findall(r'error: `[^`]+`: `goal\.([^`]+)`: module .*? has no `', '\n'.join(own_errors(said, f)))))


def open_goals(said, f):
    """The goals of a function that have no answer and that the search did not prove."""
    line = re.search(r'^fn ' + re.escape(f.full) + r': .*did not prove (.*)$', said, re.M)
    return re.findall(r'`([^`]+)`', line[1]) if line else []


def without(text, names):
    """An answers' file without the answers to these goals."""
    return '\n'.join(part for part in re.split(r'(?<=\n)\n+(?=\S)', text) if not re.search(r': goal\.(%s)\s' % '|'.join(map(re.escape, names)), part))


def by_hand(f):
    """Whether a function's proof walks its code by hand, so that it cites the code's text."""
    return os.path.exists(f'crates/{f.crate}/{proofs_of(f)}Proof.antt')


def kind_of_errors(errors):
    """Whether a fact fails, or the proof names what the code does not have."""
    if not SHAPE.search(errors[0]):
        return 'fact'
    return 'shape' if all(SHAPE.search(e) for e in errors) else 'shape and fact'


def reached_prover(said):
    """Whether the compiler accepted the crate."""
    return bool(re.search(r'^fn .*: ', said, re.M))


def judge(said, f, code=True):
    """What a check says of a function whose code or else whose contract is changed, and its first
    error."""
    line = re.search(r'^fn ' + re.escape(f.full) + r': (.*)$', said, re.M)
    if not line:
        sys.exit(f'the check says nothing of {f.full}')
    word = line.group(1)
    if word.startswith('proved'):
        return 'let through', ''
    errors = own_errors(said, f)
    if not errors and 'it calls' in word:
        return 'waits', word
    # Where a goal has no answer of the author's, what the search did not prove is said in the verdict.
    if not errors and 'did not prove' in word:
        return 'fact', word
    if not errors or word.startswith('could not tell'):
        return 'no verdict', errors[0] if errors else word
    if code and by_hand(f):
        return 'shape', 'by hand: ' + errors[0]
    return kind_of_errors(errors), errors[0]
