#!/usr/bin/env python3
"""Changes the code in one place at a time and has the prover judge each change: a mutant that is
still proved is let through.

Run it from the root of the repository, by bin/mutate:

    bin/mutate [COUNT] [SEED] [CRATE..]     COUNT mutants that compile (240), drawn by SEED (1),
                                            in the crates named or in all that have code
    bin/mutate --list [COUNT] [SEED] ..     what would be tried first, and how many there are to
                                            draw from; nothing is checked
    bin/mutate --tables                     the tables of the last run once more

What is changed: the bodies of functions in crates/*/src; no contract, constant, import or comment.
  operators   < <= > >= == !=, + -, += -=, * / %, && ||, & |, << >>; a ! is dropped
  numbers     n + 1, n - 1, 0 and 1; a byte; a byte of a byte string; true and false
  names       a variable for another of its type in scope, a constant for one of its type and
              another value, a field for one of its type in its struct, a variant of an enum for one
              that holds the same, a called function for one with the same signature

How it is judged: a function's body matters to the proof of that function alone, since callers use
its contract. So mutants of several functions of a crate are checked together, over what a first
check of the unchanged crate kept. Each function then has its own line in the verdict.
A mutant counts as refused where its function's own proof has an error of its own; one that is not
proved only because it calls another changed function is checked again without that one. A mutant
that the compiler refuses is counted, and another one of that function takes its place. All is done
on a copy outside of the checkout; the crates must be proved before (`rt check` in each).

Mutants that are let through are checked once more, those of a crate together and from nothing.
Then each is built into the programs replay, cases and call_cases, and what they write
is held to what the gate holds it to (their files 'stdout', and scripts/replays.py). The results are
target/mutate/CRATE.tsv, one line a mutant, and the tables that are printed at the end. What the
prover said is in the folder `log` of the copy, which the run names.
"""
import os
import random
import re
import subprocess
import sys

import kit
from source import CLOSE, OPEN, Source, closing, split
from trial import TOGETHER, Room, by_hand, judge, proofs_of, reached_prover, read

CRATES = ['identity', 'records', 'layout', 'reader', 'writer', 'codec', 'control', 'journal', 'replay', 'voter_slots']
LEAST = 7  # mutants of a crate, however small
RESULTS = 'target/mutate'

INTEGERS = {'u8', 'u16', 'u32', 'u64', 'usize', 'i8', 'i16', 'i32', 'i64', 'isize'}
KEYWORDS = set('as break const continue else enum extern false fn for if impl in let loop match mod mut pub ref return self struct true type use while'.split())
OPERATORS = {'<': ['<=', '>', '>=', '=='], '<=': ['<', '>', '>=', '=='], '>': ['>=', '<', '<=', '=='], '>=': ['>', '<', '<=', '=='],
             '==': ['!=', '<=', '>='], '!=': ['==', '<', '>'], '+': ['-'], '-': ['+'], '+=': ['-='], '-=': ['+='], '*': ['+', '/'],
             '/': ['%', '*'], '%': ['/'], '&&': ['||'], '||': ['&&'], '&': ['|'], '|': ['&'], '<<': ['>>'], '>>': ['<<']}


class Body:
    """The places of a function's body that can be changed, and to what."""

    def __init__(self, source, function):
        self.source, self.f, self.t = source, function, function.tokens
        self.first, self.end = function.body
        self.scope = source.scope[function.path]
        self.changes = []
        self.masks()
        self.walk()

    def masks(self):
        """Which tokens stand in patterns and types; and which braces are those of a struct's
        literal."""
        t, self.pattern, self.typed, self.literal, self.arm = self.t, set(), set(), set(), {}
        for i in range(self.first, self.end):
            word = t[i].text
            if word == 'let':
                k, depth = i, 0
                while depth or t[k].text != '=':
                    depth += (t[k].text in OPEN) - (t[k].text in CLOSE)
                    k += 1
                self.pattern.update(range(i, k))
            elif word == '=>':
                k, depth = i - 1, 0
                while depth or t[k].text not in (',', '{', '}'):
                    if t[k].text == '}' and depth == 0 and k != i - 1:
                        break
                    depth += (t[k].text in CLOSE) - (t[k].text in OPEN)
                    k -= 1
                    if k == i - 2 and t[i - 1].text == '}':
                        depth = 1
                self.pattern.update(range(k + 1, i))
                self.arm[i] = k + 1
            elif word == 'as':
                self.typed.add(i + 1)
            elif word == '{' and t[i - 1].kind == 'name' and (t[i - 1].text in self.source.structs or t[i - 2].text == '::'):
                if i not in self.pattern:
                    self.literal.add(i)

    def bound(self, start, end):
        """The variables that a pattern binds, with their types where the pattern tells."""
        t, found, i = self.t, {}, start
        while i < end:
            if t[i].kind == 'name' and t[i].text not in KEYWORDS:
                if t[i + 1].text == '::' and i + 3 < end and t[i + 3].text in '({':
                    held = self.source.enums.get(t[i].text, {}).get(t[i + 2].text, [])
                    close = closing(t, i + 3)
                    for k, (a, b) in enumerate(split(t, i + 4, close)):
                        name = t[b - 1].text
                        if t[b - 1].kind == 'name' and name[0].islower():
                            kinds = dict(held)
                            found[name] = kinds.get(t[a].text) if t[i + 3].text == '{' else (held[k][1] if k < len(held) else None)
                    i = close
                elif t[i + 1].text == '::':
                    i += 2
                elif t[i].text[0].islower() and t[i].text not in INTEGERS:
                    found[t[i].text] = None
                    if t[i + 1].text == ':':
                        found[t[i].text] = self.source.type_text(t, i + 2, end)
                        break
            i += 1
        return found

    def kind_of(self, start, end, variables):
        """The type of an expression, where it is easily told."""
        t = self.t
        if start >= end:
            return None
        depth = 0
        for i in range(start, end):
            depth += (t[i].text in OPEN) - (t[i].text in CLOSE)
            if depth == 0 and t[i].text in ('<', '<=', '>', '>=', '==', '!=', '&&', '||'):
                return 'bool'
        first = t[start]
        if first.text == '!' or first.text in ('true', 'false'):
            return 'bool'
        if end == start + 1 and first.kind in ('number', 'byte'):
            return 'int'
        if end > start + 2 and t[end - 2].text == 'as':
            return t[end - 1].text
        if first.text == '*':
            kind = self.kind_of(start + 1, end, variables)
            return kind.replace('&mut', '').lstrip('&') if kind else None
        return self.kind_of_name(start, end, variables) if first.kind == 'name' else None

    def kind_of_name(self, start, end, variables):
        """The type of an expression that starts with a name: a call, a variant, a struct, a
        variable or a constant, and what follows it."""
        t, first, kind, i = self.t, self.t[start].text, None, start
        if t[i + 1].text == '(':
            called = self.source.signatures.get(self.scope.get(first, first))
            kind, i = (called.result if called else None), closing(t, i + 1) + 1
        elif t[i + 1].text == '::' and first in self.source.enums:
            return first
        elif t[i + 1].text == '{' and first in self.source.structs:
            return first if closing(t, i + 1) == end - 1 else None
        elif first in variables:
            kind, i = variables[first], i + 1
        elif first in self.source.constants:
            kind, i = self.source.constants[first], i + 1
        return self.kind_after(kind, i, end)

    def kind_after(self, kind, i, end):
        """The type of what calls of methods, fields and indices from i on make of a value."""
        t = self.t
        while kind and i < end:
            kind = self.source.expand(kind).replace('&mut', '').lstrip('&')
            if t[i].text == '.' and i + 2 < len(t) and t[i + 2].text == '(':
                called = self.source.signatures.get(t[i + 1].text)
                kind, i = ('usize' if t[i + 1].text == 'len' else called.result if called else None), closing(t, i + 2) + 1
            elif t[i].text == '.':
                kind, i = self.source.structs.get(kind, {}).get(t[i + 1].text), i + 2
            elif t[i].text == '[' and kind.startswith('['):
                if any(x.text == '..' for x in t[i:closing(t, i)]):
                    return None
                kind, i = kind[1:-1].split(';')[0] if kind.endswith(']') else None, closing(t, i) + 1
            else:
                return None
        return kind

    def alike(self, one, other):
        one, other = (self.source.expand(x) if x else x for x in (one, other))
        loose = INTEGERS | {'int', None}
        return one == other or (one in loose and other in loose and (one in ('int', None) or other in ('int', None)))

    def put(self, kind, i, new):
        self.changes.append((kind, i, new))

    def walk(self):
        t, blocks = self.t, [dict(self.f.parameters)]
        later = {}
        for i in range(self.first, self.end):
            word = t[i].text
            variables = {name: k for block in blocks for name, k in block.items()}
            if word == 'let':
                end, names = self.bound_by_let(i, variables)
                later.setdefault(end, {}).update(names)
            if word == '{':
                blocks.append({})
            if i in later:
                blocks[-1].update(later.pop(i))
            if word == '}':
                blocks.pop()
            if word == '=>':
                blocks[-1].update(self.bound(self.arm[i], i))
            if i not in self.typed:
                self.change(i, variables)

    def bound_by_let(self, i, variables):
        """Where the variables that a `let` binds begin to be in scope, and these with their
        types."""
        t = self.t
        end = max(k for k in range(i, self.end) if set(range(i, k + 1)) <= self.pattern) + 1
        k, depth = end, 0
        inner = t[i - 1].text in ('if', 'while')
        while depth or t[k].text != ('{' if inner else ';'):
            depth += (t[k].text in OPEN) - (t[k].text in CLOSE)
            k += 1
        stop = k if inner else next((x for x in range(end, k) if t[x].text == 'else'), k)
        names = self.bound(i + 1, end)
        if len(names) == 1 and None in names.values() and t[end - 1].text in names:
            names = {name: self.kind_of(end + 1, stop, variables) for name in names}
        return k, names

    def change(self, i, variables):
        """The changes of one token."""
        word, kind = self.t[i].text, self.t[i].kind
        if i in self.pattern:
            if kind in ('number', 'byte'):
                self.number(i)
        elif kind in ('number', 'byte') and self.t[i - 1].text != '.':
            self.number(i)
        elif kind == 'string':
            body = word[2:-1]
            if body and '\\' not in body:
                k = len(body) // 2
                self.put('number', i, f'b"{body[:k]}{chr(ord(body[k]) ^ 1)}{body[k + 1:]}"')
        elif word in ('true', 'false'):
            self.put('number', i, 'false' if word == 'true' else 'true')
        elif kind == 'op':
            self.operator(i)
        elif kind == 'name' and word not in KEYWORDS:
            self.name(i, variables)

    def number(self, i):
        word = self.t[i].text
        if self.t[i].kind == 'byte':
            if len(word) == 4:
                for n in (ord(word[2]) - 1, ord(word[2]) + 1):
                    self.put('number', i, f"0x{n:02X}")
            return
        m = re.match(r'(0x[0-9A-Fa-f_]+|\d[\d_]*)(.*)', word)
        value, suffix = int(m.group(1).replace('_', ''), 0), m.group(2)
        for n in sorted({value + 1, value - 1, 0, 1} - {value, -1}):
            self.put('number', i, f'{n}{suffix}')

    def operator(self, i):
        t, word = self.t, self.t[i].text
        before = t[i - 1]
        binary = before.kind in ('number', 'byte') or before.text in (')', ']') or (before.kind == 'name' and before.text not in KEYWORDS - {'self', 'true', 'false'})
        if word == '!' and not binary:
            self.put('operator', i, '')
        elif word in OPERATORS and (binary or word in ('<', '<=', '>', '>=')):
            for new in OPERATORS[word]:
                self.put('operator', i, new)

    def name(self, i, variables):
        t, word = self.t, self.t[i].text
        before, after = t[i - 1].text, t[i + 1].text
        if before == '::':
            self.variant(i)
        elif after == '::' or (after == ':' and t[i + 2].text != ':') or (after == '{' and i + 1 in self.literal):
            return
        elif before == '.':
            if after != '(':
                self.field(i, variables)
        elif after == '(':
            self.called(i)
        elif word in self.source.constants and word not in variables:
            self.constant(i)
        elif word in variables:
            short = self.short(i)
            for other in sorted(variables):
                if other != word and other != '_' and self.alike(variables[other], variables[word]):
                    self.put('variable', i, f'{word}: {other}' if short else other)

    def variant(self, i):
        word, held = self.t[i].text, self.source.enums.get(self.t[i - 2].text)
        if held and word in held:
            for other in held:
                if other != word and [k for _, k in held[other]] == [k for _, k in held[word]]:
                    self.put('variant', i, other)

    def field(self, i, variables):
        t, source, word, start = self.t, self.source, self.t[i].text, i - 1
        while t[start].text == '.' or t[start].text == ']':
            if t[start].text == ']':
                depth = 0
                while True:
                    depth += (t[start].text in CLOSE) - (t[start].text in OPEN)
                    if depth == 0:
                        break
                    start -= 1
            start -= 1
        kind = self.kind_of(start, i - 1, variables)
        kind = source.expand(kind).replace('&mut', '').lstrip('&') if kind else None
        owners = [source.structs[kind]] if kind in source.structs else [s for s in source.structs.values() if word in s]
        for other in sorted({x for s in owners for x in s if x != word and word in s and s[x] == s[word]}):
            self.put('field', i, other)

    def called(self, i):
        source, word = self.source, self.t[i].text
        mine = source.signatures.get(self.scope.get(word, word))
        for name, real in sorted(self.scope.items()) if mine else []:
            other = source.signatures.get(real)
            if other and name != word and other.owner is None and self.shape(other) == self.shape(mine):
                # A call that leads back to the caller would ask for another kind of proof.
                if other.full != self.f.full and self.f.full not in source.calls[other.full]:
                    self.put('function', i, name)

    def constant(self, i):
        source, word = self.source, self.t[i].text
        for name, real in sorted(self.scope.items()):
            if real in source.constants and source.expand(source.constants[real]) == source.expand(source.constants[word]):
                if source.values[real] != source.values[word]:
                    self.put('constant', i, name)

    def shape(self, function):
        return [self.source.expand(k) for _, k in function.parameters], self.source.expand(function.result)

    def short(self, i):
        """Whether the name stands alone for a field in a struct's literal."""
        t = self.t
        if t[i - 1].text not in ('{', ',') or t[i + 1].text not in (',', '}'):
            return False
        depth, k = 0, i - 1
        while True:
            depth += (t[k].text in CLOSE) - (t[k].text in OPEN)
            if depth < 0:
                return k in self.literal
            k -= 1


class Mutant:
    def __init__(self, function, kind, i, new):
        token = function.tokens[i]
        self.f, self.kind, self.at, self.old, self.new = function, kind, token.at, token.text, new
        self.verdict, self.why = '', ''

    def line(self, text):
        return text.count('\n', 0, self.at) + 1

    def group(self):
        return self.kind if self.kind in ('operator', 'number') else 'name'


def drawn(source, function, seed):
    """All mutants of a function in the order in which they are tried: first a kind, then a place,
    then what stands there instead."""
    pick = random.Random(f'{seed}:{function.full}')
    groups = {}
    for kind, i, new in Body(source, function).changes:
        m = Mutant(function, kind, i, new)
        groups.setdefault(m.group(), {}).setdefault(i, []).append(m)
    order = []
    while groups:
        group = pick.choice(sorted(groups))
        place = pick.choice(sorted(groups[group]))
        order.append(groups[group][place].pop(pick.randrange(len(groups[group][place]))))
        if not groups[group][place]:
            del groups[group][place]
        if not groups[group]:
            del groups[group]
    return order


def quotas(source, count, seed):
    """The functions of each crate that are changed, and how often: by the number of functions of
    the crate that have a place to change."""
    able = {}
    for f in source.functions:
        if f.crate in CRATES:
            order = drawn(source, f, seed)
            if order:
                able.setdefault(f.crate, []).append((f, order))
    total = sum(len(x) for x in able.values())
    plan = {}
    for crate in CRATES:
        share = max(LEAST, round(count * len(able[crate]) / total))
        pick = random.Random(f'{seed}:{crate}')
        queue = []
        while len(queue) < share:
            row = list(able[crate])
            pick.shuffle(row)
            queue += row
        plan[crate] = (queue[:share], able[crate])
    return plan


def batches(queue):
    """Sets of mutants of different functions, to be checked together."""
    rows = []
    for f, order in queue:
        for row in rows:
            if len(row) < TOGETHER and all(f.full != g.full for g, _ in row):
                row.append((f, order))
                break
        else:
            rows.append([(f, order)])
    return rows


def apart(mutants, calls):
    """Of these, some whose functions do not call each other, and the others."""
    row, rest = [], []
    for m in mutants:
        clear = all(m.f.full != n.f.full and m.f.full not in calls[n.f.full] and n.f.full not in calls[m.f.full] for n in row)
        (row if clear else rest).append(m)
    return row, rest


def applied(source, mutants):
    """The files with the mutants in them."""
    texts = {}
    for path in {m.f.path for m in mutants}:
        text = source.texts[path][0]
        for m in sorted((m for m in mutants if m.f.path == path), key=lambda m: -m.at):
            text = text[:m.at] + m.new + text[m.at + len(m.old):]
        texts[path] = text
    return texts


def originals(source, mutants):
    return {m.f.path: source.texts[m.f.path][0] for m in mutants}


def refused_by_compiler(source, said, mutants):
    """The mutants that the compiler's errors stand in."""
    found = []
    for m in mutants:
        text, tokens = source.texts[m.f.path]
        first = text.count('\n', 0, tokens[m.f.body[0] - 1].at) + 1
        last = text.count('\n', 0, tokens[m.f.body[1]].at) + 1
        for n in re.findall(r'(?<![\w/])(?:\./)?' + re.escape(m.f.path.split('/', 2)[2]) + r':(\d+):\d+: error', said):
            if first <= int(n) <= last:
                found.append(m)
                break
    return found


def try_batch(room, source, crate, row, label, report):
    """Checks the mutants of a batch: how many checks it took, and how long. One that the compiler
    refuses makes room for the next of its function; one that is not proved only because it calls
    another changed function is checked again without that one."""
    rest = {f.full: order for f, order in row}
    current, waiting = [order.pop(0) for _, order in row if order], []
    turn, checks, spent = 0, 0, 0
    while current:
        turn += 1
        room.write(applied(source, current))
        said, _, took = room.check(crate, f'{crate}.{label}.{turn}')
        room.write(originals(source, current))
        spent += took
        if reached_prover(said):
            checks += 1
            for m in current:
                m.verdict, m.why = judge(said, m.f)
                if m.verdict != 'waits':
                    report(m)
            waiting += [m for m in current if m.verdict == 'waits']
            current, waiting = apart(waiting, source.calls)
            continue
        bad = refused_by_compiler(source, said, current)
        if not bad:
            if len(current) > 1:
                sys.exit(f'bin/mutate: cannot tell which mutant the compiler refused: {room.folder}/log/{crate}.{label}.{turn}')
            bad = list(current)
        for m in bad:
            m.verdict = 'compiler'
            report(m)
            current.remove(m)
            if rest[m.f.full]:
                current.append(rest[m.f.full].pop(0))
    return checks, spent


def row_of(source, m):
    return [m.f.crate, m.f.full, f'{m.f.path}:{m.line(source.texts[m.f.path][0])}', m.kind, m.old, m.new, m.verdict, m.why[:300].replace('\t', ' ')]


def save(source, crate, results):
    os.makedirs(RESULTS, exist_ok=True)
    with open(f'{RESULTS}/{crate}.tsv', 'w') as out:
        for m in results:
            out.write('\t'.join(row_of(source, m)) + '\n')


def run_crate(room, source, crate, plan):
    room.prime(crate)
    queue, _ = plan[crate]
    rows, results = batches(queue), []
    for n, row in enumerate(rows):
        checks, took = try_batch(room, source, crate, row, n + 1, results.append)
        save(source, crate, results)
        passed = sum(m.verdict != 'compiler' for m in results)
        through = [m for m in results if m.verdict == 'let through']
        print(f'{crate}: part {n + 1} of {len(rows)}, {passed} of {len(queue)} mutants judged, {len(through)} let through '
              f'({checks} checks, {took:.0f} s)', flush=True)
    rename(room, source, crate, [m for m in results if m.verdict == 'shape' and not by_hand(m.f)])
    save(source, crate, results)
    confirm(room, source, crate, through)
    for n, m in enumerate(through):
        m.why = caught(room, source, m)
        save(source, crate, results)
        print(f'{crate}: let through {n + 1} of {len(through)}, {m.f.full}, {m.old} -> {m.new}: {m.why}', flush=True)


def rename(room, source, crate, mutants):
    """Where the proof only lacks a name that the change brings, of the function that is called now or
    of a goal: the same again, with that name in the proof."""
    while mutants:
        row = list({m.f.full: m for m in reversed(mutants)}.values())
        mutants = [m for m in mutants if m not in row]
        folders = {m.f.full: f'crates/{crate}/{proofs_of(m.f)}' for m in row}
        proofs = {path: read(path) for folder in folders.values() for path in (folder + 'Answers.antt', folder + 'Invariants.antt') if os.path.exists(path)}
        room.write(applied(source, row))
        for m in row:
            mine = {path: text for path, text in proofs.items() if os.path.dirname(path) + '/' == folders[m.f.full]}
            room.write({path: re.sub(rf'(?<!\w){re.escape(m.old)}(?!\w)', m.new, text) if m.kind == 'function' else text for path, text in mine.items()})
        said, _, took = room.check(crate, f'{crate}.renamed')
        others = [m.f for m in row if m.kind != 'function']
        by_name = room.check_by_name(crate, f'{crate}.renamed', others, said) if others else None
        room.write({**originals(source, row), **proofs})
        for m in row:
            m.verdict, m.why = judge(by_name if by_name and m.kind != 'function' else said, m.f)
            if m.verdict in ('fact', 'shape and fact'):
                m.verdict, m.why = 'shape and fact', 'with the new name in the proof: ' + m.why
            else:
                m.why = f'with the new name in the proof: {m.verdict} {m.why}'
                m.verdict = 'shape'
        print(f"{crate}: {len(row)} with the new names in the proof, a fact fails for "
              f"{sum(m.verdict == 'shape and fact' for m in row)} ({took:.0f} s)", flush=True)


def confirm(room, source, crate, through):
    """Those that were let through, together and from nothing: one mutant of each function at a
    time. Then the crate is as it was."""
    while through:
        row = list({m.f.full: m for m in reversed(through)}.values())
        through = [m for m in through if m not in row]
        room.write(applied(source, row))
        said, _, took = room.check_anew(crate, f'{crate}.through')
        room.write(originals(source, row))
        if not re.search(r'^logic=proved ', said, re.M):
            sys.exit(f'bin/mutate: mutants that were let through are not proved from nothing: see {room.folder}/log/{crate}.through')
        print(f'{crate}: {len(row)} let through, proved from nothing too ({took:.0f} s)', flush=True)


def caught(room, source, m):
    """Which run of the gate shows that a program is wrong that was let through: the programs'
    stored output, or the stored logs."""
    room.write(applied(source, [m]))
    try:
        for name in ('replay', 'cases', 'call_cases'):
            program = f'{room.folder}/run/{name}'
            built = subprocess.run([sys.executable, os.path.abspath('scripts/unproved.py'), 'program', name, program], cwd=room.folder, check=False,
                                   stdout=subprocess.PIPE, stderr=subprocess.STDOUT)
            if built.returncode:
                sys.exit(built.stdout.decode(errors='replace'))
            with open(f'crates/{name}/stdin', 'rb') as given, open(f'crates/{name}/stdout', 'rb') as expected:
                try:
                    run = subprocess.run([program], stdin=given, stdout=subprocess.PIPE, stderr=subprocess.DEVNULL, timeout=300, check=False)
                    if run.stdout != expected.read():
                        return f'caught by rt ci: the program {name} writes something else'
                except subprocess.TimeoutExpired:
                    return f'caught by rt ci: the program {name} hangs'
        run = subprocess.run([sys.executable, '-B', 'scripts/replays.py', f'{room.folder}/run/replay'],
                             stdout=subprocess.PIPE, stderr=subprocess.STDOUT, check=False)
        if run.returncode:
            lines = run.stdout.decode(errors='replace').strip().splitlines()
            return f'caught by bin/replays, after {len(lines) - 1} lines'
        return 'caught by no run'
    finally:
        room.write(originals(source, [m]))


def table(rows, key, names):
    print('| | tried | past the compiler | a fact fails | shape, then a fact | shape | no verdict | let through | of these caught by a run |')
    print('|---|---|---|---|---|---|---|---|---|')
    for name in names + ['all']:
        mine = [r for r in rows if name in ('all', key(r))]
        counts = [sum(r[6] == v for r in mine) for v in ('compiler', 'fact', 'shape and fact', 'shape', 'no verdict', 'let through')]
        later = sum(r[6] == 'let through' and r[7].startswith('caught by') and r[7] != 'caught by no run' for r in mine)
        print(f'| {name} | {len(mine)} | {len(mine) - counts[0]} | ' + ' | '.join(str(c) for c in counts[1:] + [later]) + ' |')


def tables():
    rows = []
    for crate in CRATES:
        if os.path.exists(f'{RESULTS}/{crate}.tsv'):
            rows += [line.split('\t') for line in read(f'{RESULTS}/{crate}.tsv').splitlines()]
    print('\nBy crate:\n')
    table(rows, lambda r: r[0], CRATES)
    print('\nBy kind of change:\n')
    table(rows, lambda r: r[3], ['operator', 'number', 'variable', 'constant', 'field', 'variant', 'function'])
    print('\nLet through, and no verdict:\n')
    for r in rows:
        if r[6] in ('let through', 'no verdict'):
            print(f'{r[2]} {r[1]}: {r[4]} -> {r[5]} ({r[6]}; {r[7]})')


def main():
    words = sys.argv[1:]
    listed = '--list' in words
    words = [w for w in words if w != '--list']
    if words == ['--tables']:
        tables()
        return 0
    numbers = [int(w) for w in words if w.isdigit()]
    wanted = [w for w in words if not w.isdigit()] or CRATES
    if len(numbers) > 2 or not set(wanted) <= set(CRATES):
        print('usage: bin/mutate [--list] [COUNT] [SEED] [CRATE..]; crates: ' + ' '.join(CRATES), file=sys.stderr)
        return 2
    count, seed = (numbers + [240, 1][len(numbers):])[:2]
    source = Source(sorted(os.listdir('crates')))
    plan = quotas(source, count, seed)
    if listed:
        for crate in wanted:
            queue, able = plan[crate]
            print(f'{crate}: {len(queue)} of {sum(len(o) for _, o in able)} mutants of {len(able)} functions')
            for _, order in queue:
                print('  ' + ' '.join(row_of(source, order[0])[1:6]))
        return 0
    room = Room('bin/mutate', kit.room('mutate'), wanted)
    print(f'checked in {room.folder}', flush=True)
    for crate in wanted:
        run_crate(room, source, crate, plan)
    tables()
    return 0


if __name__ == '__main__':
    sys.exit(main())
