"""What the crates declare, read from crates/*/src: functions with their places, structs, enums,
constants and types."""
import os
import re

TOKEN = re.compile(r'''(?P<skip>\s+|//[^\n]*)|(?P<string>b"(?:\\.|[^"\\])*")|(?P<byte>b'(?:\\.|[^'\\])+')|(?P<life>'[a-z]\w*(?!'))
|(?P<number>0x[0-9A-Fa-f_]+|\d[\d_]*(?:[ui](?:8|16|32|64|size))?)|(?P<name>[^\W\d]\w*)
|(?P<op>\.\.=|<<=|>>=|\.\.|=>|->|::|<=|>=|==|!=|&&|\|\||<<|>>|[-+*/%&|^]=|.)''', re.X | re.S)
OPEN, CLOSE = {'(': ')', '[': ']', '{': '}'}, ')]}'


class Token:
    def __init__(self, kind, text, at):
        self.kind, self.text, self.at = kind, text, at


def tokens_of(text):
    return [Token(m.lastgroup, m.group(), m.start()) for m in TOKEN.finditer(text) if m.lastgroup != 'skip']


def closing(tokens, i):
    """The place of the bracket that closes the one at i."""
    depth = 0
    while True:
        depth += (tokens[i].text in OPEN) - (tokens[i].text in CLOSE)
        if depth == 0:
            return i
        i += 1


def split(tokens, start, end):
    """The parts between commas outside brackets."""
    parts, depth, first = [], 0, start
    for i in range(start, end):
        depth += (tokens[i].text in OPEN) - (tokens[i].text in CLOSE)
        if tokens[i].text == ',' and depth == 0:
            parts.append((first, i))
            first = i + 1
    return [p for p in parts + [(first, end)] if p[0] < p[1]]


def implemented(tokens, i):
    """The type whose methods the `impl` at i has, by its last name, the trait that they are of, if
    any, as the check names it (`FromVoterCommand`), and the place of the `{`."""
    depth, names, inner, trait = 0, [], [], None
    while tokens[i].text != '{':
        depth += (tokens[i].text == '<') - (tokens[i].text == '>')
        if depth == 0 and tokens[i].text == 'for':
            trait = names[-1] + ''.join(inner)
            names = []
        elif depth == 0 and tokens[i].text == '[':
            # an array, `[T; N]`, is named so by the check
            names.append('Array')
            i = closing(tokens, i)
        elif depth == 0 and tokens[i].kind == 'name' and tokens[i].text != 'impl':
            names.append(tokens[i].text)
            inner = []
        elif tokens[i].kind == 'name':
            inner.append(tokens[i].text)
        i += 1
    return names[-1], trait, i


class Function:
    def __init__(self, **parts):
        self.__dict__.update(parts)


class Source:
    """All that the crates declare: functions, structs, enums, constants and types, by their last
    name."""

    def __init__(self, crates):
        self.structs, self.enums, self.aliases, self.constants, self.values = {}, {}, {}, {}, {}
        self.signatures, self.functions, self.texts, self.scope = {}, [], {}, {}
        self.public, self.whole, self.homes, self.of_traits = {}, [], {}, {}
        for crate in crates:
            folder = f'crates/{crate}/src'
            for name in sorted(os.listdir(folder)):
                with open(f'{folder}/{name}') as file:
                    self.module(crate, f'{folder}/{name}', file.read())
        for scope, module in self.whole:
            for name in self.public.get(module, []):
                scope.setdefault(name, name)
        # a method has its name from the module that declares its type, wherever its `impl` stands; one
        # of a trait has it from where its `impl` stands
        for f in self.functions:
            if f in self.of_traits:
                f.full = self.of_traits[f]
            elif (f.crate, f.owner) in self.homes:
                f.full = f'{self.homes[f.crate, f.owner]}::{f.owner}::{f.name}'
        self.calls = {}
        for crate in crates:
            self.calls.update(reaches([f for f in self.functions if f.crate == crate]))

    def type_text(self, tokens, start, end):
        words = [t.text for t in tokens[start:end] if t.kind != 'life']
        return ' '.join(words).replace('& mut', '&mut ').replace(' ', '') if words else '()'

    def expand(self, kind):
        while kind in self.aliases:
            kind = self.aliases[kind]
        return kind

    def module(self, crate, path, text):
        tokens = tokens_of(text)
        self.texts[path] = (text, tokens)
        base = os.path.basename(path)[:-3]
        prefix = crate + ('' if base in ('lib', 'main') else '::' + base)
        scope = self.scope.setdefault(path, {})
        i, owner, trait, owner_end = 0, None, None, 0
        while i < len(tokens):
            word = tokens[i].text
            if owner and i >= owner_end:
                owner = None
            if word == '#':
                i = closing(tokens, i + 1) + 1
            elif word == 'mod' and tokens[i + 2].text == '{':
                # the tests of the file, which the check leaves out
                i = closing(tokens, i + 2) + 1
            elif word in ('ghost', 'use', 'mod'):
                i = self.imports(crate, tokens, i, scope)
            elif word in ('const', 'type'):
                i = self.constant_or_alias(prefix, tokens, i, scope)
            elif word in ('struct', 'enum'):
                name, begin = tokens[i + 1].text, i + 2
                self.homes[crate, name] = prefix
                while tokens[begin].text not in '({;':
                    begin += 1
                end = closing(tokens, begin) if tokens[begin].text != ';' else begin
                (self.struct if word == 'struct' else self.enum)(name, tokens, begin, end)
                i = end + 1
            elif word == 'impl':
                owner, trait, begin = implemented(tokens, i)
                owner_end = closing(tokens, begin)
                i = begin + 1
            elif word == 'fn':
                if not owner and tokens[i - 1].text == 'pub':
                    self.public.setdefault(prefix, []).append(tokens[i + 1].text)
                name, count = tokens[i + 1].text, len(self.functions)
                i = self.function(crate, path, prefix, owner, tokens, i, scope)
                if owner and trait and len(self.functions) > count:
                    self.of_traits[self.functions[-1]] = f'{prefix}::{owner[0].upper()}{owner[1:]}{trait}::{name}'
            else:
                i += 1

    def imports(self, crate, tokens, i, scope):
        """Adds the names that a `use` brings into scope. Gives the place after it, or after a
        `ghost use` or `mod`."""
        end = i
        while tokens[end].text != ';':
            end += 1
        if tokens[i].text != 'use':
            return end + 1
        for k in range(i, end):
            if tokens[k].kind == 'name' and tokens[k + 1].text in (';', ',', '}') and tokens[k - 1].text != 'as':
                scope[tokens[k].text] = tokens[k].text
            if tokens[k].text == 'as':
                scope[tokens[k + 1].text] = tokens[k - 1].text
                scope.pop(tokens[k - 1].text, None)
        # a module that is imported whole: what it declares is added when all modules are read
        if tokens[end - 1].text == '*':
            names = [t.text for t in tokens[i + 1:end] if t.kind == 'name']
            self.whole.append((scope, '::'.join([crate] + names[1:] if names[0] == 'crate' else names)))
        return end + 1

    def constant_or_alias(self, prefix, tokens, i, scope):
        """Reads a `const` or a `type`. Gives the place after it."""
        name, end, depth = tokens[i + 1].text, i, 0
        while depth or tokens[end].text != ';':
            depth += (tokens[end].text in OPEN) - (tokens[end].text in CLOSE)
            end += 1
        equals = i
        while tokens[equals].text != '=':
            equals += 1
        value = self.type_text(tokens, equals + 1, end)
        if tokens[i].text == 'type':
            self.aliases[name] = value
        else:
            self.constants.setdefault(name, self.type_text(tokens, i + 3, equals))
            self.values.setdefault(name, value)
            scope[name] = name
            if tokens[i - 1].text == 'pub':
                self.public.setdefault(prefix, []).append(name)
        return end + 1

    def fields(self, tokens, begin, end):
        found = {}
        for a, b in split(tokens, begin, end):
            while tokens[a].text == 'pub':
                a += 1
            found[tokens[a].text] = self.type_text(tokens, a + 2, b)
        return found

    def struct(self, name, tokens, begin, end):
        if tokens[begin].text == '{':
            self.structs[name] = self.fields(tokens, begin + 1, end)

    def enum(self, name, tokens, begin, end):
        self.enums[name] = {}
        for a, b in split(tokens, begin + 1, end):
            held = []
            if b > a + 1 and tokens[a + 1].text == '(':
                held = [(None, self.type_text(tokens, x, y)) for x, y in split(tokens, a + 2, b - 1)]
            elif b > a + 1 and tokens[a + 1].text == '{':
                held = list(self.fields(tokens, a + 2, b - 1).items())
            self.enums[name][tokens[a].text] = held

    def function(self, crate, path, prefix, owner, tokens, i, scope):
        name, at = tokens[i + 1].text, i + 2
        while tokens[at].text != '(':
            at += 1
        end = closing(tokens, at)
        parameters = []
        for a, b in split(tokens, at + 1, end):
            while tokens[a].text == 'mut':
                a += 1
            if tokens[a].text in ('self', '&'):
                parameters.append(('self', owner))
            else:
                parameters.append((tokens[a].text, self.type_text(tokens, a + 2, b)))
        at = end + 1
        result = '()'
        if tokens[at].text == '->':
            first = at + 1
            while tokens[at].text not in ('requires', 'ensures', 'ghost', '{', ';'):
                # the `;` of an array, `[T; N]`, is no end
                at = (closing(tokens, at) if tokens[at].text == '[' else at) + 1
            result = self.type_text(tokens, first, at)
        clauses = set()
        while tokens[at].text != '{':
            # a method that a trait declares has no body
            if tokens[at].text == ';':
                return at + 1
            clauses.add(tokens[at].text)
            while tokens[at].text != '{':
                at += 1
            at = closing(tokens, at) + 1
        end = closing(tokens, at)
        full = f'{prefix}::{owner}::{name}' if owner else f'{prefix}::{name}'
        made = Function(crate=crate, path=path, name=name, full=full, owner=owner, parameters=parameters, result=result, clauses=clauses,
                        tokens=tokens, body=(at + 1, end), span=(tokens[i].at, tokens[end].at))
        self.functions.append(made)
        self.signatures.setdefault(name, made)
        if not owner:
            scope[name] = name
        return end + 1


def reaches(functions):
    """For each function of a crate the functions of the crate that it calls, directly or through
    others; by name, so rather too many."""
    by_name = {}
    for f in functions:
        by_name.setdefault(f.name, []).append(f.full)
    calls = {f.full: {c for k in range(*f.body) if f.tokens[k + 1].text == '(' for c in by_name.get(f.tokens[k].text, [])} - {f.full} for f in functions}
    while True:
        wider = {f: calls[f].union(*(calls[g] for g in calls[f])) for f in calls}
        if wider == calls:
            return calls
        calls = wider
