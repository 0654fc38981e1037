#!/usr/bin/env python3
"""Writes what each struct of crates/records/src/records.rt needs: what equality says of it, its blank
with a test for it, and what its values hold.

Run it from the root of the repository, after a change to a struct:

    python3 scripts/records.py

It writes, in crates/records:

    specs/Equality.antt, specs/EqualityLaws.antt
    specs/Blank.antt, src/blanks.rt
    specs/Held.antt, proofs/Held.antt

It ends with `rt fmt`, which lays out the code. The files src/lib.rt, specs/Lib.antt and
proofs/Lib.antt are written by hand. A function needs no proof file: the check finds its proof with
the definitions that the function's attribute names.
"""
import os
import re
import subprocess

CRATE = 'crates/records'
BY = 'Written by scripts/records.py.'
# how many places an array of structs has
PLACES = 9
PLACES_NAME = 'MAX_FIXED_VOTER_SLOTS'
WIDTHS = {'u8': 8, 'u16': 16, 'u32': 32, 'u64': 64, 'usize': 64}


# ---- what is read


def read(path):
    with open(path, encoding='utf-8') as file:
        return file.read()


def structs_of(text):
    """Name and fields (name, type as written) of each struct, in the order of the file."""
    found = []
    for name, body in re.findall(r'^pub struct (\w+) \{\n(.*?)^\}', text, re.M | re.S):
        found.append((name, re.findall(r'^    pub (\w+): (.+),$', body, re.M)))
    return found


below = read('crates/identity/src/identity.rt')
lengths = read('crates/identity/src/text.rt')
here = read(CRATE + '/src/records.rt')
LENGTHS = re.search(r'^use identity::text::\{.*\};$', here, re.M).group(0)
CONSTANTS = dict(re.findall(r'^pub const (\w+): usize = (\d+);$', lengths + here, re.M))
ALIASES = dict(re.findall(r'^pub type (\w+) = (.+);$', below, re.M))
FROM_BELOW = [s for s in structs_of(below) if re.search(r': \[?%s\b' % s[0], here)]
FROM_HERE = structs_of(here)
HOME = {name: 'identity' for name, _ in FROM_BELOW}
HOME.update({name: 'records' for name, _ in FROM_HERE})


class Field:
    """A field: its name, and its kind: number (of so many bits), bool, bytes (so many), nine (of a
    struct) or struct."""

    def __init__(self, name, written, declared):
        written = ALIASES.get(written, written)
        self.name = name
        self.struct = self.size = self.length = ''
        array = re.fullmatch(r'\[(\w+); (\w+)\]', written)
        size = int(CONSTANTS.get(array.group(2), array.group(2))) if array else 0
        if written in WIDTHS:
            self.kind, self.bits = 'number', WIDTHS[written]
        elif written == 'bool':
            self.kind = 'bool'
        elif array and array.group(1) == 'u8':
            self.kind, self.size, self.length = 'bytes', size, array.group(2)
        elif array and array.group(1) in declared and size == PLACES:
            self.kind, self.struct = 'nine', array.group(1)
        elif written in declared:
            self.kind, self.struct = 'struct', written
        else:
            raise SystemExit('records.py: field %s has the type %s, which is not known here' % (name, written))

    def of(self, value):
        """The field of a value."""
        return '%s.%s' % (value, self.name)

    def say(self, templates):
        """The template of its kind. In it {name} is the field's name, {a} and {b} are the field of a
        and of b, {struct} is its struct and {snake} the same in the names of definitions, {size} is an
        array's length and {length} the same as the source writes it."""
        return templates[self.kind].format(
            name=self.name, a=self.of('a'), b=self.of('b'), struct=self.struct, snake=snake(self.struct), size=self.size, length=self.length, places=PLACES, places_name=PLACES_NAME)


RECORDS = {}
for struct, fields in FROM_BELOW + FROM_HERE:
    RECORDS[struct] = [Field(name, written, RECORDS) for name, written in fields]
NAMES = list(RECORDS)


# ---- names


def snake(name):
    return re.sub(r'(?<!^)([A-Z])', r'_\1', name).lower()


def kebab(name):
    return snake(name).replace('_', '-')


def all_of(prefix, names=NAMES):
    return ', '.join(prefix + snake(name) for name in names)


def use_declared(name):
    return 'use Rattle.{0}.specs.declared.{0}.{1}.{{{1}}}\n'.format(HOME[name], name)


def use_rattle(names):
    return '\nuse crate::records::*;\n' + ''.join('use identity::identity::%s;\n' % n for n in names if HOME[n] == 'identity')


def found_with(*definitions):
    """The attribute of a function whose proof the check finds in these definitions of the crate, each
    a module of specs/ and a name."""
    return '#[tactic(auto, unfolding(%s))]' % ', '.join('crate::specs::%s::%s' % each for each in definitions)


DECLARED = ''.join(use_declared(name) for name in NAMES)


def write(path, *parts):
    path = '%s/%s' % (CRATE, path)
    os.makedirs(os.path.dirname(path), exist_ok=True)
    with open(path, 'w', encoding='utf-8') as file:
        file.write('\n'.join(part.strip('\n') + '\n' for part in parts))


# the longest line, where there is a choice
MOST = 110


def clause(left, right):
    """A clause, on one line where it is short enough."""
    line = '%s = %s' % (left, right.strip())
    return line if '\n' not in right and len(line) <= MOST else '%s =\n%s' % (left, right)


def record(entries, before=''):
    """A record with these entries, on its own lines where it is too long for one; `before` stands
    before it."""
    line = '    %srecord { %s }' % (before, '; '.join(entries))
    if len(line) <= MOST:
        return line
    return '    %srecord {\n%s    }' % (before, ''.join('      %s;\n' % entry for entry in entries))


def listed(before, entries):
    """What stands before, and the entries in brackets, on their own lines where they are too long
    for one."""
    line = '    %s (%s)' % (before, ', '.join(entries))
    if len(line) <= MOST:
        return line
    return '    %s (\n%s    )' % (before, ''.join('      %s,\n' % entry for entry in entries))


# ---- equality: definitions


# The test of a field of a and b
TEST = {
    'number': 'eqb {a} {b}',
    'bool': 'beq {a} {b}',
    'bytes': 'eq_bytes {a} {b}',
    'nine': 'eq_list same_{snake} {a} {b}',
    'struct': 'same_{snake} {a} {b}',
}


def equality():
    parts = ['''
-- When two records are the same: each field is, in the order of declaration; arrays element by
-- element. %s
-- From voter_slots/records.rs and identity.rs: the `PartialEq` that the Rust derives.
-- Assumes nothing.
use Rattle.std.specs.Prelude.{ℕ, Bool, true, ◌&&◌, List, [], ◌∷◌, eqb}
use Rattle.std.specs.Bool.{beq}
use Rattle.std.specs.Cmp.Lexicographic.{pointwise}
%s''' % (BY, DECLARED), '''
-- every test of a list holds
unfoldable pub all_true : List Bool → Bool
all_true [] = true
all_true (p ∷ []) = p
all_true (p ∷ (q ∷ ps)) = p && all_true (q ∷ ps)
''', '''
-- two lists of one length, element by element: what `==` answers at arrays and slices
abbrev pub eq_list : {A : Type 0} → (A → A → Bool) → List A → List A → Bool
eq_list f a b = pointwise f a b
''', '''
abbrev pub eq_bytes : List ℕ → List ℕ → Bool
eq_bytes a b = eq_list eqb a b
''']
    for name, fields in RECORDS.items():
        tests = ''.join('%s\n    ∷ ' % field.say(TEST) for field in fields)
        parts.append('''
unfoldable pub same_{0} : {1} → {1} → Bool
same_{0} a b =
    all_true
    ({2}[])
'''.format(snake(name), name, tests))
    write('specs/Equality.antt', *parts)


# ---- equality: laws


# That the fields are the same where that test holds
FROM_TRUE = {
    'number': 'eqb-true {a} {b}',
    'bool': 'beq-true {a} {b}',
    'bytes': 'eq_bytes-true {a} {b}',
    'nine': 'eq_list-true same_{snake} same_{snake}-true {a} {b}',
    'struct': 'same_{snake}-true {a} {b}',
}


# That each field of such a kind is the same as itself
OF_ITSELF = {
    'number': 'eqb_refl',
    'bool': 'beq-refl',
    'bytes': 'eq_bytes-refl',
    'nine': 'eq_list-refl same_{snake} same_{snake}-refl',
    'struct': 'same_{snake}-refl',
}


LAWS_HEAD = '''
-- Laws of equality: a test that holds is a path, each value is the same as itself, and the steps of the loops over lists. %s
-- Each name here is a step of a proof; what is right is said in Equality.
-- Assumes nothing.
use Prim.Native.Nat.{ℕ, zero, suc, ◌+◌, ◌<◌, ◌≤◌}
use Rattle.std.specs.Prelude.{◌≡◌, Bool, true, false, ◌&&◌, length, get_or, take, eqb}
use Rattle.std.proofs.Math.Path.{refl}
use Rattle.std.proofs.Common.{sym, ap, ◌∙◌, true≢false, add-one, arith, take_all, eqb-true, eq-eqb}
use Rattle.std.specs.Bool.{beq}
use Rattle.std.proofs.lemmas.Bool.{false≢true}
use Rattle.std.proofs.Math.Bool.{and-true, and-false, and_assoc, and-eq-true_iff}
use mathlib.Core.List.{List, [], ◌∷◌}
use Rattle.records.specs.Equality.{all_true, eq_list, eq_bytes, %s}
%s'''

ANY_TEST_LAWS = '''
-- ---- any test with the laws `-true` and `-refl`

module _ {A : Type 0} (f : A → A → Bool) where
  pub eq-same : ((x : A) → f x x ≡ true) → (a b : A) → a ≡ b → f a b ≡ true
  eq-same f-refl a b e = sym (ap (f a) e) ∙ f-refl a

  pub same_false : ((x : A) → f x x ≡ true) → (a b : A) → f a b ≡ false → a ≡ b → ⊥
  same_false f-refl a b h e = true≢false (sym (eq-same f-refl a b e) ∙ h)

  pub ne_same : ((x y : A) → f x y ≡ true → x ≡ y) → (a b : A) → (a ≡ b → ⊥) → f a b ≡ false
  ne_same f-true a b n = not-true (f a b) (λ t. n (f-true a b t))
    where
      not-true : (t : Bool) → (t ≡ true → ⊥) → t ≡ false
      not-true true h = absurd (h refl)
      not-true false h = refl
'''

TEST_LAWS = '''
-- ---- numbers, bools and lists of tests

eqb_refl : (n : ℕ) → eqb n n ≡ true
eqb_refl n = eq-eqb n n refl

beq-true : (a b : Bool) → beq a b ≡ true → a ≡ b
beq-true true true h = refl
beq-true true false h = absurd (false≢true h)
beq-true false true h = absurd (false≢true h)
beq-true false false h = refl

beq-refl : (a : Bool) → beq a a ≡ true
beq-refl true = refl
beq-refl false = refl

abbrev EachTrue : List Bool → Type 0
EachTrue [] = Unit {0}
EachTrue (p ∷ ps) = (p ≡ true) × EachTrue ps

all-each : (ps : List Bool) → all_true ps ≡ true → EachTrue ps
unfolding all_true
all-each [] h = tt
all-each (p ∷ []) h = (h, tt)
all-each (p ∷ (q ∷ ps)) h = let k = (and-eq-true_iff p (all_true (q ∷ ps))).0 h in (k.0, all-each (q ∷ ps) k.1)

-- the first test fails
pub all_first : (p q : Bool) (ps : List Bool) → p ≡ false → all_true (p ∷ (q ∷ ps)) ≡ false
unfolding all_true
all_first p q ps h = rw h
'''

LIST_LAWS = '''
-- ---- lists

module _ {A : Type 0} (f : A → A → Bool) where
  pub eq_list-true : ((x y : A) → f x y ≡ true → x ≡ y) → (a b : List A) → eq_list f a b ≡ true → a ≡ b
  eq_list-true d [] [] h = refl
  eq_list-true d [] (y ∷ b) h = absurd (false≢true h)
  eq_list-true d (x ∷ a) [] h = absurd (false≢true h)
  eq_list-true d (x ∷ a) (y ∷ b) h =
      let k = (and-eq-true_iff (f x y) (eq_list f a b)).0 h in
      let p = d x y k.0 in
      let q = eq_list-true d a b k.1 in
      λ i. p i ∷ q i

  pub eq_list-refl : ((x : A) → f x x ≡ true) → (a : List A) → eq_list f a a ≡ true
  eq_list-refl d [] = refl
  eq_list-refl d (x ∷ a) = rw (d x) (eq_list-refl d a)

  -- lists of two lengths differ
  pub eq_list-lengths : (a b : List A) → (length a ≡ length b → ⊥) → eq_list f a b ≡ false
  eq_list-lengths [] [] n = absurd (n refl)
  eq_list-lengths [] (y ∷ b) n = refl
  eq_list-lengths (x ∷ a) [] n = refl
  eq_list-lengths (x ∷ a) (y ∷ b) n = rw (eq_list-lengths a b (λ e. n (ap suc e))) (and-false (f x y))

  eq_list-suc : (d : A) (a b : List A) (i : ℕ) → i < length a → i < length b
      → eq_list f (take (suc i) a) (take (suc i) b) ≡ (eq_list f (take i a) (take i b) && f (get_or a i d) (get_or b i d))
  eq_list-suc d [] b i h k = absurd (omega arith)
  eq_list-suc d (x ∷ a) [] i h k = absurd (omega arith)
  eq_list-suc d (x ∷ a) (y ∷ b) zero h k = and-true (f x y)
  eq_list-suc d (x ∷ a) (y ∷ b) (suc i) h k =
      rw (eq_list-suc d a b i (omega arith) (omega arith))
      (sym (and_assoc (f x y) (eq_list f (take i a) (take i b)) (f (get_or a i d) (get_or b i d))))

  -- a loop without early exit, whose answer so far is `same`: one more element, whose test is t, and the end
  pub eq_list-more : (d : A) (a b : List A) (i : ℕ) (same t : Bool) → i < length a → i < length b
      → same ≡ eq_list f (take i a) (take i b) → t ≡ f (get_or a i d) (get_or b i d) → (same && t) ≡ eq_list f (take (i + 1) a) (take (i + 1) b)
  eq_list-more d a b i same t h k p q = rw (add-one, eq_list-suc d a b i h k, p, q)

  pub eq_list-end : (a b : List A) (i : ℕ) (same : Bool) → length a ≤ i → length b ≤ i
      → same ≡ eq_list f (take i a) (take i b) → same ≡ eq_list f a b
  eq_list-end a b i same h k p = p ∙ (λ j. eq_list f (take_all i a h j) (take_all i b k j))
'''

BYTES_LAWS = '''
pub eq_bytes-true : (a b : List ℕ) → eq_bytes a b ≡ true → a ≡ b
eq_bytes-true a b h = eq_list-true eqb eqb-true a b h

pub eq_bytes-refl : (a : List ℕ) → eq_bytes a a ≡ true
eq_bytes-refl a = eq_list-refl eqb eqb_refl a
'''

RECORD_LAWS = '''
pub same_{0}-true : (a b : {1}) → same_{0} a b ≡ true → a ≡ b
unfolding same_{0}
same_{0}-true a b h =
    let e = all-each _ h in
{2}

pub same_{0}-refl : (a : {1}) → same_{0} a a ≡ true
unfolding all_true same_{0}
{3}
'''


def record_laws(name, fields):
    """That a test of a record that holds is a path, and that each value is the same as itself."""
    paths = ['%s = %s e%s.0 i' % (field.name, field.say(FROM_TRUE), '.1' * i) for i, field in enumerate(fields)]
    selves = list(dict.fromkeys(field.say(OF_ITSELF) for field in fields))
    return RECORD_LAWS.format(snake(name), name, record(paths, 'λ i. '), clause('same_%s-refl a' % snake(name), listed('simp', selves)))


def equality_laws():
    head = LAWS_HEAD % (BY, all_of('same_'), DECLARED)
    records = [record_laws(name, fields) for name, fields in RECORDS.items()]
    write('specs/EqualityLaws.antt', head, ANY_TEST_LAWS, TEST_LAWS, LIST_LAWS, BYTES_LAWS, '-- ---- the records', *records)


# ---- blanks


# The blank of a field, in the definition
BLANK = {
    'number': '0',
    'bool': 'false',
    'bytes': 'replicate {size} 0',
    'nine': 'replicate {places} blank_{snake}',
    'struct': 'blank_{snake}',
}


# The blank of a field, in the code
BLANK_CODE = {
    'number': '0',
    'bool': 'false',
    'bytes': '[0; {length}]',
    'nine': '[{struct}::default(); {places_name}]',
    'struct': '{struct}::default()',
}


BLANKS_HEAD = '''
// The blank of each record, all zero: what stands where a record is absent or was refused. And
// whether a record is blank, field by field. %s
//
// `Default` is not derived: it would be as fast, but of an array it would say only that each element
// is a default. The layers above rest on the whole value, which `is_default` names here.
//
// Where three arrays stand in front, the first is tested by itself: LLVM would make one test of them
// and take it apart byte by byte.
ghost use Rattle.std.specs.Prelude.{◌≡◌};
ghost use Rattle.records.specs.Blank.{%s};
ghost use Rattle.records.specs.Equality.{%s};

use crate::blank::Blank;
%s%s'''

DEFAULT = '''
impl Default for {1} {{
    ghost is_default = {{ λ x. x ≡ blank_{0} }};

    {2}
    fn default() -> {1} {{
        {1} {{
{3}        }}
    }}
}}
'''

IS_BLANK = '''
impl Blank for {1} {{
    ghost blank = {{ blank_{0} }};

    ghost same = {{ same_{0} }};

    {2}
    fn is_blank(&self) -> bool {{
        {3}{4}
    }}
}}
'''


def is_apart(fields):
    """Whether the first field is tested by itself: three arrays stand in front. LLVM would make one
    test of them, of 80 bytes, and take it apart byte by byte."""
    return [field.kind for field in fields[:3]] == ['bytes'] * 3


def joined(tests):
    """The tests with `&` between them, in brackets from the right."""
    whole = tests[-1]
    for one in reversed(tests[:-1]):
        whole = ('%s & (%s)' if ' & ' in whole else '%s & %s') % (one, whole)
    return whole


def blank_code(name, fields):
    """The blank of a record, which one of the crate below derives, and the test for it."""
    blank, same = ('Blank', 'blank_' + snake(name)), ('Equality', 'same_' + snake(name))
    tests, early, made = [field.of('self') + '.is_blank()' for field in fields], '', []
    if HOME[name] == 'records':
        values = ''.join('            %s: %s,\n' % (field.name, field.say(BLANK_CODE)) for field in fields)
        below = [('Blank', 'blank_' + snake(field.struct)) for field in fields if HOME.get(field.struct) == 'identity']
        made.append(DEFAULT.format(snake(name), name, found_with(blank, *below), values))
    if is_apart(fields):
        early = 'if !%s {\n            return false;\n        }\n        ' % tests.pop(0)
    return made + [IS_BLANK.format(snake(name), name, found_with(('Equality', 'all_true'), same, blank), early, joined(tests))]


def blanks():
    spec = ['''
-- The blank of each record: each number 0, each bool false, each byte 0.
-- %s
-- Document 01: "the blank table or blank attestation, all zero"; "2,048 or 256 bytes and a length,
-- zero behind it".
-- Assumes nothing.
use Rattle.std.specs.Prelude.{false, replicate}
%s''' % (BY, DECLARED)]
    code = [BLANKS_HEAD % (BY, all_of('blank_'), all_of('same_'), use_rattle(NAMES), LENGTHS)]
    for name, fields in RECORDS.items():
        blank = 'blank_' + snake(name)
        spec.append('unfoldable pub %s : %s\n%s' % (
            blank, name, clause(blank, record(['%s = %s' % (field.name, field.say(BLANK)) for field in fields]))))
        code += blank_code(name, fields)
    write('specs/Blank.antt', *spec)
    write('src/blanks.rt', *code)


# ---- what every value holds


HELD_HEAD = '''
-- What every value that the program holds has: each number fits its type, each array has its
-- length. %s
-- From the types of voter_slots/records.rs and identity.rs: for theorems over all records.
-- Assumes nothing.
use Rattle.std.specs.Prelude.{ℕ, zero, suc, ◌<◌, ◌^◌, ◌≡◌, List, [], ◌∷◌, length, get_or, set}
use Rattle.std.proofs.Common.{arith, length-set}
%s'''

HELD = '''
-- P of every element
abbrev pub AllOf : {A : Type 0} → (A → Type 0) → List A → Type 0
AllOf P [] = Unit {0}
AllOf P (x ∷ l) = P x × AllOf P l

-- an array of n elements
pub record HeldArray {A : Type 0} (P : A → Type 0) (n : ℕ) (l : List A) : Type 0 where
  pub count : length l ≡ n
  pub each : AllOf P l

-- of the element at an index; of a list with one element replaced
pub all-at : {A : Type 0} (P : A → Type 0) (d : A) (l : List A) (i : ℕ) → i < length l → AllOf P l → P (get_or l i d)
all-at P d [] i h a = absurd (omega arith)
all-at P d (x ∷ l) zero h a = a.0
all-at P d (x ∷ l) (suc i) h a = all-at P d l i (omega arith) a.1

all_set : {A : Type 0} (P : A → Type 0) (l : List A) (i : ℕ) (x : A) → P x → AllOf P l → AllOf P (set l i x)
all_set P [] i x p a = a
all_set P (y ∷ l) zero x p a = (p, a.1)
all_set P (y ∷ l) (suc i) x p a = (a.0, all_set P l i x p a.1)

pub held-set : {A : Type 0} (P : A → Type 0) (n : ℕ) (l : List A) (i : ℕ) (x : A) → P x → HeldArray P n l → HeldArray P n (set l i x)
held-set P n l i x p h = record { count = rw length-set h.count; each = all_set P l i x p h.each }

abbrev pub Byte : ℕ → Type 0
Byte x = x < 2 ^ 8

abbrev pub HeldBytes : ℕ → List ℕ → Type 0
HeldBytes n l = HeldArray Byte n l
'''

HELD_PROOF_HEAD = '''
-- What the program logic says of a value that a function owns, as the `Held` records of specs/Held.antt. %s
-- Assumes nothing.
use Prim.Native.Nat.{ℕ}
use mathlib.Core.List.{List, [], ◌∷◌}
use mir.Syntax.{w8}
use mir.Val.{Val}
use base.Fml.{Fml}
use denote.Array.{each, in_array}
use denote.Plain.{UInt}
use denote.Shadow.{shadow}
use Rattle.records.specs.Held.{AllOf, HeldArray, Byte, HeldBytes, %s}
%s%s'''

HELD_PROOF = '''
module _ {X : Type 0} (own : X → List Val → Fml) (P : X → Type 0) (h : (x : X) (vs : List Val) → shadow (own x vs) → P x) where
  held-list : (xs : List X) (us : List Val) → shadow (each X own xs us) → AllOf P xs
  held-list [] us g = tt
  held-list (x ∷ xs) [] g = absurd g
  held-list (x ∷ xs) (u ∷ us) g = (h x (u ∷ []) g.0, held-list xs us g.1)

  pub held-array : (n : ℕ) (xs : List X) (vs : List Val) → shadow (in_array X own n xs vs) → HeldArray P n xs
  held-array n xs vs g = record { count = g.1.0.1; each = held-list xs g.0 g.1.1 }

pub held_bytes : (n : ℕ) (l : List ℕ) (vs : List Val) → shadow (in_array ℕ (UInt w8).own_val n l vs) → HeldBytes n l
held_bytes n l vs g = held-array (UInt w8).own_val Byte (λ x us h. h.1) n l vs g
'''

HELD_RECORD = '''
pub held-{0} : (r : {1}) (vs : List Val)
    → shadow ((The{1}.the_field).row.own_val ((The{1}.the_field).into r) vs) → Held{1} r
held-{0} r vs g =
    let f = g.1.1 in
    record {{
{2}    }}
'''


def held_field(field, at):
    """What a field of r holds, and the proof of it, from what the logic says at a place."""
    r = field.of('r')
    if field.kind == 'number':
        return '%s < 2 ^ %d' % (r, field.bits), at + '.1'
    if field.kind == 'bytes':
        return 'HeldBytes %d %s' % (field.size, r), 'held_bytes %d %s _ %s' % (field.size, r, at)
    if field.kind == 'nine':
        proof = 'held-array (The{0}.the_row).own_val Held{0} held-{1} {2} {3} _ {4}'
        return 'HeldArray Held%s %d %s' % (field.struct, PLACES, r), proof.format(field.struct, kebab(field.struct), PLACES, r, at)
    return 'Held%s %s' % (field.struct, r), 'held-%s %s _ %s' % (kebab(field.struct), r, at)


def held_record(name, fields):
    """What a record holds, as a definition, and the lemma that the logic says so."""
    holds, values = '', ''
    for i, field in enumerate(fields):
        # a bool holds nothing more
        if field.kind != 'bool':
            what, value = held_field(field, 'f%s.0' % ('.1' * i))
            holds += '  pub %s : %s\n' % (field.name, what)
            values += '      %s = %s;\n' % (field.name, value)
    return 'pub record Held{0} (r : {0}) : Type 0 where\n{1}'.format(name, holds), HELD_RECORD.format(kebab(name), name, values)


def held():
    definitions, lemmas = zip(*(held_record(name, fields) for name, fields in RECORDS.items()))
    contracts = ''.join('use Rattle.{0}.specs.contracts.{0}.{1} as The{1}\n'.format(HOME[name], name) for name in NAMES)
    write('specs/Held.antt', HELD_HEAD % (BY, DECLARED), HELD, *definitions)
    write('proofs/Held.antt', HELD_PROOF_HEAD % (BY, ', '.join('Held' + name for name in NAMES), DECLARED, contracts), HELD_PROOF, *lemmas)


def main():
    equality()
    equality_laws()
    blanks()
    held()
    subprocess.run(['rt', 'fmt'], cwd=CRATE, check=True)


main()
