#!/usr/bin/env python3
"""Builds the fuzzing harness, target/fuzz/harness, or the program that is named. bin/fuzz runs it, from the root of the repository.

    python3 fuzz/build.py [OUT [LIBRARY [PROGRAM]]]

Linked are the original Rust with the oracle's modules and fuzz/src, all with counters, and the port twice: as it is delivered
(target/staticlib/libvoter_slots.a and crates/replay/out/replay.o, or the two files named), and from the same source with counters.
The latter is compiled by scripts/unproved.py, which proves nothing: it tells the fuzzer how far an input gets. It takes a minute or
two from nothing, and seconds where the source is as it was.
"""
import glob
import os
import shutil
import subprocess
import sys

sys.path.append('scripts')
import kit  # noqa: E402

WORK = 'target/fuzz'
RUST_TARGET = 'x86_64-unknown-linux-gnu'
# Counters at each edge, the table of their addresses, and calls at each comparison.
CLANG_WORDS = ('-Xclang -fsanitize-coverage-type=3 -Xclang -fsanitize-coverage-inline-8bit-counters '
               '-Xclang -fsanitize-coverage-pc-table -Xclang -fsanitize-coverage-trace-cmp')
RUST_WORDS = ('-C passes=sancov-module -C llvm-args=-sanitizer-coverage-level=3 -C llvm-args=-sanitizer-coverage-inline-8bit-counters '
              '-C llvm-args=-sanitizer-coverage-pc-table -C llvm-args=-sanitizer-coverage-trace-compares -C codegen-units=1')
EXPORTS = ['voter_slots_' + kind + name for kind in ('', 'table_') for name in ('read', 'write', 'apply', 'observe', 'retired')]
CONSTRUCTOR = 'sancov.module_ctor_8bit_counters'


def run(*words, **more):
    subprocess.run(words, check=True, **more)


def code_copy(name):
    """A copy of the crates' code, outside of the checkout."""
    folder = kit.room(name)
    shutil.rmtree(folder, ignore_errors=True)
    shutil.copytree('crates', folder + '/crates', ignore=shutil.ignore_patterns('proofs', 'specs', 'must-fail', 'stdin', 'stdout', 'out'))
    shutil.copy('crates.txt', folder)
    return folder


def compiled(folder, clang_words):
    """The library and the replay program's object file, from the code in a folder, with more words for the compiler."""
    environment = dict(os.environ, UNPROVED_CLANG=clang_words, UNPROVED_OBJECT='1')
    for words in (['library', 'voter_slots'], ['program', 'replay', 'replay.o']):
        run(sys.executable, '-B', os.path.abspath('scripts/unproved.py'), *words, cwd=folder, env=environment, stdout=subprocess.DEVNULL)
    return folder + '/target/staticlib/libvoter_slots.a', folder + '/replay.o'


def only_object(archive):
    """The one object file of an archive."""
    folder = WORK + '/archive'
    shutil.rmtree(folder, ignore_errors=True)
    os.makedirs(folder)
    run('ar', 'x', os.path.abspath(archive), cwd=folder)
    (found,) = glob.glob(folder + '/*')
    return found


def renamed(source, out, names, part=None):
    """A copy of an object file with some names changed, and no other name visible. The counters of a part get sections of their own,
    so that they can be told from the others'."""
    words = ['objcopy']
    for old, new in names.items():
        words += ['--redefine-sym', f'{old}={new}']
    if part:
        words += ['--redefine-sym', f'{CONSTRUCTOR}={part}_{CONSTRUCTOR}']
        for section in ('cntrs', 'pcs'):
            words += ['--rename-section', f'__sancov_{section}={part}_{section}']
            for end in ('start', 'stop'):
                words += ['--redefine-sym', f'__{end}___sancov_{section}=__{end}_{part}_{section}']
    words += [word for new in names.values() if not new.startswith('fuzz_') for word in ('--keep-global-symbol', new)]
    run(*words, source, out)
    return out


def program_names(kind):
    return {'main': kind + '_replay_main', 'read': 'fuzz_read', 'write': 'fuzz_write'}


def build_rust():
    """The harness and the original, with counters."""
    environment = dict(os.environ, RUSTFLAGS=RUST_WORDS, CARGO_TARGET_DIR=os.path.abspath(WORK + '/cargo'))
    run('cargo', 'build', '--release', '--offline', '--quiet', '--target', RUST_TARGET, cwd='fuzz', env=environment)
    return f'{WORK}/cargo/{RUST_TARGET}/release/libfuzz.a'


def guided_parts():
    """The library and the replay program with counters. They are made again where some code is newer."""
    parts = [f'{WORK}/guided-{part}.o' for part in ('library', 'program')]
    newest = max(map(os.path.getmtime, glob.glob('crates/*/src/*') + [__file__]))
    if not all(os.path.exists(part) and os.path.getmtime(part) > newest for part in parts):
        library, program = compiled(code_copy('fuzz'), CLANG_WORDS)
        renamed(only_object(library), parts[0], {name: 'guided_' + name for name in EXPORTS}, 'library')
        renamed(program, parts[1], program_names('guided'), 'program')
    return parts


def main(out=WORK + '/harness', library='target/staticlib/libvoter_slots.a', program='crates/replay/out/replay.o'):
    os.makedirs(WORK, exist_ok=True)
    rust = build_rust()
    guided = guided_parts()
    plain = [renamed(only_object(library), out + '-library.o', {name: name for name in EXPORTS}),
             renamed(program, out + '-program.o', program_names('plain'))]
    entries = ['-Wl,-u,LLVMFuzzerCustomMutator', '-Wl,-u,LLVMFuzzerCustomCrossOver']
    run('clang', '-fsanitize=fuzzer', '-fuse-ld=lld', '-no-pie', *entries, '-o', out, 'fuzz/src/parts.c', rust, *guided, *plain,
        f'{kit.folder()}/c/libos_c.a', f'{kit.folder()}/c/liblibc_c.a', '-lpthread', '-ldl', '-lm')


if __name__ == '__main__':
    main(*sys.argv[1:])
