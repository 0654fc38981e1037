"""Where the kit's parts are, and what crates.txt says of the crates: scripts/unproved.py, library.py
and trial.py use it. The kit's folder is that of the page that `rt doc` names."""
import functools
import hashlib
import os
import re
import subprocess
import sys
import tempfile

TOP = os.path.dirname(os.path.dirname(os.path.abspath(__file__)))


@functools.lru_cache(maxsize=None)
def folder():
    """The kit's folder."""
    try:
        return os.path.dirname(os.path.realpath(subprocess.check_output(['rt', 'doc'], text=True).strip()))
    except FileNotFoundError:
        sys.exit("the Rattle kit's command rt is not on the PATH")


def listed(top='.'):
    """What crates.txt says: for each crate, in its order, whether it is a static library, and what it
    depends on."""
    found = {}
    with open(os.path.join(top, 'crates.txt'), encoding='utf-8') as file:
        for line in file:
            words = re.fullmatch(r'(\w+)( +staticlib)? *(?:: *(.*))?', line.partition('#')[0].strip())
            if words:
                found[words[1]] = bool(words[2]), (words[3] or '').split()
    return found


def libraries(name, top='.'):
    """What the crate depends on, as crates.txt has it."""
    crates = listed(top)
    if name not in crates:
        sys.exit('crates.txt has no ' + name)
    return crates[name][1]


def below(name, top='.'):
    """The libraries of the repository below a crate, each after those that it uses, and those of the
    kit that they all name."""
    crates, own, of_kit = listed(top), [], []

    def walk(one):
        for library in crates[one][1]:
            if library not in crates:
                of_kit.extend([library] * (library not in of_kit))
            elif library not in own:
                walk(library)
                own.append(library)

    if name not in crates:
        sys.exit('crates.txt has no ' + name)
    walk(name)
    return own, of_kit


def kit_sources(names):
    """The words that pass libraries of the kit, and those that they use, as source."""
    words, names = [], list(dict.fromkeys(names))
    for name in names:
        with open(f'{folder()}/rlibs/{name}.rlib/format', encoding='utf-8') as file:
            uses = re.findall(r'^dep (\w+)$', file.read(), re.M)
        names += [use for use in uses if use not in names]
        words += ['--lib', f"{name}:{','.join(uses)}={folder()}/rattle/{name}/src/lib.rt"]
    return words


def check_words(name, top='.'):
    """The words by which `rattle check` and `rattle build`, run in the crate's folder, read a crate
    over libraries that are built."""
    own, _ = below(name, top)
    program = os.path.isfile(os.path.join(top, f'crates/{name}/src/main.rt'))
    words = ['--crate-name', name, 'src/main.rt' if program else 'src/lib.rt']
    for library in ['std'] + libraries(name, top):
        place = f'../{library}/out/rlib' if library in own else f'{folder()}/rlibs'
        words += ['--extern', f'{library}={place}/{library}.rlib']
    words += ['-L', f'dependency={folder()}/rlibs']
    for library in own:
        words += ['-L', f'dependency=../{library}/out/rlib']
    words += ['--antt-project', f'{folder()}/rattle/logic/antt-project.json', '--logic-built', f'{folder()}/logic_built']
    return words + (['--crate-type', 'staticlib'] if listed(top)[name][0] else [])


def room(name):
    """A folder for copies of the crates, of this checkout's own and outside of it: `rt ci` refuses a
    checkout in which a copy lies, since no check reads it."""
    own = hashlib.sha256(TOP.encode()).hexdigest()[:12]
    return os.path.join(tempfile.gettempdir(), f'voter-slots-{own}', name)
