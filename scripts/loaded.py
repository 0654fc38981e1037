#!/usr/bin/env python3
"""Says what a check of a crate loads, and what that is made of: scripts/loaded.py [-n COUNT]
CRATE..

A check loads the theorem of each function that it calls, with all that its proof imports. The
memory of a check goes by the size of these stored modules (docs/PROVING.md, "Times"), so this tells
where it goes. It reads the import lines of the modules that `rt check` has kept of the crate, in
crates/CRATE/out/incremental, and of those of the libraries below, in their rlibs, and follows them.
It proves nothing and takes seconds.
"""
import collections
import glob
import mmap
import os
import sys

sys.dont_write_bytecode = True
import kit  # noqa: E402

# What Rattle makes of a function, by the module's last name; `Proof` is its author's, but for those
# that Rattle finds by itself.
MADE = {
    "Lts": "derivation of the code (Lts)", "Tie": "Tie", "Reads": "Reads", "Mir": "Mir", "Code": "Code", "Layout": "Layout", "Kinds": "Kinds",
    "Proof": "Proof", "Statement": "Statement", "Met": "Met",
}


def imports_of(text):
    """The modules that a stored module imports: the lines of its header."""
    head = text.partition(b"\n--@ declarations")[0]
    return [line.split()[2].decode() for line in head.split(b"\n") if line.startswith(b"--@ import ")]


def archived(path):
    """The modules of an rlib's archive: the name of each, and its text."""
    with open(path, "rb") as file, mmap.mmap(file.fileno(), 0, access=mmap.ACCESS_READ) as whole:
        at, names = 8, b""
        while at + 60 <= len(whole):
            name, size = whole[at:at + 16].strip(), int(whole[at + 48:at + 58])
            if name == b"//":
                names = whole[at + 60:at + 60 + size]
            elif name[1:].isdigit():
                start = int(name[1:])
                yield names[start:names.index(b"\n", start)].rstrip(b"/").decode(), whole[at + 60:at + 60 + size]
            at += 60 + size + size % 2


class Modules:
    """Every stored module that a crate can load, with its library, its size and what it imports."""

    def __init__(self, crate):
        self.library, self.size, self.imports = {}, {}, {}
        own, of_kit = kit.below(crate)
        for folder in glob.glob(f"crates/{crate}/out/incremental/antt-checked-*"):
            for path in glob.glob(f"{folder}/Rattle-{crate}*.oantt"):
                self.add_file(crate, path)
        for path in glob.glob(f"{kit.folder()}/logic_built/*.oantt"):
            self.add_file("the logic", path)
        places = {name: f"crates/{name}/out/rlib/{name}.rlib" for name in own}
        # the kit's libraries, each with those that it uses
        kits = list(dict.fromkeys(["std"] + of_kit))
        for name in kits:
            with open(f"{kit.folder()}/rlibs/{name}.rlib/format", encoding="utf-8") as file:
                kits += [line.split()[1] for line in file if line.startswith("dep ") and line.split()[1] not in kits]
        places.update({name: f"{kit.folder()}/rlibs/{name}.rlib" for name in kits})
        for name, place in places.items():
            if os.path.exists(f"{place}/toolchain/checked.a"):
                for module, text in archived(f"{place}/toolchain/checked.a"):
                    self.add(name, module, text)

    def add_file(self, library, path):
        with open(path, "rb") as file:
            self.add(library, path, file.read())

    def add(self, library, path, text):
        module = os.path.basename(path).removesuffix(".oantt")
        if path.endswith(".oantt") and module not in self.size:
            self.library[module], self.size[module], self.imports[module] = library, len(text), imports_of(text)

    def stored(self, module):
        """A module by the name under which another one imports it: `Rattle-x.specs.M` is `Rattle-x-specs.M`."""
        named = [module, module.replace(".specs.", "-specs.", 1), module.replace(".proofs.", "-proofs.", 1)]
        return next((name for name in named if name in self.size), None)

    def closure(self, roots):
        """The modules, and all that they import."""
        seen, left = set(), list(roots)
        while left:
            module = self.stored(left.pop())
            if module and module not in seen:
                seen.add(module)
                left += self.imports[module]
        return seen

    def roots(self, crate):
        """The crate's own modules."""
        return [module for module, library in self.library.items() if library == crate]


def report(modules, crate, count):
    roots = modules.roots(crate)
    if not roots:
        sys.exit(f"loaded.py: nothing is stored that {crate} loads: prove it first (rt check in crates/{crate})")
    loaded = modules.closure(roots)
    mb = lambda chosen: sum(modules.size[module] for module in chosen) / 1e6
    print(f"{crate}: {len(loaded)} modules, {mb(loaded):.1f} MB; {sum(module.endswith('.Lts') for module in loaded)} functions")
    for title, key in (
        ("by library", lambda module: modules.library[module]),
        ("by kind", lambda module: "the logic" if modules.library[module] == "the logic" else MADE.get(module.rsplit(".", 1)[-1], "other")),
    ):
        parts = collections.defaultdict(list)
        for module in loaded:
            parts[key(module)].append(module)
        print(f"  {title}")
        for name, chosen in sorted(parts.items(), key=lambda part: -mb(part[1])):
            print(f"    {mb(chosen):7.1f} MB {len(chosen):5d}  {name}")
    for module in sorted(loaded, key=lambda module: -modules.size[module])[:count]:
        print(f"    {mb([module]):7.2f} MB  {module}")


def main():
    words = sys.argv[1:]
    count = int(words[1]) if words[:1] == ["-n"] else 10
    crates = words[2:] if words[:1] == ["-n"] else words
    if not crates or crates[0].startswith("-"):
        sys.exit(__doc__)
    for crate in crates:
        report(Modules(crate), crate, count)


if __name__ == "__main__":
    main()
