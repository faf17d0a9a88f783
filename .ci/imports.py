#!/usr/bin/env python3
"""Tells of names in the braces of an import that stand nowhere else in their file, and of libraries that
crates.txt lists for a crate which never names them.

`rt tidy` drops these from .antt files and leaves those of .rt files. A `pub use` hands its names on,
so it isn't asked. A trait is used by its methods, so Rust's imports of a trait aren't asked either."""

import pathlib
import re
import sys

TOP = pathlib.Path(__file__).resolve().parent.parent
IMPORT = re.compile(r"^[ \t]*(pub use|ghost use|use)\b[^{};\n]*\{([^{}]*)\}", re.M)
PATH = re.compile(r"^[ \t]*(pub use|ghost use|use)\b[ \t]+Rattle\.[^{}\n]*$", re.M)
COMMENT = re.compile(r"^[ \t]*(//|--).*$", re.M)
TRAIT = re.compile(r"\btrait (\w+)")
TRAITS_OF_STD = {"Read", "Write"}


def sources():
    """The files of the crates, but for what was built."""
    for file in sorted(TOP.glob("crates/*/*/**/*")):
        if file.suffix in (".rt", ".antt") and "out" not in file.relative_to(TOP).parts:
            yield file


def traits(texts):
    """The names of the traits that are declared in these texts, or that std has."""
    return TRAITS_OF_STD.union(*map(TRAIT.findall, texts))


def imported(names):
    """The names that an import brings into its file: for `a as b` it is b."""
    for name in names.split(","):
        name = name.strip().split(" as ")[-1].strip()
        if name and name != "self":
            yield name


def is_used(name, text):
    """Whether a name stands in a text. An operator does where each of its parts does."""
    if "◌" in name:
        return all(part in text for part in name.split("◌"))
    if not re.search(r"\w", name):
        return name in text
    return re.search(rf"(?<![\w']){re.escape(name)}(?![\w'])", text) is not None


def unused(text, traits):
    """The line and the name of each import that isn't used."""
    body = COMMENT.sub("", PATH.sub("", IMPORT.sub("", text)))
    for found in IMPORT.finditer(text):
        kind, names = found.groups()
        line = text.count("\n", 0, found.start(1)) + 1
        for name in imported(names):
            is_asked = kind == "ghost use" or kind == "use" and name not in traits
            if is_asked and not is_used(name, body):
                yield line, name


def libraries():
    """Each crate of crates.txt, with the libraries that it lists."""
    for line in (TOP / "crates.txt").read_text(encoding="utf-8").splitlines():
        crate, colon, listed = line.partition("#")[0].partition(":")
        if colon:
            yield crate.split()[0], listed.split()


def unnamed(texts):
    """Each crate, and a library that it lists and never names."""
    for crate, listed in libraries():
        folder = TOP / "crates" / crate
        own = "\n".join(text for file, text in texts.items() if folder in file.parents)
        for library in listed:
            if not is_used(library, own):
                yield crate, library


def main():
    texts = {file: file.read_text(encoding="utf-8") for file in sources()}
    declared = traits(text for file, text in texts.items() if file.suffix == ".rt")
    found = 0
    for file, text in texts.items():
        for line, name in unused(text, declared):
            print(f"{file.relative_to(TOP)}:{line}: {name} is imported and not used")
            found += 1
    for crate, library in unnamed(texts):
        print(f"crates.txt: {crate} lists {library} and never names it")
        found += 1
    print(f"imports and libraries that aren't used: {found}")
    return 1 if found else 0


if __name__ == "__main__":
    sys.exit(main())
