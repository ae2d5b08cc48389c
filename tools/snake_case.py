#!/usr/bin/env python3
"""Brings the repository's own definitions, lemmas, fields and modules of specs/ and proofs/ to snake case and camel case.

usage: python3 tools/snake_case.py [TOP]     at the top of the repository, or with its path

A name is the repository's own where a file of specs/ or proofs/ declares it, or where an import gives it by 'as'. A goal's name, which
the toolchain makes, stays: it is one that is answered with 'goal.'. A dash in a name of a value becomes an underscore; in a name of
a module or a type the word after it gets a capital. Names of src/ are not touched. A lemma that would get the name of a function of
src/, which stands in paths as a module, gets '_lem' behind it; where such a name follows a dot it is a step of a proof, and stays. If
another two names would fall together they are listed, and nothing is written; but a name may become that of a field of a struct of src/,
since fields of different types may share one. In .rt files, too, the names stand in clauses, so these are written as well; whole lines of
comment stay.
"""

import os
import re
import sys

TOKEN = re.compile(r"[^\s(){}\[\].,;:=λ→⌜⌝«»]+")
DECLARES = re.compile(r"^\s*(?:abbrev |unfoldable |pub |record |data |module )*([^\s(){}:,;.]+)\s+:\s")
HEAD = re.compile(r"^\s*(?:abbrev |unfoldable |pub )*(?:record|data|module) ([^\s(){}:]+)")
ALIAS = re.compile(r"\bas ([^\s(){},;]+)")


def files(top, *ends):
    for folder, dirs, names in os.walk(os.path.join(top, "crates")):
        dirs[:] = sorted(d for d in dirs if d != "out")
        for name in sorted(names):
            if name.endswith(ends):
                yield os.path.join(folder, name)


def read(path):
    with open(path, encoding="utf-8") as f:
        return f.read()


def new_name(name):
    if name[0].isupper():
        first, *rest = name.split("-")
        return first + "".join(word[0].upper() + word[1:] for word in rest)
    return name.replace("-", "_")


def crate(top, path):
    return os.path.relpath(path, os.path.join(top, "crates")).split(os.sep)[0]


def declared(top):
    """The names to turn, each with the crates that declare it."""
    own = {}
    for path in files(top, ".antt", ".rt"):
        antt = path.endswith(".antt")

        def note(name):
            own.setdefault(name, set()).add(crate(top, path))

        for line in read(path).splitlines():
            if line.lstrip().startswith(("use ", "pub use ", "ghost use ")):
                for name in ALIAS.findall(line):
                    note(name)
                continue
            if not antt or line.lstrip().startswith("--"):
                continue
            head = HEAD.match(line)
            if head:
                note(head.group(1))
            it = DECLARES.match(line)
            if it and "goal." not in line and not line.lstrip().startswith("let "):
                note(it.group(1))
        name = os.path.basename(path)[:-5]
        if antt and name[0].isupper():
            note(name)
    return {name: at for name, at in own.items() if "-" in name and name != "_" and not name.startswith("-") and not name.endswith("-") and re.match(r"^[A-Za-z][\w'-]*$", name)}


def functions(top):
    """The functions of src/, which proof files name in paths, with their crates, and the fields of the structs there."""
    own, fields = {}, set()
    for path in files(top, ".rt"):
        for name in re.findall(r"\bfn ([a-z_0-9]+)", read(path)):
            own.setdefault(name, set()).add(crate(top, path))
        fields.update(re.findall(r"^\s+(?:pub )?([a-z_0-9]+): ", read(path), re.M))
    return own, fields


def turned(text, names, lemmas, antt):
    def one(m):
        word = m.group(0)
        if word in lemmas and text_before(m) == ".":
            return word
        return names.get(word, word)

    def text_before(m):
        return m.string[m.start() - 1 : m.start()]

    lines = text.split("\n")
    for i, line in enumerate(lines):
        if line.lstrip().startswith("--" if antt else "//"):
            continue
        lines[i] = TOKEN.sub(one, line)
    return "\n".join(lines)


def main():
    top = sys.argv[1] if len(sys.argv) > 1 else "."
    homes = declared(top)
    names = {name: new_name(name) for name in homes}
    seen = set()
    for path in files(top, ".antt"):
        for line in read(path).splitlines():
            if not line.lstrip().startswith("--"):
                seen.update(TOKEN.findall(line))
    own, fields = functions(top)
    lemmas = {name for name, to in names.items() if to not in fields and own.get(to, set()) & homes[name]}
    names.update((name, new_name(name) + "_lem") for name in lemmas)
    clash = sorted(f"{a} -> {b}" for a, b in names.items() if b in seen and b not in fields)
    twice = [name for name in names if list(names.values()).count(names[name]) > 1]
    clash += sorted(f"{name} -> {names[name]}" for name in twice)
    if clash:
        print("these would fall together with another name:")
        print("\n".join(clash))
        return 1
    changed = 0
    for path in files(top, ".antt", ".rt"):
        text = read(path)
        new = turned(text, names, lemmas, path.endswith(".antt"))
        if new != text:
            with open(path, "w", encoding="utf-8") as f:
                f.write(new)
            changed += 1
        folder, name = os.path.split(path)
        stem = name[:-5]
        if name.endswith(".antt") and stem in names:
            os.rename(path, os.path.join(folder, names[stem] + ".antt"))
    print(f"{len(names)} names, {changed} files")
    return 0


if __name__ == "__main__":
    sys.exit(main())
