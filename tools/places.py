#!/usr/bin/env python3
"""Lists the places in crates/*/src that may be written in a newer form, a point at a time: tools/places.py POINT [FOLDER].
FOLDER is a checkout, this one if none is given. By text alone: it lists places to look at, and judges nothing.

1  own enums, numbers that stand for kinds, refusals or 'none', tuples of bare values
2  functions of one name in several files, and methods that only hand on to one of two variants
3  loops over a range of numbers
4  conversions, defaults and printing by hand
5  a fact that stands in the contracts of three or more functions of a crate, and parameters that travel together in three or more
6  arrays of fixed length that are used in part, lengths that are kept beside a buffer
7  macros, and a match on a name, a kind or a number that says which step to run
8  files and lines of answers"""
import collections
import glob
import os
import re
import sys


def files(folder):
    for path in sorted(glob.glob(os.path.join(folder, "crates/*/src/*.rt"))):
        with open(path, encoding="utf-8") as f:
            yield path[len(folder) + 1:], f.read()


def lines(folder, *patterns):
    found = []
    for path, text in files(folder):
        for n, line in enumerate(text.split("\n"), 1):
            if any(re.search(p, line) for p in patterns):
                found.append(f"{path}:{n}: {line.strip()}")
    return found


def functions(text):
    """Name, parameters and clauses of each function."""
    for m in re.finditer(r"\bfn (\w+)(?:<[^(]*>)?\(", text):
        deep, i = 1, m.end()
        while deep:
            deep += {"(": 1, ")": -1}.get(text[i], 0)
            i += 1
        params = text[m.end():i - 1]
        j = i
        clauses = []
        while True:
            c = re.compile(r"\s*(?:->[^{]*?)?\s*\b(requires|ensures)(?: (\w+))? \{").match(text, j)
            if not c:
                break
            deep, k = 1, c.end()
            while deep:
                deep += {"{": 1, "}": -1}.get(text[k], 0)
                k += 1
            clauses.append((c[1], " ".join(text[c.end():k - 1].split())))
            j = k
        yield m[1], [" ".join(p.split()) for p in re.split(r",(?![^<(]*[>)])", params) if p.strip()], clauses


def point_1(folder):
    return lines(folder, r"^\s*(pub(\(crate\))? )?enum \w+", r"\bkind\b", r"const \w+: u8 =", r"-> u8\b",
                 r"-> (Result<)?\((u|bool)", r"(//|///) .*\b(0|9) where\b", r"(//|///) .*or the number of", r"-> anyhow::Result<bool>",
                 r"\bfield: u8\b", r"\bfalse where\b")


def point_2(folder):
    where = collections.defaultdict(list)
    for path, text in files(folder):
        for name, _, _ in functions(text):
            if name not in ("fmt", "from", "new", "main"):
                where[name].append(path)
    found = [f"fn {name}: {', '.join(paths)}" for name, paths in sorted(where.items()) if len(paths) > 1]
    return found + lines(folder, r"on_\w+!\(", r"\b(Shift|Table)\(\$?\w+\) =>")


def point_3(folder):
    return lines(folder, r"\bfor \w+ in \(?[\w.() ]+\.\.", r"\bwhile\b", r"\bloop\b")


def point_4(folder):
    return lines(folder, r"\bfn (of|to|as|into|read|write|number)_\w+", r"\bfn (empty|row|refusal|number|reason|eq|cmp|clone|default|narrow)\(",
                 r"write!\(f, \" \{shift", r"\bfn (print|tell)_\w*answer")


def point_5(folder):
    found = []
    facts, groups = collections.defaultdict(set), collections.defaultdict(set)
    for path, text in files(folder):
        crate = path.split("/")[1]
        for name, params, clauses in functions(text):
            for _, fact in clauses:
                facts[crate, re.sub(r"\.(now|old|new|entry)\b", "", fact)].add(f"{path}:{name}")
            names = [p for p in params if not re.match(r"&?('\w+ )?(mut )?self$", p)]
            for a in range(len(names)):
                for b in range(a + 3, len(names) + 1):
                    groups[crate, tuple(names[a:b])].add(f"{path}:{name}")
    for (crate, fact), users in sorted(facts.items()):
        if len(users) >= 3:
            found.append(f"{crate}: {fact[:150]}: {len(users)} functions")
    wide = {k: v for k, v in groups.items() if len(v) >= 3}
    for (crate, group), users in sorted(wide.items()):
        if not any(c == crate and g != group and set(group) < set(g) and users <= u for (c, g), u in wide.items()):
            found.append(f"{crate}: ({', '.join(group)}): {len(users)} functions")
    return found


def point_6(folder):
    return lines(folder, r"= \[[\w:() ]+; \w+\];", r": \[\w+; \w+\]( = \[0|,$)", r"\bcount: (u8|usize),", r"\bspace\[0\.\.", r"\bfront\(")


def point_7(folder):
    return lines(folder, r"macro_rules!", r"\bmatch (name|words\.next\(\)|change\.kind)\b", r"\bif field == ")


def point_8(folder):
    found = []
    for crate in sorted(glob.glob(os.path.join(folder, "crates/*"))):
        answers = glob.glob(os.path.join(crate, "proofs/**/Answers.antt"), recursive=True)
        lemmas = glob.glob(os.path.join(crate, "proofs/*.antt"))
        count = [sum(len(open(p, encoding="utf-8").read().split("\n")) for p in ps) for ps in (answers, lemmas)]
        found.append(f"{os.path.basename(crate)}: {len(answers)} files of answers, {count[0]} lines; {len(lemmas)} files of lemmas, {count[1]} lines")
    return found


def main():
    if len(sys.argv) not in (2, 3) or sys.argv[1] not in "12345678" or len(sys.argv[1]) != 1:
        sys.exit(__doc__)
    folder = os.path.abspath(sys.argv[2] if len(sys.argv) == 3 else os.path.join(os.path.dirname(os.path.abspath(__file__)), ".."))
    found = globals()[f"point_{sys.argv[1]}"](folder)
    print("\n".join(found))
    print(f"{len(found)} listed")


main()
