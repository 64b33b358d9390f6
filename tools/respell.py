#!/usr/bin/env python3
"""Respells this repository's own antt names as today's Rattle does: words in snake case, types in camel case.

usage: tools/respell.py [FOLDER] [--list]     at the top of the repository, once, after the kit's port.py

It turns each name with a dash, in specs/, proofs/ and the clauses of src/, and keeps what stands in comments, strings
and Rust code. Names that a file takes from a library of the kit keep their spelling. --list prints, for each crate,
the names that it would turn, and writes nothing. It stops, writing nothing, where two names would fall together in a file.
"""

import collections
import glob
import os
import re
import sys

NAME = re.compile(r"(?<![\w'.·◌⟦-])[^\W\d_][\w']*(?:-[\w']+)+(?![\w'-])|(?<=\.)[^\W\d_][\w']*(?:-[\w']+)+(?![\w'-])")
USE = re.compile(r"(?m)^\s*(?:pub )?(?:ghost )?use ([\w.'+-]+)\.\{([^}]*)\}")
MADE = re.compile(r"(?:\btie|Memᴰ)\.$")  # what Rattle makes, and a module of the library that is named whole
# a lemma whose plain spelling is a word of the library that its files use
OTHERWISE = {"bit-or": "or_bit"}


def crates(top):
    return sorted(c for c in os.listdir(os.path.join(top, "crates")) if os.path.isdir(os.path.join(top, "crates", c)))


def files(top, crate):
    base = os.path.join(top, "crates", crate)
    for kind in ("specs/**/*.antt", "proofs/**/*.antt", "src/**/*.rt"):
        yield from sorted(glob.glob(os.path.join(base, kind), recursive=True))


def library_names(top, own):
    """Names with a dash that some file imports from a library."""
    found = set()
    for crate in own:
        for path in files(top, crate):
            with open(path, encoding="utf-8") as f:
                text = f.read()
            for m in USE.finditer(text):
                root = m[1].split(".")
                if root[0] == "Rattle" and root[1] in own:
                    continue
                found |= {n.strip() for piece in m[2].split(",") for n in re.split(r"\s+as\s+", piece)[:1]}
    return {n for n in found if "-" in n}


def spelled(name):
    if name in OTHERWISE:
        return OTHERWISE[name]
    if name[0].isupper():
        return "".join(part[:1].upper() + part[1:] for part in name.split("-"))
    return name.replace("-", "_")


def pieces(path, text):
    """The text cut into parts, each with whether its names are antt's own: no comment, no string, no Rust."""
    if path.endswith(".antt"):
        at = 0
        for m in re.finditer(r"(?m)(?:^|(?<=\s))--(?:\s.*)?$", text):
            yield text[at : m.start()], True
            yield m[0], False
            at = m.end()
        yield text[at:], True
        return
    at = 0
    for m in re.finditer(r"(?m)^\s*(?:pub )?ghost use .*$|\b(?:requires|ensures)\b\*?(?: \w+)? \{|\bghost \w+: \{", text):
        if m.start() < at:
            continue
        end = m.end()
        if m[0].endswith("{"):
            deep = 1
            while deep:
                deep += {"{": 1, "}": -1}.get(text[end], 0)
                end += 1
        yield text[at : m.start()], False
        yield text[m.start() : end], True
        at = end
    yield text[at:], False


def turned(path, text, keep, seen):
    out = []
    for part, own in pieces(path, text):
        if own:

            def put(m):
                name = m[0]
                if name in keep or MADE.search(part[: m.start()]):
                    return name
                seen[name] += 1
                return spelled(name)

            part = NAME.sub(put, part)
        out.append(part)
    return "".join(out)


def main(argv):
    top = next((a for a in argv if not a.startswith("-")), ".")
    own = crates(top)
    keep = library_names(top, own)
    new, listed, clash = {}, {}, []
    for crate in own:
        seen = collections.Counter()
        for path in files(top, crate):
            with open(path, encoding="utf-8") as f:
                text = f.read()
            mine = collections.Counter()
            new[path] = turned(path, text, keep, mine)
            seen += mine
            words = set(re.findall(r"(?<![\w'.])[^\W\d][\w']*(?![\w'.-])", re.sub(r"(?m)^\s*(?:pub )?use [\w.'+-]+$|\bas [\w]+$", "", "".join(p for p, own_part in pieces(path, text) if own_part))))
            clash += [f"{os.path.relpath(path, top)}: {n} and {spelled(n)}" for n in sorted(mine) if spelled(n) in words]
        listed[crate] = sorted(seen)
    if "--list" in argv:
        for crate, names in listed.items():
            print(f"{crate}: {', '.join(names) or 'none'}")
        return 0
    if clash:
        print("\n".join(clash), file=sys.stderr)
        print(f"respell: {len(clash)} names would fall together; nothing was written", file=sys.stderr)
        return 1
    for path, text in new.items():
        with open(path, "w", encoding="utf-8") as f:
            f.write(text)
    print(f"respell: {sum(len(n) for n in listed.values())} names in {len(listed)} crates")
    return 0


if __name__ == "__main__":
    raise SystemExit(main(sys.argv[1:]))
