#!/usr/bin/env python3
"""Brings the names of this repository's definitions, lemmas and fields to today's spelling: words in snake case; a dash only between the
names of two definitions, as in `length-tabulate`; a plain word is added by `_`.

usage: python3 tools/respell.py      at the top of the repository, once, after port.py of the toolchain and before any edit by hand

It goes by whole words in .antt files, in the contracts and comments of .rt files, in must-fail edits and in the pages of docs/ and README.md
(in pages and comments only between backticks). Functions of src/, exported names and what programs read and write keep their names: none of
them has a capital inside or a dash. It stops where two names would fall together.
"""
import collections
import os
import re
import subprocess
import sys

WORD = re.compile(r"[^\s(){}\[\];,.:\"`|]+")
DECLARED = re.compile(r"^\s*(?:pub |abbrev |unfoldable |record |data |ruleset )*([^\s(){}\[\];,.:λ`]+)((?: [({].*)?) :(.*)$")
NAME = re.compile(r"^[a-z][A-Za-z0-9₀₁₂₃₄']*([-_≤ℤ⊖*][A-Za-z0-9₀₁₂₃₄'≤ℤ⊖*]+)*$")
# words of the library that the old names or port.py spell otherwise
PARTS = {"getD": "get_or", "get_d": "get_or", "leZ": "le_ℤ", "ltZ": "lt_ℤ"}


def files(end, below="crates"):
    for folder, dirs, names in os.walk(below):
        dirs[:] = sorted(d for d in dirs if d != "out")
        for n in sorted(names):
            if n.endswith(end):
                yield os.path.join(folder, n)


def read(p):
    with open(p, encoding="utf-8") as f:
        return f.read()


def snake(part):
    if part in PARTS:
        return PARTS[part]
    part = re.sub(r"(?<=[a-z0-9])([A-Z])", lambda m: "_" + m.group(1).lower(), part)
    return part


def declared():
    """Each name with the files that declare it, and the names without a dash that specs/ declares."""
    where, words = collections.defaultdict(set), set()
    for p in files(".antt"):
        function = re.search(r"/proofs/.*/Proof\.antt$", p)
        fields = False
        for line in read(p).splitlines():
            if line.lstrip().startswith("--"):
                continue
            if re.match(r"^\s*(pub )?(record|data) ", line):
                fields = True
            elif not line.strip():
                fields = False
            m = DECLARED.match(line)
            if not m or not NAME.match(m.group(1)):
                continue
            if function and re.search(r"\b(tie|lts|goal)\.|\bstatement\b", m.group(2) + m.group(3)):
                continue
            where[m.group(1)].add(p)
            if "/specs/" in p and "-" not in m.group(1) and not fields:
                words.add(snake(m.group(1)))
    return where, words


def imported():
    """The names that use lines bring in from the library."""
    found = set()
    own = {os.path.basename(c) for c in os.listdir("crates")}
    for end in (".antt", ".rt"):
        for p in files(end):
            for m in re.finditer(r"^\s*(?:pub |ghost )?use ([^\s{]+)\.\{([^}]*)\}", read(p), re.M):
                path = m.group(1).split(".")
                if path[0] == "Rattle" and path[1] in own:
                    continue
                found |= {n.strip().split(" as ")[0] for n in m.group(2).split(",")}
    return found


def respelled(name, known):
    parts = [snake(x) for x in name.replace("get_d_", "getD-").split("-")]
    new = parts[0]
    for a, b in zip(parts, parts[1:]):
        new += ("-" if a in known and b in known or not re.match(r"^\w+$", b) else "_") + b
    return new


def main():
    where, words = declared()
    library = imported()
    known = words | {n for n in library if re.match(r"^[a-z][a-z0-9_]*$", n)}
    turned = {}
    for n in sorted(where):
        new = respelled(n, known)
        if new == n:
            continue
        if n in library:
            print(f"left: {n} is also a name of the library")
            continue
        turned[n] = new
    bad = 0
    # a lemma that would have its definition's name, in one crate, gets `_lem`
    for n in [n for n in turned if "-" in n]:
        others = [o for o in where if o != n and turned.get(o, o) == turned[n]]
        if any({p.split("/")[1] for p in where[o]} & {p.split("/")[1] for p in where[n]} for o in others):
            turned[n] += "_lem"
    back = collections.defaultdict(set)
    for n in where:
        back[turned.get(n, n)].add(n)
    for new, olds in sorted(back.items()):
        crates = [p.split("/")[1] for o in olds for p in {q.split("/")[1]: q for q in where[o]}.values()]
        if len(crates) > len(set(crates)) and any(o in turned for o in olds):
            print(f"falls together: {new}: {sorted(olds)}", sorted({p for o in olds for p in where[o]}))
            bad += 1
        if new in library and any(o in turned for o in olds):
            print(f"is a name of the library: {new}: {sorted(olds)}")
            bad += 1
    if "--list" in sys.argv:
        for n in sorted(turned):
            print(n, "→", turned[n])
    if bad and "--force" not in sys.argv:
        print(f"{bad} names fall together; nothing was written")
        return 1
    if "--list" in sys.argv:
        return 0

    def word(m):
        return turned.get(m.group(0), m.group(0))

    def quoted(text):
        return re.sub(r"`[^`\n]*`", lambda m: WORD.sub(word, m.group(0)), text)

    def antt(text):
        out = []
        for line in text.split("\n"):
            code, dash, note = re.match(r"^(.*?)((?:(?<=\s)|^)--(?=\s|$))(.*)$", line).groups() if re.search(r"(^|\s)--(\s|$)", line) else (line, "", "")
            out.append(WORD.sub(word, code) + dash + quoted(note))
        return "\n".join(out)

    changed = 0
    for end in (".antt", ".rt", ".edit"):
        for p in files(end):
            old = read(p)
            new = antt(old) if end == ".antt" else WORD.sub(word, old)
            if new != old:
                changed += 1
                with open(p, "w", encoding="utf-8") as f:
                    f.write(new)
    for p in ["README.md", *files(".md", "docs"), *files(".md", "tests")]:
        old = read(p)
        new = quoted(old)
        if new != old:
            changed += 1
            with open(p, "w", encoding="utf-8") as f:
                f.write(new)
    for c in sorted(os.listdir("crates")):
        subprocess.run(["rt", "fmt"], cwd=os.path.join("crates", c), stdout=subprocess.DEVNULL, stderr=subprocess.DEVNULL)
    print(f"{len(turned)} names, {changed} files")
    return 0


if __name__ == "__main__":
    raise SystemExit(main())
