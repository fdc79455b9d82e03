#!/usr/bin/env python3
"""Gives the repository's own definitions and lemmas the spelling of today's Rattle: words in snake case.

usage: python3 tools/spelling.py          at the top of the repository, once, right after the toolchain's port.py
       python3 tools/spelling.py --list   prints the new names only, and which of them fall together

What is renamed is what crates/*/specs/*.antt and crates/*/proofs/*.antt declare: `nodeTurn` is `node_turn`, `found-here` is `found_here`.
A dash stays where it joins the names of two definitions, as in `length-big_endian`. A lemma that would get a definition's name ends in `_lem`.
Functions of src/, exported names, strings, types and modules keep their names. Everything goes by whole words, in .antt files, in the clauses of
.rt files, in must-fail edits and in the documents.
"""

import collections
import glob
import re
import sys

MODIFIERS = r"(?:(?:pub|abbrev|unfoldable)\s+)*"
ALIAS = re.compile(r"\bas ([a-z]\w*[A-Z]\w*)")
DECLARED = re.compile(r"^\s*" + MODIFIERS + r"([^\s(){}\[\];,.:=|λ]+)\s+:\s")
WORD = re.compile(r"[^\s(){}\[\];,.:λ`'\"|/]+(?:'+)?")
STD = set("length take drop map filter replicate sum get_or append reverse zip_with fold not max min".split())
DOCUMENTS = ["README.md", "docs/*.md", "docs/changes/*.md", "mutants/*.md", "examples/README.md", "fuzz/README.md"]
# names that fall together otherwise, or hide a parameter
BY_HAND = {
    "get_d_map": "get_or_map",
    "get_d_zip": "get_or_zip",
    "accepted-is-laid-out": "accepted_is_laid_out",
    "worked-is-laid-out": "worked_is_laid_out",
    "read-is-laid-out": "read_is_laid_out",
    "waits-within-places": "waits_within_places",
    "not-before-itself": "not_before_itself",
    "made-at-0": "made_at_0",
    "weaklyBefore": "stamps_weakly_before",
    "bit-or": "bit-bit_or",
    "bit-and": "bit-bit_and",
    "bit-xor": "bit-bit_xor",
    "bytes_down": "bytes_down_lem",
    "goes_to": "goes_to_lem",
    "made_at": "made_at_lem",
    "made_ends": "made_ends_lem",
    "number_read": "number_read_lem",
    "one_more": "one_more_lem",
    "turn_at": "turn_at_lem",
}


def snake(word):
    word = re.sub(r"(?<=[a-z0-9])([A-Z])", lambda m: "_" + m[1].lower(), word)
    return word


def read(path):
    with open(path, encoding="utf-8") as f:
        return f.read()


def declared():
    """The names that are declared, each with the kinds of files that declare it: specs or proofs."""
    names = collections.defaultdict(set)
    for kind in ("specs", "proofs"):
        for path in glob.glob(f"crates/*/{kind}/*.antt"):
            for line in read(path).splitlines():
                m = DECLARED.match(line)
                if m and not line.lstrip().startswith("--") and m[1] not in ("let", "_"):
                    names[m[1]].add(kind)
                for alias in ALIAS.findall(line) if line.startswith("use ") else []:
                    names[alias].add(kind)
    return names


def spelled(name, functions):
    """The new name: its words in snake case, a dash only between the names of two functions."""
    if name in BY_HAND:
        return BY_HAND[name]
    if "◌" in name:
        return "◌".join(snake(p) for p in name.split("◌"))
    if name[0].isupper() and "-" not in name:
        return name
    parts = [snake(p) for p in name.replace("getD", "get_or").split("-")]
    if parts[0][0].isupper():
        parts[0] = parts[0][0].lower() + parts[0][1:]
    new, last = parts[0], parts[0]
    for p in parts[1:]:
        if not re.match(r"[\w']+$", p) or (last in functions and p in functions):
            new, last = new + "-" + p, p
        else:
            new, last = new + "_" + p, last + "_" + p
    return new


def mapping(names):
    functions = STD | {snake(n) for n, kinds in names.items() if "specs" in kinds and "-" not in n and not n[0].isupper()}
    new = {n: spelled(n, functions) for n in names}
    taken = collections.defaultdict(list)
    for n, m in new.items():
        taken[m].append(n)
    for m, olds in taken.items():
        if len(olds) > 1:
            for n in olds:
                if n != m and "-" in n:
                    new[n] = m + "_lem"
    words = {"meetAndWait": "meet_and_wait", "typedS": "typed_s"}  # declared with others in one line
    for n, m in new.items():
        if n == m:
            continue
        if "◌" in n:
            words.update(zip(n.strip("◌").split("◌"), m.strip("◌").split("◌")))
        words[n] = m
    return words


def turned(text, words):
    """Each word by the new name: in a `use` line what stands in its braces; a word that had today's form already only where no dot is before it."""

    def one(m):
        start = text.rfind("\n", 0, m.start()) + 1
        line = text[start : m.start()]
        if re.match(r"\s*(?:pub\s+|ghost\s+)?use\s", line) and "{" not in line:
            return m[0]
        if re.fullmatch(r"[a-z_]+", m[0]) and line.endswith("."):
            return m[0]
        return words.get(m[0], m[0])

    return WORD.sub(one, text)


def paths():
    for pattern in ["crates/**/*.antt", "crates/*/src/*.rt", "crates/*/must-fail/*.edit", *DOCUMENTS]:
        yield from sorted(p for p in glob.glob(pattern, recursive=True) if "/out/" not in p and not p.startswith("docs/PORT"))


def falling_together(names, words):
    """Names that are one afterwards, and new names that a file already has as a word of its own."""
    new = collections.defaultdict(set)
    for n in names:
        new[words.get(n, n)].add(n)
    for m, olds in sorted(new.items()):
        if len(olds) > 1:
            print("one name:", m, sorted(olds))
    for path in paths():
        if not path.endswith((".antt", ".rt")):
            continue
        found = set(WORD.findall(read(path)))
        for n in sorted(found & set(words)):
            if words[n] in found and words[n] not in words:
                print("in one file:", path, n, words[n])


def main():
    if sys.argv[1:] not in ([], ["--list"]):
        print(__doc__)
        raise SystemExit(2)
    names = declared()
    words = mapping(names)
    if "--list" in sys.argv:
        for n, m in sorted(words.items()):
            print(n, m)
        falling_together(names, words)
        return
    for path in paths():
        old = read(path)
        here = words if path.endswith(".antt") else {n: m for n, m in words.items() if re.search(r"[a-z][A-Z0-9]", n)}
        new = turned(old, here)
        if new != old:
            with open(path, "w", encoding="utf-8") as f:
                f.write(new)


main()
