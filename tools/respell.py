#!/usr/bin/env python3
"""Spells the repository's own definitions and lemmas in snake case: by-weight becomes by_weight, and the type None-pass NonePass.

usage: python3 tools/respell.py [FOLDER]     the top of the repository; this one where none is given

It ran once, after the toolchain's own script had turned the files to the newer Rattle, and is kept so that the two spellings can be
laid side by side. A name is the repository's own where a file of specs/, a lemma file right in proofs/ or a ghost member of a trait
gives its type. Names of goals, which the check makes, and names that some file takes from the library keep their dashes. Nothing is
written where two names would fall together in one file, but for a definition that then has the name of the function which it
describes, as in the library.
"""
import os
import re
import sys

CHAR = r"[\w'\-∘≤≢≡ℕℤ⊎·+*∷≠<>]"
WORD = re.compile(r"(?<!" + CHAR + r")(c\.|l\.|goal\.)?(" + CHAR + "+)")
DEFINED = re.compile(r"^\s*(?:(?:unfoldable|abbrev|pub) )*(?:(?:record|data) ([^\s(){}.,;:|]+)|([^\s(){}.,;:|]+) :(?= ))", re.M)
GHOST = re.compile(r"^\s*ghost (\w+)\s*:", re.M)
LIBRARY = re.compile(r"use (?:Rattle\.(?:std|core)|Prim|mathlib|native|lib|borrow|mir)[.\w]*\.\{([^}]*)\}")
# Fields of a record that share the names of two lemmas of the library: only where they stand tells them apart.
FIELD = re.compile(r"(?<=\.)not-(?:true|false)\b(?![-'])|^ +(?:pub )?not-(?:true|false)(?= [:=] )", re.M)
# Definitions and lemmas that have the name of a function which they describe, or whose contract they are.
DESCRIBED = {
    "at_most", "reason_count", "slot_count", "is_gap", "book_count", "answers_determined", "calls_answered", "chunk_decided",
    "long_runs_end", "promise_kept", "promise_kept_before", "runs_join", "verdicts_agree",
}


def files(top):
    for folder, dirs, names in os.walk(os.path.join(top, "crates")):
        dirs[:] = sorted(d for d in dirs if d not in ("out", "data"))
        for name in sorted(names):
            if name.endswith((".rt", ".antt", ".edit")):
                yield os.path.join(folder, name)


def is_own(path):
    """Whether a file of antt holds definitions or lemmas of the repository, and no answers to goals."""
    parts = path.split(os.sep)
    at = len(parts) - 1 - parts[::-1].index("crates")
    return path.endswith(".antt") and (parts[at + 2] == "specs" or (parts[at + 2] == "proofs" and len(parts) == at + 4))


def snake(name):
    if name[:1].isupper():
        return re.sub(r"-(.)", lambda m: m.group(1).upper(), name)
    if re.fullmatch(r"[a-z][A-Za-z0-9]*[A-Z][A-Za-z0-9]*", name):
        name = re.sub(r"([A-Z])", lambda m: "_" + m.group(1).lower(), name)
    return name.replace("-", "_")


def own_names(top):
    found, taken = set(), set()
    for path in files(top):
        text = open(path, encoding="utf-8").read()
        taken |= library_names(text)
        if is_own(path):
            found.update(a or b for a, b in DEFINED.findall(text))
        elif path.endswith(".rt"):
            found.update(GHOST.findall(text))
    return {n: snake(n) for n in found - taken if snake(n) != n}


def library_names(text):
    """The names that a file takes from the library."""
    return {w.strip() for line in LIBRARY.findall(text) for word in line.split(",") for w in word.split(" as ")}


def respelled(path, old, names):
    """The text with its names respelled, and what would fall together."""
    words = {m.group(2) for m in WORD.finditer(old)}
    clashes = [
        f"{path}: {n} would fall together with {s}"
        for n, s in names.items()
        if n in words and s not in DESCRIBED and (s in words or any(o != n and o in words and t == s for o, t in names.items()))
    ]
    old = FIELD.sub(lambda m: snake(m.group(0)), old)
    generated = not is_own(path)

    def turn(m):
        if m.group(1) and generated:
            return m.group(0)
        return (m.group(1) or "") + names.get(m.group(2), m.group(2))

    return WORD.sub(turn, old), clashes


def main():
    top = sys.argv[1] if len(sys.argv) > 1 else "."
    names = own_names(top)
    turned, clashes = {}, []
    for path in files(top):
        old = open(path, encoding="utf-8").read()
        new, fallen = respelled(path, old, names)
        clashes += fallen
        if new != old:
            turned[path] = new
    if clashes:
        print("\n".join(clashes))
        return 1
    for path, text in turned.items():
        open(path, "w", encoding="utf-8").write(text)
    print(f"{len(names)} names, {len(turned)} files")
    return 0


if __name__ == "__main__":
    sys.exit(main())
