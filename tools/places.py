#!/usr/bin/env python3
"""Counts places in the crates' sources that could be written more plainly, by point, and lists them.

    python3 tools/places.py [FOLDER] [--list POINT]

It goes by text, so a place that it lists is one to look at; docs/DESIGN-PASS.md says what became of each. Tests are not
looked at. The points are those of docs/DESIGN-PASS.md.
"""
import os
import re
import sys


def sources(top):
    """The sources below the crates of a folder, without tests: pairs of a path and its lines."""
    for folder, _, names in sorted(os.walk(os.path.join(top, "crates"))):
        if "/src" not in folder or "/out/" in folder:
            continue
        for name in sorted(names):
            if name.endswith(".rt") and name != "tests.rt":
                path = os.path.join(folder, name)
                with open(path, encoding="utf-8") as text:
                    yield os.path.relpath(path, top), text.read().split("\n")


def code(line):
    """A line without its comment; nothing of a clause or an import for proofs."""
    bare = line.strip()
    if bare.startswith("//") or bare.startswith("ghost ") or re.match(r"(requires|ensures|→|×)", bare):
        return ""
    return line.split("//")[0]


def matches(lines, pattern):
    """The numbers of the lines whose code has the pattern."""
    return [i + 1 for i, line in enumerate(lines) if re.search(pattern, code(line))]


def enums(lines):
    """The enums that have just two cases, at least one of them with a value: the shape of Option or Result."""
    found = []
    for i, line in enumerate(lines):
        if not re.match(r"\s*(pub(\(crate\))? )?enum \w+", code(line)):
            continue
        cases = []
        for after in lines[i + 1 :]:
            bare = code(after).strip()
            if bare == "}":
                break
            if re.match(r"[A-Z]\w*[ ({,]", bare + " "):
                cases.append(bare)
        valued = [c for c in cases if "(" in c or "{" in c]
        empty = [c for c in cases if c not in valued]
        if valued and (len(cases) == 2 or len(empty) == 1 and "Nothing" in empty[0]):
            found.append(i + 1)
    return found


NUMBERS = (
    r"\bcode: (i32|u8)|standing: i32|-> u8\b|const (WORDS|FORM|BOOKS): u8|\.unsigned_abs\(\) == [13]\b|^\s+[13] => S|b'[bedm]' => "
    r"|fn first_(marked|open|unassigned)\(.*-> usize"
)
BY_HAND = (
    r"None => None,|Some\((\w+)\) => Some\(\1|Ok\(\(\)\) => Ok\(\(\)\)|Err\((\w+)\) => Err\(|unsigned_abs\(\) [!=]= 0"
    r"|\{ 1 \} else \{ 0 \}|fn (number|layer|line|place|ends|is_negative|is_word|code_of|nothing_found)\b|=> \{\}\s*$|\.is_err\(\) \{|refused \{\}"
)
TOGETHER = (
    r"layout: Layout\b(?!,?$)|^\s+layout: Layout,$|source: &S,|clauses: &mut ClauseBook<'_>,|cursor: usize,"
)
INDICES = r"\bstart: usize|\bend: usize|\(usize, usize\)|base: usize|from: usize|Span \{"
SWITCHES = r"match (step|plan|next_plan|kind)\b|match next_plan"


def repeated(files):
    """Functions of one name in several places, but for those of a trait of the language or of the crates."""
    shared = {"main", "run", "fmt", "from", "try_from", "drop", "at_most", "zero", "plus", "weigh", "variables", "question", "new", "open", "value"}
    places = {}
    for path, lines in files:
        for i, line in enumerate(lines):
            name = re.match(r"\s*(?:pub(?:\(crate\))? )?fn (\w+)", code(line))
            if name and name.group(1) not in shared:
                places.setdefault(name.group(1), []).append((path, i + 1))
    return [place for name in sorted(places) if len(places[name]) > 1 for place in places[name]]


def points(top):
    files = list(sources(top))

    def every(rule):
        return [(path, n) for path, lines in files for n in rule(lines)]

    return {
        "1": every(enums) + every(lambda ls: matches(ls, NUMBERS)),
        "2": repeated(files),
        "3": every(lambda ls: matches(ls, r"\bwhile\b(?! let)|\bloop \{|for \w+ in [\w(][^&]*\.\.")),
        "4": every(lambda ls: matches(ls, BY_HAND)),
        "5": every(lambda ls: matches(ls, TOGETHER)),
        "6": every(lambda ls: matches(ls, INDICES)),
        "7": every(lambda ls: matches(ls, SWITCHES)),
    }


def main():
    args = [a for a in sys.argv[1:] if not a.startswith("--")]
    wanted = None
    if "--list" in sys.argv:
        wanted = sys.argv[sys.argv.index("--list") + 1]
        args = [a for a in args if a != wanted]
    top = args[0] if args else "."
    texts = dict(sources(top))
    for point, places in points(top).items():
        print(f"{point}: {len(places)}")
        if wanted == point:
            for path, n in places:
                print(f"    {path}:{n}: {texts[path][n - 1].strip()}")


if __name__ == "__main__":
    main()
