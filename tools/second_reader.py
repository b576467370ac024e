#!/usr/bin/env python3
"""A second reader of rule files, to compare with: it shares no code with `crates/rulefile`, but its author had read that crate.

    python3 tools/second_reader.py crates/vectors/data/*.in

Says for how many files the outcome, refused or not, is that of the file's `.out`.
"""
import sys

MOST_VARIABLES = 64
CLAUSE_WORDS = 8_192
GROUP_WORDS = 2_048
BLANKS = b" \t\r"


class Fault(Exception):
    pass


def words(text):
    """The words with line and place, and then None with those of the end."""
    place, line, line_begins = 0, 1, True
    while place < len(text):
        byte = text[place]
        if byte == 10:
            place, line, line_begins = place + 1, line + 1, True
        elif line_begins and byte == ord("c"):
            while place < len(text) and text[place] != 10:
                place += 1
        elif byte in BLANKS:
            place, line_begins = place + 1, False
        else:
            start = place
            while place < len(text) and text[place] != 10 and text[place] not in BLANKS:
                place += 1
            line_begins = False
            yield text[start:place], (line, start)
    yield None, (line, place)


def number_of(word, at):
    """The number that the word spells, or None where it is not meant as one."""
    if word[:1] not in [b"-"] + [b"%d" % digit for digit in range(10)]:
        return None
    if word == b"0":
        return 0
    digits = word.removeprefix(b"-")
    if not digits or digits[0] == ord("0") or any(byte not in b"0123456789" for byte in digits):
        raise Fault(10, 1, *at)
    if len(digits) > 9:
        raise Fault(11, 1, *at)
    return int(word)


class Reader:
    def __init__(self, text):
        self.words = words(text)

    def next(self):
        word, at = next(self.words)
        return word, None if word is None else number_of(word, at), at

    def number(self):
        word, number, at = self.next()
        if word is None:
            raise Fault(13, 2, *at)
        if number is None:
            raise Fault(10, 2, *at)
        return number, at

    def natural(self):
        number, at = self.number()
        if number < 0:
            raise Fault(10, 2, *at)
        return number, at

    def keyword(self, keyword):
        word, _, at = self.next()
        if word is None:
            raise Fault(13, 2, *at)
        if word != keyword:
            raise Fault(10, 2, *at)

    def literals(self, first):
        row = []
        while first != 0:
            row.append(first)
            first, _ = self.number()
        return row


def read(text):
    """Reads the text, or raises its fault."""
    reader = Reader(text)
    reader.keyword(b"p")
    reader.keyword(b"cnf")
    variables, at = reader.natural()
    if variables > 1_000:
        raise Fault(11, 2, *at)
    if variables > MOST_VARIABLES:
        raise Fault(1, 4, *at)
    clauses, at = reader.natural()
    if clauses > 65_535:
        raise Fault(11, 2, *at)
    clause_room, group_room = CLAUSE_WORDS, GROUP_WORDS
    while True:
        word, number, at = reader.next()
        if word is None:
            if clauses > 0:
                raise Fault(12, 2, *at)
            return
        if number is not None:
            if clauses == 0:
                raise Fault(12, 2, *at)
            clauses -= 1
            row = reader.literals(number)
            clause_room -= len(set(row)) + 1
        else:
            if word != b"a":
                raise Fault(10, 2, *at)
            reader.natural()
            row = reader.literals(reader.number()[0])
            group_room -= len(row) + 2
        if any(abs(literal) > variables for literal in row):
            raise Fault(2, 3, *at)
        if number is None and any(abs(a) >= abs(b) for a, b in zip(row, row[1:])):
            raise Fault(9, 3, *at)
        if clause_room < 0 or group_room < 0:
            raise Fault(8, 3, *at)


def outcome(text):
    """The line of a refused text, or nothing where its rules are searched."""
    if len(text) > 65_536:
        return "refused 14 4 0 0"
    try:
        read(text)
        return None
    except Fault as fault:
        return "refused " + " ".join(map(str, fault.args))


def is_as_expected(path):
    with open(path, "rb") as file:
        found = outcome(file.read())
    with open(path.removesuffix(".in") + ".out") as file:
        first = file.readline().rstrip("\n")
    return first == found if first.startswith("refused") else found is None


def main():
    paths = sys.argv[1:]
    others = [path for path in paths if not is_as_expected(path)]
    for path in others:
        print(path, "is not as expected")
    print(len(paths) - len(others), "of", len(paths), "files as expected")


main()
