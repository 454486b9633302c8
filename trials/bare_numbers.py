#!/usr/bin/env python3
"""Finds numbers that have a name and are written out all the same.

Usage, at the top: trials/bare_numbers.py [CRATE ..]

It reads the clauses and ghost items of crates/NAME/src/*.rt, and all of crates/NAME/specs and proofs (*.antt), without
comments, texts and `use` lines. It prints `FILE:LINE: NUMBER: write NAME (MODULE)` for each number of the table that
stands there bare, and ends with status 1 where there is one.

The table, trials/bare_numbers.txt, has lines `VALUE | NAME | MODULE | CRATES | WHERE`; `#` begins a comment line, and a
line that begins with a space goes on with the one before it.
  VALUE   a number (16384 is also 16_384 and 0x4000), or an expression as `2 ^ 24`, of any spacing
  NAME    what to write
  MODULE  where a spec imports it from: `lr_bits sizes` is Rattle.lr_bits.specs.declared.sizes.TheConstants
  CRATES  `*`, or names of crates or of folders and files below crates/; one with `-` in front is left out
  WHERE   a regular expression that the code around has to match, with `#` for the number; none: anywhere
The first row that fits tells the name. A value with several meanings has a row for each, told apart by CRATES and WHERE.

Two more rules need no table. They read code and clauses of the libraries, and look at numbers from 10 on:
- a number that is the value of a constant which the file defines or uses (`constants.py`) is written by its name;
- a number that a clause compares with such a constant, as 40 in `length line + 40 ≤ 160`, is a part of it: it gets a
  name, and the constant is built from that. Then it stands bare nowhere in the clauses of that file.
No exponent, no row of numbers and no arm of a `match` is one of these. What is left out, trials/bare_numbers_kept.txt,
has lines `FILES | NUMBERS | WHY`; one that fits no number is a fault too.
"""
import os
import re
import sys
from collections.abc import Iterable, Iterator

from constants import CONSTANT, Constants
from sources import RUST_NOTES, TESTS, TOP, files_of, only_clauses, without

HERE = os.path.dirname(os.path.abspath(__file__))
TABLE = os.path.join(HERE, "bare_numbers.txt")
KEPT = os.path.join(HERE, "bare_numbers_kept.txt")
LEAST = 10  # (of the rules without a table)

NUMBER = re.compile(r"(?<![\w.\-'◌])(0x[0-9a-fA-F_]+|0b[01_]+|\d[\d_]*)(?![\w\-'])")
ANTT_NOTES = re.compile(r'\{-.*?-\}|"(?:[^"\\\n]|\\.)*"|(?:(?<=\s)|^)--[^\n]*', re.S | re.M)
ANTT_IMPORTS = re.compile(r"^(?:pub )?(?:use|mod) [^\n{]*(?:\{[^}]*\})?[^\n]*", re.M)

Span = tuple[int, int]
Numbers = dict[int, list[Span]]  # the places of each number of a line
Known = dict[int, list[str]]  # the names of each value
Said = tuple[int, str, str]  # a number: its line, its text and what to write


def read_lines(path: str) -> list[str]:
    """The lines of a file in which numbers are looked for."""
    with open(path, encoding="utf-8") as file:
        text = file.read()
    if path.endswith(".antt"):
        return without(ANTT_IMPORTS, without(ANTT_NOTES, text)).split("\n")
    return only_clauses(without(RUST_NOTES, text)).split("\n")


class Row:
    """A line of the table."""

    def __init__(self, line: str) -> None:
        cells = [cell.strip() for cell in line.split("|", 4)] + [""] * 4
        value, self.name, module, crates, self.where = cells[:5]
        crate, _, rest = module.partition(" ")
        self.module = f"Rattle.{crate}.specs.declared.{rest.replace(' ', '.')}.TheConstants" if rest else module
        words = (crates or "*").split()
        self.without = [word[1:] for word in words if word[0] == "-"]
        self.within = [word for word in words if word[0] != "-"]
        words = value.split()
        self.value = int(value) if len(words) == 1 else None
        self.form = re.compile(r"(?<![\w.\-'^])" + r"\s*".join(map(re.escape, words)) + r"(?![\w\-'])")

    def serves(self, path: str) -> bool:
        def names(word: str) -> bool:
            return word == "*" or path == f"crates/{word}" or path.startswith(f"crates/{word}/")

        return any(map(names, self.within)) and not any(map(names, self.without))

    def fits(self, line: str, start: int, end: int) -> bool:
        where = self.where.replace("#", f"(?:{re.escape(line[start:end])})")
        return not where or any(it.start() <= start < it.end() for it in re.finditer(where, line))

    def places(self, line: str, numbers: Numbers) -> list[Span]:
        """Where the row's number stands in a line whose numbers stand at these places, as pairs of start and end."""
        if self.value is None:
            found = [it.span() for it in self.form.finditer(line)]
        else:
            found = numbers.get(self.value, [])
        return [place for place in found if self.fits(line, *place)]


def numbers_in(line: str) -> Numbers:
    """The places of each number of a line, by its value."""
    found: Numbers = {}
    for it in NUMBER.finditer(line):
        found.setdefault(int(it.group(1).replace("_", ""), 0), []).append(it.span())
    return found


def bare_numbers(path: str, rows: list[Row]) -> Iterator[tuple[int, str, Row]]:
    """Each bare number of a file: its line, its text and its row."""
    rows = [row for row in rows if row.serves(path)]
    for number, line in enumerate(read_lines(path), 1):
        numbers = numbers_in(line)
        taken: list[Span] = []
        for row in rows if numbers else ():
            for start, end in row.places(line, numbers):
                if all(end <= other or start >= last for other, last in taken):
                    taken.append((start, end))
                    yield number, line[start:end], row


def code_of(path: str) -> tuple[list[str], list[str]]:
    """The lines of a source in which the rules without a table look: no constants, no rows of numbers, no exponents."""
    with open(path, encoding="utf-8") as file:
        text = without(CONSTANT, without(RUST_NOTES, file.read()))
    text = without(re.compile(r"\b\d\w*(?:,\s*\d\w*){2,}|\^ \d+|\b\d+ =>"), text)
    return text.split("\n"), only_clauses(text).split("\n")


def named_numbers(path: str, known: Known) -> Iterator[Said]:
    """Each number of a source that is a constant in its reach: its line, its text and what to write."""
    for number, line in enumerate(code_of(path)[0], 1):
        for value, places in numbers_in(line).items():
            if value in known:
                yield from ((number, line[start:end], " or ".join(known[value])) for start, end in places)


def parts_of(lines: list[str], known: Known) -> Iterator[tuple[int, str]]:
    """The numbers that clauses compare with a constant and that are none, each with the constant's name."""
    names = {name: name for words in known.values() for name in words}
    for line in lines:
        for side in re.split(r"[×→,]", line):
            values = [it for it in numbers_in(side) if it >= LEAST]
            whole = [names[it] for it in re.findall(r"\w+", side) if it in names]
            whole += [known[it][0] for it in values if it in known]
            if whole and re.search(r"[≤<≡]", side):
                yield from ((it, whole[0]) for it in values if it not in known)


def parts_of_constants(path: str, known: Known) -> Iterator[Said]:
    """Each number of a source's clauses that is a part of a constant."""
    lines = code_of(path)[1]
    parts = dict(parts_of(lines, known))
    for number, line in enumerate(lines, 1):
        for value, places in numbers_in(line).items():
            if value in parts:
                said = f"a constant from which {parts[value]} is built"
                yield from ((number, line[start:end], said) for start, end in places)


def own_numbers(crates: Iterable[str]) -> Iterator[tuple[str, int, str, str]]:
    """What the rules without a table find, in the libraries and the program: each with its file."""
    constants = Constants()
    for path in files_of(crates):
        if path.endswith(".rt") and "/src/" in path and not path.split("/")[1].startswith(TESTS):
            known = {value: names for value, names in constants.in_reach(path).items() if value >= LEAST}
            yield from ((path, *it) for it in named_numbers(path, known))
            yield from ((path, *it) for it in parts_of_constants(path, known))


def rows_of(path: str) -> list[str]:
    """The rows of a table: lines but comments, each with those that go on with it."""
    with open(path, encoding="utf-8") as file:
        lines = [it for it in file.read().splitlines() if it.strip() and it[0] != "#"]
    return re.sub(r"\n +", " ", "\n".join(lines)).split("\n")


class Kept:
    """What is left out: files, their numbers, and which of these were met."""

    def __init__(self) -> None:
        cells = [[cell.split() for cell in row.split("|")] for row in rows_of(KEPT)]
        self.wanted = {(f"crates/{file}", number) for files, numbers, _ in cells for file in files for number in numbers}
        self.met: set[tuple[str, str]] = set()

    def has(self, path: str, text: str) -> bool:
        self.met.add((path, text))
        return (path, text) in self.wanted


def main() -> int:
    os.chdir(TOP)
    rows, kept = [Row(line) for line in rows_of(TABLE)], Kept()
    found = [(path, number, text, f"{row.name} ({row.module or 'as it is'})")
             for path in files_of(sys.argv[1:]) for number, text, row in bare_numbers(path, rows)]
    found += own_numbers(sys.argv[1:])
    bare = [it for it in found if not kept.has(it[0], it[2])]
    for path, number, text, said in bare:
        print(f"{path}:{number}: {text}: write {said}")
    unmet = [] if sys.argv[1:] else sorted(kept.wanted - kept.met)
    for path, text in unmet:
        print(f"trials/bare_numbers_kept.txt: {path} has no bare {text} any more")
    print(f"trials/bare_numbers.py: {len(bare)} bare numbers, {len(found) - len(bare)} left out, against {len(rows)} rows")
    return 1 if bare or unmet else 0


if __name__ == "__main__":
    sys.exit(main())
