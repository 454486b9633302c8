#!/usr/bin/env python3
"""Counts the clauses and edits of the index once more, another way than `index.py`, which makes the page.

Usage: trials/index_test.py PAGE

It goes over the whole text of each source file, character by character: comments and texts become spaces, and from each
`fn` on it counts brackets up to the body or the semicolon, so it knows nothing of lines and indents. Then it asks that

- each row of a call has just the labels of a public function of that name in its crate,
- each public function of a type, trait or module that `lib.rt` names has a row, and
- each edit stands in the rows of its crate, with the public functions whose lines it takes away, or else with the
  private ones, and with no function else.

It shares no code with `index.py`. It says what isn't so, and ends with 1 then.
"""
import argparse
import collections
import pathlib
import re
import sys
from collections.abc import Iterator
from typing import NamedTuple

TOP = pathlib.Path(__file__).resolve().parent.parent
BLANK = re.compile(r"""//[^\n]*|"(?:\\.|[^"\\])*"|b?'(?:\\.[^']*|[^'\\])'""", re.S)
WORD = re.compile(r"\b(?:fn|impl|trait)\b")

Row = dict[str, str]
Rows = dict[str, list[Row]]


class Found(NamedTuple):
    """A function of a file that has been blanked, with the labels of its clauses."""

    name: str
    owner: str
    is_public: bool
    labels: list[str]
    start: int
    end: int


Place = tuple[pathlib.Path, Found]


def blanked(text: str) -> str:
    """The text with a space for each character of a comment, of a text and of a character in quotes."""
    return BLANK.sub(lambda it: re.sub(r"[^\n]", " ", it[0]), text)


def closing(text: str, place: int) -> int:
    """The place after the bracket that closes the one at this place."""
    depth = 0
    while True:
        depth += (text[place] in "{([") - (text[place] in "})]")
        place += 1
        if depth == 0:
            return place


def function_at(text: str, start: int) -> tuple[int, list[str]]:
    """Where the function of the `fn` at this place ends, and the labels of its clauses."""
    labels: list[str] = []
    place, keyword, label = start, "", ""
    while place < len(text):
        if word := re.compile(r"\w+").match(text, place):
            if word[0] in ("ensures", "requires", "ghost"):
                keyword, label = word[0], ""
            elif keyword:
                label = word[0]
            place = word.end()
        elif text[place] == "{":
            end = closing(text, place)
            if not keyword:
                return end, labels
            if keyword == "ensures":
                labels.append(label)
            keyword, place = "", end
        elif text[place] in "([":
            place = closing(text, place)
        elif text[place] == ";" and not keyword:
            return place + 1, labels
        else:
            place += 1
    raise ValueError(f"a function without an end at {start}")


def owner_at(text: str, start: int) -> tuple[str, str, int]:
    """Of the `impl` or `trait` at this place: the name of the type or trait, and where its block ends."""
    opens = text.index("{", start)
    words = text[start:opens]
    while "<" in words and words != (fewer := re.sub(r"<[^<>]*>", "", words)):
        words = fewer
    heads = words.split(" where ")[0].split()
    kind = "trait" if heads[0] == "trait" else "impl of a trait" if "for" in heads else "impl"
    name = heads[heads.index("for") + 1] if "for" in heads else heads[1]
    return kind, re.sub(r"\W", "", name.split("::")[-1]), closing(text, opens)


def functions_in(text: str) -> list[Found]:
    """Each function of a file that has been blanked, in order; up to its tests."""
    found, kind, owner, end = [], "", "", 0
    text = text.split("#[cfg(test)]")[0]
    place = 0
    while word := WORD.search(text, place):
        place = word.end()
        if word.start() >= end:
            kind, owner = "", ""
        line = text[text.rfind("\n", 0, word.start()) + 1:word.start()]
        if word[0] != "fn":
            if re.fullmatch(r"(pub(\(\w+\))? )?(unsafe )?", line):
                kind, owner, end = owner_at(text, word.start())
            continue
        name = re.compile(r"\s+(\w+)").match(text, place)
        if name is None or not re.fullmatch(r"\s*(pub(\(\w+\))? )?(const )?(unsafe )?(extern\s+(\S+\s+)?)?", line):
            continue
        place, labels = function_at(text, name.end())
        is_public = kind == "trait" or (kind != "impl of a trait" and bool(re.match(r"\s*pub ", line)))
        found.append(Found(name[1], owner, is_public, labels, word.start(), place))
    return found


def full_name(found: Found) -> str:
    return f"{found.owner}::{found.name}" if found.owner else found.name


def cells(line: str) -> list[str]:
    return [it.strip() for it in re.split(r"(?<!\\)\|", line)[1:-1]]


def names_in(cell: str) -> list[str]:
    return re.findall(r"`([^`]*)`", cell)


def page_of(path: pathlib.Path) -> tuple[Rows, Rows]:
    """The rows of the page by crate: of calls, and of edits of others."""
    crate, heads = "", list[str]()
    calls: Rows = collections.defaultdict(list)
    edits: Rows = collections.defaultdict(list)
    for line in path.read_text(encoding="utf-8").splitlines():
        if line.startswith("## "):
            crate = line[3:]
        elif line.startswith(("| call |", "| edit |")):
            heads = cells(line)
        elif line.startswith("| `"):
            (calls if heads[0] == "call" else edits)[crate].append(dict(zip(heads, cells(line))))
    return calls, edits


def look_at_calls(crate: str, rows: list[Row], functions: list[Place], root: str) -> Iterator[str]:
    """The rows of a crate's calls against its public functions, as pairs of what is called so and how often."""
    public = [it for _, it in functions if it.is_public]
    wanted = collections.Counter((names_in(it["call"])[0], tuple(names_in(it["clauses"]))) for it in rows)
    there = collections.Counter((full_name(it), tuple(filter(None, it.labels))) for it in public)
    for (name, labels), count in (wanted - there).items():
        found = [" ".join(filter(None, it.labels)) or "none" for it in public if full_name(it) == name]
        true, told = " or ".join(found) or "(there is none)", " ".join(labels) or "none"
        yield f"{crate}: `{name}` has the clauses {true}, not {told}"
    named = re.findall(r"pub (?:use|mod|trait|struct|enum|fn) ([^;{]*(?:\{[^}]*\})?)", root)
    handed_out = set(re.findall(r"\w+", " ".join(named)))
    listed = {name for name, _ in wanted}
    for path, it in functions:
        known = it.owner in handed_out if it.owner else {it.name, path.stem} & handed_out
        if it.is_public and known and full_name(it) not in listed:
            yield f"{crate}: `{full_name(it)}` has no row"


def look_at_edits(crate: str, calls: list[Row], edits: list[Row], functions: list[Place]) -> Iterator[str]:
    """The edits of a crate against the rows that name them."""
    told: dict[str, set[str]] = collections.defaultdict(set)
    for row in calls:
        for edit in names_in(row["edits"]):
            told[edit].add(names_in(row["call"])[0])
    for row in edits:
        told[names_in(row["edit"])[0]].add(names_in(row["what it changes"])[0])
    there = {it.stem: it for it in (TOP / "crates" / crate / "must-fail").glob("*.edit")}
    for edit in sorted(told.keys() - there.keys()):
        yield f"{crate}: there is no edit `{edit}`"
    for edit, path in there.items():
        lines = path.read_text(encoding="utf-8").splitlines()
        source = TOP / "crates" / crate / next(it[5:].strip() for it in lines if it.startswith("file:"))
        text = source.read_text(encoding="utf-8")
        places = [text.index(it[5:]) for it in lines if it.startswith("old: ")]
        inside = [it for at, it in functions if at == source and any(it.start <= place < it.end for place in places)]
        changed = {full_name(it) for it in inside}
        missing = ({full_name(it) for it in inside if it.is_public} or changed) - told[edit]
        if missing or not told[edit]:
            what = " and ".join(sorted(missing)) or "something"
            yield f"{crate}: the edit `{edit}` changes {what}, and no row says so"
        for other in sorted((told[edit] & {full_name(it) for _, it in functions}) - changed):
            yield f"{crate}: the edit `{edit}` doesn't change `{other}`"


def main(page: pathlib.Path) -> int:
    calls, edits = page_of(page)
    faults, labels = list[str](), 0
    crates = [it.parent.parent.name for it in sorted(TOP.glob("crates/*/src/lib.rt"))]
    crates = [it for it in crates if not it.startswith("lr_trials_")]
    faults += [f"{it}: no such library" for it in calls.keys() - set(crates)]
    for crate in crates:
        functions: list[Place] = []
        for path in sorted((TOP / "crates" / crate / "src").glob("*.rt")):
            functions += [(path, it) for it in functions_in(blanked(path.read_text(encoding="utf-8")))]
        root = blanked((TOP / "crates" / crate / "src/lib.rt").read_text(encoding="utf-8"))
        faults += look_at_calls(crate, calls[crate], functions, root)
        faults += look_at_edits(crate, calls[crate], edits[crate], functions)
        labels += sum(len(names_in(row["clauses"])) for row in calls[crate])
    for fault in faults:
        print(f"{page}: {fault}")
    rows, others = (sum(len(of_crate) for of_crate in it.values()) for it in (calls, edits))
    print(f"trials/index_test.py: {rows} calls with {labels} labels, {others} edits of others, {len(faults)} faults")
    return 1 if faults else 0


if __name__ == "__main__":
    parser = argparse.ArgumentParser(description="Counts the clauses and edits of the index once more.")
    parser.add_argument("page", type=pathlib.Path, metavar="PAGE", help="the index, as index.py made it")
    sys.exit(main(parser.parse_args().page))
