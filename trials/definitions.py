#!/usr/bin/env python3
"""Makes the list of the definitions that a reader compares with the standards.

Usage: trials/definitions.py PAGE, or trials/definitions.py CRATE/FILE NAME

PAGE gets the definitions on which the promises rest, each with its first comment, by file and in reading order: a file
follows those that it uses. The second form prints the list of one definition, such as
`trials/definitions.py lr_cmd_receive/Receive ReceiveRun`.
"""
import os
import sys
from collections.abc import Iterable

from sources import TOP, Place, SpecFile

MENDING = "lr_mend"  # the crate whose definitions are counted apart
HEAD = """# Definitions

No proof says that a definition is the right one: a reader has to compare it with the standards, CCSDS 131.0-B (coding),
732.0-B (AOS frames), 133.0-B (space packets), 121.0-B (lossless coding) and CGMS 03 (LRIT and HRIT). This page lists the
definitions to read for that, in reading order, each with its first comment; a part leaves out what an earlier part has.
The kit's definitions of lists and numbers aren't listed. `trials/definitions.py` made this page from the `use` lines.
"""


# the page's headings, each with the files or the definition where its part begins
PARTS: dict[str, list[tuple[str, str | None]]] = {
    "The files of a recording": [("lr_cmd_receive/Inputs", "files_of_bytes")],
    "The shelf": [("lr_shelf_format/ShelfBytes", None), ("lr_shelf_format/Way", None), ("lr_shelf/InitialShelves", None)],
    "Images": [("lr_image/Images", None), ("lr_image/Pgm", None)],
    "Sent frames": [("lr_sent/Sent", None)],
    "What `receive` promises": [("lr_cmd_receive/Receive", "ReceiveRun")],
    "What the top call promises": [("lr_station/Runs", None)],
}


class Definitions:
    """All spec files that were asked for, and which definitions each definition rests on."""

    def __init__(self) -> None:
        self.files: dict[str, SpecFile] = {}

    def of_file(self, path: str) -> SpecFile:
        if path not in self.files:
            self.files[path] = SpecFile(path)
        return self.files[path]

    def starts(self, file: str, name: str | None) -> list[Place]:
        crate, _, module = file.partition("/")
        path = f"crates/{crate}/specs/{module}.antt"
        if not os.path.exists(os.path.join(TOP, path)):
            sys.exit(f"trials/definitions.py: there is no {path}")
        names = self.of_file(path).definitions
        if name is not None and name not in names:
            sys.exit(f"trials/definitions.py: {path} defines no {name}")
        return [Place(path, it) for it in ([name] if name else names)]

    def under(self, starts: Iterable[Place], without: str = "-") -> set[Place]:
        """Returns all that these rest on, themselves among them, but for those of a crate and what these alone reach."""
        found: set[Place] = set()
        left = list(starts)
        while left:
            one = left.pop()
            if one in found or one.path.startswith(f"crates/{without}/"):
                continue
            file = self.of_file(one.path)
            if one.name in file.definitions:
                found.add(one)
                for word in file.definitions[one.name].words:
                    left += [file.imports[word]] if word in file.imports else [Place(one.path, word)]
        return found

    def in_order(self, paths: set[str]) -> list[str]:
        """Returns the files in reading order."""
        order: list[str] = []
        seen: set[str] = set()

        def visit(path: str) -> None:
            if path not in seen:
                seen.add(path)
                for used in sorted({it.path for it in self.of_file(path).imports.values()}):
                    visit(used)
                order.append(path)

        for path in sorted(paths):
            visit(path)
        return [it for it in order if it in paths]

    def table(self, places: set[Place]) -> str:
        """Returns a table for each file, with a row for each of these definitions."""
        said = []
        for path in self.in_order({it.path for it in places}):
            file = self.of_file(path)
            said.append(f"\n`{path}`: {file.title}\n\n| definition | lines | what it says |\n|---|---|---|")
            for name, it in file.definitions.items():
                if Place(path, name) in places:
                    said.append(f"| `{name}` | {it.lines} | {it.comment.replace('|', chr(92) + '|')} |")
        return "\n".join(said)

    def size(self, places: set[Place]) -> str:
        lines = sum(self.of_file(it.path).definitions[it.name].lines for it in places)
        return f"{len(places):,} definitions in {len({it.path for it in places})} files, {lines:,} lines"


def page_of(known: Definitions) -> str:
    text, before = HEAD, set[Place]()
    for heading, starts in PARTS.items():
        all_starts = [place for file, name in starts for place in known.starts(file, name)]
        places = known.under(all_starts)
        plain = known.under(all_starts, MENDING)
        text += f"\n## {heading}\n\nIt rests on {known.size(places)}"
        text += f"; without mending on {len(plain):,}" * (len(plain) < len(places))
        text += f". {len(places - before):,} of them are new here.\n{known.table(places - before)}\n"
        before |= places
    return text


def main(words: list[str]) -> int:
    known = Definitions()
    if len(words) == 2:
        places = known.under(known.starts(words[0], words[1]))
        print(f"{words[1]} rests on {known.size(places)}\n{known.table(places)}")
        return 0
    if len(words) != 1:
        print((__doc__ or "").split("\n\n")[1], file=sys.stderr)
        return 2
    os.makedirs(os.path.dirname(os.path.abspath(words[0])), exist_ok=True)
    with open(words[0], "w", encoding="utf-8") as it:
        it.write(page_of(known))
    return 0


if __name__ == "__main__":
    sys.exit(main(sys.argv[1:]))
