"""Text in Markdown as a manual page has it."""

import re
from collections.abc import Callable, Sequence

MOST_NARROW = 24  # characters of a column whose cells have one line


def escaped(text: str) -> str:
    text = text.replace("\\", "\\e").replace("-", "\\-")
    return "\\&" + text if text[:1] in (".", "'") else text


def in_line(text: str) -> str:
    """A line of prose or a cell: what stands in backticks or between stars is bold."""
    parts = re.split(r"`([^`]*)`|\*\*([^*]*)\*\*", text)
    written = ""
    for place, part in enumerate(parts):
        if part:
            written += escaped(part) if place % 3 == 0 else "\\fB" + escaped(part).replace("\\&", "") + "\\fR"
    return "\\&" + written if written[:1] in (".", "'") else written


def bold(cell: str) -> str:
    return "\\fB" + re.sub(r"\\f[BR]", "", in_line(cell)) + "\\fR"


def term(head: str, said: str) -> list[str]:
    return [".TP", bold(head), in_line(said)]


def example(lines: Sequence[str]) -> list[str]:
    return [".PP", ".in +4n", ".nf", *map(escaped, lines), ".fi", ".in"]


def rows_of(lines: Sequence[str]) -> list[list[str]]:
    """The cells of the table in these lines, without its second line."""
    rows = [re.split(r"(?<!\\)\|", line)[1:-1] for line in lines]
    return [[cell.strip().replace("\\|", "|") for cell in row] for place, row in enumerate(rows) if place != 1]


def table(lines: Sequence[str]) -> list[str]:
    """A table, as tbl sets it: a column with a long cell of several words takes the lines that it needs."""
    rows = rows_of(lines)
    wide = [any(len(cell) > MOST_NARROW and " " in cell for cell in column) for column in zip(*rows)]
    form = " ".join("lx" if it else "l" for it in wide)
    written = [".TS", "tab(@);", " ".join("lB" for _ in wide), form + "."]
    for row in rows:
        cells = [f"T{{\n.ad l\n{in_line(cell)}\nT}}" if is_wide else in_line(cell) for cell, is_wide in zip(row, wide)]
        written += "@".join(cells).split("\n")
    return [*written, ".TE"]


def terms(lines: Sequence[str]) -> list[str]:
    """A table as a list of terms: of each row but the head the first two cells."""
    return [line for row in rows_of(lines)[1:] for line in term(*row[:2])]


def roff(markdown: str, table_of: Callable[[Sequence[str]], list[str]] = table) -> list[str]:
    """A page in Markdown as lines of roff: its headings, tables, examples, lists and prose."""
    written: list[str] = []
    for block in re.split(r"\n\n+", markdown.strip("\n")):
        lines = block.split("\n")
        if lines[0].startswith("#"):
            level, title = lines[0].split(" ", 1)
            written.append(f'.SH "{escaped(title.upper())}"' if level == "##" else f'.SS "{escaped(title)}"')
        elif lines[0].startswith("|"):
            written += table_of(lines)
        elif lines[0].startswith("    "):
            written += example([line[4:] for line in lines])
        elif lines[0].startswith("- "):
            for item in re.split(r"\n?(?:^|(?<=\n))- ", block)[1:]:
                written += [".IP \\(bu 2", *[in_line(line.strip()) for line in item.split("\n")]]
        else:
            written += [".PP", *[in_line(line) for line in lines]]
    return written


def page(name: str, date: str, version: str, about: str) -> list[str]:
    """The first lines of a manual page."""
    return [f'.TH {name.upper()} 1 "{date}" "Gomtasil {version}" "User Commands"', ".SH NAME", f"{name} \\- {about}"]
