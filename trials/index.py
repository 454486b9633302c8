#!/usr/bin/env python3
"""Makes the index of the libraries from their sources.

Usage: trials/index.py PAGE

The page has a line for each public function of the libraries: its name, the first sentence of its doc comment, the
labels of its clauses, the definitions that these cite, and the edits that change its body and must be refused. A
function is public where the crate's `lib.rt` hands out it, its type or its trait. An edit that changes another
function, a constant or a type has a row after the table of its crate. `index_test.py PAGE` counts again.
"""
import argparse
import glob
import os
import pathlib
import re
from collections.abc import Sequence

from sources import TOP, Function, functions_of, item_at, libraries, text_of

HEAD = """# Index

Each public function of the libraries, by crate: what it does, the labels of its clauses, the definitions that they
cite, and the edits under `must-fail/` that change its body and that the proof refuses. An edit of a private function, a
constant or a type has a row after the table of its crate: what it changes, in which file, and the clauses of that. A
method of an `impl` of a trait has the clauses of the trait's method too. `trials/index.py` made this page from the
sources, and `trials/index_test.py` counts clauses and edits once more, another way.
"""

USE = re.compile(r"ghost use Rattle\.(lr_\w+)\.specs\.((?:\w+\.)+)\{([^}]*)\};")


def handed_out(crate: str) -> set[str]:
    """The names that the crate's root file hands out, and the modules that are public."""
    root = text_of(f"crates/{crate}/src/lib.rt")
    names: set[str] = set(re.findall(r"^pub (?:fn|struct|enum|trait|mod) (\w+)", root, re.M))
    for path, group, single in re.findall(r"^pub use (?:crate::)?([\w:]+?)::(?:\{([^}]*)\}|(\w+|\*));", root, re.M):
        if path.split("::")[0].startswith("lr_"):
            continue
        names.update(re.split(r"[\s,]+", group) if group else [single if single != "*" else f"{path}::*"])
    return names - {""}


def sentence_of(comment: Sequence[str]) -> str:
    """The first sentence of a doc comment."""
    text = " ".join(comment).split("  ")[0]
    return re.split(r"(?<=[.:])\s(?=[A-Z`]|$)", text + " ", maxsplit=1)[0].strip()


class Call:
    """A function with the names that its file imports: whether the crate hands it out, and the edits that change it."""

    def __init__(self, function: Function, path: str, names: set[str], imports: dict[str, str]) -> None:
        self.function = function
        self.is_public = is_handed_out(function, path, names)
        promises = function.promises()
        self.labels = [label for label, _ in promises]
        cited = [imports[word] for _, words in promises for word in words if word in imports]
        self.cited = ", ".join(dict.fromkeys(cited))
        self.edits: list[str] = []


def imports_of(text: str) -> dict[str, str]:
    """The definitions of the repository that a source file names, by what it calls them: each with its module, and with
    its crate where several have such a module."""
    found = {}
    for crate, module, group in USE.findall(text):
        if not module.startswith("declared."):
            several = len(glob.glob(f"crates/*/specs/{module[:-1].replace('.', '/')}.antt")) > 1
            for word in re.split(r",\s*", group.strip().rstrip(",")):
                found[word.split(" as ")[-1]] = f"`{module}{word.split(' as ')[0]}`" + several * f" ({crate})"
    return found


def is_handed_out(function: Function, path: str, names: set[str]) -> bool:
    """Whether a function is public: a marked one of a type or module handed out, or a method of such a trait."""
    module, owner = os.path.basename(path)[:-3], function.owner
    if owner and (owner.of_trait or owner.kind == "trait"):
        return not owner.of_trait and owner.name in names
    if owner:
        return function.is_marked and owner.name in names
    handed = {function.own_name, module, f"{module}::*"} & names
    return function.is_marked and (bool(handed) or path.endswith("/lib.rt"))


def changed_by(edit: str, crate: str, by_path: dict[str, list[Call]]) -> tuple[str, list[Call | str]]:
    """The functions that an edit changes, by the lines that it takes away, and the items that are no functions."""
    text = text_of(edit)
    path = f"crates/{crate}/" + re.findall(r"^file: *(\S+)", text, re.M)[0]
    changed: list[Call | str] = []
    for old in re.findall(r"^old: (.*)$", text, re.M):
        found = [it for it in by_path.get(path, []) if any(old in line for line in it.function.lines)]
        changed.append(found[0] if found else item_at(path, old))
    # (an import that an edit adds or takes away stands in no item)
    return path, [it for it in dict.fromkeys(changed) if it]


def place_edits(crate: str, by_path: dict[str, list[Call]]) -> list[str]:
    """Gives each edit to the public functions that it changes, and answers the rows of all others."""
    rows = []
    for edit in sorted(glob.glob(f"crates/{crate}/must-fail/*.edit")):
        name = os.path.basename(edit)[:-5]
        path, changed = changed_by(edit, crate, by_path)
        public = [it for it in changed if isinstance(it, Call) and it.is_public]
        for call in public:
            call.edits.append(name)
        if not public:
            rows += [row_of_edit(name, path.split("/", 2)[2], it) for it in changed]
    return rows


def row_of_edit(edit: str, file: str, changed: Call | str) -> str:
    """The row of an edit after the table of its crate."""
    if isinstance(changed, str):
        return f"| `{edit}` | `{changed}` | `{file}` |  |  |"
    owner = changed.function.owner
    of = f", as `{owner.of_trait}` asks" if owner and owner.of_trait else ""
    return f"| `{edit}` | `{changed.function.name}`{of} | `{file}` | {cell(changed.labels)} | {changed.cited} |"


def cell(words: list[str]) -> str:
    return ", ".join(f"`{word}`" for word in words if word)


def row_of(call: Call) -> str:
    """The row of a public function."""
    said = sentence_of(call.function.comment).replace("|", "\\|")
    return f"| `{call.function.name}` | {said} | {cell(call.labels)} | {call.cited} | {cell(call.edits)} |"


def calls_of(path: str, names: set[str]) -> list[Call]:
    imports = imports_of(text_of(path))
    return [Call(it, path, names, imports) for it in functions_of(path)]


def section_of(crate: str) -> str:
    names = handed_out(crate)
    by_path = {path: calls_of(path, names) for path in sorted(glob.glob(f"crates/{crate}/src/*.rt"))}
    others = place_edits(crate, by_path)
    rows = [row_of(it) for calls in by_path.values() for it in calls if it.is_public]
    said = [f"\n## {crate}\n"]
    head = re.search(r"^//! (.*(?:\n//! .*)*)", text_of(f"crates/{crate}/src/lib.rt"))
    if head:
        said.append(sentence_of(re.sub(r"\n//! ", " ", head[1]).split("  ")) + "\n")
    if rows:
        said += ["| call | what it does | clauses | cites | edits |", "|---|---|---|---|---|", *rows]
    if others:
        said += ["", "| edit | what it changes | file | clauses | cites |", "|---|---|---|---|---|", *others]
    return "\n".join(said)


def main() -> None:
    parser = argparse.ArgumentParser(description="Makes the index of the libraries from their sources.")
    parser.add_argument("page", type=pathlib.Path, metavar="PAGE", help="the file that is written")
    path = parser.parse_args().page.absolute()
    os.chdir(TOP)
    page = HEAD + "\n".join(section_of(crate) for crate in libraries()) + "\n"
    path.parent.mkdir(parents=True, exist_ok=True)
    path.write_text(page, encoding="utf-8")
    print(f"trials/index.py: {page.count(chr(10) + '| `')} rows")


if __name__ == "__main__":
    main()
