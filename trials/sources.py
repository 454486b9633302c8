"""The sources of the crates, as the scripts about them read them: crates, files, functions, clauses, definitions."""
import functools
import glob
import itertools
import os
import re
from collections.abc import Iterable, Iterator
from typing import NamedTuple

TOP = os.path.dirname(os.path.dirname(os.path.abspath(__file__)))
TESTS = ("lr_trials_", "lr_cases", "lr_bench", "lr_example")  # what the names of crates without promises begin with

RUST_NOTES = re.compile(r'"(?:[^"\\]|\\.)*"|//[^\n]*')
CLAUSE = re.compile(r"\b(requires|ensures|ghost)\b(?! use\b)([^{};\n]*)\{")
FUNCTION = re.compile(r"^( *)(pub )?(?:pub\(\w+\) )?(?:const )?(?:unsafe )?(?:extern \S+ )?fn (\w+)")
OWNER = re.compile(r"^(?:pub(?:\(\w+\))? )?(?:unsafe )?(impl|trait)\b(.*)$")
ITEM = re.compile(
    r"^(?:pub(?:\(\w+\))? )?(?:struct|enum|trait|const|static|macro_rules!|impl)(?:<[^>]*>)? (?:\w+ for )?(\w+)"
)
SPEC_IMPORT = re.compile(r"^\s*(?:pub )?use Rattle\.(lr_\w+)\.specs\.([\w.]+?)\.\{([^}]*)\}", re.M)
DEFINITION = re.compile(r"^\s*(?:(?:abbrev|unfoldable) (?:pub )?|(?:pub )?(?:record|data) )([^\s:(){}]+)")
SPEC_WORD = re.compile(r"[^\s(){}.,;:λ→×⊎≡=]+")


def text_of(path: str) -> str:
    with open(os.path.join(TOP, path), encoding="utf-8", errors="replace") as it:
        return it.read()


# ---- crates and files


class Layer(NamedTuple):
    """A part of crates.txt: its heading, and its crates with the libraries that each uses."""

    heading: str
    crates: dict[str, list[str]]


def layers() -> list[Layer]:
    found = []
    for block in text_of("crates.txt").split("\n\n"):
        lines = block.splitlines()
        pairs = [line.split(":") for line in lines if line and not line.startswith("#")]
        headings = [line[2:] for line in lines if line.startswith("# ")]
        if pairs:
            found.append(Layer(headings[-1] if headings else "", {it[0].split()[0]: it[1].split() for it in pairs}))
    return found


def crates() -> dict[str, list[str]]:
    """Returns each crate of crates.txt, in its order, with the libraries that it uses."""
    return {name: libraries for layer in layers() for name, libraries in layer.crates.items()}


def libraries() -> list[str]:
    """Returns the crates with promises: not those that have only tests, or no library."""
    return [it for it in crates() if os.path.exists(f"{TOP}/crates/{it}/src/lib.rt") and not it.startswith(TESTS[0])]


def files_of(names: Iterable[str] = ()) -> Iterator[str]:
    """Yields the path of each source of these crates, by default of all."""
    for name in names or sorted(os.listdir(f"{TOP}/crates")):
        for folder, folders, files in os.walk(f"{TOP}/crates/{name}"):
            folders[:] = sorted(set(folders) - {"out", "must-fail", "data"})
            yield from (os.path.relpath(f"{folder}/{it}", TOP) for it in sorted(files) if it.endswith((".rt", ".antt")))


# ---- parts of a text, each character in its place


def blank(text: str) -> str:
    return re.sub(r"[^\n]", " ", text)


def without(pattern: re.Pattern[str], text: str) -> str:
    """Returns the text with a space for each character of what matches."""
    return pattern.sub(lambda found: blank(found[0]), text)


class Clause(NamedTuple):
    """A clause or a ghost item of code without notes: its keyword, its label, and where it stands."""

    keyword: str
    label: str
    start: int
    end: int


def closing_brace(text: str, start: int) -> int:
    """Returns the place after the brace that closes the one before `start`."""
    depth = 1
    for found in re.finditer(r"[{}]", text[start:]):
        depth += 1 if found[0] == "{" else -1
        if depth == 0:
            return start + found.end()
    return len(text)


def clauses_in(text: str) -> Iterator[Clause]:
    place = 0
    while found := CLAUSE.search(text, place):
        place = closing_brace(text, found.end())
        yield Clause(found[1], found[2].strip(" *"), found.start(), place)


def only_clauses(text: str) -> str:
    """Returns the clauses and ghost items of code without notes, and spaces between them."""
    kept, place = "", 0
    for it in clauses_in(text):
        kept += blank(text[place:it.start]) + text[it.start:it.end]
        place = it.end
    return kept + blank(text[place:])


# ---- functions


class Owner(NamedTuple):
    """The block in which a function stands: `trait` or `impl`, the trait's or type's name, and the trait of an impl."""

    kind: str
    name: str
    of_trait: str = ""


class Function:
    """A function of a source file: where it stands, what is said of it, and its lines."""

    def __init__(self, found: re.Match[str], owner: Owner | None, comment: list[str], number: int) -> None:
        self.owner = owner if found[1] else None
        self.own_name = found[3]
        self.name = f"{self.owner.name}::{found[3]}" if self.owner else found[3]
        self.is_marked = bool(found[2])
        self.comment = comment
        self.number = number
        self.lines: list[str] = []

    def promises(self) -> list[tuple[str, list[str]]]:
        """Returns the label of each `ensures`, with the words of the clause."""
        head = itertools.takewhile(lambda line: line.strip() != "{", self.lines)
        text = without(RUST_NOTES, "\n".join(head))
        return [(it.label, re.findall(r"\w+", text[it.start:it.end].partition("{")[2]))
                for it in clauses_in(text) if it.keyword == "ensures"]


def owner_of(kind: str, words: str) -> Owner:
    """Returns what the block is of that begins with this keyword and these words."""
    while re.search(r"<[^<>]*>", words):
        words = re.sub(r"<[^<>]*>", "", words)
    before, _, after = words.lstrip("> ").partition(" for ")
    if after:
        return Owner("impl", re.findall(r"\w+", after.split(" where ")[0])[-1], before.split("::")[-1])
    return Owner(kind, re.findall(r"\w+", before)[0])


def end_of(lines: list[str], start: int, indent: str) -> int:
    """Returns the last line of the function that begins at this one: of a body its closing brace, of a method of a
    trait, which has none, the semicolon after its clauses."""
    depth = 0
    for at in range(start, len(lines)):
        line = lines[at].split("//")[0].rstrip()
        if depth == 0 and line == indent + "{}":
            return at
        is_clause = re.match(r"\s*(ensures|requires|ghost)\b", line)
        if depth == 0 and not is_clause and line.endswith("{"):
            return next(end for end in range(at + 1, len(lines)) if lines[end] == indent + "}")
        if depth == 0 and not is_clause and line.endswith("{}"):
            return at
        depth += line.count("{") - line.count("}")
        if depth == 0 and line.endswith(";"):
            return at
    return start


def functions_of(path: str) -> list[Function]:
    """Returns all functions of a file, in order, up to its tests."""
    lines = text_of(path).splitlines()
    owner: Owner | None = None
    comment: list[str] = []
    found: list[Function] = []
    for number, line in enumerate(lines):
        if line.startswith("#[cfg(test)]"):
            break
        if block := OWNER.match(" ".join(lines[number:number + 4]).split("{")[0]):
            owner = owner_of(block[1], block[2])
        elif line.startswith("}"):
            owner = None
        if line.strip().startswith("///"):
            comment.append(line.strip()[3:].strip())
            continue
        if match := FUNCTION.match(line):
            found.append(Function(match, owner, comment, number + 1))
            found[-1].lines = lines[number:end_of(lines, number, match[1]) + 1]
        if line.strip() and not line.strip().startswith("#["):
            comment = []
    return found


def item_at(path: str, old: str) -> str:
    """Returns the type, constant or other item of a file in which this line stands."""
    name = ""
    for line in text_of(path).splitlines():
        if match := ITEM.match(line):
            name = match[1]
        if old in line:
            return name
    return name


# ---- definitions


class Place(NamedTuple):
    """A definition: its file, from the top of the repository, and its name."""

    path: str
    name: str


class Definition(NamedTuple):
    """A definition of a file: its first comment, how many lines it has, and the words in it."""

    comment: str
    lines: int
    words: set[str]


def spec_file(crate: str, words: list[str]) -> str | None:
    """Returns the spec file that the longest front of these words names, or None where they name the code's types."""
    for count in range(len(words), 0, -1):
        path = f"crates/{crate}/specs/{'/'.join(words[:count])}.antt"
        if os.path.exists(os.path.join(TOP, path)):
            return path
    return None


class SpecFile:
    """A spec file: its definitions in their order, and the place of each name that it imports."""

    def __init__(self, path: str) -> None:
        text = text_of(path)
        said = " ".join(it[3:] for it in itertools.takewhile(lambda it: it.startswith("-- "), text.splitlines()))
        self.title = said.partition(". ")[0].rstrip(".")
        self.imports: dict[str, Place] = {}
        for crate, module, names in SPEC_IMPORT.findall(re.sub(r"--[^\n]*", "", text)):
            source = spec_file(crate, module.split("."))
            for name, _, alias in (it.strip().partition(" as ") for it in names.split(",")):
                if source and name:
                    self.imports[alias.strip() or name] = Place(source, name)
        self.definitions: dict[str, Definition] = {}
        self.read(text)

    def read(self, text: str) -> None:
        name, comment = None, ""
        for line in text.splitlines():
            found = DEFINITION.match(line)
            if line.lstrip().startswith("-- "):
                comment = f"{comment} {line.lstrip()[3:]}".strip()
            elif found and found[1] not in self.definitions:
                name = found[1]
                self.definitions[name] = Definition(comment, 1, set(SPEC_WORD.findall(line)))
            elif line.strip().startswith(("module ", "use ", "pub use ")):
                name = None
            elif name and line.strip():
                it = self.definitions[name]
                words = it.words | set(SPEC_WORD.findall(line.partition(" -- ")[0]))
                self.definitions[name] = Definition(it.comment, it.lines + 1, words)
            if not line.lstrip().startswith("-- "):
                comment = ""


@functools.cache
def specs_called(module: str) -> list[str]:
    """Returns the texts of the spec files of this name, in any crate."""
    return [text_of(it) for it in glob.glob(f"{TOP}/crates/*/specs/**/{module}.antt", recursive=True)]


def is_defined(module: str, name: str) -> bool:
    """Returns whether a spec file of this name defines the name."""
    shape = rf"(?m)(\b(record|data)\s+{re.escape(name)}\b|^\s*(abbrev |pub |unfoldable )*{re.escape(name)}\s*:" \
        rf"|^pub use .*\b{re.escape(name)}\b)"
    return any(re.search(shape, it) for it in specs_called(module))
