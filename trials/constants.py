"""The named numbers of the crates: what each constant of crates/NAME/src/*.rt is, and which of them a file can name."""
import ast
import glob
import operator
import os
import re
from collections.abc import Callable, Iterator

from sources import RUST_NOTES, text_of, without

CONSTANT = re.compile(r"^[ \t]*(?:pub(?:\(\w+\))? )?const (\w+): [iu](?:8|16|32|64|128|size) = ([^;]+);", re.M)
IMPORT = re.compile(r"^[ \t]*(?:pub(?:\(\w+\))? )?use ([\w:]+)::(?:\{([^}]*)\}|(\w+));", re.M)
LITERAL = re.compile(r"(?<!\w)(0x[\da-fA-F_]+|0b[01_]+|\d[\d_]*?)_?(?:[iu](?:8|16|32|64|128|size))?(?!\w)")
WORKS: dict[type[ast.operator], Callable[[int, int], int]] = {
    ast.Add: operator.add,
    ast.Sub: operator.sub,
    ast.Mult: operator.mul,
    ast.FloorDiv: operator.floordiv,
    ast.LShift: operator.lshift,
}


class Constants:
    """The constants of all crates below the folder where this runs."""

    def __init__(self) -> None:
        self.terms: dict[tuple[str, str], str] = {}
        self.imports: dict[str, dict[str, tuple[str, str]]] = {}
        for path in sorted(glob.glob("crates/*/src/*.rt")):
            text = without(RUST_NOTES, text_of(path))
            for name, term in CONSTANT.findall(text):
                self.terms[path, name] = term
            self.imports[path] = dict(self.imported(path, text))

    @staticmethod
    def imported(path: str, text: str) -> Iterator[tuple[str, tuple[str, str]]]:
        """Each name in capitals that a file uses from elsewhere, with the crate and the module that are named."""
        for place, group, single in IMPORT.findall(text):
            parts = place.split("::")
            crate = path.split("/")[1] if parts[0] in ("crate", "super") else parts[0]
            for name in re.findall(r"\b[A-Z][A-Z0-9_]+\b", group or single):
                yield name, (crate, parts[1] if len(parts) > 1 else "")

    def home(self, path: str, name: str) -> str | None:
        """The file that defines what this file calls so, or None."""
        if (path, name) in self.terms:
            return path
        # (`lr_trellis::STEP_COST` in a term is a name with a dot here)
        crate, _, rest = name.rpartition(".")
        if not crate and name not in self.imports[path]:
            return None
        if crate:
            module, name = "", rest
        else:
            crate, module = self.imports[path][name]
        homes = [it for it, other in self.terms if other == name and it.startswith(f"crates/{crate}/")]
        named = [it for it in homes if os.path.basename(it) == f"{module}.rt"]
        return named[0] if named else homes[0] if len(homes) == 1 else None

    def value(self, path: str, name: str) -> int | None:
        """What the constant is that this file calls so, or None where it isn't a sum, product or shift of others."""
        home = self.home(path, name)
        if home is None:
            return None
        term = re.sub(r"\bas \w+", "", self.terms[home, name.rpartition(".")[2]]).replace("/", "//").strip()
        term = LITERAL.sub(lambda it: str(int(it[1].replace("_", ""), 0)), term).replace("::", ".")
        try:
            return self.reckoned(home, ast.parse(term, mode="eval").body)
        except (SyntaxError, KeyError, TypeError):
            return None

    def reckoned(self, path: str, term: ast.expr) -> int:
        """What a term is; it raises TypeError where that isn't known."""
        value = None
        if isinstance(term, ast.Constant):
            value = term.value
        elif isinstance(term, (ast.Name, ast.Attribute)):
            value = self.value(path, ast.unparse(term))
        elif isinstance(term, ast.BinOp):
            value = WORKS[type(term.op)](self.reckoned(path, term.left), self.reckoned(path, term.right))
        if not isinstance(value, int):
            raise TypeError(ast.unparse(term))
        return value

    def in_reach(self, path: str) -> dict[int, list[str]]:
        """The values of the constants that a file defines or uses, each with its names."""
        found: dict[int, list[str]] = {}
        names = [name for home, name in self.terms if home == path] + list(self.imports[path])
        for name in dict.fromkeys(names):
            value = self.value(path, name)
            if value is not None:
                found.setdefault(value, []).append(name)
        return found
