#!/usr/bin/env python3
"""bundle.py FOLDER VERSION PAGE: one page with all in it: the files of page/, the modules FOLDER/*.wasm, and the
sample. It opens from a disk too, where a browser reads no second file. Its content security policy names the one style
and the one script by their checksums, and no other place."""

from __future__ import annotations

import base64
import hashlib
import json
import re
import sys
from pathlib import Path

import sample

PAGE = Path(__file__).resolve().parent / "page"
IMPORT = re.compile(r"^import \{[^}]*\} from '\./([\w.-]+)';\n", re.MULTILINE)
EXPORT = re.compile(r"^export (?=(async )?(const|let|function|class)\b)", re.MULTILINE)
DECLARED = re.compile(r"^(?:async )?(?:const|let|function\*?|class) (\w+|\[[^]]*\])", re.MULTILINE)


class BundleError(Exception):
    """Files that don't join to one text."""


def script(name: str, seen: set[str] | None = None) -> str:
    """The text of a script after those of all that it imports, each once, as one script without modules."""
    seen = set() if seen is None else seen
    seen.add(name)
    text = (PAGE / name).read_text(encoding="utf-8")
    before = "".join(script(it, seen) for it in IMPORT.findall(text) if it not in seen)
    own = EXPORT.sub("", IMPORT.sub("", text))
    if re.search(r"^(import|export)\b", own, re.MULTILINE):
        raise BundleError(f"{name} imports or exports in a form that isn't known")
    return before + own


def one_script(name: str) -> str:
    """The same, where no two files declare one name."""
    text = script(name)
    names = [name for it in DECLARED.findall(text) for name in re.findall(r"\w+", it)]
    twice = sorted({it for it in names if names.count(it) > 1})
    if twice:
        raise BundleError(f"{name}: {', '.join(twice)} is declared by two files")
    return "'use strict';\n" + text


def checksum(text: str) -> str:
    return "'sha256-" + base64.b64encode(hashlib.sha256(text.encode("utf-8")).digest()).decode("ascii") + "'"


def policy(style: str, text: str) -> str:
    """What the page may load: its own style and script, blobs that it makes, and nothing of any network."""
    rules = {
        "default-src": "'none'",
        "script-src": f"{checksum(text)} 'wasm-unsafe-eval'",
        "style-src": checksum(style),
        "worker-src": "blob:",
        "img-src": "blob: data:",
        "connect-src": "'none'",
        "base-uri": "'none'",
        "form-action": "'none'",
    }
    content = "; ".join(f"{name} {value}" for name, value in rules.items())
    return f'<meta http-equiv="Content-Security-Policy" content="{content}">'


def lent(folder: Path, version: str) -> str:
    """The modules, the Worker and the sample, as JSON within a script that no browser runs."""
    shelf, files = sample.sample_shelf()
    modules = {it.stem: base64.b64encode(it.read_bytes()).decode("ascii") for it in sorted(folder.glob("*.wasm"))}
    text = {
        "version": version,
        "modules": modules,
        "worker": one_script("worker.mjs"),
        "sample": base64.b64encode(shelf).decode("ascii"),
        "files": files,
    }
    inside = json.dumps(text, ensure_ascii=False).replace("<", "\\u003c")
    return f'<script type="application/json" id="lent">{inside}</script>'


def page(folder: Path, version: str) -> str:
    style = (PAGE / "style.css").read_text(encoding="utf-8")
    text = one_script("page.mjs")
    if "</script" in text or "<!--" in text:
        raise BundleError("the script has what ends a script in a page")
    places = {
        "<!--policy-->": policy(style, text),
        "<!--style-->": f"<style>{style}</style>",
        "<!--script-->": f"{lent(folder, version)}\n<script>{text}</script>",
    }
    whole = (PAGE / "index.html").read_text(encoding="utf-8")
    for place, inside in places.items():
        if whole.count(place) != 1:
            raise BundleError(f"index.html has no one place {place}")
        whole = whole.replace(place, inside)
    return whole


def main() -> int:
    folder, version, target = sys.argv[1:]
    try:
        text = page(Path(folder), version)
    except BundleError as fault:
        print(f"bundle.py: {fault}", file=sys.stderr)
        return 1
    Path(target).write_text(text, encoding="utf-8")
    return 0


if __name__ == "__main__":
    sys.exit(main())
