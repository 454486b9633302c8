"""Hostile zips: one leaves its folder never, overwrites nothing, and has limits."""

import os
import time
import warnings
import zipfile
from collections.abc import Iterator
from typing import Any

from .support import HAS_JINJA, Case, added, needs_pillow, proper, record, shelf_of, taken, tree, write, zip_of

warnings.filterwarnings("ignore", "Duplicate name")


def link_to(target: Any) -> Any:
    info = zipfile.ZipInfo("link")
    info.create_system = 3
    info.external_attr = 0o120777 << 16
    return info, target


def patched(data: Any, at: Any, new: Any, signature: Any = b"PK\x01\x02") -> Any:
    """A zip with other bytes at a place of its first central entry."""
    at += data.index(signature)
    return data[:at] + new + data[at + len(new) :]


def hostile_zip_files() -> Iterator[Any]:
    """Names, and zips that stay zips (True), are unpacked to so many files, or either (None), as versions of Python
    differ."""
    good = zip_of(("a.txt", b"text"))
    thousand = bytes(1000)
    yield "climbs", zip_of(("../../escaped", b"text")), 1
    yield "from the root", zip_of(("/tmp/escaped", b"text")), 1
    yield "other slashes", zip_of(("..\\..\\escaped", b"text")), 1
    yield "dots", zip_of((".", b"a"), ("..", b"b"), ("...", b"c")), 3
    yield "an option", zip_of(("-rf", b"text")), 1
    yield "no name", zip_of(("", b"text")), 1
    yield "a command", zip_of(("$(touch escaped)", b"text"), ("`touch escaped`", b"text")), 2
    yield "twice the same name", zip_of(("a.txt", b"one"), ("a.txt", b"two"), ("A.txt", b"three")), 3
    yield "a name with the number of another", zip_of(("2-a.txt", b"one"), ("a.txt", b"two"), ("a.txt", b"three")), 3
    yield "the same name when it is safe", zip_of(("a/b", b"one"), ("a_b", b"two"), ("a\\b", b"three")), 3
    yield "a folder and a file of one name", zip_of(("a/", b""), ("a", b"text")), 1
    yield "long names", zip_of(("n" * 5000, b"text"), ("n" * 5001, b"text")), 2
    yield "a link", zip_of(link_to("/etc/passwd"), ("link", b"text")), 1
    yield "only a link", zip_of(link_to("../../escaped")), True
    yield "only folders", zip_of(("a/", b""), ("b/", b"")), True
    yield "nothing", zip_of(), 1
    yield "cut", good[: len(good) // 2], True
    yield "only its first bytes", b"PK\x03\x04", True
    yield "another checksum", patched(good, 16, b"\0\0\0\0"), True
    yield "encrypted", patched(good, 8, b"\1\0"), True
    yield "an unknown method", patched(good, 10, b"\x63\0"), True
    yield "too long by its entry", patched(good, 20, b"\xff\xff\xff\x7f"), None
    yield "an entry before the start", patched(good, 42, b"\xff\xff\xff\xff"), True
    bad = zip_of(("a.txt", b"text"), ("b.txt", b"text"))
    yield "one of two encrypted", patched(bad, 8, b"\1\0"), True
    yield "bzip2", zip_of(("a.txt", bytes(100000)), compression=zipfile.ZIP_BZIP2), True
    yield "lzma", zip_of(("a.txt", bytes(100000)), compression=zipfile.ZIP_LZMA), True
    yield "a bomb", zip_of(("a.txt", bytes(200 * 1024 * 1024))), True
    yield "a bomb in parts", zip_of(*((f"{it}", bytes(1024 * 1024)) for it in range(100))), True
    yield "too many files", zip_of(*((f"{it}", b"x") for it in range(257))), True
    yield "far too many files", zip_of(*((f"{it}", b"") for it in range(60000))), True
    yield "as many files as may be", zip_of(*((f"{it}", b"x") for it in range(256))), 256
    yield "a zip in a zip", zip_of(("inner.zip", zip_of(("../escaped", thousand)))), 1
    yield "pages", zip_of(
        ("a.html", b"<script>alert(1)</script>"),
        ("b.svg", b"<svg onload='alert(1)'/>"),
        ("run.sh", b"#!/bin/sh\ntouch escaped\n"),
    ), 3
    yield "a right one", good, 1


@needs_pillow
class Zips(Case):
    def test_each_stays_in_its_folder_and_within_its_limits(self) -> None:
        zips = list(hostile_zip_files())
        items = [added(number, proper(2, [record(4, b"zip")], data)) for number, (_, data, _) in enumerate(zips)]
        write("zips.shelf", shelf_of(items))
        before = tree("..")
        begun = time.monotonic()
        self.call("contents", "zips.shelf", "zips")
        self.assertLess(time.monotonic() - begun, 60)
        self.assertLessEqual(tree("..", ["../in/zips"]).items(), {**before, "../in/zips": None}.items())
        self.assertFalse(any(map(os.path.lexists, ("/tmp/escaped", "escaped", "../escaped"))))
        found = taken("zips")
        for number, (what, data, wanted) in enumerate(zips):
            own = {path: inside for path, inside in found.items() if f"/zips-{number:06d}-" in path}
            with self.subTest(what=what):
                if wanted is True:
                    self.assertEqual(list(own.values()), [data], "it stays as it is")
                    self.assertTrue(list(own)[0].endswith(".zip"))
                elif wanted:
                    self.assertEqual(len(own), wanted, list(own)[:3])
                self.assertTrue(all(path.lower().endswith((".txt", ".bin", ".zip")) for path in own), list(own)[:3])
        self.assertFalse(any(os.path.islink(path) for path in tree("zips")), "no link is made")
        may_run = [path for path in tree("zips") if os.path.isfile(path) and os.access(path, os.X_OK)]
        self.assertEqual(may_run, [], "no file may be run")
        if HAS_JINJA:
            self.call("page", "zips.shelf", "zips-page")
