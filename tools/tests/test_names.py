"""Hostile names of files, of shelves and of folders."""

import os
import re
from typing import Any

from .support import HAS_PILLOW, Case, added, needs_pillow, read, shelf_of, taken, text_file, tree, write

NAMES = [
    b"../../escaped",
    b"/tmp/escaped",
    b"..",
    b".",
    b"/",
    b"//",
    b"./x",
    b".hidden",
    b"..\\..\\escaped",
    b"C:\\escaped",
    b"a name\twith\x00control\nbytes",
    b"line\nfile 0 record 4",
    b"\r\n",
    b"\x1b[31mred\x1b]0;title\x07",
    b"$(touch escaped)",
    b"`touch escaped`",
    b"; touch escaped;",
    b"| touch escaped",
    b"&& touch escaped",
    b"-rf",
    b"--help",
    b"--watch",
    b"--flat",
    b"-",
    b"back\\slash\\x41",
    b"caf\xc3\xa9",
    b"\xff\xfe\xfd",
    b"n" * 300,
    b"n" * 300,
    b".." * 100,
    b"",
    None,
    b" ",
    b"*",
    b"?",
    b"~root",
    b"%2e%2e%2fescaped",
    b"\xe2\x80\xaetxt.exe",
    b"discarded",
    b".follow",
    b".contents",
    b"IMG_FD_001.lrit",
    b"IMG_FD_001.lrit",
    b"7-foo",
    b"foo",
    b"foo",
    b"foo~2",
    b"shelf-000001-x",
    b"index.html",
    b"<script>alert(1)</script>",
    b'"><img src=x onerror=alert(1)>',
    b"'; DROP TABLE files; --",
    b"a.part",
    b"a.tar.gz",
    b"NUL",
    b"x" * 149 + b"/",
    b"con.txt",
    b"file-3",
    b"{0.__class__}",
    b"{label}",
]
CALLS = [("follow",), ("follow", "--flat"), ("follow", "--name", "{application}/{annotation}"), ("contents",)]
CALLS += [("contents", "--flat"), ("contents", "--name", "{annotation}")]


class Names(Case):
    def test_each_is_one_of_its_own_and_nothing_else_is_touched_or_run(self) -> None:
        items = [added(number, text_file(name, b"text %d" % number)) for number, name in enumerate(NAMES)]
        write("names.shelf", shelf_of(items))
        for command, *words in CALLS if HAS_PILLOW else CALLS[:3]:
            with self.subTest(command=command, words=words):
                self.take(command, words)

    def take(self, command: Any, words: Any) -> None:
        folder = f"names-{command}{len(words)}{''.join(words)[:6]}"
        before = tree("..")
        out, _ = self.call(command, "names.shelf", folder, *words)
        after = tree("..", [os.path.join("..", "in", folder)])
        self.assertLessEqual(after.items(), {**before, f"../in/{folder}": None}.items(), "something beside it changed")
        self.assertFalse(os.path.lexists("/tmp/escaped") or os.path.lexists("escaped"), "something was run")
        found = taken(folder)
        for path in found:
            self.assertRegex(path, r"\A([0-9-]{3,10}/)?[A-Za-z0-9_][A-Za-z0-9._~-]*\Z")
        texts = sorted(b"text %d" % number for number in range(len(NAMES)))
        files = sorted(text_file(name, b"text %d" % number) for number, name in enumerate(NAMES))
        self.assertEqual(sorted(found.values()), texts if command == "contents" else files)
        if command == "contents":
            self.assertTrue(all(path.endswith((".txt", ".TXT")) for path in found), "a name has an ending of its own")
        told = [line.split(" ", 1)[1] for line in out.splitlines()]
        self.assertEqual(sorted(told), sorted(found))
        self.assertEqual(self.call(command, "names.shelf", folder, *words)[0], "", "nothing is taken again")

    def test_templates_have_known_placeholders_alone(self) -> None:
        write("names.shelf", shelf_of([added(0, text_file(b"name"))]))
        for text in ("", "/x", "{other}", "{label.__class__}", "{label[0]}", "{", "{}"):
            self.call("follow", "names.shelf", "folder", "--name", text, status=2)
        self.call("follow", "names.shelf", "folder", "--name", "../x/{day!r:>9}/{number}")
        (path,) = taken("folder")
        self.assertTrue(re.fullmatch(r"_\./x/_?[0-9_-]+/000000", path), path)

    def test_paths_may_be_options_have_spaces_or_be_no_text(self) -> None:
        items = shelf_of([added(0, text_file(b"name"))])
        places = [
            (b"-shelf", b"-folder"),
            (b"--watch.shelf", b"-n"),
            (b"a b'\".shelf", b"c d'\"$(x)"),
            (b"\xff.shelf", b"\xfe"),
            (b"-", b"--"),
            (b"s" * 255, b"t" * 200),
        ]
        for shelf, folder in places:
            write(shelf, items)
            for command in ("follow", "contents", "page") if HAS_PILLOW else ("follow",):
                self.call(command, shelf, folder + command.encode())
                count = {"page": 3}.get(command, 2)
                self.assertEqual(len(os.listdir(folder + command.encode())), count, (command, folder))
            self.call("plain", shelf, "0", folder + b"plain")
            self.assertEqual(read(folder + b"plain"), text_file(b"name"))

    def test_wrong_words(self) -> None:
        write("-shelf", shelf_of([]))
        write("stands", b"x")
        wrong = [
            (),
            ("one",),
            ("one", "two", "three"),
            ("--watch",),
            ("one", "two", "--other"),
            ("one", "two", "--wat"),
        ]
        for words in wrong:
            self.call("follow", *words, status=2)
        for words in ((), ("nothing",), ("--other",)):
            self.call(*words, status=2)
        self.call("follow", "nowhere.shelf", "folder", status=1)
        self.call("follow", "-shelf", "stands", status=1)
        self.assertEqual(read("stands"), b"x", "a file in the place of the folder")

    @needs_pillow
    def test_pictures_keep_to_their_folder(self) -> None:
        from .support import image, record

        items = [
            added(number, image(8, 2, 2, b"abcd", 0, [] if name is None else [record(4, name)]))
            for number, name in enumerate(NAMES)
        ]
        write("-names.shelf", shelf_of(items))
        before = tree("..")
        self.call("pictures", "-names.shelf", "-drawn")
        self.assertLessEqual(tree("..", ["../in/-drawn"]).items(), {**before, "../in/-drawn": None}.items())
        found = taken("-drawn")
        self.assertEqual(len(found), len(NAMES))
        for path in found:
            self.assertRegex(path, r"\A[A-Za-z0-9_][A-Za-z0-9._-]*@_names\.[0-9]+\.png\Z")
