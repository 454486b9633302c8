"""The words, the help, and what is missing: Pillow, Jinja2, the program."""

import os
import re
import subprocess
import sys
from typing import Any

from .support import COMMAND, TOP, Case, added, image, needs_pillow, record, shelf_of, text_file, write

COMMANDS = ["follow", "contents", "find", "pictures", "page", "web", "geo", "plain", "overlay", "which", "state"]
COMMANDS += ["alarm", "salvage", "quality", "align", "sample"]


class Help(Case):
    def test_every_command_has_its_help_with_an_example(self) -> None:
        out, _ = self.call("--help")
        self.assertEqual(re.findall(r"(?m)^    ([a-z]+) ", out), COMMANDS)
        for command in COMMANDS:
            out, _ = self.call(command, "--help")
            self.assertIn(f"usage: gomtasil {command}", out)
            self.assertIn("\nexample:\n  ", out)
            self.assertLessEqual(max(map(len, out.splitlines())), 120)

    def test_as_a_module(self) -> None:
        words = [sys.executable, "-m", "gomtasil", "--help"]
        done = subprocess.run(words, cwd=os.path.join(TOP, "tools"), capture_output=True, text=True)
        self.assertEqual((done.returncode, done.stdout), (0, self.call("--help")[0]))

    def test_by_a_link(self) -> None:
        os.symlink(COMMAND[-1], "link")
        done = subprocess.run([sys.executable, "link", "--help"], capture_output=True, text=True)
        self.assertEqual(done.returncode, 0)


class Missing(Case):
    """Without Pillow or Jinja2 a command that needs it ends with 1 and names the package; the others work."""

    def setUp(self) -> None:
        super().setUp()
        files = [text_file(b"name"), image(8, 2, 2, b"abcd", 0, [record(4, b"I")])]
        write("my.shelf", shelf_of([added(it, file) for it, file in enumerate(files)]))

    def without(self, module: Any) -> Any:
        os.makedirs(f"hidden-{module}/{module}", exist_ok=True)
        write(f"hidden-{module}/{module}/__init__.py", b"raise ImportError('hidden')\n")
        return {**os.environ, "PYTHONPATH": f"{os.getcwd()}/hidden-{module}"}

    def test_without_pillow(self) -> None:
        hidden = self.without("PIL")
        words = [("contents", "my.shelf", "x"), ("pictures", "my.shelf", "x"), ("page", "my.shelf", "x")]
        for call in [*words, ("overlay", "my.shelf", "1", "x"), ("geo", "my.shelf", "1", "x")]:
            _, said = self.call(*call, status=1, env=hidden)
            self.assertEqual(said, "gomtasil: Pillow is missing: apt-get install python3-pil\n")
        self.assertFalse(os.path.exists("x"))
        self.call("follow", "my.shelf", "files", env=hidden)
        self.call("plain", "my.shelf", "1", "plain", env=hidden)

    @needs_pillow
    def test_without_jinja(self) -> None:
        hidden = self.without("jinja2")
        _, said = self.call("page", "my.shelf", "x", status=1, env=hidden)
        self.assertEqual(said, "gomtasil: Jinja2 is missing: apt-get install python3-jinja2\n")
        self.call("pictures", "my.shelf", "y", env=hidden)
        self.call("contents", "my.shelf", "z", env=hidden)
