"""The recording that is drawn, as frames and as symbols, what comes of it, and README's session to the letter."""

import os
import re
import subprocess
import sys
from typing import Any

from .support import (
    COMMAND,
    PROGRAM,
    TOP,
    Case,
    needs_page,
    needs_program,
    pixels_of_png,
    read,
    station,
    taken,
    write,
)


def drawn() -> Any:
    return subprocess.run([*COMMAND, "sample"], capture_output=True, check=True).stdout


class Sample(Case):
    def test_frames_and_words(self) -> None:
        frames = drawn()
        self.assertEqual(len(frames), 6789 * 892)
        for words in ("x", "0", "61", "1.5", "-1"):
            self.call("sample", words, status=2)

    @needs_program
    @needs_page
    def test_what_comes_of_it(self) -> None:
        frames = drawn()
        station("first.shelf", "init", "1000000")
        told = station("first.shelf", "receive", "--input", "frames", given=frames).decode().splitlines()
        count = len(frames) // 892
        wanted = f"symbols {len(frames)} frames {count} restored {count} lost 0"
        self.assertEqual((told[-1].split(" packets ")[0], len(told) - 1), (wanted, 6))
        symbols = station("first.shelf", "transmit", "0", "6", "8", "--line", "nrz-m", "--g2", "plain")
        station("second.shelf", "init", "1000000")
        station("second.shelf", "receive", "--line", "nrz-m", "--g2", "plain", given=symbols)
        for number in range(6):
            one, other = (station(f"{it}.shelf", "extract", str(number)) for it in ("first", "second"))
            self.assertEqual(one, other)
        earth = station("second.shelf", "assemble", "0", "6", "313", "1")
        self.assertTrue(earth.startswith(b"P5\n640 640\n255\n") and len(set(earth)) > 100)
        self.call("contents", "second.shelf", "sampled", "--flat")
        texts = [data for path, data in taken("sampled").items() if path.endswith(".TXT")]
        self.assertTrue(len(texts) == 2 and texts[0] == texts[1] and b"NORTH ATLANTIC" in texts[0])
        self.call("page", "second.shelf", "page")
        page = read("page/index.html").decode()
        self.assertEqual(page.count("<figure>"), 1)
        self.assertIn("files 1-2, 4-5", page)
        self.assertNotIn("segments missing", page)
        self.call("pictures", "second.shelf", "pictures")
        (path,) = taken("pictures")
        columns, lines, _, _, pixels = pixels_of_png(read(f"pictures/{path}"))
        self.assertEqual((columns, lines, bytes(pixels)), (640, 640, earth.split(b"\n", 3)[3]))
        stored = pixels_of_png(read(os.path.join(TOP, "docs", "earth.png")))[4]
        # (by a level, since libraries round sines differently)
        self.assertEqual(len(stored), len(pixels))
        self.assertTrue(all(abs(a - b) <= 1 for a, b in zip(stored, pixels)), "the picture in docs/")


@needs_program
@needs_page
class Session(Case):
    def test_to_the_letter(self) -> None:
        text = read(os.path.join(TOP, "README.md")).decode()
        part = text[text.index("## From symbols to a picture") : text.index("## Receive a recording")]
        steps = re.findall(r"(?m)^    \$ (.*)\n((?:    (?!\$).*\n)*)", part)
        self.assertGreater(len(steps), 5)
        os.mkdir("path")
        os.symlink(PROGRAM, "path/lritstation")
        os.symlink(COMMAND[-1], "path/gomtasil")
        write("path/python3", f'#!/bin/sh\nexec "{sys.executable}" "$@"\n'.encode())
        os.chmod("path/python3", 0o755)
        environment = {key: value for key, value in os.environ.items() if key != "LRITSTATION"}
        environment["PATH"] = f"{os.getcwd()}/path:{environment['PATH']}"
        for command, wanted in steps:
            words = ["sh", "-c", command]
            done = subprocess.run(words, stdout=subprocess.PIPE, stderr=subprocess.STDOUT, text=True, env=environment)
            self.assertEqual((done.returncode, done.stdout), (0, wanted.replace("    ", "")), command)
        self.assertTrue(os.path.exists("page/index.html"))
        self.assertIn('src="docs/earth.png"', part)
