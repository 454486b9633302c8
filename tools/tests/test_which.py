"""The line code of a recording, and what a file looks like in which none locks."""

import json
import os
import random
import struct
from pathlib import Path
from typing import Any

from gomtasil import reasons

from .support import Case, needs_program, proper, read, record, station, write

CODES = [f"--line {line} --g2 {g2}" for line in ("nrz-l", "nrz-m") for g2 in ("inverted", "plain")]


def noisy(values: Any, most: Any) -> Any:
    draws = random.Random(1)
    return [it + draws.randint(-most, most) for it in values]


def within(least: Any, values: Any, greatest: Any) -> Any:
    return [max(least, min(greatest, it)) for it in values]


@needs_program
class Which(Case):
    def setUp(self) -> None:
        super().setUp()
        station("sent.shelf", "trial", "1", "64", "0")
        self.sent = self.symbols(CODES[3])
        self.values = [it - 256 if it > 127 else it for it in self.sent]

    def symbols(self, code: Any) -> Any:
        return station("sent.shelf", "transmit", "0", "63", "4", *code.split())

    def told(self, data: Any, status: Any = 0) -> Any:
        write("-recording", data)
        out, said = self.call("which", "-recording", status=status)
        self.assertEqual(said, "")
        return out

    def test_each_line_code(self) -> None:
        for code in CODES:
            self.assertEqual(self.told(self.symbols(code)).splitlines()[-1], f"locks: {code}")

    def test_a_signal_that_begins_late(self) -> None:
        out = self.told(bytes(4_100_000) + self.sent + bytes(3_000_000))
        self.assertEqual(out.splitlines()[-1], f"locks: {CODES[3]}")

    def test_a_weak_signal(self) -> None:
        """Its frames are found, and none is restored."""
        draws = random.Random(4)
        weak = bytes(max(-127, min(127, round(it / 2 + draws.gauss(0, 60)))) % 256 for it in self.values)
        out = self.told(weak, 1)
        self.assertRegex(out, rf"{CODES[3]}: frames [0-9]{{2}} restored 0")
        said = rf"A signal is there \({CODES[3]}, [0-9]{{2}} frames\), but too weak: no frame could be restored\."
        self.assertRegex(out, said)

    def test_files_that_are_no_recordings(self) -> None:
        for front, reason in ((b"\xff\xd8\xff\xe0", "jpeg"), (b"PK\3\4" + bytes(100), "zip"), (b"%PDF-1.7", "pdf")):
            self.assertEqual(self.told(front, 1), f"no frame lock\n{reasons.TEXTS[reason]}\n")
        text = proper(2, [record(4, b"name")], b"text")
        self.assertEqual(self.told(text, 1), f"no frame lock\n{reasons.TEXTS['lrit']}\n")

    def test_clean_bytes_are_read_the_same_both_ways(self) -> None:
        clean = bytes(64 if it > 0 else 192 for it in self.values)
        for data in (clean, bytes(it ^ 0x80 for it in clean)):
            out = self.told(data)
            self.assertIn("read as unsigned bytes it gives the same: if much is lost, lead it through\n  LC_ALL=C", out)
            self.assertEqual(out.splitlines()[-1], f"locks: {CODES[3]}")

    def test_signed_and_unsigned_bytes(self) -> None:
        little, much = noisy(self.values, 40), noisy(self.values, 120)
        for values in (little, much):
            self.assertNotIn("unsigned", self.told(bytes(it % 256 for it in within(-128, values, 127))))
            out = self.told(bytes(within(0, [it + 128 for it in values], 255)))
            self.assertIn("unsigned bytes: lead it through\n  LC_ALL=C tr ", out)

    def test_lines_that_lead_to_symbols(self) -> None:
        """Bits, eight a byte or one: the line that is told makes symbols of them that lock."""
        bits = [it > 0 for it in self.values]
        packed = int("".join(map(str, map(int, bits))), 2).to_bytes(len(bits) // 8, "big")
        for data, words in ((bytes(bits), "bits, a byte of 0 or 1 each"), (packed, "bits, eight a byte")):
            out = self.told(data)
            self.assertIn(f"it looks like {words}", out)
            self.assertEqual(out.splitlines()[-1], f"locks: {CODES[3]}")
            (line,) = [it for it in out.splitlines() if it.startswith("  ")]
            self.assertEqual(os.system(f"{line} < ./-recording > symbols"), 0)
            self.assertEqual(read("symbols"), bytes(64 if it else 192 for it in bits))
        unsigned = bytes(within(0, [it + 128 for it in noisy(self.values, 40)], 255))
        (line,) = [it for it in self.told(unsigned).splitlines() if it.startswith("  ")]
        self.assertEqual(os.system(f"{line} < ./-recording > symbols"), 0)
        self.assertEqual(read("symbols"), bytes(it ^ 0x80 for it in unsigned))

    def test_other_forms(self) -> None:
        little = noisy(self.values, 40)
        frames = station("-", "make", "1", "128", "0", "--output", "frames")
        cadu = b"".join(b"\x1a\xcf\xfc\x1d" + frames[at : at + 892] + bytes(128) for at in range(0, len(frames), 892))
        draws = random.Random(2)
        forms = [
            (struct.pack(f"<{len(little)}h", *(200 * it for it in little)), "integers of 16 bits"),
            (struct.pack(f"<{len(little)}f", *(it / 64 for it in little)), "floats of 32 bits"),
            (draws.randbytes(1_000_000), "a byte a value"),
            (bytes(draws.randint(0, 1) for _ in range(100_000)), "bits, a byte of 0 or 1 each"),
            (cadu, "SatDump's .cadu"),
            (frames, "frames of 892 bytes (goesrecv's packets): give `receive --input frames`"),
            (b"", reasons.TEXTS["empty"]),
        ]
        for data, words in forms:
            self.assertIn(words, self.told(data, 1))

    def test_wrong_words(self) -> None:
        for words in ((), ("nowhere",), (".",)):
            self.call("which", *words, status=2)


class Draws:
    """The bytes of the generator that reasons.json names."""

    def __init__(self, seed: int):
        self.state = seed

    def next(self) -> int:
        self.state = (self.state * 6364136223846793005 + 1442695040888963407) % 2**64
        return self.state >> 56

    def front(self, draw: str, count: int) -> bytes:
        if draw == "uniform":
            return bytes(self.next() for _ in range(count))
        if draw == "middle":
            return bytes(128 + (sum(self.next() for _ in range(4)) - 510) // 8 for _ in range(count))
        return struct.pack(f"<{count // 4}f", *((self.next() - 128) / 128 for _ in range(count // 4)))


class Reasons(Case):
    """The cases that the page's tests read too."""

    shared = json.loads((Path(__file__).parent / "reasons.json").read_text(encoding="utf-8"))

    def test_the_texts(self) -> None:
        self.assertEqual(reasons.TEXTS, self.shared["texts"])

    def test_the_cases(self) -> None:
        for case in self.shared["cases"]:
            front = case["front"]
            is_drawn = "draw" in front
            drawn = Draws(front.get("seed", 0)).front(front["draw"], front["count"]) if is_drawn else b""
            data = drawn or bytes.fromhex(front.get("hex", ""))
            heard = [reasons.Heard(it["form"], it["frames"], it["symbols"]) for it in case["tries"]]
            are_numbers = front.get("draw") == "floats" and case["tries"][0]["form"] == "f32le"
            with self.subTest(case["name"]):
                self.assertEqual(reasons.reason_of(data, case["size"], heard, are_numbers)[0], case["reason"])
