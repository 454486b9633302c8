"""The quality of a reception, from the lines of `decode` and of `frames`."""

import os
import subprocess
import time
from typing import Any

from .support import SECONDS, Case, needs_program, read, start, station, write


def window(place: Any, *words: Any) -> Any:
    return f"window {place // 16384} at {place} polarity + {' '.join(map(str, words))}\n"


def frame(number: Any, channel: Any, counter: Any) -> Any:
    return f"frame {number} vc {channel} counter {counter} spacecraft 7 replay 0 pointer 2047\n"


class Quality(Case):
    def told(self, text: Any, rate: Any = "10000", status: Any = 0, *words: Any) -> Any:
        process = start("quality", "--rate", rate, *words, stdin=subprocess.PIPE)
        out, said = process.communicate(text.encode(), timeout=SECONDS)
        self.assertEqual(process.returncode, status, said)
        return out.decode().splitlines()

    def test_windows_minute_by_minute(self) -> None:
        lines = [window(16384 * it, "restored", 16, 16, 16, 16) for it in range(64)] + ["symbols 1048576 frames 64\n"]
        wanted = ["minute 0 frames 37 lost 0 corrected 64.00", "minute 1 frames 27 lost 0 corrected 64.00"]
        self.assertEqual(self.told("".join(lines)), wanted)
        mixed = window(0, "restored", 1, 0, 0, 1) + window(16384, "lost", 2) + window(32768, "restored", 0, 0, 0, 1)
        self.assertEqual(self.told(mixed), ["minute 0 frames 3 lost 1 corrected 1.50"])
        again = window(0, "restored", 1, 17, 0, 0) + window(16384, "restored", 16, 16, 16, 16)
        again += window(32768, "lost", 0)
        self.assertEqual(self.told(again), ["minute 0 frames 3 lost 1 corrected 41.00 redecoded 1"])
        late = window(0, "restored", 0, 0, 0, 0) + window(2_400_000, "lost", 0) + "symbols 3000001 frames 2\n"
        self.assertEqual([it.split()[3] for it in self.told(late)], ["1", "0", "0", "0", "1"])

    def test_blocks(self) -> None:
        lines = "block 0 restored 16 16 16 16\nblock 1 lost 0\nblock 37 restored 0 0 0 0\nsymbols 38760 frames 38\n"
        wanted = ["minute 0 frames 2 lost 1 corrected 64.00", "minute 1 frames 1 lost 0 corrected 0.00"]
        self.assertEqual(self.told(lines)[:2], wanted)

    def test_frames_and_the_steps_of_their_counters(self) -> None:
        """Losses are counted within each channel, over the counter's end; a great step is a new start."""
        rows = [
            (13, 16777214),
            (63, 5),
            (13, 16777215),
            (13, 1),
            (63, 6),
            (13, 2),
            (63, 9),
            (13, 9_000_000),
            (13, 9_000_001),
        ]
        text = (
            "".join(frame(it, *row) for it, row in enumerate(rows))
            + "frame 9 version 0 refused\nframes 10 left 0 stop end\n"
        )
        self.assertEqual(self.told(text), ["minute 0 frames 13 lost 4"])
        long = "".join(frame(it, 1, it if it < 30 else it + 20) for it in range(60))
        self.assertEqual(sum(int(it.split()[3]) for it in self.told(long)), 80)
        self.assertEqual(sum(int(it.split()[5]) for it in self.told(long)), 20)

    def test_nothing_locks(self) -> None:
        self.assertEqual(self.told("", status=1), ["no frame lock"])
        self.assertEqual(self.told(window(0, "lost", 0), status=1)[-1], "no frame lock")
        for words in ((), ("--rate", "x"), ("--rate", "0")):
            self.call("quality", *words, status=2)

    def test_while_nothing_comes(self) -> None:
        process = start("quality", "--rate", "10000", "--pause", "0.3", stdin=subprocess.PIPE)
        process.stdin.write(window(0, "restored", 0, 0, 0, 0).encode())
        process.stdin.flush()
        self.assertEqual(process.stdout.readline(), b"no frame for 1 minutes\n")
        self.assertEqual(process.stdout.readline(), b"no frame for 2 minutes\n")
        process.communicate()

    def test_what_a_folder_keeps(self) -> None:
        os.mkdir("station")
        lines = "".join(window(600_000 * it, "restored", 1, 0, 0, 0) for it in range(4))
        self.told(lines, "10000", 0, "--keep", "station")
        self.assertEqual(read("station/quality"), b"minute 3 frames 1 lost 0 corrected 1.00\n")
        rows = [line.split() for line in read("station/minutes").decode().splitlines()]
        self.assertEqual([row[1:] for row in rows], 4 * [["1", "0", "1"]])
        self.assertTrue(all(abs(time.time() - int(row[0])) < 60 for row in rows))
        write("station/minutes", b"1 2 3 4\n" * 3000)
        self.told(lines, "10000", 0, "--keep", "station")
        self.assertLess(read("station/minutes").count(b"\n"), 1600)
        # (where it can't be written the lines come all the same)
        self.assertEqual(len(self.told(lines, "10000", 0, "--keep", "nowhere")), 4)

    @needs_program
    def test_the_program_itself(self) -> None:
        symbols = station("-", "make", "1", "64", "16")
        wanted = ["minute 0 frames 37 lost 0 corrected 64.00", "minute 1 frames 27 lost 0 corrected 64.00"]
        self.assertEqual(self.told(station("-", "decode", given=symbols).decode()), wanted)
        blocks = station("-", "make", "1", "64", "16", "--output", "blocks")
        self.assertEqual(self.told(station("-", "decode", "--input", "blocks", given=blocks).decode()), wanted)
        frames = station("-", "make", "1", "64", "0", "--output", "frames")
        told = self.told(station("-", "frames", given=frames[: 892 * 9] + frames[892 * 12 :]).decode())
        self.assertEqual(sum(int(it.split()[3]) for it in told), 64)
        self.assertEqual(sum(int(it.split()[5]) for it in told), 3)
