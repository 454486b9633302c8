"""Corrupt shelves: what `salvage` takes of them, and what it leaves."""

import os
import random
from typing import Any

from .support import (
    PROGRAM,
    Case,
    added,
    big,
    discard,
    header,
    needs_program,
    old,
    read,
    reference,
    shelf_of,
    station,
    text_file,
    write,
)

DRAWS = int(os.environ.get("KILLS", "60"))
GATE = 19  # the first one


def files(count: Any) -> Any:
    drawn = random.Random(count)
    return [added(it, text_file(b"F%d" % it, drawn.randbytes(drawn.randrange(10, 3000)))) for it in range(count)]


def gates_of(items: Any) -> Any:
    """The places of the gates before these items, and of the closed one after them."""
    places = [GATE]
    for it in items:
        places.append(places[-1] + 1 + len(it))
    return places


class Salvaged(Case):
    def salvaged(self, data: Any, status: Any = 0) -> Any:
        """The items of the new shelf, what was printed and what was said."""
        write("broken.shelf", data)
        if os.path.exists("new.shelf"):
            os.unlink("new.shelf")
        out, said = self.call("salvage", "broken.shelf", "new.shelf", status=status)
        self.assertEqual(read("broken.shelf"), data, "it is only read")
        if status:
            self.assertFalse(os.path.exists("new.shelf"))
            return [], out, said
        new = read("new.shelf")
        if PROGRAM and out.splitlines()[-1] != "files 0":
            station("new.shelf", "verify")
            self.assertIn(out.splitlines()[-1], station("new.shelf", "list").decode().splitlines()[-1])
        items, at = [], GATE
        while new[at] == 1:
            kind = new[at + 1]
            size = 11 if kind == 0x81 else self.size_of(new, at + 1)
            items.append(new[at + 1 : at + 1 + size])
            at += 1 + size
        self.assertEqual(len(new), at + 1)
        return items, out, said

    @staticmethod
    def size_of(data: Any, at: Any) -> Any:
        begin = at + (data[at] == 0x80)
        packets, count = (int.from_bytes(data[begin + it : begin + it + 4], "big") for it in (3, 7))
        return begin - at + 11 + (24 if data[at] == 0x80 else 0) + 2 * packets + count + 2

    def test_a_length_in_the_middle(self) -> None:
        """Four bytes of one length: all but this file come."""
        items = files(40)
        data = bytearray(shelf_of(items))
        gate = gates_of(items)[20]
        data[gate + 9 : gate + 13] = b"\xff\xff\xff\xff"
        found, out, said = self.salvaged(bytes(data))
        self.assertEqual(found, items[:20] + items[21:])
        self.assertIn("file 19 new 19\n", out)
        self.assertIn("file - new 20\n", out)
        self.assertIn(f"bytes from {gate} on", said)
        self.assertEqual(found, self.salvaged(shelf_of(found))[0], "the new one is whole")

    def test_drawn_breaks_cost_what_they_touch(self) -> None:
        items = files(30)
        whole, gates = shelf_of(items), gates_of(items)
        drawn = random.Random(7)
        for draw in range(DRAWS):
            kind = draw % 4
            size = (1, 4, drawn.randrange(1, 6000), 0)[kind]
            place = drawn.randrange(0, len(whole) - size)
            data = bytearray(whole)
            if kind == 0:
                data[place] ^= 1 << drawn.randrange(8)
            elif kind == 1:
                data[place : place + 4] = drawn.randbytes(4)
            elif kind == 2:
                data[place : place + size] = bytes(size)
            else:
                data, size = data[:place], len(whole) - place
            left = [it for it, at, end in zip(items, gates, gates[1:]) if end <= place or at >= place + size]
            with self.subTest(kind=kind, place=place, size=size):
                if not left:
                    continue
                found, out, _ = self.salvaged(bytes(data))
                # (a break that changes nothing, or a gate to a closed one with its file whole)
                self.assertEqual([it for it in found if it in left], left)
                self.assertEqual([it for it in found if it not in items], [])

    def test_numbers_and_discards(self) -> None:
        items = [*files(6), discard(1)]
        data = bytearray(shelf_of([*items, discard(0), discard(5), added(6, text_file(b"last"))]))
        gate = gates_of(items)[3]
        data[gate + 100] ^= 1
        found, out, said = self.salvaged(bytes(data))
        self.assertIn("file 3 at", said)
        self.assertIn("file 5 new 4\n", out, "a damaged file whose lengths are right hides no number")
        self.assertEqual(found[5:8], [discard(1), discard(0), discard(4)])
        data[gate + 9 : gate + 13] = b"\xff\xff\xff\xff"
        found, out, said = self.salvaged(bytes(data))
        self.assertEqual(found[5:7], [discard(1), discard(0)])
        self.assertIn("the discard of file 5 is left out", said)
        self.assertIn("discarded 0 new 0\n", out)

    def test_what_is_in_a_file_is_no_item(self) -> None:
        """A file that has whole items in it, whole, damaged and cut off, and one whose gate is still closed."""
        inner = b"".join(b"\1" + it for it in files(3)) + b"\0"
        outer = added(0, text_file(b"outer", inner))
        whole = shelf_of([outer, added(1, text_file(b"x"))])
        self.assertEqual(self.salvaged(whole)[0], [outer, added(1, text_file(b"x"))])
        data = bytearray(whole)
        data[GATE + 60] ^= 1
        self.assertEqual(self.salvaged(bytes(data))[0], [added(1, text_file(b"x"))])
        first = added(0, text_file(b"first"))
        cut = shelf_of([first, outer])
        self.assertEqual(self.salvaged(cut[:-100])[0], [first])
        pending = bytearray(shelf_of([first])) + outer + b"\0"
        self.assertEqual(self.salvaged(bytes(pending))[0], [first])
        self.assertEqual(self.salvaged(bytes(pending[:-50]))[0], [first])

    def test_both_forms_and_a_damaged_header(self) -> None:
        items = [old(0, text_file(b"old")), *files(5)[1:]]
        data = shelf_of(items)
        found, _, said = self.salvaged(b"\x5a" + bytes(4) + data[5:])
        self.assertEqual(found, items)
        self.assertIn("header", said)
        older = reference.shelf(1, 10**9, [old(it, text_file(b"o%d" % it)) for it in range(4)])
        broken = bytearray(older)
        broken[GATE + 5 : GATE + 9] = b"\xff" * 4
        self.assertEqual(self.salvaged(bytes(broken))[0], [old(it, text_file(b"o%d" % it)) for it in (1, 2, 3)])
        self.assertEqual(read("new.shelf")[:GATE], older[:GATE], "the same header")

    def test_nothing(self) -> None:
        for data in (b"", b"notes", header(), header() + b"\0", bytes(100_000)):
            self.salvaged(data, status=1)
        write("there.shelf", b"there")
        self.call("salvage", "broken.shelf", "there.shelf", status=1)
        self.assertEqual(read("there.shelf"), b"there")
        self.call("salvage", "nowhere.shelf", "new.shelf", status=1)
        self.call("salvage", "broken.shelf", status=2)

    def test_bytes_that_look_like_many_items(self) -> None:
        """Heads with lengths that fit and checksums that don't: the search ends in time."""
        head = b"\1\x80" + big(1, 1) + big(2, 100) + big(4, 600) + big(4, 600 * 60000) + bytes(24)
        lengths = big(2, 60000) * 600
        filled = (head + lengths) * 2000
        items = [*files(2), added(2, text_file(b"behind"))]
        gates = gates_of(items)
        data = shelf_of(items[:2])[:-1] + b"\1\x80" + filled + shelf_of(items)[gates[2] :]
        found, _, _ = self.salvaged(data)
        self.assertEqual(found[:2], items[:2])

    @needs_program
    def test_the_program_goes_on_with_it(self) -> None:
        write("sent.shelf", b"")
        os.unlink("sent.shelf")
        station("sent.shelf", "trial", "1", "64", "0")
        whole = bytearray(read("sent.shelf"))
        whole[20_000:20_004] = b"\xff" * 4
        found, out, _ = self.salvaged(bytes(whole))
        self.assertGreaterEqual(len(found), 61)
        frames = station("-", "make", "1", "64", "0", "--output", "frames")
        station("new.shelf", "receive", "--input", "frames", given=frames)
        self.assertIn(f"files {len(found) + 63}", station("new.shelf", "list").decode())
