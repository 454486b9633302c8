"""Which files are joined to one picture, and how: the cases of segments.json, which the page's tests read too."""

import json
import os
from typing import Any

from gomtasil import images, segments, xrit
from gomtasil.shelf import Shelf

from .support import Case, added, image, needs_pillow, noaa, numbered, packed_bits, planned, record, shelf_of, write

CASES = os.path.join(os.path.dirname(os.path.abspath(__file__)), "segments.json")


def records_of(file: Any) -> Any:
    """The records of a case's file besides that of its structure, in this order."""
    found = [record(4, file["name"].encode())]
    if "noaa" in file:
        number, place, left, top, count, columns, lines = file["noaa"]
        found.append(noaa(number, place, top, count, columns, lines, left))
    if "numbered" in file:
        found.append(numbered(*file["numbered"]))
    if "planned" in file:
        craft, band, number, first, last, form = file["planned"]
        found.append(planned(band, number, first, last, craft, form))
    if "record" in file:
        found.append(record(128, bytes.fromhex(file["record"])))
    if "stamp" in file:
        found.append(record(5, xrit.STAMP.pack(xrit.STAMP_FORM, 25000, file["stamp"])))
    if file.get("encrypted"):
        found.append(record(7, b"\1"))
    if "text" in file:
        found.append(record(6, file["text"].encode()))
    return found


def values_of(it: Any) -> Any:
    """The pixels of a file or a picture."""
    return it["pixels"] if "pixels" in it else [it["fill"]] * (it["columns"] * it["lines"])


def item_of(number: Any, file: Any) -> Any:
    values = values_of(file)
    data = packed_bits(values, file["bits"]) if len(values) < 10000 else bytes(values)
    inside = image(file["bits"], file["columns"], file["lines"], data, more=records_of(file))
    return added(number, inside, file.get("channel", 1), file.get("application", 100))


def pixels_of(picture: Any) -> Any:
    data, width = picture.pixels, picture.width
    return [int.from_bytes(data[at : at + width], "big") for at in range(0, len(data), width)]


@needs_pillow
class Segments(Case):
    def test_all_cases(self) -> None:
        with open(CASES, encoding="utf-8") as it:
            cases = json.load(it)["cases"]
        self.assertGreater(len(cases), 20)
        for case in cases:
            with self.subTest(case["name"]):
                self.look_at(case)

    def look_at(self, case: Any) -> None:
        write("case.shelf", shelf_of([item_of(*it) for it in enumerate(case["files"])]))
        with Shelf("case.shelf") as shelf:
            groups = [it for it in segments.groups_of(shelf, shelf.kept()) if isinstance(it, segments.Group)]
            pictures = list(images.group_pictures(shelf, groups))
        self.assertEqual([it.numbers for it in groups], [it["files"] for it in case["pictures"]])
        for group, picture, wanted in zip(groups, pictures, case["pictures"]):
            self.assertEqual(segments.in_words(group.missing), wanted["missing"])
            self.assertEqual(group.mended, xrit.Mended(*wanted["mended"]) if "mended" in wanted else None)
            if wanted.get("none"):
                self.assertIsNone(picture)
                continue
            assert picture
            size = (picture.columns, picture.lines, picture.bits)
            self.assertEqual(size, (wanted["columns"], wanted["lines"], wanted["bits"]))
            self.assertEqual(pixels_of(picture), values_of(wanted))
