"""What names of files mean, in words. Each pattern names where it comes from; a name that fits none stays as it is."""

import re
from typing import NamedTuple

from .texts import Heading


MOST_SHORT = 100  # characters of a name


class Product(NamedTuple):
    """What a picture shows."""

    words: str  # pictures with the same words are of one kind
    is_full_disk: bool = False
    is_infrared: bool = False

    @property
    def short(self) -> str:
        """The words as a name."""
        return re.sub(r"[^a-z0-9]+", "-", self.words.lower()).strip("-")[:MOST_SHORT] or "picture"


class Pattern(NamedTuple):
    """Names, and the words for them, with the named groups of the pattern in their places."""

    names: re.Pattern[str]
    words: str
    source: str


ABI = "GOES-R Series Product Definition and Users' Guide, volume 5, file names; the reader abi_l2_nc of satpy"
AHI = "JMA, Himawari's sample of HRIT files; the reader ahi_hrit of satpy"
MSU = "the reader electrol_hrit of satpy"
AMI = "KMA, GK-2A LRIT/HRIT Mission Specification Document, file names (from memory)"
EMWIN = "WMO-No. 386, Manual on the Global Telecommunication System, attachment II-15, file names"

PATTERNS = (
    Pattern(
        re.compile(
            r"O[RT]_ABI-L\d-(?P<what>[A-Za-z]+?)(?P<scene>F|C|M1|M2)-M\d+"
            r"(?:C(?P<channel>\d\d))?_G(?P<craft>\d\d)_.*"
        ),
        "GOES-{craft} {scene}, {what} {channel}",
        ABI,
    ),
    Pattern(
        re.compile(r"IMG_DK(?P<area>\d\d)(?P<channel>B\d\d|VIS|IR\d)_(?P<time>\d{12}).*"),
        "Himawari {area}, {channel}",
        AHI,
    ),
    Pattern(
        re.compile(r"[LH]-000-[A-Z0-9_]{6}-(?P<craft>GOMS|ELE)[A-Z0-9_]*-(?P<channel>\d\d_\d)_(?P<where>\d{3}[EW])-.*"),
        "ELEKTRO-L at {where}, {channel}",
        MSU,
    ),
    Pattern(
        re.compile(r"IMG_(?P<scene>FD|ENH|LSH)_\d{3}_(?P<channel>[A-Z]{2}\d{3})_(?P<time>\d{8}_\d{6}).*"),
        "GK-2A {scene}, {channel}",
        AMI,
    ),
    Pattern(
        re.compile(r"[AWZ]_[A-Z]{4}\d\d[A-Z]{4}\d{6}[A-Z]*_C_[A-Z]{4}_\d{14}_\d+-\d-(?P<name>[A-Z0-9]+)\..*"),
        "EMWIN {name}",
        EMWIN,
    ),
)
SCENES = {"F": "full disk", "C": "contiguous US", "M1": "mesoscale 1", "M2": "mesoscale 2", "FD": "full disk"}
SCENES |= {"ENH": "northern hemisphere", "LSH": "southern hemisphere"}
WHATS = {"CMIP": "channel", "Rad": "radiances of channel"}
AREAS = {"01": "full disk"}
FIRST_INFRARED = 7  # of the channels of ABI and AHI

# What the first letter of a bulletin's heading says: WMO-No. 386, attachment II-5, table A.
BULLETINS = {
    "A": "Analyses",
    "B": "Addressed messages",
    "C": "Climatic data",
    "D": "Grid point information",
    "E": "Satellite imagery",
    "F": "Forecasts",
    "G": "Grid point information",
    "H": "Grid point information",
    "I": "Observations in binary form",
    "J": "Forecasts in binary form",
    "K": "CREX",
    "L": "Aviation information in XML",
    "N": "Notices",
    "O": "Oceanographic information",
    "P": "Pictorial information",
    "Q": "Pictorial information, regional",
    "S": "Surface data",
    "T": "Satellite data",
    "U": "Upper-air data",
    "V": "National data",
    "W": "Warnings",
    "X": "Common alerts",
    "Y": "GRIB, regional",
    "Z": "Forecasts in binary form",
}
NO_HEADING = "Texts without a heading"


def is_of_abi(name: str) -> bool:
    """Whether a picture of this name is one of ABI, the imager of GOES-R."""
    return any(it.source == ABI and it.names.fullmatch(name) for it in PATTERNS)


def product_of(name: str) -> Product:
    """What a picture of this name shows."""
    for pattern in PATTERNS:
        found = pattern.names.fullmatch(name)
        if found:
            values = {key: value or "" for key, value in found.groupdict().items()}
            channel = values.get("channel", "")
            is_full = values.get("scene") in ("F", "FD") or values.get("area") == "01" or pattern.source == MSU
            return Product(words_of(pattern, values), is_full, is_infrared(pattern, channel))
    return Product(without_numbers(name))


def words_of(pattern: Pattern, values: dict[str, str]) -> str:
    if pattern.source == MSU:
        values["channel"] = f"{float(values['channel'].replace('_', '.')):g} µm"
    values["scene"] = SCENES.get(values.get("scene", ""), "")
    values["what"] = WHATS.get(values.get("what", ""), values.get("what", ""))
    values["area"] = AREAS.get(values.get("area", ""), f"area {values.get('area', '')}")
    return " ".join(pattern.words.format(**values).split())


def is_infrared(pattern: Pattern, channel: str) -> bool:
    if pattern.source in (ABI, AHI) and channel.lstrip("B").isdecimal():
        return int(channel.lstrip("B")) >= FIRST_INFRARED
    if pattern.source == MSU and channel:
        return float(channel.split(" ")[0].replace("_", ".")) > 3
    return channel.startswith(("IR", "WV", "SW"))


def without_numbers(name: str) -> str:
    """A name without its longer numbers, as times and places of segments are, so that pictures of a kind have the
    same."""
    short = re.sub(r"\.[A-Za-z]{2,4}$", "", name)
    return re.sub(r"[_-]*(?:\d{6,}|(?<=[_-])\d{1,5}(?=$|[_-]))", "", short) or name


def bulletin_group(heading: Heading | None) -> str:
    """The group in which a bulletin stands."""
    return BULLETINS.get(heading.designator[0], NO_HEADING) if heading else NO_HEADING


def place_of_group(group: str) -> tuple[bool, bool, str]:
    """Where a group stands among the others: warnings first, and what has no heading last."""
    return group == NO_HEADING, group != BULLETINS["W"], group
