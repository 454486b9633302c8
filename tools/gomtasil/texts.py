"""What is inside files that are no images: texts, zips, pictures as they were sent; and the headings of bulletins."""

import io
import itertools
import re
import stat
import unicodedata
import zipfile
from typing import NamedTuple

from . import folder
from .shelf import StoredFile

MOST_ZIP_FILES = 256
MOST_ZIP_BYTES = 64 * 1024 * 1024
MOST_ZIP_RATIO = 200
ZIP_SIGNATURE = b"PK\x03\x04"
ZIP_ENTRY_SIGNATURE = b"PK\x01\x02"
ZIP_ENCRYPTED = 1  # a flag
JPEG_SIGNATURE = b"\xff\xd8\xff"
SIGNATURES = ((JPEG_SIGNATURE, ".jpg"), (b"GIF87a", ".gif"), (b"GIF89a", ".gif"), (b"\x89PNG\r\n\x1a\n", ".png"))
TEXT_ENDING, BINARY_ENDING, ZIP_ENDING = ".txt", ".bin", ".zip"
TEXT_CONTROLS = b"\t\n\r\f\x01\x02\x03\x04\x1a\x1b\x1e\x1f"  # of lines, and of the frames of bulletins
CONTROL_CATEGORIES = ("Cc", "Cf", "Cs")  # controls, formats (such as those that turn the direction), surrogates
PLAIN = re.compile(rb"[\t\n\x20-\x7e]*")  # (what most names are)
HEADING = re.compile(r"^([A-Z]{4}[0-9]{2}) ([A-Z]{4}) ([0-9]{6})(?: ([A-Z]{3}))?\s*$", re.MULTILINE)
HEADED_CHARACTERS = 400  # at a text's front in which its heading is looked for


class BadZip(Exception):
    """A zip that isn't unpacked."""


class Heading(NamedTuple):
    """The abbreviated heading of a bulletin, by WMO-No. 386."""

    designator: str  # what it is and of where, such as WTNT31
    centre: str
    day_and_time: str
    part: str

    def __str__(self) -> str:
        return " ".join(filter(None, self))


def is_text(data: bytes) -> bool:
    """Whether these bytes look like text: no control characters but those of texts, and printable ones."""
    controls = sum(data.count(bytes([code])) for code in range(32) if code not in TEXT_CONTROLS)
    return controls == 0 and any(code > 32 for code in data[:4096])


def readable(data: bytes) -> str:
    """A text for people: decoded, with one line feed after each line, and without control characters."""
    if PLAIN.fullmatch(data):
        return data.decode("ascii")
    try:
        text = data.decode("utf-8")
    except UnicodeDecodeError:
        text = data.decode("latin-1")
    text = text.replace("\r\r\n", "\n").replace("\r\n", "\n").replace("\r", "\n")
    controls = {it for it in set(text) - set("\t\n") if unicodedata.category(it) in CONTROL_CATEGORIES}
    return text.translate({ord(it): None for it in controls})


def name_of(file: StoredFile) -> str:
    """The annotation of a file as text."""
    return readable(file.header.annotation).strip() or f"file {file.number}"


def ending_of(data: bytes) -> str | None:
    """The ending of a picture by its first bytes, or None."""
    return next((ending for signature, ending in SIGNATURES if data.startswith(signature)), None)


def opened(data: bytes, is_declared_text: bool = False) -> tuple[str, bytes]:
    """The ending and the bytes of what isn't a zip."""
    ending = ending_of(data)
    if ending:
        return ending, data
    if is_text(data) or (is_declared_text and b"\0" not in data):
        return TEXT_ENDING, readable(data).encode("utf-8")
    return BINARY_ENDING, data


def heading_of(text: str) -> Heading | None:
    """The heading of a bulletin, which stands in its first lines."""
    found = HEADING.search(text[:HEADED_CHARACTERS])
    return Heading(found[1], found[2], found[3], found[4] or "") if found else None


# ---- zips


def is_file(member: zipfile.ZipInfo) -> bool:
    """Whether a member is a file: no folder and no link."""
    return not member.filename.endswith("/") and stat.S_IFMT(member.external_attr >> 16) in (0, stat.S_IFREG)


def is_plain(member: zipfile.ZipInfo) -> bool:
    """Whether a member can be unpacked within a limit: not encrypted, stored or deflated."""
    return not member.flag_bits & ZIP_ENCRYPTED and member.compress_type in (zipfile.ZIP_STORED, zipfile.ZIP_DEFLATED)


def members_of(data: bytes) -> list[tuple[str, bytes]]:
    """The files in a zip and their bytes. BadZip where it passes a limit or can't be read."""
    if data.count(ZIP_ENTRY_SIGNATURE) > MOST_ZIP_FILES:
        raise BadZip("it has too many files")
    room = min(MOST_ZIP_BYTES, MOST_ZIP_RATIO * len(data))
    found: list[tuple[str, bytes]] = []
    try:
        with zipfile.ZipFile(io.BytesIO(data)) as archive:
            for member in filter(is_file, archive.infolist()):
                if not is_plain(member):
                    raise BadZip("a file in it is encrypted, or packed in another way")
                with archive.open(member) as it:
                    found.append((member.filename, it.read(room + 1)))
                room -= len(found[-1][1])
                if room < 0:
                    raise BadZip("it is too large when it is unpacked")
    except BadZip:
        raise
    except Exception as fault:  # (zipfile has errors of many kinds for bytes that are no zip)
        raise BadZip(str(fault) or "it can't be read") from fault
    if not found:
        raise BadZip("it has no file")
    return found


def unzipped(data: bytes) -> dict[str, bytes]:
    """The files of a zip by safe names of their own, each as people open it."""
    files: dict[str, bytes] = {}
    for member, inside in members_of(data):
        ending, inside = (ZIP_ENDING, inside) if inside.startswith(ZIP_SIGNATURE) else opened(inside)
        name = folder.safe(member.encode("utf-8", "replace")) or "file"
        name = name if name.lower().endswith(ending) else name + ending
        files[unused(name, files)] = inside
    return files


def unused(name: str, names: dict[str, bytes]) -> str:
    """The name itself, or with a number in front of it that makes it another one than these."""
    numbered = (f"{place}-{name}" for place in itertools.count(2))
    return next(it for it in itertools.chain([name], numbered) if it not in names)


def inside(file: StoredFile) -> dict[str, bytes]:
    """What is in a file that is no image, by names with endings: itself by its ending alone, or the files of a zip."""
    if file.data.startswith(ZIP_SIGNATURE):
        return unzipped(file.data)
    return dict([opened(file.data, file.header.is_declared_text)])
