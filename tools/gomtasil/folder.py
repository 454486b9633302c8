"""Folders that files come into: safe names, parts, and names that are given to whole files alone."""

import contextlib
import ctypes
import errno
import fnmatch
import itertools
import json
import os
import re
import shutil
import string
import sys
from collections.abc import Callable, Collection, Iterable
from typing import Any, NamedTuple, TypeVar

from . import days
from .shelf import Shelf, StoredFile, label_of

MOST_NAME_CHARACTERS = 150
DISCARDED = "discarded"
KEPT = ("latest",)  # folders that no file comes into by its own name
WHOLE_ENDING = ".lrit"  # of mission files
STAMP_FORM = "%Y%m%dT%H%M%SZ"
DAY = re.compile(r"[0-9]{4}-[0-9]{2}-[0-9]{2}")
Value = TypeVar("Value")
PLACEHOLDERS = ("day", "label", "number", "channel", "application", "annotation", "stamp", "heading")


class Product(NamedTuple):
    """What is extracted from a file: bytes, or a folder of named bytes, and the ending of its name."""

    ending: str
    contents: bytes | dict[str, bytes]
    is_inside: bool = True  # whether it is what a file has in it, and not the file
    heading: str = ""  # of a bulletin, such as FZNT01-KWBC


def safe(name: bytes | str) -> str:
    """Returns a name that stays in its folder and isn't an option. It may be empty."""
    text = name.decode("latin-1") if isinstance(name, bytes) else name
    return re.sub(r"^[.-]", "_", re.sub(r"[^A-Za-z0-9._-]", "_", text))[:MOST_NAME_CHARACTERS]


def annotation_of(file: StoredFile) -> str:
    """Returns the safe name in a file's annotation record, or nothing."""
    return safe(file.header.annotation)


def fits(file: StoredFile, patterns: Iterable[str]) -> bool:
    """Returns whether the safe name of a file matches one of these patterns."""
    name = annotation_of(file)
    return any(fnmatch.fnmatchcase(name, it) for it in patterns)


# ---- writing


def write_new(path: str, data: bytes) -> None:
    with open(path, "xb", buffering=0) as it:
        left = memoryview(data)
        while left:
            left = left[it.write(left) :]


def write_whole(path: str, data: bytes) -> None:
    """Writes a file under another name first, so that no incomplete file has its name."""
    part = os.path.join(os.path.dirname(path), f".{os.path.basename(path)[:100]}.{os.getpid()}.part")
    try:
        write_new(part, data)
        os.rename(part, path)
    except BaseException:
        if os.path.exists(part):
            os.unlink(part)
        raise


def read_kept(path: str, value_of: Callable[[Any], Value]) -> Value | None:
    """Returns the value of a JSON file, or None if it is missing or has another form."""
    try:
        with open(path, encoding="utf-8") as it:
            return value_of(json.load(it))
    except (OSError, ValueError, KeyError, TypeError, AttributeError):
        return None


def write_kept(path: str, value: object) -> None:
    os.makedirs(os.path.dirname(path), exist_ok=True)
    write_whole(path, json.dumps(value).encode())


# ---- notes of what was made of a shelf


class Note:
    """A note about a shelf, kept in a folder of notes. It counts while the shelf and the options are the same."""

    def __init__(self, shelf: Shelf, state: str, wanted: object):
        about = os.fstat(shelf.descriptor)
        self.identity = [1, os.path.realpath(shelf.path), about.st_ino, about.st_size, about.st_mtime_ns, wanted]
        self.path = os.path.join(state, safe(label_of(shelf.path)) + ".json")

    def read(self, value_of: Callable[[Any], Value]) -> Value | None:
        """Returns the noted value, or None if the note is of another shelf or can't be read."""
        return read_kept(self.path, lambda it: value_of(it["value"]) if it["identity"] == self.identity else None)

    def write(self, value: object) -> None:
        write_kept(self.path, {"identity": self.identity, "value": value})


def forget_notes(state: str, paths: Iterable[str], others: Iterable[str] = ()) -> None:
    """Removes the notes of shelves that are gone: all in the folder except those of these shelves, and of `others`."""
    kept = {safe(label_of(it)) + ".json" for it in paths} | set(others)
    with contextlib.suppress(FileNotFoundError):
        for name in os.listdir(state):
            if name.endswith(".json") and name not in kept:
                os.unlink(os.path.join(state, name))


# ---- names that files get


class Template:
    """A file name with placeholders. Each part of the result is made safe."""

    def __init__(self, text: str):
        parts = [name for _, name, form, conversion in string.Formatter().parse(text) if name is not None]
        if not text or text.startswith("/") or any(it not in PLACEHOLDERS for it in parts):
            raise ValueError(f"a name has these placeholders: {', '.join(PLACEHOLDERS)}")
        self.text = text

    @property
    def begins_with_day(self) -> bool:
        return self.text.startswith("{day}/")

    def name(self, source: "Source", file: StoredFile, annotation: str, heading: str) -> str:
        values = {
            "day": source.day(file),
            "label": source.label,
            "number": f"{file.number:06d}",
            "channel": str(file.fields.channel),
            "application": str(file.fields.application),
            "annotation": annotation or "file",
            "stamp": file.header.stamped(STAMP_FORM) or "unstamped",
            "heading": heading or "no-heading",
        }
        return "/".join(safe(part.format(**values)) or "_" for part in self.text.split("/"))


class Source(NamedTuple):
    """The origin of files, as far as their names show it."""

    label: str
    shelf_label: str
    changed: float  # the last change of the shelf

    def day(self, file: StoredFile) -> str:
        return days.file_day(self.shelf_label, self.changed, file.header.stamp)


class Folder:
    """The output folder. Names are relative to it. Nothing in it is ever overwritten."""

    def __init__(self, path: str, state_name: str, is_flat: bool = False, template: Template | None = None):
        self.path = path
        self.is_flat = is_flat
        self.template = template
        self.state_name = state_name
        self.state = os.path.join(path, state_name)
        self.taken: set[str] = set()  # the names that were given and are not there yet
        os.makedirs(self.state, exist_ok=True)

    def full(self, name: str) -> str:
        return os.path.join(self.path, name)

    def is_free(self, name: str) -> bool:
        is_kept = name == DISCARDED or name.split("/")[0] in (*KEPT, self.state_name)
        return not is_kept and name not in self.taken and not os.path.lexists(self.full(name))

    def name_for(self, source: Source, file: StoredFile, product: Product) -> str:
        """Returns a free name for a file."""
        annotation = annotation_of(file)
        if product.is_inside:
            annotation = annotation.removesuffix(WHOLE_ENDING)
        own = f"{source.label}-{file.number:06d}-{annotation or 'file'}"
        if self.template:
            wanted = [self.template.name(source, file, annotation, product.heading)]
        elif self.is_flat:
            short = annotation or f"file-{file.number}"
            wanted = [short, f"{file.number}-{short}", own]
        else:
            wanted = [f"{source.day(file)}/{own}"]
        return self.free([name if name.lower().endswith(product.ending) else name + product.ending for name in wanted])

    def free(self, wanted: list[str]) -> str:
        """Returns the first of these names that is free, or else the last one with a number after it."""
        stem, ending = os.path.splitext(wanted[-1])
        further = (f"{stem}~{place}{ending}" for place in itertools.count(2))
        name = next(filter(self.is_free, itertools.chain(wanted, further)))
        self.taken.add(name)
        return name

    def place(self, part: str, name: str) -> bool:
        """Gives a part its name. Returns False if something else has this name."""
        final = self.full(name)
        if not os.path.isdir(os.path.dirname(final)):
            os.makedirs(os.path.dirname(final))
        if not move(part, final):
            if not is_same(part, final):
                return False
            os.unlink(part)
        self.taken.discard(name)
        return True

    def set_aside(self, name: str) -> str | None:
        """Moves a file into the folder of discarded ones, if it is still there. Returns its name there, or None."""
        if not os.path.lexists(self.full(name)):
            return None
        os.makedirs(self.full(DISCARDED), exist_ok=True)
        aside = self.free([os.path.join(DISCARDED, os.path.basename(name))])
        os.rename(self.full(name), self.full(aside))
        self.taken.discard(aside)
        return aside

    def remove_days(self, most: int) -> list[str]:
        """Removes the day folders after which there are `most` days with files. Returns their names."""
        return remove_days(self.path, most)


def days_of(path: str) -> list[str]:
    """Returns the names of the day folders that have files."""
    names = [name for name in os.listdir(path) if DAY.fullmatch(name)]
    wholes = {name: os.path.join(path, name) for name in names}
    return sorted(
        it for it, whole in wholes.items() if os.path.isdir(whole) and not os.path.islink(whole) and os.listdir(whole)
    )


def remove_days(path: str, most: int) -> list[str]:
    """Removes the day folders after which there are `most` days with files, whatever the clock says. Returns their
    names."""
    old = days_of(path)[:-most]
    for name in old:
        shutil.rmtree(os.path.join(path, name))
    return old


def is_same(one: str, other: str) -> bool:
    return os.path.exists(one) and os.path.exists(other) and os.path.samefile(one, other)


def renameat2() -> Callable[[bytes, bytes], int] | None:
    """Returns Linux's rename that overwrites nothing, as a call that returns 0 or the error number. None where the C
    library has no such call."""
    try:
        call = ctypes.CDLL(None, use_errno=True).renameat2
    except (OSError, AttributeError):
        return None
    call.argtypes = [ctypes.c_int, ctypes.c_char_p, ctypes.c_int, ctypes.c_char_p, ctypes.c_uint]
    working_folder, no_replace = -100, 1  # AT_FDCWD, RENAME_NOREPLACE

    def rename(part: bytes, final: bytes) -> int:
        return 0 if call(working_folder, part, working_folder, final, no_replace) == 0 else ctypes.get_errno()

    return rename


rename_new = renameat2()


def move(part: str, final: str) -> bool:
    """Gives a part its name and overwrites nothing. Returns False if the name is taken. It is one step, so that a file
    that is taken away from its name leaves no part behind, whenever the command is killed."""
    if rename_new is None:
        return link(part, final)
    sys.audit("os.rename", part, final, -1, -1)
    fault = rename_new(os.fsencode(part), os.fsencode(final))
    if fault in (errno.EINVAL, errno.ENOSYS, errno.ENOTSUP):
        return link(part, final)
    if fault not in (0, errno.EEXIST):
        raise OSError(fault, os.strerror(fault), part, None, final)
    return fault == 0


def link(part: str, final: str) -> bool:
    """Moves a part where the filesystem has no rename that overwrites nothing (NFS, FAT): by a link, or by a rename
    where there are no links either. Between the two steps of a link a kill leaves name and part."""
    if not os.path.isdir(part):
        with contextlib.suppress(OSError):
            os.link(part, final)
            os.unlink(part)
            return True
    if os.path.lexists(final):
        return False
    os.rename(part, final)
    return True


# ---- parts: what is written and has no name yet


class Parts:
    """The folder STATE/LABEL.parts, with what was written of each file before it gets its name, under its number."""

    def __init__(self, path: str):
        self.path = path

    def of(self, number: int) -> str:
        return os.path.join(self.path, str(number))

    def write(self, number: int, contents: bytes | dict[str, bytes]) -> None:
        if not os.path.isdir(self.path):
            os.mkdir(self.path)
        part = self.of(number)
        if isinstance(contents, dict):
            os.mkdir(part)
            for name, data in contents.items():
                write_new(os.path.join(part, name), data)
        else:
            write_new(part, contents)

    def numbers(self) -> list[int]:
        return sorted(map(int, os.listdir(self.path))) if os.path.isdir(self.path) else []

    def remove(self, number: int) -> None:
        part = self.of(number)
        if os.path.isdir(part):
            shutil.rmtree(part)
        elif os.path.exists(part):
            os.unlink(part)

    def keep(self, noted: Callable[[list[int]], Collection[int]]) -> None:
        """Removes every part that isn't noted, and the folder if none is left."""
        numbers = self.numbers()
        kept = noted(numbers) if numbers else ()
        for number in numbers:
            if number not in kept:
                self.remove(number)
        if os.path.isdir(self.path) and not self.numbers():
            os.rmdir(self.path)
