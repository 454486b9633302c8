"""The commands and their words. What is said of a command is what its module says of itself."""

import argparse
import functools
import importlib.metadata
import os
import re
import sys
from collections.abc import Callable
from types import ModuleType
from typing import Any, TypeVar

from . import (
    alarm,
    align,
    bulletins,
    colours,
    contents,
    follow,
    geo,
    images,
    index,
    loops,
    overlay,
    page,
    pictures,
    plain,
)
from . import program, quality, salvage, sample, serve, station, which
from .folder import PLACEHOLDERS, Folder, Template, safe, write_whole
from .shelf import ShelfError

MOST_NUMBER = 10**6
MOST_RATE = 10**10  # symbols a second
ABOUT = """\
Extracts, displays and monitors what lritstation(1) has received: files as they were sent or as people open them,
images, bulletins, a web page, and the health of a station. Shelves are only read, also during a reception; only
`state` removes old ones, if an option says so. Anyone with a transmitter could have made what a satellite sends, so no
name in a file or a zip leads out of the output folder, nothing is overwritten, made executable or a link, and a file
gets its name only when it is complete.
"""
NEEDS = """\
Images need Pillow (apt-get install python3-pil), the page Jinja2 too (python3-jinja2). Losslessly coded images need the
program lritstation, from the path or from $LRITSTATION.
"""
STATUSES = """\
Exit status 0: success. 1: something couldn't be read, extracted or written, or a package is missing; a message is
printed to standard error. 2: invalid arguments. 128 plus the signal's number: a signal ended it early.
"""
SHELF_OR_FOLDER = "a shelf, or a folder: then every NAME.shelf in it"

Value = TypeVar("Value")
Words = argparse.Namespace
# (a help has 100 columns wherever it is printed)
Form = functools.partial(argparse.RawDescriptionHelpFormatter, max_help_position=30, width=100)


class Parser(argparse.ArgumentParser):
    """A parser that takes a word with a dash at its front for a path, where it is none of the options."""

    def parse_known_args(self, args=None, namespace=None):  # type: ignore[no-untyped-def]
        words = list(sys.argv[1:] if args is None else args)
        if self._subparsers is None:
            # (what --run is given is a command of others)
            end = words.index("--run") if "--run" in words else len(words)
            words = [self.path_of(word) for word in words[:end]] + words[end:]
        return super().parse_known_args(words, namespace)

    def path_of(self, word: str) -> str:
        is_option = word.split("=", 1)[0] in self._option_string_actions
        return "./" + word if word.startswith("-") and word != "-" and not is_option else word


# ---- values of options


def number(text: str, least: int = 0, most: int = 2**32) -> int:
    if not (text.isascii() and text.isdecimal() and least <= int(text) <= most):
        raise argparse.ArgumentTypeError(f"{text} is not a number from {least} to {most}")
    return int(text)


def path(text: str) -> str:
    """A path with one slash between two names: units whose name has none after `@` give two."""
    return re.sub("/+", "/", text)


count = functools.partial(number, least=1, most=MOST_NUMBER)
rate = functools.partial(number, least=1, most=MOST_RATE)
percent = functools.partial(number, most=100)


def value(make: Callable[[str], Value]) -> Callable[[str], Value]:
    """The value that is made of a text; where it can't be, the parser says why."""

    def made(text: str) -> Value:
        try:
            return make(text)
        except ValueError as fault:
            raise argparse.ArgumentTypeError(str(fault)) from None

    return made


# ---- what each command does


def do_follow(words: Words) -> int:
    return taken(words, ".follow", follow.whole_file)


def do_contents(words: Words) -> int:
    images.pillow()
    return taken(words, ".contents", contents.product_of, words.latest)


def taken(words: Words, state: str, product_of: follow.ProductOf, has_latest: bool = False) -> int:
    if words.keep_days and (words.flat or (words.name and not words.name.begins_with_day)):
        program.tell("--keep-days needs names that begin with the day: not --flat, and --name '{day}/..'")
        return 2
    prefix = f"{safe(words.label)}-" if words.label else ""
    folder = Folder(words.folder, state, words.flat, words.name)
    latest = bulletins.Newest(folder) if has_latest else None
    chosen = (words.only, words.application, words.heading)
    wishes = follow.Wishes(product_of, *chosen, prefix, words.run, words.keep_days, words.quiet, latest)
    program.hold_signals()
    return follow.run(words.shelf, folder, wishes, words.watch)


def do_find(words: Words) -> int:
    return index.find(words.pattern, words.shelf)


def do_pictures(words: Words) -> int:
    images.pillow()
    lines = overlay.Lines(words.lines, words.resolution, 1) if words.overlay or words.lines else None
    finish = pictures.Finish(lines, words.crop, words.scale, words.jpeg)
    wishes = pictures.Wishes(
        tuple(words.only),
        tuple(words.enhance),
        words.false_colour,
        not words.no_latest,
        words.days or words.keep_days is not None,
        words.keep_days,
        words.whole,
        words.quiet,
        finish,
        tuple(words.loop),
        words.fill,
    )
    return pictures.draw(words.shelf, words.folder, wishes)


def do_page(words: Words) -> int:
    images.pillow()
    page.jinja()
    wishes = page.Wishes(words.newest, words.log, words.rate, words.every, tuple(words.units))
    write = functools.partial(page.write_page, words.shelf, words.folder, wishes)
    if words.serve is None:
        write()
        return 0
    program.hold_signals()
    write()
    return serve.serve(words.serve, words.folder, write, words.every)


def do_web(words: Words) -> int:
    program.hold_signals()
    return serve.serve(words.address, words.folder, None, 0)


def written(file: str, make: Callable[..., bytes], *words: object) -> int:
    """Writes what is made of these words into a file."""
    write_whole(file, make(*words))
    return 0


def do_geo(words: Words) -> int:
    images.pillow()
    return written(words.file, geo.geo, words.shelf, words.n, words.alone, words.sweep)


def do_plain(words: Words) -> int:
    return written(words.file, plain.plain, words.shelf, words.n)


def do_overlay(words: Words) -> int:
    images.pillow()
    given = words.lines, words.resolution, words.width, words.sweep
    return written(words.file, overlay.overlay, words.shelf, words.n, *given)


def do_which(words: Words) -> int:
    if not os.path.isfile(words.recording):
        program.tell(f"{words.recording} is no file")
        return 2
    return which.which(words.recording)


def do_state(words: Words) -> int:
    patterns = tuple(words.units)
    bounds = station.Bounds(words.minutes, words.lost, words.full, words.remove, words.keep_free, patterns)
    return station.watch(words.folder, bounds, station.Reports(words.once, words.prometheus, words.alarm, words.json))


def do_alarm(words: Words) -> int:
    if words.send is None and not words.line:
        program.tell("give a LINE, or --send COMMAND")
        return 2
    if words.line:
        alarm.put(words.folder, " ".join(words.line))
    return 0 if words.send is None else alarm.send(words.folder, words.send)


def do_salvage(words: Words) -> int:
    return salvage.salvage(words.broken, words.new)


def do_quality(words: Words) -> int:
    return quality.quality_json(words.rate) if words.json else quality.quality(words.rate, words.keep, words.pause)


def do_align(words: Words) -> int:
    return align.align(words.form)


def do_sample(words: Words) -> int:
    for frame in sample.downlink(words.minutes):
        sys.stdout.buffer.write(frame)
    return 0


# ---- the parsers


def version() -> str:
    """That of the package, as the help of lritstation beside it says, that of CHANGELOG in a checkout, or what pip
    installed."""
    here = os.path.dirname(os.path.abspath(__file__))
    for path, form in (("../help", r"Gomtasil ([^:]*):"), ("../../CHANGELOG.md", r"(?m)^## ([0-9][0-9.]*) ")):
        try:
            with open(os.path.join(here, path), encoding="utf-8") as it:
                found = re.search(form, it.read())
        except OSError:
            continue
        if found:
            return found[1]
    try:
        return importlib.metadata.version("gomtasil")
    except importlib.metadata.PackageNotFoundError:
        return "of no version"


def parser() -> argparse.ArgumentParser:
    top = Parser(
        prog="gomtasil", description=ABOUT, epilog=NEEDS + "\n" + STATUSES, formatter_class=Form, allow_abbrev=False
    )
    top.add_argument("--version", action="version", version=f"Gomtasil {version()}")
    commands = top.add_subparsers(metavar="COMMAND", required=True, parser_class=Parser)

    def command(do: Callable[[Words], int], module: ModuleType, help_: str, example: str) -> argparse.ArgumentParser:
        name, epilog = do.__name__.removeprefix("do_"), f"example:\n  {example}"
        it = commands.add_parser(name, help=help_, description=module.__doc__, epilog=epilog, formatter_class=Form)
        it.allow_abbrev = False
        it.set_defaults(do=do)
        return it

    for adds in (add_takers, add_pictures, add_page, add_images, add_station, add_streams):
        adds(command)
    return top


Command = Callable[[Callable[[Words], int], ModuleType, str, str], argparse.ArgumentParser]


def add(it: argparse.ArgumentParser, words: str, help_: str, **more: Any) -> None:
    """Adds an option or a place, such as `--only PATTERN` or `folder FOLDER`; a lone word is an option without a
    value."""
    name, _, value = words.partition(" ")
    if value:
        more["metavar"] = value
    elif "metavar" not in more:
        more["action"] = "store_true"
    if name in ("shelf", "folder"):
        more["type"] = path
    if more.get("action") == "append":
        more["default"] = []
    it.add_argument(name, help=help_, **more)


def add_takers(command: Command) -> None:
    only = "gomtasil follow /srv/gomtasil files --watch --only 'OR_ABI*C13*'"
    keep = "gomtasil contents /srv/gomtasil contents --watch --keep-days 7"
    sent = command(do_follow, follow, "extract each file once, as it was sent", only)
    opened = command(do_contents, contents, "extract received products (.txt, .png, ..)", keep)
    for it in (sent, opened):
        it.usage = f"{it.prog} [OPTIONS] SHELF FOLDER [--run WORD ...]"
        add(it, "shelf SHELF", SHELF_OR_FOLDER)
        add(it, "folder FOLDER", "output folder")
        add(it, "--watch", "keep running, and extract each file as it arrives")
        add(it, "--flat", "name files by their annotation alone; if a name is in use, the number is put before it")
        places = " ".join(f"{{{it}}}" for it in PLACEHOLDERS)
        add(it, "--name TEMPLATE", f"name files by TEMPLATE, made of {places}", type=value(Template))
        only = "only files whose name matches PATTERN, e.g. 'OR_ABI*' (repeatable)"
        add(it, "--only PATTERN", only, action="append")
        headed = "only bulletins whose heading and centre match, e.g. 'FZ??*' or '*-KWBC' (repeatable)"
        add(it, "--heading PATTERN", headed, action="append")
        add(it, "--application N", "only files of this APID (repeatable)", type=number, action="append")
        add(it, "--label WORD", "put WORD before the label, e.g. for a second receiver")
        add(it, "--keep-days N", "remove a day's folder once N later days have files", type=count)
        add(it, "--quiet", "print one line a minute instead of one for each file")
        run = "the last option: run this command for each complete file, with its path in place of {}, or at the end"
        add(it, "--run WORD", run, nargs=argparse.REMAINDER, default=[])

    add(opened, "--latest", "keep the newest text of each heading and centre in FOLDER/latest")
    example = "gomtasil find 'FZNT01*' /srv/gomtasil"
    it = command(do_find, index, "search the names and headings of files", example)
    add(it, "pattern PATTERN", "a name, a heading or a part of one; or a pattern such as '*KWBC*'")
    add(it, "shelf SHELF", SHELF_OR_FOLDER, nargs="+")


def add_pictures(command: Command) -> None:
    example = "gomtasil pictures my.shelf pictures --enhance '*C13*=ir'"
    it = command(do_pictures, pictures, "draw each image of a shelf, assembled from its segments", example)
    add(it, "shelf SHELF", SHELF_OR_FOLDER)
    add(it, "folder FOLDER", "output folder")
    add(it, "--only PATTERN", "only images whose name matches, e.g. '*C13*' (repeatable)", action="append")
    tables = " or ".join(colours.TABLES)
    coloured = f"also draw these in colour; TABLE is {tables} (repeatable)"
    add(it, "--enhance PATTERN=TABLE", coloured, type=value(pictures.Enhancement.of), action="append")
    false_colour = "draw false colours from two images of the same minute, given by their patterns"
    add(it, "--false-colour", false_colour, metavar=("VISIBLE", "INFRARED"), nargs=2)
    add(it, "--overlay", "draw the coasts and borders of GMT over each picture")
    add(it, "--lines FILE", "draw these lines instead, in the form that `overlay` takes")
    resolution = "resolution of GMT's coasts, from crude to full (default l)"
    it.add_argument("--resolution", choices=list("clihf"), default="l", help=resolution)
    cropped = "keep this part of each picture, in pixels"
    add(it, "--crop WIDTHxHEIGHT+LEFT+TOP", cropped, type=value(pictures.Crop.of))
    add(it, "--scale PIXELS", "scale each picture down until its longer side has PIXELS", type=count)
    quality_ = "write JPEG of this quality, 1 to 100, instead of PNG (default 85)"
    most = functools.partial(number, least=1, most=100)
    add(it, "--jpeg QUALITY", quality_, type=most, nargs="?", const=85)
    add(it, "--days", "write into a folder for each day")
    kept = "the same, and remove a day's folder once N later days have pictures"
    add(it, "--keep-days N", kept, type=count)
    add(it, "--whole", "leave out images that lack segments")
    add(it, "--fill", "also draw lost lines from those around them, for a viewer, as NAME-filled.png")
    looped = "also write the newest whole pictures as a loop, e.g. '*C13*=c13.gif'; .png is animated (repeatable)"
    add(it, "--loop PATTERN=FILE", looped, type=value(loops.Loop.of), action="append")
    add(it, "--no-latest", "don't write the folder `latest`")
    add(it, "--quiet", "print only the number of pictures")


def add_page(command: Command) -> None:
    example = "gomtasil page /srv/gomtasil /srv/gomtasil/page --rate 927000"
    it = command(do_page, page, "write a web page of images, bulletins and the reception", example)
    add(it, "shelf SHELF", SHELF_OR_FOLDER)
    add(it, "folder FOLDER", "output folder")
    newest = f"show the newest N images and N other files (default {page.NEWEST}), and the newest of each APID"
    add(it, "--newest N", newest, type=count, default=page.NEWEST)
    add(it, "--rate SYMBOLS", "symbols per second, which gives the times of reception", type=rate)
    add(it, "--log FILE", "the lines of a reception, from which lost frames are counted")
    add(it, "--units PATTERN", "show which systemd units of this name have failed (repeatable)", action="append")
    served = "also serve the page, until a signal comes (default 127.0.0.1:8000)"
    add(it, "--serve ADDRESS:PORT", served, type=value(serve.address_of), nargs="?", const=serve.address_of(""))
    every = "how often browsers reload the page, and --serve writes it again (default 300)"
    add(it, "--every SECONDS", every, type=count, default=300)
    it = command(
        do_web, serve, "serve the page that `page` writes", "gomtasil web /srv/gomtasil/page 0.0.0.0:8000"
    )
    add(it, "folder FOLDER", "the page's folder")
    address = "where to listen (default 127.0.0.1:8000); 0.0.0.0 is every address of this machine"
    add(it, "address ADDRESS:PORT", address, type=value(serve.address_of), nargs="?", default=serve.address_of(""))


def add_images(command: Command) -> None:
    tiff = command(do_geo, geo, "write an image as a GeoTIFF", "gomtasil geo my.shelf 1 earth.tif")
    example = "gomtasil plain my.shelf 5 OR_ABI_C13_0.lrit"
    xrit = command(do_plain, plain, "write an image as a plain xRIT file", example)
    example = "gomtasil overlay my.shelf 1 earth.png"
    png = command(do_overlay, overlay, "write an image with coasts and borders", example)
    for it in (tiff, xrit, png):
        add(it, "shelf SHELF", "a shelf's file")
        add(it, "n N", "the number of a file there", type=number)
        add(it, "file FILE", "output file")
    add(tiff, "--alone", "write file N alone, even if it is a segment")
    for it in (tiff, png):
        sweep = "axis of the scan: x is ABI's grid, y that of CGMS 03 (default: by the name of the image)"
        it.add_argument("--sweep", choices=("x", "y"), help=sweep)
    add(png, "--lines FILE", "lines of a longitude and a latitude; a line that begins with > separates polygons")
    resolution = "resolution of GMT's coasts, from crude to full (default l)"
    png.add_argument("--resolution", choices=list("clihf"), default="l", help=resolution)
    add(png, "--width PIXELS", "width of the lines (default 1)", type=count, default=1)


def add_station(command: Command) -> None:
    it = command(do_which, which, "find out which line code a recording has", "gomtasil which recording.soft")
    add(it, "recording RECORDING", "a file of soft symbols")
    example = "gomtasil state --once --keep-free 10 /srv/gomtasil"
    it = command(do_state, station, "check the health of a station", example)
    add(it, "folder FOLDER", "a folder of shelves", nargs="+")
    add(it, "--minutes M", "alert after M minutes without a file (default 30)", type=number, default=30)
    add(it, "--lost PERCENT", "alert when more of a minute's frames are lost (default 5)", type=percent, default=5)
    fuller = "alert when the disk or the newest shelf is fuller (default 90)"
    add(it, "--full PERCENT", fuller, type=percent, default=90)
    add(it, "--units PATTERN", "alert when a systemd unit of this name has failed (repeatable)", action="append")
    removed = "remove a shelf once DAYS later days have files"
    add(it, "--remove DAYS", removed, type=count)
    freed = "remove the oldest copies (contents, pictures), then the oldest shelves, until PERCENT of the disk is free"
    add(it, "--keep-free PERCENT", freed, type=percent)
    add(it, "--prometheus FILE", "also write the values, with totals, to FILE for Prometheus")
    add(it, "--json", "print a line of JSON for each folder")
    add(it, "--once", "exit with status 1 only when a problem is new, and then once a day")
    add(it, "--alarm QUEUE", "add new problems and their ends to this queue, for `gomtasil alarm`")
    example = "gomtasil alarm /srv/gomtasil/.alarms --send 'msmtp owner@example.org'"
    it = command(do_alarm, alarm, "queue alarms, and deliver them with a command", example)
    add(it, "folder QUEUE", "the folder of the queue")
    add(it, "line LINE", "add this line to the queue", nargs="*")
    add(it, "--send COMMAND", "deliver the queued lines with this command")
    example = "gomtasil salvage broken.shelf new.shelf"
    it = command(do_salvage, salvage, "copy the files that a corrupt shelf still has", example)
    add(it, "broken BROKEN", "the corrupt shelf, which is only read")
    add(it, "new NEW", "the new shelf's file")


def add_streams(command: Command) -> None:
    example = "lritstation - decode < recording.soft | gomtasil quality --rate 927000"
    it = command(do_quality, quality, "report the reception quality every minute", example)
    add(it, "--rate SYMBOLS", "symbols per second", type=rate, required=True)
    add(it, "--keep FOLDER", "keep the last line in FOLDER/quality, and all minutes in FOLDER/minutes")
    add(it, "--pause SECONDS", "report after SECONDS without a frame (default 60)", type=float, default=60)
    add(it, "--json", "print a line of JSON for each second instead, and keep nothing")
    example = "gomtasil align frames < part.frames > whole.frames"
    it = command(do_align, align, "find where frames begin in a stream", example)
    it.add_argument("form", choices=["symbols", *align.SIZES], help="form of the stream")
    example = "gomtasil sample > frames; lritstation my.shelf receive --input frames < frames"
    it = command(do_sample, sample, "generate a sample of a downlink", example)
    minutes = functools.partial(number, least=1, most=sample.MOST_MINUTES)
    add(it, "minutes MINUTES", "1 to 60 (default 2)", type=minutes, nargs="?", default=2)


def main() -> int:
    words = parser().parse_args()
    program.end_by_signals()
    try:
        return int(words.do(words))
    except BrokenPipeError:
        os.dup2(os.open(os.devnull, os.O_WRONLY), sys.stdout.fileno())
    except (OSError, ShelfError, program.Missing) as fault:
        where = f"{fault.filename!r}: " if isinstance(fault, OSError) and fault.filename else ""
        program.tell(where + program.reason(fault))
    return 1
