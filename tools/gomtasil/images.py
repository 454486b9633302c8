"""The pixels that images on a shelf have, and pictures of them. Pillow writes and reads pictures; pixels of images that
are coded without loss come from the proved program.

A picture is rows of bytes: one byte a pixel where a pixel has at most 8 bits, else two, most significant first, as in
PGM.
"""

from __future__ import annotations

import array
import io
import math
import sys
from collections.abc import Iterable, Iterator
from typing import TYPE_CHECKING, Any, NamedTuple

from . import program, segments, texts, xrit
from .shelf import Shelf, StoredFile

if TYPE_CHECKING:
    from PIL.Image import Image

BYTE_BITS = 8
WORD_BITS = 16
MOST_PIXELS = 64 * 1024 * 1024  # of a picture that is drawn or read
MOST_BATCH_BYTES = 128 * 1024 * 1024  # of files that it is asked for at once
MOST_BATCH_PIXELS = 32 * 1024 * 1024
PNG_LEVEL, FAST_PNG_LEVEL = 6, 1  # of compression
RUN_LENGTHS = 3  # the strategy of zlib for the fast one
READ_FORMATS = ("JPEG", "GIF", "PNG")
ROUNDING = 1e-6  # (less than the least step of a scaled value, and more than the error of its product)


def pillow() -> None:
    """Missing where Pillow isn't there."""
    try:
        import PIL.Image  # noqa: F401
    except ImportError:
        raise program.Missing("Pillow is missing: apt-get install python3-pil") from None


class Picture(NamedTuple):
    bits: int  # of a pixel, 1 to 16; the greatest value is 2^bits - 1
    columns: int
    lines: int
    pixels: bytes

    @property
    def width(self) -> int:
        """The bytes of a pixel."""
        return 1 if self.bits <= BYTE_BITS else 2


# ---- pixels of a data field


def group_of(bits: int) -> tuple[int, int]:
    """The fewest bytes in which whole pixels stand, and how many pixels these are."""
    size = bits // math.gcd(bits, BYTE_BITS)
    return size, size * BYTE_BITS // bits


def big_endian(values: array.array[int]) -> array.array[int]:
    """Numbers whose bytes are to be, or were, the most significant ones first."""
    if sys.byteorder == "little":
        values.byteswap()
    return values


def unpacked(data: bytes, bits: int, count: int) -> bytes:
    """The first pixels of a data field in which each has this many bits, one after another. Fewer where it ends
    early."""
    if bits in (BYTE_BITS, WORD_BITS):
        return data[: count * bits // BYTE_BITS]
    count = min(count, len(data) * BYTE_BITS // bits)
    size, pixels = group_of(bits)
    shifts = [bits * place for place in reversed(range(pixels))]
    most = 2**bits - 1
    values = array.array("B" if bits < BYTE_BITS else "H")
    for at in range(0, -(-count // pixels) * size, size):
        group = int.from_bytes(data[at : at + size].ljust(size, b"\0"), "big")
        values.extend([group >> shift & most for shift in shifts])
    return big_endian(values[:count]).tobytes()


def packed(picture: Picture) -> bytes:
    """The pixels of a picture one after another, each in its bits; zeros after the last one up to a whole byte."""
    if picture.bits in (BYTE_BITS, WORD_BITS):
        return picture.pixels
    values = big_endian(array.array("B" if picture.width == 1 else "H", picture.pixels))
    size, pixels = group_of(picture.bits)
    count = len(values)
    values.extend([0] * (-count % pixels))
    out = bytearray()
    for at in range(0, len(values), pixels):
        group = 0
        for value in values[at : at + pixels]:
            group = group << picture.bits | value
        out += group.to_bytes(size, "big")
    return bytes(out[: -(-count * picture.bits // BYTE_BITS)])


def plain_picture(structure: xrit.Structure, data: bytes) -> Picture | None:
    """The picture of an image that isn't compressed, or None where its data field ends early or its record says of
    none."""
    bits, columns, lines, compression = structure
    if compression or not 1 <= bits <= WORD_BITS or not columns * lines:
        return None
    pixels = unpacked(data, bits, columns * lines)
    picture = Picture(bits, columns, lines, pixels)
    return picture if len(pixels) == columns * lines * picture.width else None


def pgms_of(data: bytes) -> Iterator[Picture]:
    """The pictures of PGMs as the program writes them, one after another."""
    at = 0
    while at < len(data):
        _, size, most, _ = data[at : at + 100].split(b"\n", 3)
        columns, lines = map(int, size.split())
        picture = Picture(int(most).bit_length(), columns, lines, b"")
        at = data.index(b"\n", data.index(b"\n", data.index(b"\n", at) + 1) + 1) + 1
        end = at + columns * lines * picture.width
        yield picture._replace(pixels=data[at:end])
        at = end


def read_picture(data: bytes) -> Picture | None:
    """The picture of a JPEG, GIF or PNG in grey of 8 bits, or None where it can't be read."""
    image = read_image(data)
    return Picture(BYTE_BITS, image.width, image.height, image.convert("L").tobytes()) if image else None


def read_image(data: bytes) -> Image | None:
    from PIL import Image

    try:
        image = Image.open(io.BytesIO(data), formats=READ_FORMATS)
        if image.width * image.height > MOST_PIXELS:
            return None
        image.load()
        return image
    except Exception:  # (Pillow has errors of many kinds for bytes that are no picture)
        return None


# ---- pixels of files


def is_coded(file: StoredFile) -> bool:
    """Whether the program has to be asked for the image of a file."""
    structure = file.header.structure
    if not structure or not file.header.is_open_image or texts.ending_of(file.data):
        return False
    return structure.compression == xrit.LOSSLESS and file.header.is_lossless and structure.area <= MOST_PIXELS


def picture_of(file: StoredFile) -> Picture | None:
    """The picture of an image on a shelf, or None where it has none that can be had here."""
    return next(pictures_of([file]))


def pictures_of(files: Iterable[StoredFile | None]) -> Iterator[Picture | None]:
    """The picture of each of these files; None for None. The program is asked once for many of them."""
    batch: list[StoredFile | None] = []
    size = pixels = 0
    for file in files:
        structure = file.header.structure if file else None
        area = structure.area if structure else 0
        if file and batch and (size + len(file.item) > MOST_BATCH_BYTES or pixels + area > MOST_BATCH_PIXELS):
            yield from batch_pictures(batch)
            batch, size, pixels = [], 0, 0
        batch.append(file)
        size, pixels = size + (len(file.item) if file else 0), pixels + area
    yield from batch_pictures(batch)


def batch_pictures(files: list[StoredFile | None]) -> Iterator[Picture | None]:
    exported = iter(exports_of([file.item for file in files if file and is_coded(file)]))
    for file in files:
        structure = file.header.structure if file else None
        if not file or not structure or not file.header.is_open_image:
            yield None
        elif is_coded(file):
            yield next(exported)
        elif texts.ending_of(file.data):
            yield read_picture(file.data)
        else:
            yield plain_picture(structure, file.data)


def exports_of(items: list[bytes]) -> list[Picture | None]:
    """The picture of each of these items, as the program gives it."""
    if not items:
        return []
    rendered = program.called(items, "render")
    pictures: list[Picture | None] = list(pgms_of(rendered)) if rendered is not None else []
    if len(pictures) == len(items):
        return pictures
    if len(items) == 1:
        return [None]
    # (one of them has no image that can be read)
    return exports_of(items[: len(items) // 2]) + exports_of(items[len(items) // 2 :])


def group_picture(shelf: Shelf, group: segments.Group) -> Picture | None:
    """The picture of a file, or of the segments of one put together: places that no segment covers are 0."""
    return next(group_pictures(shelf, [group]))


def group_pictures(shelf: Shelf, groups: list[segments.Group]) -> Iterator[Picture | None]:
    """The same of each of these groups. The program is asked once for many of them."""
    loaded = ((part.segment, shelf.load(part.head)) for group in groups for part in group.parts)
    pictures = pictures_of(file for _, file in loaded)
    for group in groups:
        found = [(part.segment, next(pictures)) for part in group.parts]
        if not group.segments:
            yield found[0][1]
            continue
        parts = [(segment, it) for segment, it in found if segment and it]
        yield joined(sorted(parts, key=lambda part: part[0].number)) if parts else None


def joined(parts: list[tuple[segments.Segment, Picture]]) -> Picture | None:
    segment, one = parts[0]
    columns = segment.columns or one.columns
    lines = segment.lines or one.lines * segment.total
    if not 0 < columns * lines <= segments.MOST_PIXELS:
        return None
    canvas = bytearray(columns * lines * one.width)
    for segment, it in parts:
        top = segment.number * one.lines if segment.top is None else segment.top
        if it.bits != one.bits or segment.left + it.columns > columns or top + it.lines > lines:
            continue
        size = it.columns * it.width
        for line in range(it.lines):
            at = ((top + line) * columns + segment.left) * it.width
            canvas[at : at + size] = it.pixels[line * size : (line + 1) * size]
    return Picture(one.bits, columns, lines, bytes(canvas))


def coverage(shelf: Shelf, group: segments.Group) -> Picture | None:
    """Of a picture that is put together: 255 where a segment covers it, and 0 elsewhere."""
    parts = []
    for part in group.parts:
        file = shelf.load(part.head)
        structure = file.header.structure if file else None
        if part.segment and structure:
            parts.append((part.segment, Picture(8, structure.columns, structure.lines, b"\xff" * structure.area)))
    return joined(sorted(parts, key=lambda part: part[0].number)) if parts else None


# ---- pictures as files


def plain_image(picture: Picture) -> Image:
    """Pillow's image of a picture, with 8 or 16 bits a pixel, whose values stay as they are."""
    from PIL import Image

    size = (picture.columns, picture.lines)
    if picture.width == 1:
        return Image.frombytes("L", size, picture.pixels)
    words = array.array("H", picture.pixels)
    words.byteswap()  # (that mode has the least significant byte first)
    return Image.frombytes("I;16", size, words.tobytes())


def image_of(picture: Picture) -> Image:
    """The same with all levels: 0 stays, and the greatest value becomes the greatest one."""
    image, most = plain_image(picture), 2**picture.bits - 1
    if picture.bits in (BYTE_BITS, WORD_BITS):
        return image
    if picture.width == 1:
        return image.point([min(it, most) * 255 // most for it in range(256)])
    return image.point(lambda it: it * (65535 / most) + ROUNDING)


def grey_of(picture: Picture) -> Image:
    """The same with 8 bits a pixel: of more the first ones."""
    return levels_of(image_of(picture))


def png_of(picture: Picture, level: int = PNG_LEVEL, comment: str = "") -> bytes:
    """The bytes of a PNG. Where pixels are scaled, sBIT says how many bits they had."""
    significant = 0 if picture.bits in (BYTE_BITS, WORD_BITS) else picture.bits
    return png_of_image(image_of(picture), significant, level, comment)


def png_of_image(image: Image, significant: int = 0, level: int = PNG_LEVEL, comment: str = "") -> bytes:
    from PIL import PngImagePlugin

    notes = PngImagePlugin.PngInfo()
    if comment:
        notes.add_text("Comment", comment)
    if significant:
        notes.add(b"sBIT", bytes([significant]))
    strategy = {"compress_type": RUN_LENGTHS} if level == FAST_PNG_LEVEL else {}
    return written(image, "PNG", pnginfo=notes, compress_level=level, **strategy)


def written(image: Image, form: str, **options: Any) -> bytes:
    out = io.BytesIO()
    image.save(out, form, **options)
    return out.getvalue()


def levels_of(image: Image) -> Image:
    """The first eight bits of a grey image of 16 bits; others stay as they are."""
    return image.point(lambda it: it / 256).convert("L") if image.mode.startswith("I") else image


def scaled(image: Image, most: int) -> Image:
    """The image with at most `most` pixels on its longer side."""
    from PIL import Image

    small = image if image.mode in ("L", "RGB") else image.convert("RGB")
    factor = most / max(image.size)
    width, height = (max(1, round(it * factor)) for it in image.size)
    return small.resize((width, height), Image.Resampling.LANCZOS)


def jpeg_of(image: Image, most: int, quality: int = 75, comment: str = "") -> bytes:
    """The bytes of a JPEG with at most this many columns and lines."""
    from PIL import Image

    small = image.convert("L" if image.mode in ("1", "L", "I;16") else "RGB")
    small.thumbnail((most, most), Image.Resampling.LANCZOS)
    return written(small, "JPEG", quality=quality, **({"comment": comment} if comment else {}))
