"""Writes the LRIT/HRIT file N with its image uncompressed, for readers that don't decode losslessly coded lines, such
as satpy. A file that isn't coded is written as it is.
"""

from . import images, program, xrit
from .images import Picture
from .shelf import Shelf, ShelfError


def plain_file(header: xrit.Header, structure: xrit.Structure, picture: Picture) -> bytes:
    """The mission file with this header and these pixels, not coded."""
    records, is_first = b"", True
    for kind, inside in header.records:
        if xrit.is_lossless_record(kind, inside):
            continue
        if kind == xrit.STRUCTURE_KIND and is_first:
            inside = xrit.STRUCTURE.pack(*structure._replace(compression=xrit.NOT_COMPRESSED))
            is_first = False
        records += xrit.record(kind, inside)
    bits = picture.bits * picture.columns * picture.lines
    return xrit.mission_file(header.file_type, records, images.packed(picture), bits)


def plain(path: str, number: int) -> bytes:
    """The plain bytes of a file. One that isn't coded stays as it is."""
    with Shelf(path) as shelf:
        file = shelf.file(number)
    structure = file.header.structure
    if structure is None or structure.compression == xrit.NOT_COMPRESSED:
        return file.proper
    picture = images.picture_of(file) if images.is_coded(file) else None
    if picture is None:
        raise ShelfError(f"the program {program.name()} exports no image of file {number}")
    return plain_file(file.header, structure, picture)
