"""Writes the image to which file N belongs, assembled from its segments, as a GeoTIFF, placed by its navigation record.
That has to name the projection GEOS with the longitude below the satellite, such as geos(-75.2). Images of GOES-R's ABI
are taken to lie in ABI's grid (sweep x, GRS80), others in that of CGMS 03 (sweep y). Pixels stay as they are: 8 bits,
or 16 where they have more, or where segments are missing, whose pixels are 65535 and named as no data.
"""

# The projection is that of CGMS 03 (section 4.4.3.2), or for images of ABI that of the GOES-R Product Definition and
# Users' Guide (volume 3, section 5.1.2.8). That the images of ABI in HRIT lie in ABI's own grid is from memory. The
# file is that of TIFF 6.0 and GeoTIFF 1.0.

from __future__ import annotations

import math
import re
from typing import TYPE_CHECKING, NamedTuple

from . import images, products, segments, texts, xrit
from .images import Picture
from .shelf import Shelf, ShelfError, StoredFile

if TYPE_CHECKING:
    from PIL.Image import Image

FACTOR_ONE = 65536  # a factor of this size is one pixel a degree


class Grid(NamedTuple):
    """The earth and the satellite of a projection, in metres, and about which axis its scan sweeps."""

    datum: str
    equator_radius: float
    pole_radius: float
    height: float  # of the satellite above the equator
    is_sweep_x: bool

    @property
    def flatness(self) -> float:
        return (self.pole_radius / self.equator_radius) ** 2


CGMS = Grid("CGMS", 6_378_169.0, 6_356_583.8, 35_785_831.0, False)
ABI = Grid("GRS80", 6_378_137.0, 6_356_752.31414, 35_786_023.0, True)
GRIDS = {"x": ABI, "y": CGMS}

# ---- the tags of GeoTIFF, and what their keys say
PIXEL_SCALE, TIE_POINT, GEO_KEYS, GEO_TEXTS, DATE, NO_DATA = 33550, 33922, 34735, 34737, 306, 42113
MODEL_TYPE, RASTER_TYPE, PROJECTED_CITATION, LINEAR_UNIT = 1024, 1025, 3073, 3076
USER_DEFINED, PIXEL_IS_AREA, METRE = 32767, 1, 9001
NOTHING = 65535  # the value of a pixel that no segment covers


class Placement(NamedTuple):
    """Where the pixels of an image lie. Columns and lines are counted from 1, as the record counts."""

    longitude: float  # degrees, below the satellite
    column_factor: int
    line_factor: int
    column_offset: int
    line_offset: int
    first_line: int  # lines of the whole image before those of this one
    grid: Grid = CGMS

    def pixel_of(self, longitude: float, latitude: float) -> tuple[float, float] | None:
        """The column and line, counted from 0 at the middle of the first pixel, at which a place on the ellipsoid is
        seen; None behind the limb."""
        east = math.radians(longitude - self.longitude)
        flatness = self.grid.flatness
        centric = math.atan(flatness * math.tan(math.radians(latitude)))
        radius = self.grid.pole_radius / math.sqrt(1 - (1 - flatness) * math.cos(centric) ** 2)
        from_centre = radius * math.cos(centric) * math.cos(east)
        towards = self.grid.height + self.grid.equator_radius - from_centre
        across = radius * math.cos(centric) * math.sin(east)
        up = radius * math.sin(centric)
        # (the line of sight meets the ellipsoid from outside)
        if towards * from_centre - across**2 - up**2 / flatness <= 0:
            return None
        far = math.sqrt(towards**2 + across**2 + up**2)
        if self.grid.is_sweep_x:
            x, y = math.degrees(math.asin(across / far)), math.degrees(math.atan(up / towards))
        else:
            x, y = math.degrees(math.atan(across / towards)), math.degrees(math.asin(up / far))
        column = self.column_offset + x * self.column_factor / FACTOR_ONE - 1
        line = self.line_offset - y * self.line_factor / FACTOR_ONE - 1 - self.first_line
        return column, line


def grid_of(name: str, sweep: str | None) -> Grid:
    """The grid of the images with this name, or that of this sweep."""
    return GRIDS[sweep] if sweep else ABI if products.is_of_abi(name) else CGMS


def placement_of(header: xrit.Header, grid: Grid, is_whole: bool = False) -> Placement:
    """Where an image lies, or the whole one of which it is a segment. ShelfError where its header doesn't say it."""
    found = header.navigation
    if not found:
        raise ShelfError("the file has no navigation record")
    match = re.fullmatch(rb"GEOS\(([-+]?\d{1,3}(?:\.\d+)?)\)", found.name.strip(b"\0 "), re.IGNORECASE)
    if not match:
        raise ShelfError("the navigation record names no GEOS projection")
    if min(found.column_factor, found.line_factor) <= 0:
        raise ShelfError("the image has its north below or its east to the left")
    first_line = 0 if is_whole else segments.first_line_of(header)
    return Placement(float(match[1]), *found[1:], first_line, grid)


def is_counted_within(header: xrit.Header) -> bool:
    """Whether the line offset of a segment counts in the segment, and not in the whole image."""
    return len(header.first(xrit.SEGMENT_KIND) or b"") == segments.PLANNED.size


class Located(NamedTuple):
    """An image, and where it lies."""

    picture: Picture
    placement: Placement
    date: str  # as TIFF writes it; empty where there is none
    coverage: Picture | None = None  # 0 where no segment came; None where all came


def placed_image(shelf: Shelf, number: int, is_alone: bool = False, sweep: str | None = None) -> Located:
    """The image to which a file belongs, assembled from its segments, or that of the file alone, and where it lies.
    ShelfError where it can't be had."""
    file = shelf.file(number)
    group = group_with(shelf, file)
    picture = images.picture_of(file) if is_alone else images.group_picture(shelf, group)
    if picture is None:
        raise ShelfError(f"file {number} cannot be decoded as an image")
    date = file.header.stamped("%Y:%m:%d %H:%M:%S")
    if is_alone:
        return Located(picture, placement_of(file.header, grid_of(texts.name_of(file), sweep)), date)
    coverage = images.coverage(shelf, group) if group.missing else None
    return Located(picture, group_placement(shelf, group, sweep), date, coverage)


def group_placement(shelf: Shelf, group: segments.Group, sweep: str | None = None) -> Placement:
    """Where the whole image of a group lies. ShelfError where its header doesn't say it."""
    first = min(group.parts, key=lambda part: part.segment.number if part.segment else 0)
    header = (shelf.load(first.head) or group.file).header
    placement = placement_of(header, grid_of(group.name, sweep), bool(group.segments))
    if first.segment and header.structure and is_counted_within(header):
        # (such an offset counts from the segment's first line, and the whole image's first one is above that)
        below = first.segment.number * header.structure.lines
        placement = placement._replace(line_offset=placement.line_offset + below)
    return placement


def group_with(shelf: Shelf, file: StoredFile) -> segments.Group:
    """The group of files in which this one is."""
    heads = shelf.images() if segments.segment_of(file) else [file.head]
    groups = [it for it in segments.groups_of(shelf, heads) if isinstance(it, segments.Group)]
    found = [it for it in groups if file.number in it.numbers]
    if not found:  # (a mended segment in whose place a whole one has come)
        found = [it for it in segments.groups_of(shelf, [file.head]) if isinstance(it, segments.Group)]
    return found[0]


# ---- GeoTIFF


def projection_of(longitude: float, grid: Grid) -> str:
    """The projection as text. The standard of GeoTIFF has no code for it; this is how GDAL writes and reads it in a
    citation. Where the sweep is x, ESRI's readers take that from Option, and GDAL from PROJ's words."""
    datum, flattening = grid.datum, grid.equator_radius / (grid.equator_radius - grid.pole_radius)
    proj = f"+proj=geos +sweep=x +lon_0={longitude} +h={grid.height} +a={grid.equator_radius} +b={grid.pole_radius}"
    extension = f',EXTENSION["PROJ4","{proj} +units=m +no_defs"]' if grid.is_sweep_x else ""
    return (
        f'ESRI PE String = PROJCS["Geostationary",GEOGCS["GCS_{datum}",DATUM["D_{datum}",'
        f'SPHEROID["{datum}",{grid.equator_radius},{flattening!r}]],PRIMEM["Greenwich",0.0],'
        'UNIT["Degree",0.0174532925199433]],'
        f'PROJECTION["Geostationary_Satellite"],PARAMETER["Longitude_Of_Center",{longitude}],'
        f'PARAMETER["Height",{grid.height}],PARAMETER["False_Easting",0.0],PARAMETER["False_Northing",0.0],'
        f'PARAMETER["Option",{float(grid.is_sweep_x)}],UNIT["Meter",1.0]{extension}]'
    )


def masked(picture: Picture, coverage: Picture) -> Image:
    """The image with 16 bits a pixel, and the greatest value where no segment came."""
    from PIL import Image

    image = Image.new("I", (picture.columns, picture.lines), NOTHING)
    image.paste(images.plain_image(picture).convert("I"), mask=images.plain_image(coverage))
    return image.convert("I;16")


def tiff_of(picture: Picture, placement: Placement, date: str = "", coverage: Picture | None = None) -> bytes:
    """The bytes of a GeoTIFF. Pixels that no segment covers are no data, unless each value may be a pixel's."""
    from PIL import TiffImagePlugin

    grid = placement.grid
    text = projection_of(placement.longitude, grid) + "|"
    keys = [
        (MODEL_TYPE, 0, 1, USER_DEFINED),
        (RASTER_TYPE, 0, 1, PIXEL_IS_AREA),
        (PROJECTED_CITATION, GEO_TEXTS, len(text), 0),
        (LINEAR_UNIT, 0, 1, METRE),
    ]
    factors = placement.column_factor, placement.line_factor
    width, height = (grid.height * math.radians(FACTOR_ONE / it) for it in factors)  # metres
    # (the upper left pixel is column 1 and begins at 0.5)
    left, top = 0.5 - placement.column_offset, placement.line_offset - placement.first_line - 0.5
    tags = TiffImagePlugin.ImageFileDirectory_v2()
    tags[PIXEL_SCALE] = width, height, 0.0
    tags[TIE_POINT] = 0.0, 0.0, 0.0, left * width, top * height, 0.0
    tags[GEO_KEYS] = 1, 1, 0, len(keys), *(number for key in keys for number in key)
    tags[GEO_TEXTS] = text
    if date:
        tags[DATE] = date
    image = images.plain_image(picture)
    if coverage and picture.bits < images.WORD_BITS:
        tags[NO_DATA] = str(NOTHING)
        image = masked(picture, coverage)
    return images.written(image, "TIFF", compression="tiff_adobe_deflate", tiffinfo=tags)


def geo(path: str, number: int, is_alone: bool = False, sweep: str | None = None) -> bytes:
    """The GeoTIFF of the image to which a file belongs, or of the file alone."""
    with Shelf(path) as shelf:
        return tiff_of(*placed_image(shelf, number, is_alone, sweep))
