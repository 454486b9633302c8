"""The reception quality on the page: corrections over time, and what is lost and missing."""

import re
from typing import NamedTuple

from . import quality
from .page_files import Content, Source, utc
from .page_summary import MOST_STRETCHES
from .quality import FRAME_SYMBOLS

HOUR = 3600  # seconds


class Curve(NamedTuple):
    """Corrected bytes per frame, and the shares of lost frames with a text, over positions from 0 to 1."""

    points: list[tuple[float, float]]
    lost: list[tuple[float, float, str]]
    ticks: list[str]
    over: str


def clocks(begin: float, end: float) -> list[str]:
    """Returns the hours and minutes at five equidistant positions."""
    return [utc(begin + (end - begin) * place / 4, "%H:%M") for place in range(5)]


def curve_of_minutes(minutes: list[quality.Minute]) -> Curve:
    """Returns the curve of the last day, from the minutes kept in a station's folder."""
    begin, end = minutes[0].time, max(minutes[-1].time, minutes[0].time + HOUR)
    rows: dict[int, list[quality.Minute]] = {}
    for it in minutes:
        rows.setdefault(int((it.time - begin) * MOST_STRETCHES / (end - begin + 1)), []).append(it)
    curve = Curve([], [], clocks(begin, end), "the last day, in UTC")
    for key, row in sorted(rows.items()):
        sum_ = quality.total(row)
        if sum_.frames > sum_.lost:
            curve.points.append((key / MOST_STRETCHES, sum_.corrected / (sum_.frames - sum_.lost)))
        if sum_.lost:
            text = f"{utc(row[0].time, '%H:%M')} UTC: {sum_.lost} of {sum_.frames} frames lost"
            curve.lost.append((key / MOST_STRETCHES, sum_.lost / sum_.frames, text))
    return curve


def curve_of_frames(source: Source) -> Curve | None:
    """Returns the curve of a shelf over its frames, or over time if the rate is known."""
    points = source.summary.points
    if not points:
        return None
    first, last = points[0][0], points[-1][0]
    scaled = [((x - first) / (last - first) if last > first else 0.5, y) for x, y in points]
    if source.rate and not source.summary.receptions:
        begin = source.changed - (source.summary.last_frame - first) * FRAME_SYMBOLS / source.rate
        return Curve(scaled, [], clocks(begin, source.changed), "time, in UTC")
    return Curve(scaled, [], [f"frame {first:.0f}", f"frame {last:.0f}"], "its frames")


def losses_of(path: str) -> tuple[int, int]:
    """Returns the frames and the lost ones, from the lines of minutes in a file, or else from the last lines of
    `receive`."""
    last = re.compile(r"symbols \d+ frames (\d+) restored \d+ lost (\d+) packets ")
    sums = {quality.MINUTE_LINE: [0, 0, 0], last: [0, 0, 0]}
    with open(path, encoding="utf-8", errors="replace") as it:
        for line in it:
            for shape, row in sums.items():
                match = shape.search(line)
                if match:
                    row[:] = [row[0] + 1, row[1] + int(match[1]), row[2] + int(match[2])]
    _, frames, lost = sums[quality.MINUTE_LINE] if sums[quality.MINUTE_LINE][0] else sums[last]
    return frames, lost


def missing_lines(content: Content, source: Source | None, log: str | None, minutes: list[quality.Minute]) -> list[str]:
    """Returns a sentence for each thing that is lost or missing."""
    lines = []
    if log:
        frames, lost = losses_of(log)
        lines.append(f"Frames: {frames}, of which {lost} were lost.")
    elif minutes:
        sum_ = quality.total(minutes)
        lines.append(f"Frames of the last day: {sum_.frames:,}, of which {sum_.lost:,} were lost.")
    else:
        lines.append("No record of lost frames. (`gomtasil page --help` says how to give one: --log.)")
    if source:
        discarded = f"Files discarded: {source.summary.discarded}"
        lines += [source.summary.gaps, f"{discarded}. With a bad checksum among the newest: {content.damaged}."]
        if source.summary.breaks_off:
            lines.append("The shelf is damaged: its items break off.")
    return lines + content.missing
