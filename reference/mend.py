#!/usr/bin/env python3
"""The files of good packets where packets of images are missing, and fillers stand in for them, computed from the
definition alone, slowly.

A packet is (channel, application, flags, count, body). What is open before a packet is computed anew from all packets
before it; nothing is kept from one packet to the next.

With no arguments it draws histories of packets and prints how many histories, packets, files and fillers there were and
a checksum of the files, as the program `lr_cases` does.
"""

from dataclasses import dataclass, replace
from functools import cache

from drawn import Draw, big, crc
from files import Packet, files, is_file
from headers import fault_of, first, is_encrypted, number, structure

COUNTS = 16384
MOST_BODY = 65534
MOST_BYTES = 67108864
MOST_FILLERS = 1023


# ---- which images can be mended


@dataclass(frozen=True)
class Image:
    """An open image: of its last packet the count and body, and whether it is the first one; how many fillers it has,
    whether its lines are coded packet by packet, and how much is still to come: coded packets, or else bytes."""

    count: int
    body: bytes
    first: bool
    fillers: int
    coded: bool
    wanted: int


def units(coded: bool, data: bytes) -> int:
    return min(1, len(data)) if coded else len(data)


@cache
def begun(packet: Packet) -> Image | None:
    """The image that a packet with flags 1 opens."""
    proper = packet[4][10:]
    if fault_of(proper) or proper[3] != 0 or is_encrypted(proper):
        return None
    image, lossless = first(proper, 1), first(proper, 131)
    if image is None:
        return None
    bits, columns, lines, coding = structure(image)
    if not columns or not lines or columns * lines > 1 << 28 or coding > 1:
        return None
    data = proper[number(proper[4:8]) :]
    if coding == 0:
        if not 1 <= bits <= 16:
            return None
        total = -(-bits * columns * lines // 8)
    else:
        if lossless is None or not 5 <= bits <= 16 or not lossless[1] & 32 or not lossless[3]:
            return None
        if lossless[2] % 2 or not 2 <= lossless[2] <= 64:
            return None
        total = -(-lines // lossless[3])
    coded = coding == 1
    return Image(packet[3], packet[4], True, 0, coded, max(0, total - units(coded, data)))


# ---- the fillers before a packet


@dataclass(frozen=True)
class Gap:
    """How many packets are missing before a packet, how much of the image a filler has, whether the image is over, and
    the fillers that come."""

    missing: int
    unit: int
    over: bool
    fillers: list[Packet]


def gap_of(most: int, image: Image, packet: Packet) -> Gap:
    channel, application, flags, count, body = packet
    missing = (count - image.count - 1) % COUNTS
    filling = image.body if not image.first else body if flags == 0 else b""
    unit = max(1, units(image.coded, filling))
    needed = max(1, -(-image.wanted // unit))
    over = needed <= missing
    number = min(missing, needed)
    begins = flags in (1, 3)
    goes_back = not begins and missing >= COUNTS - (MOST_FILLERS + 1)
    closes = goes_back or (image.coded and image.first) if over else begins
    if not filling or closes or image.fillers + number > most:
        number = 0
    made = filling if image.coded else bytes(len(filling))
    counts = [(image.count + 1 + place) % COUNTS for place in range(number)]
    ends = [2 if over and place == number - 1 else 0 for place in range(number)]
    return Gap(missing, unit, over, [(channel, application, f, c, made) for f, c in zip(ends, counts)])


def open_image(most: int, packets: list[Packet]) -> Image | None:
    """The image that is open after these packets of one channel and application."""
    image = None
    for packet in packets:
        if packet[2] == 1:
            image = begun(packet) if most else None
        elif packet[2] == 0 and image:
            gap = gap_of(most, image, packet)
            made = len(gap.fillers)
            if gap.over or made != gap.missing:
                image = None
            else:
                came = gap.unit * made + units(image.coded, packet[4])
                image = replace(
                    image,
                    count=packet[3],
                    body=packet[4],
                    first=False,
                    fillers=image.fillers + made,
                    wanted=max(0, image.wanted - came),
                )
        else:
            image = None
    return image


def mended(most: int, packets: list[Packet]) -> list[tuple[Packet, bool]]:
    """The packets, each after its fillers, and whether it is one."""
    all_of_them = []
    for place, packet in enumerate(packets):
        image = open_image(most, [p for p in packets[:place] if p[:2] == packet[:2]])
        if image:
            all_of_them += [(filler, True) for filler in gap_of(most, image, packet).fillers]
        all_of_them.append((packet, False))
    return all_of_them


# ---- the files


def mark_text(places: list[int], packets: int) -> str:
    runs: list[list[int]] = []
    for place in places:
        if runs and place == runs[-1][-1] + 1:
            runs[-1] = [runs[-1][0], place]
        else:
            runs.append([place])
    return "gomtasil mended " + " ".join("-".join(map(str, run)) for run in runs) + f" of {packets}"


def marked(places: list[int], bodies: list[bytes]) -> list[bytes] | None:
    """The bodies of a file whose fillers are at these places, with the mark, or None where it doesn't fit."""
    if not places:
        return bodies
    text = mark_text(places, len(bodies)).encode()
    record = b"\6" + (len(text) + 3).to_bytes(2, "big") + text
    first = bodies[0]
    header = int.from_bytes(first[14:18], "big")
    if len(first) + len(record) > MOST_BODY or sum(map(len, bodies)) + len(record) > MOST_BYTES:
        return None
    size = (header + len(record)).to_bytes(4, "big")
    longer = first[:14] + size + first[18 : header + 10] + record + first[header + 10 :]
    return [longer] + bodies[1:]


def mended_files(most: int, packets: list[Packet]) -> list[tuple[int, int, int, list[bytes]]]:
    """All files, (channel, application, fillers, bodies), in the order of their last packets."""
    found = []
    heard = mended(most, packets)
    for place, (last, _) in enumerate(heard):
        if last[2] not in (2, 3):
            continue
        own = [it for it in heard[: place + 1] if it[0][:2] == last[:2]]
        starts = [at for at, (packet, _) in enumerate(own) if packet[2] in (1, 3)]
        ended = [own[at:] for at in starts if is_file([packet for packet, _ in own[at:]])]
        assert len(ended) <= 1
        for stretch in ended:
            places = [at for at, (_, filler) in enumerate(stretch) if filler]
            bodies = marked(places, [packet[4] for packet, _ in stretch])
            if bodies is not None:
                found.append((last[0], last[1], len(places), bodies))
    return found


# ---- the drawn histories

HISTORIES = 240
MOSTS = [1, 2, 16, 1023]
KEYS = [(0, 100), (1, 100), (0, 2046)]
DRAWN = 64


class Sender:
    """What one channel and application sends: the next count, and how many packets of its file are to come."""

    def __init__(self) -> None:
        self.count = 16380
        self.left = 0


def header_of(kind: int, lines: int, each: int, drawn: bytes) -> bytes:
    """A transport header, and the header of an image of three columns, or of what this kind makes of it."""
    coded = kind in (5, 6, 7, 8)
    structure = b"\1\0\x09" + bytes([8, 0, 3]) + lines.to_bytes(2, "big")
    structure += bytes([1 if coded or kind == 11 else 2 if kind == 10 else 0])
    more = b""
    if coded:
        more = b"\x83\0\7" + bytes([0, 49, 16, each])
    elif kind in (12, 13):
        more = b"\7\0\7" + bytes([0, 0, 0, 1 if kind == 12 else 0])
    length = 16 + len(structure + more)
    primary = b"\0\0\x10" + bytes([2 if kind == 9 else 0]) + length.to_bytes(4, "big") + drawn[18:26]
    return drawn[:10] + primary + structure + more


def draw_packet(draw: Draw, senders: list[Sender]) -> tuple[Packet, int]:
    """A packet, and how often it comes: mostly once."""
    drawn = draw.bytes(DRAWN)
    place = draw.byte() % 3
    sender = senders[place]
    if sender.left == 0:
        kind = draw.byte() % 16
        lines = (1 + draw.byte() % 8) * [1, 1, 40, 200][draw.byte() % 4]
        each = 1 + draw.byte() % 3
        header = header_of(kind, lines, each, drawn)
        size = len(header) - 1 if kind == 14 else len(header) + draw.byte() % 6
        body = (header + drawn[len(header) :])[:size]
        flags = 3 if kind == 15 else 1
        sender.left = 0 if kind == 15 else 1 + draw.byte() % 6
    else:
        body = drawn[: draw.byte() % 6]
        sender.left -= 1
        flags = 0 if sender.left else 2
    packet = KEYS[place] + (flags, sender.count, body)
    fate = draw.byte() % 16
    skipped = 0
    if fate in (12, 13):
        skipped = draw.byte() % 8
    elif fate == 14:
        skipped = 4 * draw.byte()
    elif fate == 15:
        skipped = 16000 + draw.byte()
    sender.count = (sender.count + 1 + skipped) % COUNTS
    return packet, 0 if fate in (9, 10) else 2 if fate == 11 else 1


def draw_history(draw: Draw) -> list[Packet]:
    senders = [Sender() for _ in KEYS]
    packets = []
    for _ in range(1 + draw.byte() % 40):
        packet, times = draw_packet(draw, senders)
        packets += [packet] * times
    return packets


def text_of(file: tuple[int, int, int, list[bytes]]) -> bytes:
    channel, application, fillers, bodies = file
    sizes = b"".join(big(2, len(body)) for body in bodies)
    return bytes([channel]) + big(2, application) + big(2, fillers) + sizes + b"".join(bodies)


def main() -> None:
    draw = Draw(1)
    sent = found = made = checksum = 0
    for number in range(HISTORIES):
        packets = draw_history(draw)
        sent += len(packets)
        for file in mended_files(MOSTS[number % 4], packets):
            found += 1
            made += file[2]
            checksum = (checksum * 65599 + crc(text_of(file))) % 2**64
    print(f"mended {HISTORIES} packets {sent} files {found} fillers {made} checksum {checksum}")


# ---- the worked examples


def check() -> None:
    def key(*packets: tuple[int, int, bytes]) -> list[Packet]:
        return [(13, 313, *p) for p in packets]

    def gaps(most: int, packets: list[Packet]) -> list[tuple[int, int, bytes]]:
        return [packet[2:] for packet, filler in mended(most, packets) if filler]

    front = bytes([0, 1, 0, 0, 0, 0, 0, 0, 1, 64])

    def header(lines: int, kind: int = 0, coding: int = 0, more: bytes = b"") -> bytes:
        length = (25 + len(more)).to_bytes(4, "big")
        primary = bytes([0, 0, 16, kind]) + length + bytes([0, 0, 0, 0, 0, 0, 0, 96])
        return front + primary + bytes([1, 0, 9, 8, 0, 3]) + lines.to_bytes(2, "big") + bytes([coding]) + more

    lossless = bytes([131, 0, 7, 0, 49, 16, 2])
    image, coded = header(4), header(4, coding=1, more=lossless)
    long, coded_long = header(100), header(8, coding=1, more=lossless)
    a, b, c, z, zeros = b"aaa", b"bbb", b"ccc", b"zzz", bytes(3)

    one = key((1, 100, image), (0, 101, a), (0, 103, c), (2, 104, z))
    assert gaps(16, one) == [(0, 102, zeros)]
    (file,) = mended_files(16, one)
    text = b"gomtasil mended 2 of 5"
    longer = image[:14] + (25 + 25).to_bytes(4, "big") + image[18:] + b"\6\0\x19" + text
    assert file == (13, 313, 1, [longer, a, zeros, c, z])
    assert mended_files(0, one) == []
    wrapped = key((1, 16382, image), (0, 1, c), (2, 2, z))
    assert gaps(16, wrapped) == [(0, 16383, zeros), (0, 0, zeros)]
    # a lost end: the next file has begun, or its header is missing too
    assert gaps(2, key((1, 5, image), (0, 6, a), (0, 7, b), (1, 10, image))) == [(0, 8, zeros), (2, 9, zeros)]
    assert gaps(3, key((1, 5, image), (0, 6, a), (0, 11, b))) == [(0, 7, zeros), (0, 8, zeros), (2, 9, zeros)]
    assert gaps(1, key((1, 5, coded), (0, 6, b"d"), (3, 9, image))) == [(2, 7, b"d")]
    assert gaps(16, key((1, 5, coded_long), (0, 7, b"d"), (0, 9, a))) == [(0, 6, b"d"), (0, 8, b"d")]
    assert gaps(16, key((1, 5, image), (0, 6, a), (0, 7, b))) == []
    # only the first packet came: lines that are coded would be those of the body that follows
    assert gaps(16, key((1, 5, coded), (0, 60, b"d"))) == []
    assert gaps(16, key((1, 5, image), (0, 60, c))) == [(0, n, zeros) for n in (6, 7, 8)] + [(2, 9, zeros)]
    # a count that goes back, by 1,024 at most
    assert gaps(3, key((1, 0, image), (0, 1, a), (0, 1, a), (2, 3, z))) == []
    assert gaps(3, key((1, 0, image), (0, 1, a), (0, 15362, b))) == []
    assert gaps(3, key((1, 0, image), (0, 1, a), (2, 15362, b))) == []
    far = [(0, 2, zeros), (0, 3, zeros), (2, 4, zeros)]
    assert gaps(3, key((1, 0, image), (0, 1, a), (0, 15361, b))) == far
    assert gaps(3, key((1, 0, image), (0, 1, a), (3, 1, b))) == far
    # too few are missing for the end, no body of between, and none with a byte in it
    assert gaps(16, key((1, 5, image), (0, 6, a), (3, 8, image))) == []
    assert gaps(16, key((1, 7, image), (2, 9, z))) == []
    assert gaps(16, key((1, 7, image), (0, 8, b""), (0, 10, c))) == []
    # all pixels are there
    assert gaps(16, key((1, 7, image), (0, 8, bytes(12)), (2, 10, z))) == [(2, 9, bytes(12))]
    # at most `most` of them, of the whole image
    five = key((1, 0, long), (0, 1, a), (0, 4, b), (0, 7, c), (2, 9, z))
    assert gaps(3, five) == [(0, 2, zeros), (0, 3, zeros)]
    assert gaps(4, five) == [(0, n, zeros) for n in (2, 3, 5, 6)]
    assert gaps(2, key((1, 0, image), (0, 1, a), (0, 1, a), (2, 3, z))) == []
    # what is no image that can be read
    keyed = [header(4, more=bytes([7, 0, 7, 0, 0, 0, n])) for n in (1, 0)]
    for none in (header(4, kind=2), header(4, coding=2), header(4, coding=1), keyed[0], image[:34]):
        assert gaps(16, key((1, 0, none), (0, 1, a), (2, 3, z))) == []
    assert gaps(16, key((1, 0, keyed[1]), (0, 1, a), (2, 3, z))) == [(0, 2, zeros)]
    # two files end with one packet
    two = mended_files(3, key((1, 3, image), (0, 4, a), (3, 8, image)))
    assert [len(it[3]) for it in two] == [5, 1] and [it[2] for it in two] == [3, 0]
    assert mark_text([1, 2, 3, 5], 4) == "gomtasil mended 1-3 5 of 4"
    assert mark_text([2, 8, 9], 13) == "gomtasil mended 2 8-9 of 13"
    # a first body at its limit
    for size, fits in ((65509, True), (65510, False), (65534, False)):
        packets = key((1, 0, header(60000) + bytes(size - 35)), (0, 2, z), (2, 3, b""))
        assert bool(mended_files(16, packets)) == fits


def compare() -> None:
    """Where none are allowed, the files are those of the packets; else these are among them."""
    draw = Draw(2)
    for number in range(60):
        packets = draw_history(draw)
        plain = [(vc, apid, 0, bodies) for vc, apid, bodies in files(packets)]
        assert mended_files(0, packets) == plain
        left = iter(mended_files(MOSTS[number % 4], packets))
        assert all(file in left for file in plain)


if __name__ == "__main__":
    check()
    compare()
    main()
