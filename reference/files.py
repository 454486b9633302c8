#!/usr/bin/env python3
"""The mission files of a list of good packets, computed from the definition alone, slowly.

A packet is (channel, application, flags, count, body). Everything is said of whole stretches of the packets of one
channel and application; nothing is kept from one packet to the next.

With no arguments it draws lists of packets and prints how many lists, packets and files there were and a checksum of
the files, as the program `lr_cases` does.
"""

from drawn import Draw, big, crc

Packet = tuple[int, int, int, int, bytes]
File = tuple[int, int, list[bytes]]

MOST_BODIES = 1048576
MOST_BYTES = 67108864


def is_file(stretch: list[Packet]) -> bool:
    flags = [p[2] for p in stretch]
    counts = [p[3] for p in stretch]
    size = sum(len(p[4]) for p in stretch)
    if len(stretch) == 1:
        marked = flags == [3]
    else:
        marked = flags[0] == 1 and flags[-1] == 2 and all(f == 0 for f in flags[1:-1])
    counted = all(b == (a + 1) % 16384 for a, b in zip(counts, counts[1:]))
    return marked and counted and len(stretch) <= MOST_BODIES and 10 <= size <= MOST_BYTES


def files(packets: list[Packet]) -> list[File]:
    """All files, (channel, application, bodies), in the order of their last packets."""
    found: list[File] = []
    for place, last in enumerate(packets):
        own = [p for p in packets[: place + 1] if p[:2] == last[:2]]
        ended = [own[start:] for start in range(len(own)) if is_file(own[start:])]
        assert len(ended) <= 1
        found += [(last[0], last[1], [p[4] for p in stretch]) for stretch in ended]
    return found


# ---- the drawn lists

LISTS = 400
KEYS = [(0, 100), (1, 100), (0, 2046)]


class Sender:
    """What one channel and application sends: the next count, and whether a file has begun."""

    def __init__(self) -> None:
        self.count = 16383
        self.begun = False


def draw_packet(draw: Draw, senders: list[Sender]) -> Packet:
    drawn = draw.bytes(40)
    place = draw.byte() % 3
    sender = senders[place]
    kind = draw.byte() % 16
    if sender.begun:
        flags = [0, 0, 0, 0, 0, 0, 0, 0, 2, 2, 2, 2, 2, 1, 1, 3][kind]
    else:
        flags = [1, 1, 1, 1, 1, 1, 1, 1, 1, 1, 3, 3, 3, 0, 0, 2][kind]
    kind = draw.byte() % 16
    count = (sender.count + {0: 1, 1: 16383}.get(kind, 0)) % 16384
    sender.begun = flags < 2
    sender.count = (count + 1) % 16384
    most = [5, 5, 12, 40][draw.byte() % 4]
    return KEYS[place] + (flags, count, drawn[: draw.byte() % most])


def text_of(file: File) -> bytes:
    channel, application, bodies = file
    sizes = b"".join(big(2, len(body)) for body in bodies)
    return bytes([channel]) + big(2, application) + sizes + b"".join(bodies)


def main() -> None:
    draw = Draw(1)
    sent = found = checksum = 0
    for _ in range(LISTS):
        senders = [Sender() for _ in KEYS]
        packets = [draw_packet(draw, senders) for _ in range(1 + draw.byte() % 24)]
        sent += len(packets)
        for file in files(packets):
            found += 1
            checksum = (checksum * 65599 + crc(text_of(file))) % 2**64
    print(f"lists {LISTS} packets {sent} files {found} checksum {checksum}")


# ---- the worked examples

def check() -> None:
    def key(*packets: tuple[int, int, bytes], vc: int = 0, apid: int = 100) -> list[Packet]:
        return [(vc, apid, *p) for p in packets]

    body = b"\0\7" + (136).to_bytes(8, "big") + bytes(16)
    assert files(key((3, 0, body))) == [(0, 100, [body])]
    assert files(key((3, 0, b"123456789"))) == []
    assert files(key((3, 0, b"1234567890"))) == [(0, 100, [b"1234567890"])]
    four = key((1, 4, b"12345"), (0, 5, b""), (0, 6, b"678"), (2, 7, b"90"))
    assert files(four) == [(0, 100, [b"12345", b"", b"678", b"90"])]
    # the third is missing, and the next file is given
    assert files(four[:2] + four[3:] + key((1, 8, b"12345"), (2, 9, b"67890"))) == [(0, 100, [b"12345", b"67890"])]
    # a second first packet inside an open file
    assert files(key((1, 1, b"123"), (1, 2, b"12345"), (2, 3, b"67890"))) == [(0, 100, [b"12345", b"67890"])]
    # a last packet with no first
    assert files(key((2, 1, b"1234567890"))) == []
    assert files(key((0, 1, b"12345"), (2, 2, b"67890"))) == []
    # a whole file inside an open one
    assert files(key((1, 1, b"12345"), (3, 2, b"1234567890"), (2, 2, b"67890"))) == [(0, 100, [b"1234567890"])]
    # nine bytes in several packets
    assert files(key((1, 1, b"123"), (0, 2, b"456"), (2, 3, b"789"))) == []
    # two keys that interleave
    other = key((1, 9, b"abcde"), (2, 10, b"fghij"), vc=1)
    mixed = [four[0], other[0], four[1], four[2], other[1], four[3]]
    assert files(mixed) == [(1, 100, [b"abcde", b"fghij"]), (0, 100, [b"12345", b"", b"678", b"90"])]
    # counts go on modulo 16,384
    wrapped = files(key((1, 16383, b"12345"), (2, 0, b"67890")))
    assert wrapped == [(0, 100, [b"12345", b"67890"])]
    assert files(key((1, 16383, b"12345"), (2, 16384, b"67890"))) == []
    # the limits
    def many(n: int, size: int) -> list[Packet]:
        ends = [(1, 0, bytes(size))] + [(0, c % 16384, b"") for c in range(1, n - 1)] + [(2, (n - 1) % 16384, b"")]
        return key(*ends)

    assert is_file(many(MOST_BODIES, 10)) and not is_file(many(MOST_BODIES + 1, 10))
    assert is_file(many(2, MOST_BYTES)) and not is_file(many(2, MOST_BYTES + 1))


def stepwise(packets: list[Packet]) -> list[File]:
    """The same by what a receiver keeps: the open stretch of each key, dropped once a limit is passed."""
    kept: dict[tuple[int, int], list[Packet]] = {}
    found: list[File] = []
    for p in packets:
        before = kept.pop(p[:2], None)
        if p[2] in (1, 3):
            stretch = [p]
        elif before and p[3] == (before[-1][3] + 1) % 16384:
            stretch = before + [p]
        else:
            continue
        if len(stretch) > MOST_BODIES or sum(len(q[4]) for q in stretch) > MOST_BYTES:
            continue
        if p[2] < 2:
            kept[p[:2]] = stretch
        elif sum(len(q[4]) for q in stretch) >= 10:
            found.append((p[0], p[1], [q[4] for q in stretch]))
    return found


def compare() -> None:
    """The definition against the steps, over drawn lists with small limits."""
    global MOST_BODIES, MOST_BYTES
    whole = MOST_BODIES, MOST_BYTES
    MOST_BODIES, MOST_BYTES = 4, 40
    draw = Draw(2)
    for _ in range(3000):
        senders = [Sender() for _ in KEYS]
        packets = [draw_packet(draw, senders) for _ in range(1 + draw.byte() % 40)]
        assert files(packets) == stepwise(packets)
    MOST_BODIES, MOST_BYTES = whole


if __name__ == "__main__":
    check()
    compare()
    main()
