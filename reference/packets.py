#!/usr/bin/env python3
"""The packets of a list of transfer frames, computed from the definition alone, slowly.

A frame is (channel, counter, pointer, zone) with a zone of 884 bytes. Everything is said of whole runs and of places in
their joined zones; nothing is kept from one frame to the next.

With no arguments it draws histories and prints their numbers and a checksum, as the program `lr_cases` does.
"""

from drawn import Draw

Frame = tuple[int, int, int, bytes]
Run = list[tuple[int, Frame]]  # frames, each with its place among all

ZONE = 884
FILL = 63


def runs(frames: list[Frame]) -> list[Run]:
    """The runs of all channels but fill: lists of (place among all frames, frame)."""
    found: list[Run] = []
    for channel in range(FILL):
        own = [(place, f) for place, f in enumerate(frames) if f[0] == channel]
        for i, (place, f) in enumerate(own):
            if i > 0 and f[1] == (own[i - 1][1][1] + 1) % 2**24:
                found[-1].append((place, f))
            else:
                found.append([(place, f)])
    return found


def packets_of_run(run: Run) -> list[tuple[int, int, int, bytes]]:
    """The delivered packets of a run: (place of the frame in which it ends, start, channel, bytes)."""
    joined = b"".join(f[3] for _, f in run)
    pointer = [f[2] for _, f in run]

    def end(s: int) -> int | None:
        if s + 6 > len(joined):
            return None
        return s + 7 + joined[s + 4] * 256 + joined[s + 5]

    starts: list[tuple[int, int]] = []
    for t in range(len(run)):
        if pointer[t] <= 883:
            of_zone = [ZONE * t + pointer[t]]
            while (place := end(of_zone[-1])) is not None and place < ZONE * (t + 1):
                of_zone.append(place)
            starts += [(t, s) for s in of_zone]

    def agrees(u: int, e: int) -> bool:
        if ZONE * (u + 1) <= e:
            return pointer[u] == 2047
        if ZONE * u < e < ZONE * (u + 1):
            return pointer[u] == e - ZONE * u
        return True

    found = []
    for t, s in starts:
        e = end(s)
        if e is None or e > len(joined):
            continue
        if all(agrees(u, e) for u in range(t + 1, len(run))):
            place, frame = run[(e - 1) // ZONE]
            found.append((place, s, frame[0], joined[s:e]))
    return found


def packets(frames: list[Frame]) -> list[tuple[int, bytes]]:
    """All delivered packets, (channel, bytes), ordered by the frame in which they end and then by their start."""
    found = [p for run in runs(frames) for p in packets_of_run(run)]
    found.sort(key=lambda p: (p[0], p[1]))
    return [(channel, data) for _, _, channel, data in found]


# ---- the drawn histories

HISTORIES = 400
CHANNELS = [0, 1, 62, 63]


class Sender:
    """A channel's packets as bytes: how many of the packet are sent, its length, and the counter of the next frame."""

    def __init__(self, draw: Draw) -> None:
        self.sent = 0
        self.length = 0
        self.counter = 2**24 - 1 - draw.below(3)

    def next_length(self, draw: Draw, place: int) -> int:
        """The length of a packet that starts at this place of a zone."""
        kind = draw.byte() % 16
        left = ZONE - place
        if kind < 4:
            length = left
        elif kind < 6:
            length = left + ZONE
        elif kind < 8:
            length = left - 4 + draw.below(12)
        elif kind < 12:
            length = 7 + draw.below(200)
        elif kind < 15:
            length = 7 + draw.below(2500)
        else:
            length = 7 + draw.below(65536)
        return max(length, 7)


def draw_frame(draw: Draw, senders: list[Sender]) -> Frame:
    index = [0, 0, 0, 0, 1, 1, 2, 3][draw.byte() % 8]
    channel = CHANNELS[index]
    sender = senders[index]
    zone = bytearray()
    pointer = 2047
    for place in range(ZONE):
        if sender.sent == sender.length:
            sender.sent = 0
            sender.length = sender.next_length(draw, place)
            if pointer == 2047:
                pointer = place
        field = sender.length - 7
        if sender.sent == 4:
            byte = field // 256
        elif sender.sent == 5:
            byte = field % 256
        else:
            byte = draw.byte()
        zone.append(byte)
        sender.sent += 1
    kind = draw.byte() % 32
    if kind == 0:
        pointer = 2046
    elif kind == 1:
        pointer = 2047
    elif kind == 2:
        pointer = draw.below(884)
    elif kind == 3:
        pointer = 884 + draw.below(1162)
    counter = sender.counter
    kind = draw.byte() % 32
    if kind == 0:
        counter = (counter + 1) % 2**24
    elif kind == 1:
        counter = (counter + 2**24 - 1) % 2**24
    sender.counter = (counter + 1) % 2**24
    return (channel, counter, pointer, bytes(zone))


def main() -> None:
    draw = Draw(1)
    count = 0
    delivered = 0
    checksum = 14695981039346656037
    for _ in range(HISTORIES):
        senders = [Sender(draw) for _ in CHANNELS]
        frames = [draw_frame(draw, senders) for _ in range(1 + draw.byte() % 12)]
        count += len(frames)
        for channel, data in packets(frames):
            delivered += 1
            for byte in bytes([channel]) + data:
                checksum = (checksum ^ byte) * 1099511628211 % 2**64
    print(f"histories {HISTORIES} frames {count} packets {delivered} checksum {checksum}")


# ---- the worked examples

def idle(length_field: int) -> bytes:
    return bytes.fromhex("07FFC000") + length_field.to_bytes(2, "big") + bytes(length_field + 1)


GOOD = bytes.fromhex("0064C000000A31323334353637383929B1")


def check() -> None:
    one = (0, 0, 0, GOOD + idle(0x35C))
    assert len(one[3]) == ZONE
    assert packets([one]) == [(0, GOOD), (0, idle(0x35C))]
    first = (0, 2**24 - 1, 0, idle(0x36A) + GOOD[:3])
    assert len(first[3]) == ZONE

    def second(counter: int, pointer: int) -> Frame:
        zone = GOOD[3:] + idle(0x35F)
        assert len(zone) == ZONE
        return (0, counter, pointer, zone)

    assert packets([first, second(0, 14)]) == [(0, idle(0x36A)), (0, GOOD), (0, idle(0x35F))]
    assert packets([first, second(1, 14)]) == [(0, idle(0x36A)), (0, idle(0x35F))]
    assert packets([first, second(2**24 - 1, 14)]) == [(0, idle(0x36A)), (0, idle(0x35F))]
    assert packets([first, second(0, 2046)]) == [(0, idle(0x36A))]
    # a header of one byte in its zone
    long = idle(0x36A - 1)
    edge = [(0, 5, 883, bytes(883) + long[:1]), (0, 6, len(long) - 1, long[1:] + bytes(ZONE - len(long) + 1))]
    assert packets(edge)[0] == (0, long)
    # a packet of the length field FFFF, whose run breaks after its tenth zone
    whole = idle(0xFFFF)
    ten = [(0, n, 0 if n == 0 else 2047, whole[ZONE * n : ZONE * (n + 1)]) for n in range(10)]
    assert packets(ten + [(0, 11, 2047, bytes(ZONE))]) == []
    many = [(0, n, 0 if n == 0 else 2047, whole[ZONE * n : ZONE * (n + 1)]) for n in range(74)]
    rest = whole[ZONE * 74 :]
    last = (0, 74, len(rest), rest + idle(ZONE - len(rest) - 7))
    assert packets(many + [last]) == [(0, whole), (0, idle(ZONE - len(rest) - 7))]


if __name__ == "__main__":
    check()
    main()
