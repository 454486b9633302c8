#!/usr/bin/env python3
"""The bytes of shelf files, computed from their definition alone.

A file is (channel, application, bodies). With no arguments it prints the headers and items that the tests of the shelf
expect, each as bytes in hexadecimal.
"""

from drawn import big, crc
from files import File


def sealed(data: bytes) -> bytes:
    return data + big(2, crc(data))


def header(version: int, capacity: int) -> bytes:
    named = b"LRSHELF" + bytes([version]) + big(8, capacity)
    return b"\x5A" + sealed(named)


def fields(file: File) -> bytes:
    channel, application, bodies = file
    return bytes([channel]) + big(2, application) + big(4, len(bodies)) + big(4, sum(map(len, bodies)))


def body(file: File) -> bytes:
    return b"".join(big(2, len(one)) for one in file[2]) + b"".join(file[2])


def old(file: File) -> bytes:
    return sealed(fields(file) + body(file))


def add(file: File, origin: tuple[int, int, int]) -> bytes:
    return sealed(b"\x80" + fields(file) + b"".join(big(8, number) for number in origin) + body(file))


def discard(number: int) -> bytes:
    return sealed(b"\x81" + big(8, number))


def shelf(version: int, capacity: int, items: list[bytes]) -> bytes:
    return header(version, capacity) + b"".join(b"\x01" + item for item in items) + b"\x00"


def show(name: str, data: bytes) -> None:
    print(name, len(data))
    for place in range(0, len(data), 16):
        print("   ", data[place:place + 16].hex(" "))


if __name__ == "__main__":
    first: File = (0, 100, [bytes(range(26))])
    second: File = (5, 7, [bytes(range(10))])
    # the file of one packet that declares 136 bits and has 128
    differs: File = (0, 100, [b"\x00\x07" + big(8, 136) + b"\x00\x00\x10\x02\x00\x00\x00\x10" + bytes(8)])
    show("header of version 2, capacity 100", header(2, 100) + b"\x00")
    show("header of version 1, capacity 100", header(1, 100) + b"\x00")
    show("old item of the first file", old(first))
    show("add item of the first file, outcomes 9 to 300, 70,000 changed bytes", add(first, (9, 300, 70000)))
    show("add item of the second file, outcomes 0 to 0, none changed", add(second, (0, 0, 0)))
    show("discards of 0 and 1", discard(0) + discard(1))
    show("shelf of version 1, capacity 200, with the file that differs", shelf(1, 200, [old(differs)]))
    next_one: File = (0, 100, [b"\x00\x08" + differs[2][0][2:]])
    both = [add(differs, (0, 0, 0)), add(next_one, (1, 1, 0))]
    name = "shelf of version 2, capacity 65,536, with the file that differs, and with the next one"
    show(name, shelf(2, 65536, both))
    show("header of version 2, capacity 1,048,576", header(2, 1048576))
    changed = bytearray(old(first))
    changed[20] = 0x47
    print("checksum of the first file's old item with 47 in place 20: %04x" % crc(bytes(changed[:-2])))
    changed = bytearray(add(first, (9, 300, 70000)))
    changed[45] = 0x47
    print("checksum of its add item with 47 in place 45: %04x" % crc(bytes(changed[:-2])))
