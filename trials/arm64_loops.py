#!/usr/bin/env python3
"""Looks for the kernel of the nearest path in a disassembly of the program for arm64, which comes in: the loop that
takes minima of eight halfwords at once. It may load two single bytes, which are the symbols of its step, and store
none. Ends with 1 where that isn't so."""
import re
import sys
from collections.abc import Iterable, Iterator

Instruction = tuple[int, str, str]  # address, name and operands

LINE = re.compile(r"\s*([0-9a-f]+):\s+(?:(?:[0-9a-f]{8}|(?:[0-9a-f]{2} ){4})\s+)?([a-z][\w.]*)\s*(.*)")
JUMPS = re.compile(r"b|b\..*|cbn?z|tbn?z")
LOADS = re.compile(r"ldu?rs?b")
STORES = re.compile(r"stu?rb")
SYMBOLS = 2  # of a step


def instructions(lines: Iterable[str]) -> list[Instruction]:
    """Address, name and operands of each."""
    found = (LINE.match(line) for line in lines)
    return [(int(one[1], 16), one[2], one[3]) for one in found if one]


def loops(code: list[Instruction]) -> Iterator[tuple[int, int]]:
    """First and last index of each stretch that a jump leads back over."""
    index = {address: place for place, (address, _, _) in enumerate(code)}
    for place, (address, name, operands) in enumerate(code):
        target = re.search(r"(?:0x)?([0-9a-f]+)(?: <.*>)?$", operands) if JUMPS.fullmatch(name) else None
        if target and index.get(int(target[1], 16), place) < place:
            yield index[int(target[1], 16)], place


def is_minimum(one: Instruction) -> bool:
    """Whether this takes minima of eight halfwords (`umin v1.8h, ..`, or `umin.8h v1, ..` as some tools write it)."""
    return re.match(r"[us]min(\.8h|\s+v\d+\.8h)", f"{one[1]} {one[2]}") is not None


code = instructions(sys.stdin)
around = list(loops(code))
kernels: set[tuple[int, int]] = set()
for place, one in enumerate(code):
    if is_minimum(one):
        holding = [(end - start, start, end) for start, end in around if start <= place <= end]
        if not holding:
            sys.exit(f"a minimum of eight halfwords at {one[0]:x} is in no loop")
        kernels.add(min(holding)[1:3])
if not kernels:
    sys.exit(f"no minimum of eight halfwords in {len(code)} instructions")
for start, end in sorted(kernels):
    body = code[start:end + 1]
    loads, stores = (sum(bool(form.fullmatch(name)) for _, name, _ in body) for form in (LOADS, STORES))
    if loads > SYMBOLS or stores:
        sys.exit(f"the loop at {code[start][0]:x} goes byte by byte: it loads {loads} and stores {stores} single ones")
    minima = sum(map(is_minimum, body))
    print(f"a loop of {len(body)} instructions has {minima} minima of eight halfwords, and loads {loads} single bytes")
