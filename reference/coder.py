#!/usr/bin/env python3
"""The shortest lossless coding of lines (CCSDS 121.0-B, unit delay predictor), from the definition alone, slowly:
each block is written in every option, and the shortest text of 0 and 1 is taken, on a tie the first one in the
standard's order.

    coder.py BITS BLOCK COLUMNS    reads samples as lines.py writes them, and writes each line, filled to whole bytes
    coder.py sizes BITS BLOCK COLUMNS    writes how many bits each line has instead, one number a line
"""

import sys

from lines import mapped


def number(value: int, width: int) -> str:
    return format(value, "0%db" % width) if width else ""


def sequence(zeros: int) -> str:
    return "0" * zeros + "1"


def block_text(places: list[int], bits: int, first: bool, reference: str) -> str:
    """A block that isn't all 0. In a line's first block the reference stands after the identifier, for a value."""
    width = 3 if bits <= 8 else 4
    values = places[1:] if first else places
    pairs = zip(places[::2], places[1::2])
    options = [(number(1, width + 1), "".join(sequence((a + b) * (a + b + 1) // 2 + b) for a, b in pairs))]
    for k in range(2**width - 2):
        highs = "".join(sequence(value >> k) for value in values)
        options.append((number(k + 1, width), highs + "".join(number(value % 2**k, k) for value in values)))
    options.append(("1" * width, "".join(number(value, bits) for value in values)))
    name, body = min(options, key=lambda option: len(option[0]) + len(option[1]))
    return name + reference + body


def line_text(samples: list[int], bits: int, block: int) -> str:
    width = 3 if bits <= 8 else 4
    blocks = -(-len(samples) // block)
    values = [0] + [mapped(p, sample, bits) for p, sample in zip(samples, samples[1:])]
    values += [0] * (blocks * block - len(values))
    text, at = "", 0
    while at < blocks:
        end = min(blocks, at - at % 64 + 64)
        run = 0
        while at + run < end and not any(values[(at + run) * block : (at + run + 1) * block]):
            run += 1
        reference = number(samples[0], bits) if at == 0 else ""
        if run:
            text += "0" * (width + 1) + reference + sequence(run - 1 if run < 5 else 4 if at + run == end else run)
        else:
            text += block_text(values[at * block : (at + 1) * block], bits, at == 0, reference)
        at += max(run, 1)
    return text


def main(words: list[str]) -> None:
    bits, block, columns = map(int, words[-3:])
    data = sys.stdin.buffer.read()
    size = 1 if bits <= 8 else 2
    samples = [int.from_bytes(data[i : i + size], "big") for i in range(0, len(data), size)]
    for start in range(0, len(samples), columns):
        text = line_text(samples[start : start + columns], bits, block)
        if words[0] == "sizes":
            print(len(text))
        else:
            text += "0" * (-len(text) % 8)
            sys.stdout.buffer.write(int(text, 2).to_bytes(len(text) // 8, "big"))


if __name__ == "__main__":
    main(sys.argv[1:])
