#!/usr/bin/env python3
"""Outcomes of drawn blocks, by a plain and slow program of its own.

Written from CCSDS 131.0-B: the pseudo-randomiser's recurrence, the field with x^8+x^7+x^2+x+1, the dual basis, the
generator with the roots a^(11 j) for j = 112..143, words interleaved at depth 4. Encoding divides by the generator
polynomial. Restoring solves the key equation by Euclid's algorithm on polynomials, tries all 255 places for roots and
takes Forney's values; what comes out is an answer only if it is a codeword, by its values at all 32 roots, within
sixteen bytes of the word. It shares no code with the crates.

Prints for each drawn block: seed, wrong bytes in each word, the checksum (CRC-16, x^16+x^12+x^5+1, from FFFF) of the
block as it is received, and its outcome.
"""

from __future__ import annotations

import random
from collections.abc import Iterable

from drawn import Draw, crc

TO_DUAL = [0x8D, 0xEF, 0xEC, 0x86, 0xFA, 0x99, 0xAF, 0x7B]
FROM_DUAL = [0xC5, 0x42, 0x2E, 0xFD, 0xF0, 0x79, 0xAC, 0xCC]


def by_rows(rows: list[int], byte: int) -> int:
    total = 0
    for place in range(8):
        if byte >> (7 - place) & 1:
            total ^= rows[place]
    return total


def times(a: int, b: int) -> int:
    """Carry-less product, then the remainder by the field's polynomial."""
    product = 0
    for place in range(8):
        if b >> place & 1:
            product ^= a << place
    for place in range(14, 7, -1):
        if product >> place & 1:
            product ^= 0x187 << (place - 8)
    return product


def power(a: int, n: int) -> int:
    result = 1
    for _ in range(n):
        result = times(result, a)
    return result


ALPHA = [power(2, n) for n in range(255)]
ROOTS = [ALPHA[11 * j % 255] for j in range(112, 144)]
INVERSE = {a: b for a in ALPHA for b in ALPHA if times(a, b) == 1}


# Polynomials: lists of coefficients, that of x^0 first.
def trimmed(p: Iterable[int]) -> list[int]:
    p = list(p)
    while p and p[-1] == 0:
        p.pop()
    return p


def plus(p: list[int], q: list[int]) -> list[int]:
    long = max(len(p), len(q))
    return trimmed((p[i] if i < len(p) else 0) ^ (q[i] if i < len(q) else 0) for i in range(long))


def product(p: list[int], q: list[int]) -> list[int]:
    result = [0] * (len(p) + len(q))
    for i, a in enumerate(p):
        for j, b in enumerate(q):
            result[i + j] ^= times(a, b)
    return trimmed(result)


def divided(p: list[int], q: list[int]) -> tuple[list[int], list[int]]:
    p, quotient = trimmed(p), [0] * max(1, len(p))
    while len(p) >= len(q):
        factor = times(p[-1], INVERSE[q[-1]])
        shift = len(p) - len(q)
        quotient[shift] = factor
        p = plus(p, [0] * shift + [times(factor, c) for c in q])
    return trimmed(quotient), p


GENERATOR = [1]
for root in ROOTS:
    GENERATOR = product(GENERATOR, [root, 1])


def polynomial_of(word: list[int]) -> list[int]:
    """Byte i, out of the dual basis, is the coefficient of x^(254 - i)."""
    return [by_rows(FROM_DUAL, word[254 - n]) for n in range(255)]


def horner(p: list[int], x: int) -> int:
    total = 0
    for c in reversed(p):
        total = times(total, x) ^ c
    return total


def is_codeword(word: list[int]) -> bool:
    p = polynomial_of(word)
    return all(horner(p, root) == 0 for root in ROOTS)


def encoded(information: list[int]) -> list[int]:
    p = polynomial_of(information + [0] * 32)
    _, rest = divided(p, GENERATOR)
    rest = rest + [0] * (32 - len(rest))
    word = information + [by_rows(TO_DUAL, rest[31 - k]) for k in range(32)]
    assert is_codeword(word)
    return word


def restored(word: list[int]) -> tuple[list[int], int] | None:
    """The codeword within sixteen bytes and how many bytes differ, or None."""
    p = polynomial_of(word)
    syndromes = [horner(p, root) for root in ROOTS]
    if not any(syndromes):
        return word, 0
    # Euclid on x^32 and the syndromes, until the remainder has a degree below 16
    above, below = [0] * 32 + [1], trimmed(syndromes)
    before, locator = list[int](), [1]
    while len(below) > 16:
        quotient, rest = divided(above, below)
        above, below = below, rest
        before, locator = locator, plus(before, product(quotient, locator))
    candidate = list(word)
    derivative = trimmed(c if n % 2 == 0 else 0 for n, c in enumerate(locator[1:]))
    for place in range(255):
        x = ALPHA[11 * (254 - place) % 255]  # the locator of the place
        back = INVERSE[x]
        if horner(locator, back) != 0:
            continue
        slope = horner(derivative, back)
        if slope == 0:
            return None
        error = times(horner(below, back), INVERSE[slope])
        # the first root's exponent is 112: the value is weighed by X^(1 - 112)
        error = times(error, power(back, 111))
        candidate[place] = by_rows(TO_DUAL, by_rows(FROM_DUAL, candidate[place]) ^ error)
    changed = sum(a != b for a, b in zip(word, candidate))
    return (candidate, changed) if is_codeword(candidate) and changed <= 16 else None


def randomiser() -> list[int]:
    a = [1] * 8
    while len(a) < 8160:
        n = len(a) - 8
        a.append((a[n + 7] + a[n + 5] + a[n + 3] + a[n]) % 2)
    return [int("".join(map(str, a[8 * i : 8 * i + 8])), 2) for i in range(1020)]


SEQUENCE = randomiser()


def randomised(block: Iterable[int]) -> list[int]:
    return [a ^ b for a, b in zip(block, SEQUENCE)]


def outcome(block: list[int]) -> tuple[str, int | list[int], list[int]]:
    plain, words = randomised(block), list[tuple[list[int], int]]()
    for k in range(4):
        answer = restored([plain[4 * i + k] for i in range(255)])
        if answer is None:
            return "lost", k, []
        words.append(answer)
    frame = [words[place % 4][0][place // 4] for place in range(892)]
    return "restored", [changed for _, changed in words], frame


def received(seed: int, wrong: list[int]) -> tuple[list[int], list[int]]:
    """The block of a drawn frame with `wrong` wrong bytes in each word, randomised."""
    frame = list(Draw(seed).bytes(892))
    words = [encoded([frame[4 * i + k] for i in range(223)]) for k in range(4)]
    for k in range(4):
        first = (40 * seed + 7 * k) % 255
        for j in range(wrong[k]):
            words[k][(first + 15 * j + j // 17) % 255] ^= (17 * j + wrong[k] + k) % 255 + 1
    block = [words[place % 4][place // 4] for place in range(1020)]
    return frame, randomised(block)


def main() -> None:
    draw = random.Random(1020)
    cases = [[0, 0, 0, 0], [16, 16, 16, 16], [17, 0, 0, 0], [0, 0, 0, 17]]
    cases += [[draw.randint(0, 20) for _ in range(4)] for _ in range(6)]
    cases += [[draw.randint(0, 16) for _ in range(4)] for _ in range(3)]
    for seed, wrong in enumerate(cases, 1):
        frame, block = received(seed, wrong)
        result = outcome(block)
        if result[0] == "restored":
            assert result[2] == frame
        print(seed, wrong, "%04X" % crc(block), *result[:2])


if __name__ == "__main__":
    assert SEQUENCE[:5] == [0xFF, 0x48, 0x0E, 0xC0, 0x9A]
    main()
