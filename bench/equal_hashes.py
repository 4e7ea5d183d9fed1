#!/usr/bin/env python3
"""Writes a document of so many elements with a text of 20 bytes each, twice as many in all, no text there twice, and all texts
of one hash as `xpath_comparisons` hashes them: bench/equal_hashes.py COUNT. It takes some seconds."""
import sys
from fractions import Fraction

FACTOR = 0x9E37_79B9_7F4A_7C15
LENGTH = 20
# The characters about which texts lie, and those that a text may have.
MIDDLE = 94
ALLOWED = range(ord("?"), ord("~"))


def dot(left, right):
    return sum(one * other for one, other in zip(left, right))


def reduced(rows):
    """Short vectors with the same sums (Lenstra, Lenstra and Lovász)."""
    count = len(rows)
    star, sizes, parts = [None] * count, [None] * count, [[Fraction(0)] * count for _ in range(count)]

    def project(at):
        star[at] = [Fraction(x) for x in rows[at]]
        for j in range(at):
            parts[at][j] = dot(rows[at], star[j]) / sizes[j]
            star[at] = [x - parts[at][j] * y for x, y in zip(star[at], star[j])]
        sizes[at] = dot(star[at], star[at])

    project(0)
    at = 1
    while at < count:
        project(at)
        for j in reversed(range(at)):
            times = round(parts[at][j])
            if times:
                rows[at] = [x - times * y for x, y in zip(rows[at], rows[j])]
                for k in range(j):
                    parts[at][k] -= times * parts[j][k]
                parts[at][j] -= times
        if sizes[at] >= (Fraction(3, 4) - parts[at][at - 1] ** 2) * sizes[at - 1]:
            at += 1
        else:
            rows[at], rows[at - 1] = rows[at - 1], rows[at]
            project(at - 1)
            at = max(at - 1, 1)
    return rows


def differences():
    """Short differences of texts of one hash."""
    last = LENGTH - 1
    rows = [[int(i == j) for j in range(last)] + [-pow(FACTOR, last - i, 1 << 64) % (1 << 64)] for i in range(last)]
    return reduced(rows + [[0] * last + [1 << 64]])


def texts(count):
    """So many texts of one hash."""
    rows = differences()
    base = [MIDDLE - sum(column) // 2 for column in zip(*rows)]
    found = []
    for chosen in range(1 << LENGTH):
        codes = [sum(column) for column in zip(base, *(row for i, row in enumerate(rows) if chosen >> i & 1))]
        if all(code in ALLOWED for code in codes):
            found.append("".join(map(chr, codes)))
            if len(found) == count:
                return found
    sys.exit("too many texts")


def hash_of(text):
    value = 0
    for character in text:
        value = (value * FACTOR + ord(character)) % (1 << 64)
    return value


count = int(sys.argv[1])
made = texts(2 * count)
assert len(set(made)) == 2 * count and len(set(map(hash_of, made))) == 1
print("<r>" + "".join(f"<a>{text}</a>" for text in made) + "</r>")
