"""Makes the rows of the section `operators` of crates/value_rows: operands, and what whole numbers of unlimited size give."""

import random
import sys

sys.dont_write_bytecode = True

from sections import write_values
from values import corners, ones, signed, some

WIDTHS = [1, 2, 7, 8, 31, 32, 33, 63, 64, 65, 127, 128]

random.seed(20051364)
rows = []
answers = []


def quotient(x, y):
    """Division toward zero; 0 where the divisor is 0."""
    if y == 0:
        return 0
    size = abs(x) // abs(y)
    return size if (x < 0) == (y < 0) else -size


def remainder(x, y):
    """The remainder, with the first operand's sign; 0 where the divisor is 0."""
    return 0 if y == 0 else x - y * quotient(x, y)


BINARY = [
    lambda x, y: x + y,
    lambda x, y: x - y,
    lambda x, y: x * y,
    quotient,
    remainder,
    lambda x, y: x & y,
    lambda x, y: x | y,
    lambda x, y: x ^ y,
    lambda x, y: ~(x ^ y),
    lambda x, y: int(x < y),
    lambda x, y: int(x <= y),
    lambda x, y: int(x > y),
    lambda x, y: int(x >= y),
    lambda x, y: int(x == y),
    lambda x, y: int(x != y),
    lambda x, y: int(x != 0 and y != 0),
    lambda x, y: int(x != 0 or y != 0),
]


def shifted(value, places):
    """A value moved to the left by so many places, or to the right where they are below 0."""
    if abs(places) > 300:
        return 0 if value >= 0 or places > 0 else -1
    return value << places if places >= 0 else value >> -places


def put(kind, operands, results):
    row = kind + "".join(f" {operand:x}" for operand in operands)
    rows.append(row)
    answers.append(row + " =" + "".join(" none" if r is None else f" {r:x}" for r in results))


def both(width):
    pairs = [(a, b) for a in corners(width) for b in corners(width)]
    pairs += [(some(width), some(width)) for _ in range(8)]
    for a, b in pairs:
        results = []
        for operator in BINARY:
            results.append(operator(a, b) & ones(width))
            results.append(operator(signed(a, width), signed(b, width)) & ones(width))
        put("both", [width, a, b], results)


def shift(width):
    for a in corners(width) + [some(width) for _ in range(3)]:
        amounts = [(random.choice([8, 9, 32, 128]), n) for n in sorted({0, 1, width - 1, width, width + 1})]
        other = random.choice(WIDTHS)
        for w, n in amounts + [(other, some(other))]:
            results = [shifted(a, n), shifted(a, -n), shifted(signed(a, width), -n)]
            put("shift", [width, a, w, n], [r & ones(width) for r in results])


def one(width):
    for a in corners(width) + [some(width) for _ in range(20)]:
        every, any_one, odd = int(a == ones(width)), int(a != 0), bin(a).count("1") % 2
        results = [-a & ones(width), ~a & ones(width), int(a == 0)]
        put("one", [width, a], results + [every, any_one, odd, 1 - every, 1 - any_one, 1 - odd])


def select(width):
    for _ in range(25):
        a, count = some(width), random.choice(WIDTHS)
        part = some(count)
        edges = [0, 1, -1, width - 1, width, width - count, -count, 1 - count]
        far = [random.randint(-140, 140), random.randint(-140, 140), 2**63 - 1, 1 - 2**63]
        low = random.choice(edges + far)
        room = shifted(ones(count), low) & ones(width)
        results = [shifted(a, -low) & ones(count), (a & ~room) | (shifted(part, low) & room)]
        put("select", [width, a, int(low < 0), abs(low), count, part], results)


def pair(width):
    for _ in range(25):
        other = random.choice(WIDTHS)
        a, b = some(width), some(other)
        put("pair", [width, a, other, b], [a << other | b if width + other <= 128 else None])


def resized(width):
    for _ in range(25):
        a, other = some(width), random.choice(WIDTHS)
        put("width", [width, a, other], [a & ones(other), signed(a, width) & ones(other)])


for table in [both, shift, one, select, pair, resized]:
    for width in WIDTHS:
        table(width)
write_values("operators", rows, answers)
