"""Makes the rows of the section `texts` of crates/value_rows: letters of items and a value, and what Python prints of it."""

import random
import sys

sys.dont_write_bytecode = True

from items import item
from sections import write_values
from values import corners, some

WIDTHS = [1, 7, 8, 31, 32, 33, 64, 127, 128]

random.seed(20051364)
rows = []
answers = []


def shown(text):
    """Bytes as text: those that aren't printable, and the backslash, in hexadecimal behind a backslash."""
    return "".join(chr(b) if 32 <= b <= 126 and b != 92 else f"\\{b:02x}" for b in text)


def put(letters, width, value):
    texts = [
        item(letter, least, value, width, is_signed)
        for letter in letters
        for least in [False, True]
        for is_signed in [False, True]
    ]
    row = f"{letters} {width:x} {value:x}"
    rows.append(row)
    answers.append(row + " = " + shown(b"".join(b"[" + t + b"]" for t in texts if t is not None)))


def word(width):
    """The value of some characters and zero bytes, cut to a width."""
    text = bytes(random.choice(b"\0AZaz 09~\\") for _ in range(width // 8))
    return int.from_bytes(text, "big")


for width in WIDTHS:
    for value in corners(width) + [some(width) for _ in range(6)]:
        put("dhxobsc", width, value)
    for value in [word(width) for _ in range(2)]:
        put("sc", width, value)
    put("DHXOBSC", width, some(width))
    put("am%DdCc0", width, some(width))
for row in ["dh 0 0", "dh 81 0", "dh 8 100"]:
    rows.append(row)
    answers.append(row + " = ")
write_values("texts", rows, answers)
