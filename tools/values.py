"""Values of a width for rows: its greatest, its corners, some at random, and what a value is as a signed one."""

import random


def ones(width):
    """The greatest value of a width."""
    return (1 << width) - 1


def signed(value, width):
    """The signed reading of a value."""
    return value - (1 << width) if value >> (width - 1) else value


def corners(width):
    """The values at the ends of a width, unsigned and signed."""
    return sorted({0, 1, ones(width), 1 << (width - 1), (1 << (width - 1)) - 1})


def some(width):
    """A value at random, of which half have few bits."""
    return random.getrandbits(random.randint(1, width) if random.random() < 0.5 else width)
