"""What items of a format print of a value, by Python's numbers."""

from values import ones, signed


def decimal(value, width, least, is_signed):
    """In decimal, at the right of a field for the greatest value, with a sign where it is signed."""
    if is_signed:
        text, field = str(signed(value, width)), 1 + len(str(1 << (width - 1)))
    else:
        text, field = str(value), len(str(ones(width)))
    return text if least else text.rjust(field)


def digits(value, width, least, size, form):
    """In digits of so many bits each, all that the width has or as few as serve."""
    text = format(value, form)
    return text if least else text.zfill(-(-width // size))


def item(letter, least, value, width, is_signed):
    """The bytes of an item; none where there is no such item."""
    letter = letter.lower()
    if letter == "d":
        return decimal(value, width, least, is_signed).encode()
    if letter in "hx":
        return digits(value, width, least, 4, "x").encode()
    if letter == "o":
        return digits(value, width, least, 3, "o").encode()
    if letter == "b":
        return digits(value, width, least, 1, "b").encode()
    if letter == "s":
        return value.to_bytes(16, "big").lstrip(b"\0")
    if letter == "c" and not least:
        return bytes([value & 255])
    return None
