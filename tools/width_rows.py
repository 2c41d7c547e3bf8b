"""Makes tools/width_rows.txt: sources for `host` whose expressions mix widths and signs, and what they print.

What is wanted is computed here, in whole numbers, by the rules for widths and signs of IEEE 1364-2005, clauses 5.4 and
5.5: an expression has a width and a sign of its own; an operand that its context determines is extended to the context's
width, by its sign where the context is signed. Own are a quotient and a remainder by 0, and bits out of range: all 0.
The form of the table is that of tools/host_rows.txt.
"""

import pathlib
import random

TABLE = pathlib.Path(__file__).resolve().parent / "width_rows.txt"
WIDTHS = [1, 2, 3, 4, 7, 8, 9, 15, 16, 17, 31, 32, 33, 40, 63, 64, 65, 96, 127, 128]
MOST = 128


def wrapped(number, width):
    """The lowest bits of a whole number."""
    return number % 2**width


def whole(bits, width, signed):
    """The whole number that bits stand for: in two's complement where they are signed."""
    return bits - 2**width if signed and bits >> (width - 1) else bits


class Context:
    """The width and the sign that an expression is read in."""

    def __init__(self, width, signed):
        self.width, self.signed = width, signed

    def taken(self, bits, width):
        """Bits of a narrower width, extended by their sign where the context is signed."""
        return wrapped(whole(bits, width, self.signed), self.width)


class Node:
    """An expression: its text, and the width and the sign that it has by itself."""

    names = ()
    unsized = False

    def own(self):
        """Its value where nothing around it tells its width."""
        return self.value(Context(self.width, self.signed))

    def own_whole(self):
        return whole(self.own(), self.width, self.signed)


class Number(Node):
    def __init__(self, text, bits, width, signed, unsized=False):
        self.text, self.bits, self.width, self.signed, self.unsized = text, bits, width, signed, unsized

    def value(self, context):
        return context.taken(self.bits, self.width)


class Variable(Node):
    """A variable of bits `left` to `right` that holds `bits`."""

    def __init__(self, name, left, right, signed, bits):
        self.text, self.left, self.right, self.signed = name, left, right, signed
        self.width = abs(left - right) + 1
        self.bits = wrapped(bits, self.width)
        self.names = (self,)

    def value(self, context):
        return context.taken(self.bits, self.width)

    def declared(self):
        sign = " signed" * self.signed
        bounds = f" [{self.left}:{self.right}]" if self.width > 1 or self.left else ""
        return f"reg{sign}{bounds} {self.text};"

    def assigned(self):
        return f"{self.text} = {self.width}'h{self.bits:x};"

    def write(self, low, count, bits):
        """Writes so many bits from a place on: nothing where it is out of range."""
        for place in range(max(low, 0), min(low + count, self.width)):
            self.bits = self.bits & ~(1 << place) | (bits >> (place - low) & 1) << place

    def place(self, number):
        """Where the bit of a number stands, from 0 for the lowest."""
        return number - self.right if self.left >= self.right else self.right - number

    def bits_at(self, low, count):
        """So many bits from a place on: those out of range are 0."""
        return sum((self.bits >> place & 1) << (place - low) for place in range(low, low + count) if 0 <= place < self.width)


class Part(Node):
    """Bits of a variable, from a place on."""

    signed = False

    def __init__(self, base, text, low, width, names=()):
        self.base, self.text, self.low, self.width = base, text, low, width
        self.names = (base, *names)

    def value(self, context):
        return context.taken(self.base.bits_at(self.low, self.width), self.width)


def bit(base, index):
    return Part(base, f"{base.text}[{index.text}]", base.place(index.own_whole()), 1, index.names)


def range_of(base, first, last):
    return Part(base, f"{base.text}[{first}:{last}]", base.place(last), abs(first - last) + 1)


def counted(base, index, mark, width):
    """`base[index +: width]` or `base[index -: width]`."""
    first = index.own_whole()
    numbers = (first, first + width - 1) if mark == "+" else (first - width + 1, first)
    return Part(base, f"{base.text}[{index.text} {mark}: {width}]", min(map(base.place, numbers)), width, index.names)


REDUCTIONS = {
    "&": lambda bits, width: bits == 2**width - 1,
    "~&": lambda bits, width: bits != 2**width - 1,
    "|": lambda bits, width: bits != 0,
    "~|": lambda bits, width: bits == 0,
    "^": lambda bits, width: bits.bit_count() % 2 == 1,
    "~^": lambda bits, width: bits.bit_count() % 2 == 0,
    "^~": lambda bits, width: bits.bit_count() % 2 == 0,
    "!": lambda bits, width: bits == 0,
}
SAME_WIDTH = {"+": lambda number: number, "-": lambda number: -number, "~": lambda number: -number - 1}


class Unary(Node):
    def __init__(self, mark, operand):
        self.mark, self.operand, self.names = mark, operand, operand.names
        self.text = f"{mark}{shown(operand)}"
        self.width, self.signed = (operand.width, operand.signed) if mark in SAME_WIDTH else (1, False)
        self.unsized = mark in SAME_WIDTH and operand.unsized

    def value(self, context):
        if self.mark in SAME_WIDTH:
            return wrapped(SAME_WIDTH[self.mark](self.operand.value(context)), context.width)
        return context.taken(int(REDUCTIONS[self.mark](self.operand.own(), self.operand.width)), 1)


def quotient(first, second):
    """Toward zero, and 0 for a division by 0."""
    return 0 if second == 0 else abs(first) // abs(second) * (1 if (first < 0) == (second < 0) else -1)


ARITHMETIC = {
    "+": lambda x, y: x + y,
    "-": lambda x, y: x - y,
    "*": lambda x, y: x * y,
    "/": quotient,
    "%": lambda x, y: 0 if y == 0 else x - y * quotient(x, y),
    "&": lambda x, y: x & y,
    "|": lambda x, y: x | y,
    "^": lambda x, y: x ^ y,
    "^~": lambda x, y: ~(x ^ y),
    "~^": lambda x, y: ~(x ^ y),
}
COMPARISONS = {
    "<": lambda x, y: x < y,
    "<=": lambda x, y: x <= y,
    ">": lambda x, y: x > y,
    ">=": lambda x, y: x >= y,
    "==": lambda x, y: x == y,
    "!=": lambda x, y: x != y,
    "===": lambda x, y: x == y,
    "!==": lambda x, y: x != y,
}
LOGICAL = {"&&": lambda x, y: x and y, "||": lambda x, y: x or y}
SHIFTS = ["<<", "<<<", ">>", ">>>"]
MARKS = [*ARITHMETIC, *COMPARISONS, *LOGICAL, *SHIFTS]


class Binary(Node):
    def __init__(self, mark, left, right):
        self.mark, self.left, self.right, self.names = mark, left, right, left.names + right.names
        self.text = f"{shown(left)} {mark} {shown(right)}"
        if mark in ARITHMETIC:
            self.width, self.signed = max(left.width, right.width), left.signed and right.signed
            self.unsized = left.unsized or right.unsized
        elif mark in SHIFTS:
            self.width, self.signed, self.unsized = left.width, left.signed, left.unsized
        else:
            self.width, self.signed = 1, False

    def value(self, context):
        if self.mark in ARITHMETIC:
            return self.calculated(ARITHMETIC[self.mark], context)
        if self.mark in SHIFTS:
            return self.shifted(context)
        if self.mark in LOGICAL:
            return context.taken(int(LOGICAL[self.mark](self.left.own() != 0, self.right.own() != 0)), 1)
        both = Context(max(self.left.width, self.right.width), self.left.signed and self.right.signed)
        return context.taken(self.calculated(COMPARISONS[self.mark], both), 1)

    def calculated(self, rule, context):
        """The rule on both operands in a context, as whole numbers."""
        numbers = [whole(side.value(context), context.width, context.signed) for side in (self.left, self.right)]
        return wrapped(int(rule(*numbers)), context.width)

    def shifted(self, context):
        """The amount is unsigned, whatever it is; what is past the width is all gone."""
        amount, bits = min(self.right.own(), context.width), self.left.value(context)
        if self.mark in ("<<", "<<<"):
            return wrapped(bits << amount, context.width)
        signed = self.mark == ">>>" and context.signed
        return wrapped(whole(bits, context.width, signed) >> amount, context.width)


class Choice(Node):
    def __init__(self, test, first, second):
        self.test, self.first, self.second = test, first, second
        self.names = test.names + first.names + second.names
        self.text = f"{shown(test)} ? {shown(first)} : {shown(second)}"
        self.width, self.signed = max(first.width, second.width), first.signed and second.signed
        self.unsized = first.unsized or second.unsized

    def value(self, context):
        return (self.first if self.test.own() else self.second).value(context)


class Joined(Node):
    """A concatenation, so many times where a count is given."""

    signed = False

    def __init__(self, parts, count=None):
        inner = "{" + ", ".join(part.text for part in parts) + "}"
        self.parts, self.count = parts, count or 1
        self.text = inner if count is None else f"{{{count}{inner}}}"
        self.width = sum(part.width for part in parts) * self.count
        self.names = sum((part.names for part in parts), ())

    def value(self, context):
        bits = 0
        for part in list(self.parts) * self.count:
            bits = bits << part.width | part.own()
        return context.taken(bits, self.width)


class Cast(Node):
    def __init__(self, signed, operand):
        self.signed, self.operand, self.width, self.names = signed, operand, operand.width, operand.names
        self.unsized = operand.unsized
        self.text = f"{'$signed' if signed else '$unsigned'}({operand.text})"

    def value(self, context):
        return context.taken(self.operand.own(), self.width)


def shown(node):
    """The text of an operand, in parentheses where it has an operator."""
    return f"({node.text})" if isinstance(node, (Unary, Binary, Choice)) else node.text


# ---- sources


class Side:
    """A left side: variables, or bits of them, the first at the top."""

    def __init__(self, parts):
        self.parts = parts
        self.text = parts[0].text if len(parts) == 1 else "{" + ", ".join(part.text for part in parts) + "}"
        self.width = sum(part.width for part in parts)
        self.targets = unique(part.names[0] for part in parts)
        self.names = sum((part.names[1:] for part in parts), ())

    def write(self, bits):
        for part in reversed(self.parts):
            part.names[0].write(part.low if isinstance(part, Part) else 0, part.width, bits)
            bits >>= part.width


def unique(variables):
    """Each variable once, in order."""
    return list({node.text: node for node in variables}.values())


def case_of(expression, side):
    """A case of the table: a line with the assignment and what is wanted, then the source that prints it."""
    context = Context(max(side.width, expression.width), expression.signed)
    names = unique([*expression.names, *side.names])
    side.write(expression.value(context))
    wanted = [str(target.own_whole()) for target in side.targets]
    lines = [
        f"# {side.text} = {expression.text}; is {', '.join(wanted)}",
        "run 3 finished 1",
        *wanted,
        "",
        "module m(input k);",
        *(f"  {node.declared()}" for node in [*names, *side.targets]),
        "  initial begin",
        *(f"    {node.assigned()}" for node in names),
        f"    {side.text} = {expression.text};",
        *(f'    $display("%0d", {target.text});' for target in side.targets),
        "  end",
        "  always @(posedge k) $finish;",
        "endmodule",
    ]
    return "\n".join(lines)


class Maker:
    """Makes variables, numbers and expressions by chance, the same ones each time."""

    def __init__(self, seed):
        self.chance = random.Random(seed)

    def bits(self, width):
        """Some bits: often those at an end of the range."""
        ends = [0, 1, 2**width - 1, 2 ** (width - 1), 2 ** (width - 1) - 1]
        return wrapped(self.chance.choice(ends) if self.chance.random() < 0.25 else self.chance.getrandbits(width), width)

    def variable(self, name, width=None, signed=None, bits=None, turned=False):
        width = width or self.chance.choice(WIDTHS)
        signed = self.chance.random() < 0.5 if signed is None else signed
        low = self.chance.choice([0, 0, 3, -2]) if turned else 0
        left, right = (low + width - 1, low)
        if turned and self.chance.random() < 0.5:
            left, right = right, left
        return Variable(name, left, right, signed, self.bits(width) if bits is None else bits)

    def target(self):
        return Side([self.variable("y", bits=0)])

    def number(self):
        """A plain number, which is signed and has 32 bits, or one of a base."""
        if self.chance.random() < 0.4:
            value = self.chance.choice([0, 1, 2, 3, 5, 7, 10, 100, 255, 65536, 2147483647])
            return Number(str(value), value, 32, True, True)
        width, signed = self.chance.choice(WIDTHS), self.chance.random() < 0.5
        bits = self.bits(width)
        base, form = self.chance.choice([("h", "x"), ("d", "d"), ("o", "o"), ("b", "b")] if width < 17 else [("h", "x"), ("d", "d")])
        return Number(f"{width}'{'s' * signed}{base}{bits:{form}}", bits, width, signed)

    def index(self, base, names):
        """A number around those of a variable's bits, or a variable."""
        if self.chance.random() < 0.3:
            return self.chance.choice(names)
        low, high = sorted((base.left, base.right))
        value = self.chance.randint(low - 2, high + 2)
        plain = Number(str(abs(value)), abs(value), 32, True, True)
        return Unary("-", plain) if value < 0 else plain

    def part(self, target, names):
        """A whole variable, or bits of it."""
        return target if self.chance.random() < 0.3 else self.select_of(target, names)

    def select(self, names):
        return self.select_of(self.chance.choice([node for node in names if node.width > 1]), names)

    def select_of(self, base, names):
        kind = self.chance.randrange(3)
        if kind == 0:
            return bit(base, self.index(base, names))
        width = self.chance.randint(1, base.width)
        if kind == 1:
            start = self.chance.randint(0, base.width - width)
            low, high = sorted((base.left, base.right))
            ends = (low + start, low + start + width - 1)
            return range_of(base, *(ends if base.left < base.right else reversed(ends)))
        return counted(base, self.index(base, names), self.chance.choice("+-"), width)

    def joined(self, names, depth):
        parts = [self.sized(names, depth - 1) for _ in range(self.chance.randint(1, 3))]
        if self.chance.random() < 0.4:
            return Joined(parts, self.chance.randint(1, 4))
        return Joined(parts)

    def sized(self, names, depth):
        """An expression that may stand in a concatenation."""
        while True:
            found = self.expression(names, depth)
            if not found.unsized:
                return found

    def leaf(self, names):
        kind = self.chance.random()
        if kind < 0.6:
            return self.chance.choice(names)
        return self.number() if kind < 0.8 else self.select(names)

    def expression(self, names, depth):
        """An expression of at most 128 bits."""
        while True:
            found = self.attempt(names, depth)
            if found.width <= MOST:
                return found

    def attempt(self, names, depth):
        if depth <= 0 or self.chance.random() < 0.1:
            return self.leaf(names)
        kind = self.chance.random()
        if kind < 0.5:
            marks = self.chance.choice([[*ARITHMETIC], [*ARITHMETIC], SHIFTS, [*COMPARISONS, *LOGICAL]])
            return Binary(self.chance.choice(marks), self.expression(names, depth - 1), self.expression(names, depth - 1))
        if kind < 0.66:
            return Unary(self.chance.choice([*SAME_WIDTH, *SAME_WIDTH, *REDUCTIONS]), self.expression(names, depth - 1))
        if kind < 0.76:
            return Choice(*(self.expression(names, depth - 1) for _ in range(3)))
        if kind < 0.88:
            return self.joined(names, depth)
        return Cast(self.chance.random() < 0.6, self.expression(names, depth - 1))


def operators(maker):
    """Each operator on operands of both signs and of different widths."""
    for mark in MARKS:
        for signs in ((False, False), (False, True), (True, False), (True, True)):
            left, right = (maker.variable(name, signed=signed) for name, signed in zip("ab", signs))
            if mark in SHIFTS:
                right.bits = wrapped(maker.chance.randint(0, left.width + 2), right.width)
            yield Binary(mark, left, right), maker.target()
    for mark in [*SAME_WIDTH, *REDUCTIONS]:
        for signed in (False, True):
            yield Unary(mark, maker.variable("a", signed=signed)), maker.target()


def plain(value):
    return Number(str(value), value, 32, True, True)


def whole_side(width, signed):
    return Side([Variable("y", width - 1, 0, signed, 0)])


def edges(maker):
    """Carries, divisions by 0, the least number by -1, and shifts past the width."""
    for signed in (False, True):
        least = Variable("a", 7, 0, signed, 128)
        ones = Variable("b", 7, 0, signed, 255)
        zero = Variable("z", 7, 0, signed, 0)
        for width in (8, 9, 16):
            for mark in ("+", "-", "*", "/", "%"):
                yield Binary(mark, least, ones), whole_side(width, signed)
        for mark in ("/", "%"):
            yield Binary(mark, least, zero), whole_side(8, signed)
            yield Binary("+", Binary(mark, ones, zero), plain(1)), whole_side(16, signed)
        for mark in SHIFTS:
            for amount in (0, 7, 8, 9, 200):
                yield Binary(mark, least, plain(amount)), whole_side(16, signed)
            yield Binary(mark, ones, Unary("-", plain(1))), whole_side(8, signed)
        # the carry is lost where nothing around the sum is wider
        total = Binary("+", ones, ones)
        for source in (Binary(">>", total, plain(1)), Binary(">>", Binary("+", total, plain(0)), plain(1)), Joined([total]), Cast(signed, total)):
            yield source, whole_side(9, False)
        wide = Variable("w", 127, 0, signed, 2**127)
        for mark in (*ARITHMETIC, *SHIFTS):
            yield Binary(mark, wide, ones), whole_side(128, signed)


def selects(maker):
    for _ in range(40):
        base = maker.variable("a", maker.chance.choice([w for w in WIDTHS if w > 1]), turned=True)
        names = [base, maker.variable("i", maker.chance.choice([3, 4, 8]))]
        yield maker.select(names), maker.target()


def left_sides(maker):
    """Bits of a variable, and several variables side by side."""
    for _ in range(40):
        names = [maker.variable(name) for name in "ab"] + [maker.variable("d", 8)]
        targets = [maker.variable(name, maker.chance.choice([4, 8, 16, 33]), bits=0, turned=True) for name in "yz"]
        parts = [maker.part(target, names) for target in targets[: maker.chance.randint(1, 2)]]
        yield Binary(maker.chance.choice(["+", "-", "*", "^", "~^"]), *names[:2]), Side(parts)


def nested(maker):
    for depth in (2, 3, 4):
        for _ in range(50):
            names = [maker.variable(name, turned=name == "d") for name in "abc"] + [maker.variable("d", 8, turned=True)]
            yield maker.expression(names, depth), maker.target()


PARTS = [("each operator", operators), ("ends of the range", edges), ("selects", selects), ("left sides", left_sides), ("nested expressions", nested)]


def main():
    made = [(title, [case_of(source, side) for source, side in part(Maker(title))]) for title, part in PARTS]
    head = "# Expressions of mixed widths and signs, made by tools/width_rows.py: a line says each assignment and what is printed.\n"
    TABLE.write_text(head + "".join(f"\n# ---- {title}\n---\n" + "\n---\n".join(cases) + "\n---\n" for title, cases in made))
    print(", ".join(f"{len(cases)} of {title}" for title, cases in made), "-", sum(len(cases) for _, cases in made), "rows")


if __name__ == "__main__":
    main()
