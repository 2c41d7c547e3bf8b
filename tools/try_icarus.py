#!/usr/bin/env python3
"""Runs random sources by a built fabhost and by Icarus (`iverilog -g2005` and `vvp`), and compares what they print.

    try_icarus.py [--program FILE] [--seeds 1-5] [--count 200] [--keep FOLDER] [--show SEED/NUMBER]

The sources have registers, nets, memories, parameters, functions, instances and blocks of all kinds, with expressions of mixed widths
and signs, and print values by most items of formats; one in ten reads files of bytes and of memory words. They avoid what the two
mean differently on purpose: indices out of range and division by zero (x there), values before the second tick (a register without a
value is x there), orders that the standard leaves open, `%s`, and `%d` of a signed bit (in one column there, not in two). And they
avoid where Icarus 11.0 departs from the standard: connections that are wider than their operands (sized for themselves there, and
`$signed` and `$unsigned` passed over), divisions in nets (0 there where they are wide), numbers without a size (which have more than
32 bits there), constant conditions of `?:` (the other branch gives no width and no sign there), `$signed` and `$unsigned` of constants
and of a `casez`'s subject (passed over there), constant amounts of `>>>` (a signed bit isn't extended there), selects of the one bit
of a signed vector (a signed amount of a shift there), labels of a `casez` of which some are signed (the subject is extended by its
sign there), constant strings (`%d` has their first four bytes there, and their complement in a wider expression is of one byte), and
writes to wide vectors partly out of bounds (to other bits there).

A line a seed. Counted are also sources that fabhost refuses, those that Icarus doesn't take, and those where blanks alone differ. At a
difference the source is kept in FOLDER with both outputs, and the status is 1.
"""
import argparse
import os
import random
import re
import shutil
import subprocess
import sys
import tempfile

TOP = os.path.dirname(os.path.dirname(os.path.abspath(__file__)))
TICKS = 12
BINARY = ["+", "-", "*", "&", "|", "^", "~^", "==", "!=", "<", "<=", ">", ">=", "&&", "||", "===", "!=="]
UNARY = ["-", "~", "!", "&", "|", "^", "~&", "~|", "~^", "+"]
ITEMS = ["%d", "%0d", "%h", "%0h", "%b", "%0b", "%o", "%0o", "%x", "%D"]


class Signal:
    """A name with its width and sign, and the bounds of its declaration."""

    def __init__(self, name, width, signed, left=None, right=0):
        self.name, self.width, self.signed = name, width, signed
        self.left, self.right = (width - 1 if left is None else left), right
        self.scalar = False
        self.range = None

    def declared(self):
        """The sign and the range of the declaration; a range that a parameter gives has no bounds to select by."""
        if self.range is not None:
            return "signed " * self.signed + self.range
        return "signed " * self.signed + ("" if self.scalar else f"[{self.left}:{self.right}] ")

    def variable(self):
        """The declaration of a variable."""
        return f"integer {self.name};" if self.range == "integer" else f"reg {self.declared()}{self.name};"


class Source:
    """One random source."""

    def __init__(self, seed):
        self.random = random.Random(seed)
        self.functions, self.parameters, self.memories = [], [], []

    # ---- parts of expressions

    def width(self):
        return self.random.choice([1, 2, 3, 4, 5, 7, 8, 8, 9, 12, 15, 16, 17, 24, 31, 32, 33, 40, 63, 64, 65, 80, 127, 128])

    def signal(self, name, width=None):
        draw = self.random
        width = self.width() if width is None else width
        found = Signal(name, width, draw.random() < 0.45)
        if width == 1 and draw.random() < 0.5:
            found.scalar = True
        elif draw.random() < 0.2:
            low = draw.choice([1, 3, 5, -2, -4])
            found.left, found.right = (low + width - 1, low) if draw.random() < 0.6 else (low, low + width - 1)
        return found

    def literal(self, most=128):
        draw = self.random
        kind = draw.random()
        if kind < 0.25:
            return f"32'sd{draw.choice([0, 1, 2, 3, 5, 7, 10, 100, 255, 256, 65535, 2147483647, draw.randrange(1 << 31)])}"
        width = min(self.width(), most)
        value = draw.choice([0, 1, (1 << width) - 1, 1 << (width - 1), draw.randrange(1 << width)])
        base, text = draw.choice([("h", f"{value:x}"), ("d", f"{value}"), ("b", f"{value:b}"), ("o", f"{value:o}"), ("H", f"{value:X}")])
        if len(text) > 4 and draw.random() < 0.2:
            text = f"{text[:2]}_{text[2:]}"
        return f"{width}'{'s' * (draw.random() < 0.4)}{base}{text}"

    def constant(self, low, high):
        """A constant expression with a value of this range."""
        value, more = self.random.randint(low, high), self.random.randint(0, 3)
        if value < 0:
            return f"-{-value}"
        return self.random.choice([str(value), str(value), f"{value} + {more} - {more}", f"({value + more} - {more})"])

    def select(self, names):
        """A select of a vector, within its bounds."""
        draw = self.random
        found = draw.choice([it for it in names if not it.scalar and it.range in (None, "integer")] or [None])
        if found is None:
            return self.literal()
        low, high = min(found.left, found.right), max(found.left, found.right)
        if low == high:
            return f"{{{found.name}[{low}]}}"
        kind = draw.random()
        if kind < 0.3:
            return f"{found.name}[{self.constant(low, high)}]"
        first, last = sorted((draw.randint(low, high), draw.randint(low, high)))
        last -= (first, last) == (low, high)
        if kind < 0.6:
            left, right = (last, first) if found.left >= found.right else (first, last)
            return f"{found.name}[{left}:{right}]"
        count = last - first + 1
        if draw.random() < 0.5:
            return f"{found.name}[{self.constant(first, first)} +: {count}]"
        return f"{found.name}[{self.constant(last, last)} -: {count}]"

    def moving_select(self, names):
        """A select with an index that changes, within the bounds: of a vector that begins at 0."""
        draw = self.random
        found = [it for it in names if not it.scalar and it.right == 0 and it.left >= 3]
        if not found:
            return self.literal()
        vector = draw.choice(found)
        bits = min(vector.width.bit_length() - 1, 5)
        index = f"{{{self.expression(1, names, False)}}} % {1 << bits}" if draw.random() < 0.3 else f"t[{min(bits, 4) - 1}:0]"
        room = vector.width - (1 << bits) + 1
        if room >= 1 and draw.random() < 0.5:
            return f"{vector.name}[{index} +: {draw.randint(1, room)}]"
        return f"{vector.name}[{index}]"

    def word(self):
        draw = self.random
        if not self.memories:
            return self.literal()
        memory, depth = draw.choice(self.memories)
        return f"{memory.name}[t[{depth.bit_length() - 2}:0]]" if draw.random() < 0.5 else f"{memory.name}[{draw.randrange(depth)}]"

    def call(self, depth, names, memories):
        draw = self.random
        if not self.functions:
            return self.literal()
        name, inputs = draw.choice(self.functions)
        return f"{name}({', '.join(self.expression(depth - 1, names, memories) for _ in inputs)})"

    def varying(self, depth, names, memories):
        """An expression that isn't constant."""
        found = self.expression(depth, names, memories)
        return found if re.search(r"(?<!')\b[a-z]\d?\b", found) else self.random.choice(names).name

    def expression(self, depth, names, memories=True):
        draw = self.random
        deeper = lambda: self.expression(depth - 1, names, memories)
        kind = draw.random()
        if names and 0.179 < kind < 0.19:
            name = draw.choice(names).name
            return '({"' + "".join(draw.choice("abcXYZ 019") for _ in range(draw.randint(1, 4))) + f'"}} ^ {name} ^ {name})'
        if depth <= 0 or kind < 0.18:
            return draw.choice(names).name if names and draw.random() < 0.65 else self.literal()
        if kind < 0.46:
            return f"({deeper()} {draw.choice(BINARY)} {deeper()})"
        if kind < 0.52:
            first, name = self.varying(depth - 1, names, memories), draw.choice(names).name
            amount = draw.choice([f"(8'd{draw.randint(0, 140)} ^ {name} ^ {name})", deeper()])
            return f"({first} {draw.choice(['<<', '>>', '<<<', '>>>'])} {amount})"
        if kind < 0.57 and memories:
            by = draw.choice(["3'd3", "16'sd7", "5'd16", "32'd10", "8'sd5", "-4'sd3", f"({deeper()} | 1'sd1)"])
            return f"({deeper()} {draw.choice(['/', '%'])} {by})"
        if kind < 0.66:
            return f"{draw.choice(UNARY)}({deeper()})"
        if kind < 0.72:
            return f"({self.varying(depth - 1, names, memories)} ? {deeper()} : {deeper()})"
        if kind < 0.76:
            return "{" + ", ".join(self.part(names) for _ in range(draw.randint(1, 3))) + "}"
        if kind < 0.78:
            return "{" + f"{draw.randint(1, 4)}" + "{" + self.part(names) + "}}"
        if kind < 0.86:
            return self.select(names)
        if kind < 0.89:
            return self.moving_select(names) if memories else self.select(names)
        if kind < 0.92:
            return self.word() if memories else self.literal()
        if kind < 0.96:
            return f"{draw.choice(['$signed', '$unsigned'])}({self.varying(depth - 1, names, memories)})"
        if kind < 0.98:
            return draw.choice(self.parameters) if self.parameters else self.literal()
        return self.call(depth, names, memories)

    def part(self, names):
        """A part of a concatenation, which has a width of its own."""
        draw = self.random
        small = [it for it in names if it.width <= 32]
        kind = draw.random()
        if kind < 0.4 and small:
            return draw.choice(small).name
        if kind < 0.6 and [it for it in small if not it.scalar]:
            return self.select(small)
        width = draw.randint(1, 30)
        return f"{width}'{draw.choice(['', 's'])}d{draw.randrange(1 << width)}"

    # ---- statements

    def target(self, outs):
        draw = self.random
        found = draw.choice(outs)
        kind = draw.random()
        if kind < 0.6 or found.scalar:
            return found.name
        if kind < 0.72 and sum(it.width for it in outs) <= 128:
            return "{" + ", ".join(it.name for it in draw.sample(outs, min(len(outs), 2))) + "}"
        return self.select([found])

    def moving_target(self, outs):
        """A select with an index that changes, also out of bounds."""
        draw = self.random
        vectors = [it for it in outs if not it.scalar and it.range is None and it.width <= 64]
        if not vectors:
            return self.target(outs)
        found, index = draw.choice(vectors), f"t[{draw.randint(0, 4)}:0]"
        if draw.random() < 0.5:
            return f"{found.name}[{index}]"
        return f"{found.name}[{index} {draw.choice(['+:', '-:'])} {draw.randint(1, found.width)}]"

    def statement(self, depth, outs, names, mark, memory=None):
        """A statement that assigns to `outs` by `mark`. `names` can be read."""
        draw = self.random
        kind = draw.random()
        if depth <= 0 or kind < 0.45:
            if memory is not None and draw.random() < 0.15:
                found, words = memory
                at = draw.choice([f"t[{words.bit_length() - 2}:0]", str(draw.randrange(words))])
                return f"{found.name}[{at}] <= {self.expression(2, names)};"
            target = self.moving_target(outs) if mark == "<=" and draw.random() < 0.15 else self.target(outs)
            return f"{target} {mark} {self.expression(3, names, memory is not None)};"
        deeper = lambda: self.statement(depth - 1, outs, names, mark, memory)
        if kind < 0.6:
            other = f" else {deeper()}" if draw.random() < 0.6 else ""
            return f"if ({self.expression(2, names, memory is not None)}) begin {deeper()} end{other}"
        if kind < 0.75:
            return "begin " + " ".join(deeper() for _ in range(draw.randint(1, 3))) + " end"
        if kind < 0.92:
            return self.choice(deeper, names, memory is not None)
        return f"repeat ({draw.randint(0, 3)}) {deeper()}"

    def choice(self, deeper, names, memories):
        draw = self.random
        wild = draw.random() < 0.4
        if wild:
            chosen = draw.choice(names)
            subject, signed = chosen.name, chosen.signed
        else:
            subject = self.expression(1, names, memories)
        items = []
        for _ in range(draw.randint(1, 3)):
            labels = []
            for _ in range(draw.randint(1, 2)):
                if wild:
                    width = draw.randint(1, 12)
                    labels.append(f"{width}'{'s' * signed}b" + "".join(draw.choice("01?z") for _ in range(width)))
                else:
                    labels.append(self.expression(1, names, memories))
            items.append(f"{', '.join(labels)}: {deeper()}")
        if draw.random() < 0.6:
            items.append(f"default: {deeper()}")
        return f"case{'z' * wild} ({subject}) {' '.join(items)} endcase"

    def wider(self, value):
        """The same value and sign, with two bits at least."""
        return f"({value} + 2'sd0)"

    def display(self, names):
        draw = self.random
        words = []
        for _ in range(draw.randint(1, 5)):
            if draw.random() < 0.75:
                item, value = draw.choice(ITEMS), self.expression(3, names)
                words.append((item, self.wider(value) if item in ("%d", "%D") else value))
            else:
                words.append((None, self.wider(self.expression(2, names))))
        text, arguments, pending = "", [], []
        for item, value in words:
            if item is None:
                if text:
                    arguments += [f'"{text}"'] + pending
                    text, pending = "", []
                arguments.append(value)
            else:
                text += f"{draw.choice(['', ' ', 'v='])}{item},"
                pending.append(value)
        if text:
            arguments += [f'"{text}"'] + pending
        return f"$display({', '.join(arguments)});"

    # ---- modules

    def function(self, number):
        draw = self.random
        result = self.signal(f"f{number}")
        inputs = [self.signal(f"a{at}") for at in range(draw.randint(1, 3))]
        local = self.signal("l")
        names = inputs + [local]
        body = [f"l = {self.expression(2, inputs, False)};", f"{result.name} = {self.expression(2, names, False)};"]
        body += [self.statement(2, [result, local], names + [result], "=") for _ in range(draw.randint(0, 2))]
        if draw.random() < 0.3:
            inside = self.statement(1, [result, local], names + [result, Signal("i", 32, True)], "=")
            body.append(f"for (i = {draw.randint(0, 2)}; i < {draw.randint(2, 6)}; i = i + 1) {inside}")
        lines = [f"  function {result.declared()}{result.name}({', '.join(f'input {it.declared()}{it.name}' for it in inputs)});"]
        lines += [f"    reg {local.declared()}l; integer i;", "    begin"] + [f"      {it}" for it in body] + ["    end", "  endfunction"]
        self.functions.append((result.name, inputs))
        return lines

    def halves(self, net):
        """Two ranges that are the whole net."""
        low, high = min(net.left, net.right), max(net.left, net.right)
        middle = self.random.randrange(low, high)
        below, above = (low, middle), (middle + 1, high)
        if net.left >= net.right:
            below, above = below[::-1], above[::-1]
        return f"{below[0]}:{below[1]}", f"{above[0]}:{above[1]}"

    def edge(self):
        return self.random.choice(["posedge", "posedge", "negedge"])

    def inner(self, number):
        """A module with two inputs, an output net, one of a register, and a parameter, which may hold the one before it."""
        draw = self.random
        a, b, y, q = (self.signal(it) for it in "abyq")
        functions, parameters, memories = self.functions, self.parameters, self.memories
        self.functions, self.parameters, self.memories = [], ["P"], []
        names = [a, b]
        if draw.random() < 0.4:
            a.scalar, a.range, a.width = True, "[W - 1:0] ", 24
        constants = [f"parameter P = {self.literal(32)}", f"parameter W = {draw.randint(1, 40)}"]
        ports = [f"input {a.declared()}a", f"input {b.declared()}b", f"output {y.declared()}y", f"output reg {q.declared()}q"]
        if draw.random() < 0.6:
            lines = [f"module s{number} #({', '.join(constants)}) (input wire clk, {', '.join(ports)});"]
        else:
            lines = [f"module s{number}(clk, a, b, y, q);"] + [f"  {it};" for it in constants + ["input clk"] + ports]
        lines += ["  reg [4:0] t; initial t = 0;", "  initial q = 0;"]
        if number > 0 and draw.random() < 0.5:
            z, h = self.signal("z"), self.signal("h")
            lines += [f"  wire {z.declared()}z; wire {h.declared()}h;", f"  s{number - 1} #(.P({self.literal(32)})) i(clk, {{b}}, {{a}}, z, h);"]
            names += [z, h]
        lines += [f"  assign y = {self.expression(3, names, False)};"]
        lines.append("  always @(posedge clk) t <= t + 1;")
        lines += [f"  always @({self.edge()} clk) if (t > 1) q <= {self.expression(3, names + [q, y], False)};", "endmodule"]
        self.functions, self.parameters, self.memories = functions, parameters, memories
        return lines, (a, b, y, q)

    def text(self):
        draw = self.random
        modules, body = [], []
        registers = [self.signal(f"r{at}") for at in range(draw.randint(3, 6))]
        if draw.random() < 0.4:
            registers[-1] = Signal(registers[-1].name, 32, True)
            registers[-1].range = "integer"
        for at in range(draw.randint(0, 2)):
            name = f"C{at}"
            word, form = draw.choice(["parameter", "localparam"]), draw.choice(["", "signed ", "integer ", "[11:0] ", "signed [8:0] "])
            body.append(f"  {word} {form}{name} = {self.literal(64)};")
            self.parameters.append(name)
        body += ["  reg [4:0] t; initial t = 0;"]
        body += [f"  {it.variable()} initial {it.name} = {self.literal()};" for it in registers]
        for at in range(draw.randint(0, 1)):
            memory, words = self.signal(f"m{at}"), draw.choice([4, 8, 16])
            body.append(f"  reg {memory.declared()}{memory.name} [0:{words - 1}];")
            body += [f"  initial {memory.name}[{it}] = {self.literal()};" for it in range(words)]
            self.memories.append((memory, words))
        for at in range(draw.randint(0, 2)):
            body += self.function(at)
        seen = list(registers)
        for at in range(draw.randint(1, 4)):
            net = self.signal(f"w{at}")
            if draw.random() < 0.2:
                body.append(f"  wire {net.declared()}{net.name} = {self.expression(3, seen, False)};")
            elif net.width > 1 and draw.random() < 0.3:
                first, second = self.halves(net)
                body.append(f"  wire {net.declared()}{net.name};")
                body.append(f"  assign {net.name}[{first}] = {self.expression(3, seen, False)}, {net.name}[{second}] = {self.expression(2, seen, False)};")
            else:
                body += [f"  wire {net.declared()}{net.name};", f"  assign {net.name} = {self.expression(3, seen, False)};"]
            seen.append(net)
        for at in range(draw.randint(0, 3)):
            lines, (a, b, y, q) = self.inner(at)
            modules += lines
            out, held = self.signal(f"y{at}"), self.signal(f"q{at}")
            out.signed, held.signed = draw.random() < 0.5, draw.random() < 0.5
            body += [f"  wire {out.declared()}{out.name};", f"  wire {held.declared()}{held.name};"]
            first, second = (draw.choice([f"{{$unsigned({self.expression(2, seen, False)})}}", draw.choice(seen).name]) for _ in range(2))
            count = draw.randint(1, 40)
            override = draw.choice(["", f" #({self.literal(32)})", f" #({self.literal(32)}, {count})", f" #(.W({count}), .P({self.literal(32)}))"])
            if draw.random() < 0.5:
                body.append(f"  s{at}{override} u{at}(clk, {first}, {second}, {out.name}, {held.name});")
            else:
                body.append(f"  s{at}{override} u{at}(.q({held.name}), .clk(clk), .b({second}), .a({first}), .y({out.name}));")
            seen += [out, held]
        for at in range(draw.randint(0, 2)):
            held = self.signal(f"c{at}")
            body += [f"  reg {held.declared()}{held.name};", "  always @* begin", f"    {held.name} = {self.expression(2, seen, False)} ^ t ^ t;"]
            body += [f"    {self.statement(2, [held], seen + [held], '=')}", "  end"]
            seen.append(held)
        return "\n".join(modules + ["module m(input wire clk);"] + body + self.blocks(registers, seen) + ["endmodule", ""])

    def blocks(self, registers, seen):
        draw = self.random
        lines = []
        halves = [registers[:2], registers[2:]]
        for at, outs in enumerate(halves):
            memory = self.memories[0] if self.memories and at == 0 else None
            own = self.signal(f"b{at}")
            lines += [f"  reg {own.declared()}{own.name}; initial {own.name} = {self.literal()};", f"  integer i{at};"]
            edge = "posedge" if at == 0 else self.edge()
            lines += [f"  always @({edge} clk) begin"] + ["    t <= t + 1;"] * (at == 0) + ["    if (t > 1) begin"]
            lines.append(f"      {own.name} = {self.expression(3, seen)};")
            inner = seen + [own]
            for _ in range(draw.randint(1, 3)):
                lines.append(f"      {self.statement(3, outs, inner, '<=', memory)}")
            if draw.random() < 0.4:
                loop = Signal(f"i{at}", 32, True)
                lines.append(f"      for (i{at} = {draw.randint(0, 2)}; i{at} < {draw.randint(2, 5)}; i{at} = i{at} + 1) begin")
                lines.append(f"        {own.name} = {own.name} ^ ({self.expression(2, inner + [loop])});")
                lines += [f"        {self.statement(1, outs, inner + [loop], '<=')}", "      end"]
            if at == 0:
                for _ in range(draw.randint(2, 4)):
                    lines.append(f"      {self.display(inner)}")
            lines += ["    end", "  end"]
        return lines


class Reader:
    """A random source that reads two random files: bytes, and words of a memory."""

    WORDS = 16

    def __init__(self, seed):
        self.random = random.Random(f"files {seed}")
        draw = self.random
        self.width = draw.choice([4, 7, 8, 12, 16, 31, 32, 33, 64])
        self.widths = [draw.choice([8, 16, 24, 32, 40, 64, 128, 3, 9, 12, 31, 100]) for _ in range(4)]
        self.files = {"F": self.bytes(), "H": self.words()}

    def bytes(self):
        draw = self.random
        return bytes(draw.choice([draw.randrange(256), 0, 255, 10, 65]) for _ in range(draw.randint(0, 120)))

    def words(self):
        draw = self.random
        found, at = "", 0
        for _ in range(draw.randint(1, 14)):
            kind = draw.random()
            if kind < 0.15:
                at = draw.randrange(self.WORDS)
                found += f"@{at:x} "
            elif kind < 0.32:
                found += draw.choice(["// a line\n", "/* some\n 12 */ "])
            elif at < self.WORDS:
                word = f"{draw.randrange(1 << self.width):x}"
                word = f"{word[0]}_{word[1:]}" if len(word) > 2 and draw.random() < 0.3 else word
                found += draw.choice([word, word.upper()]) + draw.choice([" ", "\n", "\t", "  \n"])
                at += 1
        return found.encode()

    def step(self):
        draw = self.random
        name = f"v{draw.randrange(4)}"
        return draw.choice([
            'c = $fgetc(fd); $display("c %0d %h", c, c);',
            f'c = $fread({name}, fd); $display("n %0d %h %d", c, {name}, {name});',
            'c = $feof(fd); $display("e %0d", c != 0);',
        ])

    def text(self):
        draw = self.random
        lines = ["module m(input wire clk);", "  integer fd, gone, c; reg [4:0] t;", f"  reg [{self.width - 1}:0] words [0:{self.WORDS - 1}];"]
        lines += [f"  initial words[{at}] = {at};" for at in range(self.WORDS)]
        for at, width in enumerate(self.widths):
            lines.append(f"  reg {draw.choice(['', 'signed '])}[{width - 1}:0] v{at}; initial v{at} = 0;")
        lines.append('  initial begin t = 0; fd = $fopen("F", "rb"); gone = $fopen("none", "r"); $readmemh("H", words); end')
        lines += ["  always @(posedge clk) begin", "    t <= t + 1;", '    $display("w %h %0d", words[t[3:0]], gone);']
        lines += [f"    {self.step()}" for _ in range(draw.randint(2, 5))]
        return "\n".join(lines + [f"    if (t == {TICKS - 2}) $fclose(fd);", "  end", "endmodule", ""])


def source_of(seed):
    """The source of a seed, and the files that it reads: one in ten reads some."""
    if int(seed.split("/")[1]) % 10 == 9:
        found = Reader(seed)
        return found.text(), found.files
    return Source(seed).text(), {}


BENCH = f"""
module bench;
  reg clk = 0;
  m u(clk);
  initial begin #1; repeat ({TICKS}) begin #1 clk = 1; #1 clk = 0; end $finish; end
endmodule
"""


def by_fabhost(program, folder):
    """What fabhost prints for the source of a folder, or the line of its refusal."""
    ran = subprocess.run([program, "run", "s.script"], cwd=folder, capture_output=True, timeout=120)
    line, _, rest = ran.stdout.partition(b"\n")
    words = line.split()
    if ran.returncode == 3:
        return None, line.decode()
    if ran.returncode != 0 or words[:3] != [b"tenant", b"T", b"budget"]:
        raise SystemExit(f"status {ran.returncode}: {line!r} {ran.stderr!r}")
    return rest[: int(words[5])], ""


def by_icarus(folder):
    ran = subprocess.run(["iverilog", "-g2005", "-o", "s.vvp", "-s", "bench", "s.v", "bench.v"], cwd=folder, capture_output=True, timeout=120)
    if ran.returncode != 0:
        return None, ran.stderr.decode()
    ran = subprocess.run(["vvp", "-n", "s.vvp"], cwd=folder, capture_output=True, timeout=120)
    if ran.returncode != 0 or b"Program not runnable" in ran.stdout:
        return None, (ran.stdout + ran.stderr).decode(errors="replace")
    lines = ran.stdout.split(b"\n")
    return b"\n".join(it for it in lines if b"$finish called" not in it and not it.startswith(b"WARNING")), ""


def compare(program, folder, text, files):
    """'same', 'refused' with the line, or what differs."""
    script = f"fabric F 1000000000 1000000000 1000000000\ntenant T s.v F {TICKS}\n" + "".join(f"file T {it} {it}\n" for it in files)
    for name, content in {"s.v": text.encode(), "bench.v": BENCH.encode(), "s.script": script.encode(), **files}.items():
        with open(f"{folder}/{name}", "wb") as file:
            file.write(content)
    own, refusal = by_fabhost(program, folder)
    if own is None:
        return "refused", refusal
    other, why = by_icarus(folder)
    if other is None:
        return "not taken", why
    if own == other:
        return "same", ""
    return "columns" if own.replace(b" ", b"") == other.replace(b" ", b"") else "differs", (own, other)


def main():
    parser = argparse.ArgumentParser(description=__doc__, formatter_class=argparse.RawDescriptionHelpFormatter)
    parser.add_argument("--program", default=f"{TOP}/crates/fabhost/out/fabhost")
    parser.add_argument("--seeds", default="1-5")
    parser.add_argument("--count", type=int, default=200)
    parser.add_argument("--keep", default="try-icarus")
    parser.add_argument("--show")
    given = parser.parse_args()
    if given.show:
        print(source_of(given.show)[0])
        return 0
    first, _, last = given.seeds.partition("-")
    program, wrong = os.path.abspath(given.program), 0
    for seed in range(int(first), int(last or first) + 1):
        counts = {}
        for number in range(given.count):
            text, files = source_of(f"{seed}/{number}")
            folder = tempfile.mkdtemp(prefix="try-icarus-")
            try:
                kind, detail = compare(program, folder, text, files)
                counts[kind] = counts.get(kind, 0) + 1
                if kind == "refused":
                    why = " ".join(detail.split()[4:])
                    counts[why] = counts.get(why, 0) + 1
                wrong += kind == "differs"
                if kind in ("differs", "columns", "not taken"):
                    kept = f"{given.keep}/{seed}-{number}"
                    os.makedirs(kept, exist_ok=True)
                    for name in ("s.v", "bench.v", "s.script", *files):
                        shutil.copy(f"{folder}/{name}", kept)
                    if kind != "not taken":
                        for name, content in zip(("own", "icarus"), detail):
                            with open(f"{kept}/{name}", "wb") as file:
                                file.write(content)
                    else:
                        with open(f"{kept}/why", "w") as file:
                            file.write(detail)
            finally:
                shutil.rmtree(folder, ignore_errors=True)
        print(f"seed {seed}: " + ", ".join(f"{counts[it]} {it}" for it in sorted(counts)), flush=True)
    return 1 if wrong else 0


if __name__ == "__main__":
    sys.exit(main())
