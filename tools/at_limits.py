#!/usr/bin/env python3
"""Runs fabhost on sources and scripts that are as large as it takes them, and prints a table of times and of memory.

    tools/at_limits.py PROGRAM [NAME..] [--seconds 120] [--memory 8] [--no-others] [--keep FOLDER]
    tools/at_limits.py PROGRAM [NAME..] --growth
    tools/at_limits.py [NAME..] --counts | --list

PROGRAM is a built fabhost. With names only those cases are run; --list prints the names. Each case is made in a temporary folder (in
FOLDER/NAME with --keep) and is run by `check` and, in a script of one tenant and of a few ticks, by `run`; a case that is a script is
only run. A source that isn't what its case says it is, as tools/counts.py counts by docs/LANGUAGE.md, ends the tool; --counts does that
alone, without a program. Where `iverilog` and `verilator` are installed, they compile the same source (`iverilog -g2005 -o /dev/null`,
and `verilator --lint-only`), unless it has something that is fabhost's own, each with 60 seconds and the same limit of memory; their seconds
stand beside those of `check`, and in brackets how many times theirs fabhost takes. Seconds are those of the processor. Nothing is random.

A row is printed as its run ends, so a table that is cut off is right as far as it goes. It is marked where the status isn't the one that is
wanted, where it took more than 10 seconds, and where it took more than 4 GB. With --growth each case is run at an eighth, a quarter and a half
of its size, and marked where twice the size takes more than 2.6 times as long. The exit status is 1 where a row is marked, else 0.
"""
import argparse
import collections
import math
import os
import re
import shutil
import sys
import tempfile

sys.dont_write_bytecode = True

from counts import TOKENS, NoSource, counts, text_of
from running import has_sanitizer, measure, show_memory, show_seconds, stop_softly, table

SLOW, LARGE, THEIRS, POWER = 10.0, 4e9, 60.0, 1.4
AMPLE = 1_000_000_000
TEXT, FILE = 1_048_576, 4_194_304
# the bits, cells and bits of memories of a fabric that has room for one counter; set by what the program says of one
ROOM = (16, 100, 0)
SCALE = 1.0


def some(n):
    """So many, or the part of them that --scale asks for."""
    return max(2, int(n * SCALE))


OTHERS = {
    "iverilog": ("Icarus", ["iverilog", "-g2005", "-o", "/dev/null", "s.v"]),
    "verilator": ("Verilator", ["verilator", "--lint-only", "-Wno-fatal", "-Wno-lint", "--top-module", "m", "s.v"]),
}


class Case:
    """A source with its files, the ticks that it runs, what `check` and `run` answer, and what is counted of it; `without` are the
    others that don't take it: it has a call of fabhost's own, or a nonblocking assignment to a word in a loop, which Verilator doesn't do, or
    Icarus ends by a signal."""

    def __init__(self, source=None, ticks=3, files=None, checked=0, ran=0, script=None, stored=None, without=(), **claims):
        self.source, self.ticks, self.files, self.checked, self.ran = source, ticks, files or {}, checked, ran
        self.script, self.stored, self.without, self.claims = script, stored or {}, without, claims

    def differs(self):
        """What isn't as the case says; nothing where it was scaled down."""
        if SCALE != 1 or not self.claims:
            return ""
        found = script_counts(self.script) if self.script is not None else counts(self.source)._asdict()
        return ", ".join(f"{name} {found[name]:,} for {n:,}" for name, n in self.claims.items() if found[name] != n)

    def written(self):
        """The script, and each file by its path."""
        stored = dict(self.stored)
        if self.source is not None:
            stored["s.v"] = self.source
        for n, (name, data) in enumerate(self.files.items()):
            stored[f"f{n}"] = data
        if self.script is not None:
            return self.script, stored
        lines = [f"fabric F {AMPLE} {AMPLE} {AMPLE}", f"tenant A s.v F {self.ticks}"]
        lines += [f"file A {name} f{n}" for n, name in enumerate(self.files)]
        return "\n".join(lines) + "\n", stored


def script_counts(text):
    """Of a script, by docs/FORMATS.md: its bytes, fabrics, tenants, free orders, and the most errands and files of a tenant."""
    words = [re.sub("#.*", "", line).split() for line in text.split("\n")]
    first = collections.Counter(w[0] for w in words if w)
    most = lambda what: max(collections.Counter(w[1] for w in words if w and w[0] == what).values(), default=0)
    return {"bytes": len(text), "fabrics": first["fabric"], "tenants": first["tenant"], "free": first["free"], "errands": most("at"), "held": most("file")}


CASES = {}


def case(what):
    def add(make):
        CASES[make.__name__] = (what, make)
        return make

    return add


def module(items, top="m"):
    return f"module {top}(input wire k);\n" + "\n".join(items) + "\nendmodule\n"


def block(statements, edge="posedge k"):
    return f"  always @({edge}) begin\n" + "\n".join(statements) + "\n  end"


def listed(letter, n):
    """n names, 16 a line."""
    return ",\n    ".join(", ".join(f"{letter}{i}" for i in range(k, min(n, k + 16))) for k in range(0, n, 16))


def filled(front, back, size=None, line="// a line of a comment, as long as lines of comments are, more or less, in a source\n", rest=" "):
    """Comments between a front and a back, to this size."""
    room = (size or some(TEXT)) - len(front) - len(back)
    lines = line * (room // len(line))
    left = room - len(lines)
    return front + lines + (rest * (left - 1) + "\n" if left else "") + back


def to_tokens(items, first, statement, each, edge):
    """A block of so many statements, of so many tokens each, that the source has 200,000, with null statements at the end."""
    room = some(TOKENS) - text_of(module(items + [block(first, edge)])).tokens
    return module(items + [block(first + [statement(i) for i in range(room // each)] + ["    ;"] * (room % each), edge)])


# ---- the text


@case("1,048,576 bytes, nearly all of them comments")
def comments():
    return Case(filled("module m(input wire k);\n  reg [7:0] a;\n", "  always @(posedge k) a <= a + 1;\nendmodule\n"), bytes=TEXT)


@case("1,048,576 bytes in one comment `/* .. */` without a line's end")
def one_comment():
    front, back = "module m(input wire k);\n  reg [7:0] a; /*", "*/ always @(posedge k) a <= a + 1;\nendmodule\n"
    size = some(TEXT) - len(front) - len(back)
    return Case(front + "* " * (size // 2) + " " * (size % 2) + back, bytes=TEXT)


@case("1,048,576 bytes of code: 1,000 registers with names of 253 bytes, and 1,502 statements over them")
def long_names():
    count, size = some(1000), some(TEXT)
    names = [f"r{i:_<252}" for i in range(count)]
    decls = [f"  reg [7:0] {x};" for x in names]
    one = len(f"    {names[0]} <= {names[0]} + 1;\n")
    room = size - len(module(decls + [block([])]))
    text = module(decls + [block([f"    {names[i % count]} <= {names[i * 7 % count]} + 1;" for i in range(room // one)])])
    return Case(text[: -len("endmodule\n")] + " " * (size - len(text)) + "endmodule\n", bytes=TEXT, path=255, signals=1000, statements=1503)


@case("200,000 tokens: 33,245 nonblocking assignments in one clocked block")
def tokens():
    regs = [f"  reg [7:0] r{i};" for i in range(64)]
    return Case(to_tokens(regs, [], lambda i: f"    r{i % 64} <= r{(i * 5 + 1) % 64} + {i % 64};", 6, "posedge k"), tokens=TOKENS)


@case("200,000 tokens: 33,266 blocking assignments in one combinational block")
def comb_tokens():
    regs = [f"  reg [7:0] r{i};" for i in range(64)]
    first = [f"    r{i} = {i};" for i in range(64)]
    return Case(to_tokens(regs, first, lambda i: f"    r{i % 64} = r{(i * 5 + 1) % 64} + {i % 64};", 6, "*"), tokens=TOKENS)


@case("199 expressions of 1,000 tokens, sums of 500 names")
def expressions():
    regs = [f"  reg [31:0] r{i};" for i in range(32)]
    stms = [f"    r{i % 32} <= -" + " + ".join(f"r{(i * 5 + j) % 32}" for j in range(500)) + ";" for i in range(some(199))]
    return Case(module(regs + [block(stms)]), tokens=199_870, longest=1000)


@case("15,000 `if`s one behind the other that hold a `$display`")
def displays():
    regs = ["  reg [15:0] a;"]
    stms = ["    a <= a + 1;"] + [f'    if (a == {i + 5}) $display("%0d", a);' for i in range(some(15_000))]
    return Case(module(regs + [block(stms)]), statements=30_002)


@case("19,000 `if`s one behind the other without a call, on one register")
def choices():
    regs = ["  reg [15:0] a, b;"]
    stms = ["    a <= a + 1;"] + [f"    if (a == {i}) b <= {i};" for i in range(some(19_000))]
    return Case(module(regs + [block(stms)]), statements=38_002)


@case("a `case` of 33,000 items")
def case_items():
    regs = ["  reg [15:0] a, b;"]
    stms = ["    a <= a + 1;", "    case (a)"] + [f"      {i}: b <= {i};" for i in range(some(33_000))] + ["      default: b <= 0;", "    endcase"]
    return Case(module(regs + [block(stms)]), statements=33_004)


@case("14,000 clocked blocks of one statement, each on a register of its own")
def blocks():
    n = some(14_000)
    regs = ["  reg [7:0] " + listed("r", n) + ";"]
    return Case(module(regs + [f"  always @(posedge k) r{i} <= r{(i * 7 + 1) % n} + 1;" for i in range(n)]), signals=14_000, statements=14_000)


@case("28,000 parameters, each of the one before it")
def parameters():
    n = some(28_000)
    items = ["  parameter P0 = 0;"] + [f"  parameter P{i} = P{i - 1} + 1;" for i in range(1, n)]
    return Case(module(items + ["  reg [31:0] a;", f"  always @(posedge k) a <= P{n - 1};"]), without=["iverilog"], tokens=196_025)


# ---- functions


def chain_of_functions(n, order, back=()):
    items = ["  function f0(input x); f0 = x; endfunction"]
    items += [f"  function f{i}(input x); f{i} = f{i - 1}(x); endfunction" for i in range(1, n)]
    return module([*order(items), "  reg a;", f"  always @(posedge k) a <= f{n - 1}(a);", *back])


@case("12,000 functions, each of which calls the one before it")
def functions():
    return Case(chain_of_functions(some(12_000), lambda x: x), functions=12_000, statements=12_001)


@case("12,000 functions, each of which calls the one behind it")
def functions_back():
    return Case(chain_of_functions(some(12_000), lambda x: x[::-1]), functions=12_000, statements=12_001)


@case("12,000 functions, of which none calls another")
def lone_functions():
    n = some(12_000)
    items = [f"  function f{i}(input x); f{i} = x; endfunction" for i in range(n)]
    return Case(module(items + ["  reg a;", f"  always @(posedge k) a <= f{n - 1}(a);"]), functions=12_000)


@case("60 functions, each of which calls the one before it twice: 2 to the 60th statements, which is refused")
def doubling():
    items = ["  function f0(input x); f0 = x; endfunction"]
    items += [f"  function f{i}(input x); f{i} = f{i - 1}(x) ^ f{i - 1}(x); endfunction" for i in range(1, 60)]
    return Case(module(items + ["  reg a;", "  always @(posedge k) a <= f59(a);"]), checked=3, ran=3, statements=2**60, functions=60)


@case("4,000 functions in a circle, each of which calls the next four times, which is refused")
def circle():
    n = some(4_000)
    call = lambda i: f"f{(i + 1) % n}(x)"
    items = [f"  function f{i}(input x); f{i} = {' ^ '.join([call(i)] * 4)}; endfunction" for i in range(n)]
    return Case(module(items + ["  reg a;"]), checked=3, ran=3)


@case("16,384 signals, and a chain of 6,500 functions beside them")
def signals_and_functions():
    n = some(16_384)
    regs = "  reg " + listed("r", n - 1) + ";"
    return Case(chain_of_functions(some(6_500), lambda x: x, [regs]), signals=16_384, functions=6_500)


# ---- signals and instances


@case("16,384 signals: registers of 8 bits, in one clocked block")
def signals():
    n = some(16_384)
    regs = ["  reg [7:0] " + listed("r", n) + ";"]
    return Case(module(regs + [block([f"    r{i} <= r{(i + 1) % n};" for i in range(n)])]), signals=16_384)


@case("16,384 signals of 128 bits, in one clocked block")
def wide_signals():
    n = some(16_384)
    regs = ["  reg [127:0] " + listed("r", n) + ";"]
    return Case(module(regs + [block([f"    r{i} <= r{(i + 1) % n} + 1;" for i in range(n)])]), signals=16_384)


@case("16,384 signals: 16,383 nets, each with an `assign` of its own from one register")
def nets():
    n = some(16_383)
    items = ["  reg [7:0] a;", "  wire [7:0] " + listed("w", n) + ";"]
    items += [f"  assign w{i} = a + {i};" for i in range(n)]
    return Case(module(items + ["  always @(posedge k) a <= a + 1;"]), signals=16_384, statements=16_384)


@case("4,096 instances of a counter, side by side")
def instances():
    items = [f"  s u{i}(k);" for i in range(some(4096))]
    return Case("module s(input wire c); reg [7:0] a; always @(posedge c) a <= a + 1; endmodule\n" + module(items), instances=4096)


@case("4,094 instances, a tree of 11 levels of two")
def tree():
    text = ["module t0(input wire c); reg [7:0] a; always @(posedge c) a <= a + 1; endmodule"]
    text += [f"module t{i}(input wire c); t{i - 1} a(c), b(c); endmodule" for i in range(1, 11)]
    return Case("\n".join(text) + "\n" + module(["  t10 a(k), b(k);"]), instances=4094)


@case("60 levels of two instances each, which is refused")
def doubling_instances():
    text = ["module t0(input wire c); endmodule"] + [f"module t{i}(input wire c); t{i - 1} a(c), b(c); endmodule" for i in range(1, 60)]
    return Case("\n".join(text) + "\n" + module(["  t59 a(k), b(k);"]), checked=3, ran=3, instances=2**61 - 2)


@case("9,000 modules in a circle, each of which has an instance of the two before it, which is refused")
def modules():
    n = some(9_000)
    text = [f"module t0(input c); t{n - 1} u(c); endmodule", "module t1(input c); t0 u(c); endmodule"]
    text += [f"module t{i}(input c); t{i - 1} u(c); t{i - 2} v(c); endmodule" for i in range(2, n)]
    return Case("\n".join(text) + "\n", checked=3, ran=3)


@case("3,904 instances with a port of 8 bits in and out, in a ring of 64 rows of 60")
def ports():
    text = """module s(input wire c, input wire [7:0] i, output reg [7:0] o); always @(posedge c) o <= i + 1; endmodule
module row(input wire c, input wire [7:0] i, output wire [7:0] o);
  wire [7:0] """ + ", ".join(f"w{j}" for j in range(59)) + ";\n"
    text += "\n".join(f"  s u{j}(c, {'i' if j == 0 else f'w{j - 1}'}, {'o' if j == 59 else f'w{j}'});" for j in range(60)) + "\nendmodule\n"
    items = ["  wire [7:0] " + ", ".join(f"v{j}" for j in range(64)) + ";"]
    items += [f"  row u{j}(k, v{(j + 63) % 64}, v{j});" for j in range(64)]
    return Case(text + module(items), instances=3904)


def chain(order, n=4000, last='begin a <= {w}; $display("%0d", a); end'):
    n = some(n)
    items = ["  reg [7:0] a;", "  wire [7:0] " + listed("w", n) + ";"]
    assigns = ["  assign w0 = a + 1;"] + [f"  assign w{i} = w{i - 1} + 1;" for i in range(1, n)]
    return module(items + order(assigns) + ["  always @(posedge k) " + last.replace("{w}", f"w{n - 1}")])


@case("a chain of 4,000 assignments to nets, in the order of the text")
def net_chain():
    return Case(chain(lambda x: x), signals=4001, statements=4003)


@case("a chain of 4,000 assignments to nets, against the order of the text")
def net_chain_back():
    return Case(chain(lambda x: x[::-1]), signals=4001, statements=4003)


@case("a chain of 16,383 assignments to nets, against the order of the text")
def net_chain_long():
    return Case(chain(lambda x: x[::-1], 16_383, "a <= {w};"), signals=16_384, statements=16_384)


@case("a chain through the 4,096 bits of 32 nets of 128 bits, each assigned for itself")
def bit_chain():
    items = ["  reg a;", "  wire [127:0] " + ", ".join(f"w{i}" for i in range(32)) + ";"]
    at = lambda i: f"w{i // 128}[{i % 128}]"
    n = some(4096)
    assigns = [f"  assign {at(0)} = a;"] + [f"  assign {at(i)} = !{at(i - 1)};" for i in range(1, n)]
    return Case(module(items + assigns[::-1] + [f"  always @(posedge k) a <= {at(n - 1)};"]), statements=4097)


@case("16,384 signals, and 20,000 assignments to single bits of 157 of them")
def bits():
    n, m = some(16_384), some(20_000)
    items = ["  reg a;", "  wire [127:0] " + listed("w", n - 1) + ";"]
    return Case(module(items + [f"  assign w{i // 128}[{i % 128}] = a;" for i in range(m)]), signals=16_384, statements=20_000)


# ---- statements


@case("100,000 statements: 25 loops of up to 4,096 turns in a clocked block, on one register")
def unrolled():
    turns = [4096] * 24 + [1670]
    stms = [f"    for (i = 0; i < {some(n)}; i = i + 1) a <= a + i;" for n in turns]
    return Case(module(["  reg [31:0] a;", "  integer i;", block(stms)]), statements=100_000, turns=4096)


@case("16 loops of 4,096 turns, each of which writes a word of a memory of 65,536")
def unrolled_memory():
    stms = [f"    for (i = 0; i < {some(4096)}; i = i + 1) m[i + {4096 * j}] <= i;" for j in range(16)]
    return Case(module(["  reg [31:0] m [0:65535];", "  integer i;", block(stms)]), without=["verilator"], statements=65_553, words=65_536)


@case("32 loops of 3,123 turns in a combinational block: sums over the bits of 32 registers")
def unrolled_comb():
    items = ["  reg [127:0] " + ", ".join(f"r{j}" for j in range(32)) + ";", "  reg [31:0] s;", "  integer i;"]
    stms = ["    s = 0;"] + [f"    for (i = 0; i < {some(3123)}; i = i + 1) s = s + r{j}[i % 128];" for j in range(32)]
    return Case(module(items + [block(stms, "*"), "  always @(posedge k) r0 <= s;"]), statements=99_971)


@case("24,000 turns of an `if` that holds a `$write`")
def unrolled_calls():
    stms = ["    a <= a + 1;"] + [f'    for (i = 0; i < {some(4000)}; i = i + 1) if (a == i) $write("%0d", i);'] * 6
    return Case(module(["  reg [31:0] a;", "  integer i;", block(stms)]), statements=48_008)


@case("1,000,000 nodes of expressions in unrolled loops")
def nodes():
    e = " + ".join(["a"] * 120)
    stms = [f"    for (i = 0; i < {some(n)}; i = i + 1) a <= {e};" for n in (4096, 88)]
    stms += ["    a <= " + " + ".join(["a"] * 12) + ";", "    a <= 1;"]
    return Case(module(["  reg [31:0] a;", "  integer i;", block(stms)]), nodes=1_000_000)


@case("128 statements around a token, all but one of them blocks, in 100 clocked blocks")
def nested_blocks():
    body = "begin " * 127 + "a{0} <= a{0} + 1; " + "end " * 127
    return Case(module([f"  reg [7:0] a{i}; always @(posedge k) " + body.format(i) for i in range(some(100))]), deep=128)


@case("128 statements around a token, all but one of them `if`s with an `else`, in 20 clocked blocks")
def nested_ifs():
    body = "".join(f"if (a == {i}) b{{0}} <= {i}; else " for i in range(127)) + "b{0} <= 200;"
    items = ["  reg [7:0] a;", "  always @(posedge k) a <= a + 1;"]
    return Case(module(items + [f"  reg [7:0] b{i}; always @(posedge k) " + body.format(i) for i in range(some(20))]), deep=128)


@case("128 statements around a token, all but one of them `case`s with a `$display` in each branch, in 10 clocked blocks")
def nested_cases():
    body = "".join(f'case (a) {i}: $display("%0d", a); default: ' for i in range(127)) + "b{0} <= a;" + " endcase" * 127
    items = ["  reg [7:0] a;", "  always @(posedge k) a <= a + 1;"]
    return Case(module(items + [f"  reg [7:0] b{i}; always @(posedge k) " + body.format(i) for i in range(some(10))]), deep=128)


@case("128 statements around a token, all but one of them loops of one turn")
def nested_loops():
    body = "".join(f"for (i{j} = 0; i{j} < 1; i{j} = i{j} + 1) " for j in range(127)) + "a <= a + 1;"
    return Case(module(["  reg [7:0] a;", "  integer " + ", ".join(f"i{j}" for j in range(127)) + ";", "  always @(posedge k) " + body]), deep=128)


# ---- memories and files


@case("a memory of 65,536 words of 32 bits, filled by loops and written in each of 1,000 ticks")
def memory():
    items = ["  reg [31:0] m [0:65535];", "  reg [15:0] a;", "  integer i, j;"]
    items += ["  initial for (i = 0; i < 16; i = i + 1) for (j = 0; j < 4096; j = j + 1) m[i * 4096 + j] = i ^ j;"]
    return Case(module(items + [block(["    m[a] <= m[a + 1] ^ a;", "    a <= a + 1;"])]), ticks=1000, words=65_536)


@case("four memories of 65,536 words of 128 bits, read by `$readmemh` from files of 4 MiB, and saved at a tick")
def memories():
    items = [f"  reg [127:0] m{n} [0:65535];" for n in range(4)] + ["  reg [15:0] a;"]
    items += [f'  initial $readmemh("h{n}", m{n});' for n in range(4)]
    stms = [f"    m{n}[a] <= m{(n + 1) % 4}[a + 1] ^ a;" for n in range(4)] + ["    a <= a + 1;", '    if (a == 2) $save("x");']
    files = {f"h{n}": filled("".join(f"{(i * 2654435761 + n) & 0xFFFFFFFFFFFF:032x}\n" for i in range(65536)), "", FILE) for n in range(4)}
    return Case(module(items + [block(stms)]), ticks=5, files=files, without=OTHERS, words=262_144)


@case("a file of 4 MiB, read byte by byte by 64 calls of `$fgetc` a tick")
def read_bytes():
    calls = ["      c = $fgetc(fd); s = s + c;"] * 64
    stms = calls + ['    if ($feof(fd)) begin $display("%0d", s); $finish; end']
    items = ["  integer fd, c;", '  initial fd = $fopen("data", "rb");', "  reg [31:0] s;", block(stms)]
    return Case(module(items), ticks=70_000, files={"data": b"\x01\x02\x03\x04" * (FILE // 4)})


@case("a file of 4 MiB, read byte by byte, one a tick, in 4,194,305 ticks")
def read_bytes_slowly():
    stms = ["    c = $fgetc(fd);", '    if (c[31]) begin $display("%0d", s); $finish; end', "    s <= s + c;"]
    items = ["  integer fd, c;", '  initial fd = $fopen("data", "rb");', "  reg [31:0] s;", block(stms)]
    return Case(module(items), ticks=4_200_000, files={"data": b"\x01\x02\x03\x04" * (FILE // 4)})


@case("64 files of 4 MiB, 16 of each of four tenants, each read by `$fread` of 16 bytes a tick")
def many_files():
    items = ["  integer c, d;", "  reg [127:0] v;", "  reg [127:0] s;"]
    items += [f'  integer fd{n} = $fopen("d{n}", "rb");' for n in range(16)]
    stms = [f"    c = $fread(v, fd{n}); s = s + v;" for n in range(16)] + ['    if (c == 0) begin $display("%h", s); $finish; end']
    stored = {"s.v": module(items + [block(stms)])}
    stored.update({f"f{n}": bytes([n, 1, 2, 3]) * (FILE // 4) for n in range(16)})
    script = grown(4, lambda t: [], ticks=300_000, files=[(f"d{n}", f"f{n}") for n in range(16)])
    return Case(script=script, stored=stored, tenants=4, held=16)


@case("a tenant that prints 65 MB")
def printed():
    stms = ["    a <= a + 1;"] + ['    $display("%0d %h %b %m %d", a, a, a, a);'] * 64
    return Case(module(["  reg [127:0] a;", block(stms)]), ticks=4000)


# ---- scripts

COUNTER = """module m(input wire k);
  reg [7:0] a;
  always @(posedge k) begin a <= a + 1; if (a == 100) $display("%0d", a); end
endmodule
"""


def grown(tenants, errands, free=(), fabrics=8, room=(AMPLE, AMPLE, AMPLE), ticks=1000, source="s.v", files=()):
    lines = [f"fabric F{f} {room[0]} {room[1]} {room[2]}" for f in range(fabrics)]
    for t in range(tenants):
        lines.append(f"tenant T{t} {source} F{t % fabrics} {ticks}")
        lines += [f"file T{t} {name} {path}" for name, path in files]
        lines += errands(t)
    return "\n".join(lines + list(free)) + "\n"


@case("a script of 64 tenants on 8 fabrics with 256 moves each")
def moves():
    script = grown(64, lambda t: [f"at T{t} {3 * e + 3} move F{(t + e + 1) % 8}" for e in range(some(256))])
    return Case(script=script, stored={"s.v": COUNTER}, tenants=64, fabrics=8, errands=256)


@case("a script of 64 tenants on 8 fabrics with 256 saves each, of as many names")
def saves():
    script = grown(64, lambda t: [f"at T{t} {3 * e + 3} save n{e}" for e in range(some(256))])
    return Case(script=script, stored={"s.v": COUNTER}, tenants=64, fabrics=8, errands=256)


@case("a script of 64 tenants on 8 fabrics, each for one tenant, with 128 moves and 128 saves each")
def lines_of_tenants():
    def errands(t):
        return [f"at T{t} {4 * e + 3} move F{(t + e + 1) % 8}" for e in range(some(128))] + [f"at T{t} {4 * e + 4} save n" for e in range(some(128))]

    return Case(script=grown(64, errands, room=ROOM), stored={"s.v": COUNTER}, tenants=64, fabrics=8, errands=256)


@case("a script of 64 tenants with 256 free orders")
def free_orders():
    free = []
    for n in range(256):
        t = n % 64
        free.append([f"free move T{t} F{n % 8}", f"free save T{t} n{n}", f"free watch T{t}", f"free move T{t} F{n // 8 % 8}"][n // 64])
    return Case(script=grown(64, lambda t: [], free, ticks=20_000), stored={"s.v": COUNTER}, tenants=64, fabrics=8, free=256)


@case("a script of 1,048,576 bytes, nearly all of them comments")
def long_script():
    text = "\n".join([f"fabric F {AMPLE} {AMPLE} {AMPLE}", "tenant A s.v F 100"]) + "\n"
    return Case(script=filled(text, "", line="# " + "a comment" * 100 + "\n", rest="#"), stored={"s.v": COUNTER}, bytes=TEXT)


@case("64 tenants, each a source of 200,000 tokens")
def many_sources():
    return Case(script=grown(64, lambda t: [], ticks=3), stored={"s.v": tokens().source}, tenants=64, fabrics=8)


@case("32 tenants of 4,000 nets each on one fabric, and one that moves to it and back 256 times")
def rebuilt():
    stored = {"s.v": COUNTER, "n.v": chain(lambda x: x)}
    lines = [f"fabric F{f} {AMPLE} {AMPLE} {AMPLE}" for f in range(2)] + [f"tenant T{t} n.v F0 2000" for t in range(some(32))] + ["tenant M s.v F0 2000"]
    lines += [f"at M {5 * e + 3} move F{1 - e % 2}" for e in range(some(256))]
    return Case(script="\n".join(lines) + "\n", stored=stored, tenants=33, fabrics=2, errands=256)


# ---- products of two sizes


@case("4,096 calls of `$display` in a loop, and 16,383 nets over one register")
def calls_and_nets():
    n = some(16_383)
    items = ["  reg [7:0] a;", "  wire [7:0] " + listed("w", n) + ";"]
    items += [f"  assign w{i} = a + {i};" for i in range(n)]
    return Case(module(items + [block(["    a <= a + 1;", f"    repeat ({some(4096)}) $display;"])]), signals=16_384, statements=20_482)


@case("4,096 calls of `$display` in a loop, and 16,384 registers")
def calls_and_signals():
    # the registers of 2,048 instances, so that the source is short
    text = ["module t0(input wire c); reg " + ", ".join(f"r{i}" for i in range(8)) + "; endmodule"] + [f"module t{i}(input wire c); t{i - 1} a(c), b(c); endmodule" for i in range(1, 12)]
    n = [t for t in range(1, 12) if 2**t <= some(2048)][-1]
    items = [f"  t{n} u(k);", block([f"    repeat ({some(4096)}) $display;"])]
    return Case("\n".join(text[: n + 1]) + "\n" + module(items), signals=16_384, instances=4095, statements=4098)


@case("4,096 turns of a nonblocking assignment to a word of a memory and a `$display`")
def calls_and_words():
    return Case(module(["  reg [7:0] m [0:1];", block([f"    repeat ({some(4096)}) begin m[0] <= 1; $display; end"])]), without=["verilator"], statements=12_290)


@case("a `case` of 2,000 items that each hold a `$display`, and 2,000 blocking assignments behind it")
def items_and_statements():
    stms = ["    case (a)"] + [f"      {i}: $display;" for i in range(some(2_000))] + ["    endcase"]
    stms += ["    b = b + a;"] * some(2_000)
    return Case(module(["  reg [15:0] a, b;", block(stms)]), statements=4_002)


@case("two `case`s, one behind the other, of 4,000 items in all that each hold a `$display`")
def two_cases():
    stms = (["    case (a)"] + [f"      {i}: $display;" for i in range(some(2_000))] + ["    endcase"]) * 2
    return Case(module(["  reg [15:0] a;", block(stms)]), statements=4_003)


GROWTH = "functions functions_back lone_functions signals_and_functions blocks nets net_chain_back bits displays calls_and_nets calls_and_signals calls_and_words items_and_statements two_cases".split()


# ---- running


def write(folder, script, stored):
    for name, data in [("script", script), *stored.items()]:
        with open(os.path.join(folder, name), "wb") as it:
            it.write(data if isinstance(data, bytes) else data.encode())


def marks(ran, wanted, seconds):
    found = []
    if ran.status == "late":
        found.append(f"over {seconds:.0f} s, and was stopped")
    elif ran.status != wanted:
        found.append(f"status {wanted} is wanted")
    if ran.status != "late" and ran.cpu > SLOW:
        found.append(f"over {SLOW:.0f} s")
    if ran.peak > LARGE:
        found.append("over 4 GB")
    return "; ".join(found)


def beside(words, folder, ours, memory):
    """Another program's seconds on the same source, and how many times these ours are."""
    ran = measure(words, folder, seconds=THEIRS, memory=memory, kept=2000)
    if ran.status == "late" or ran.cpu > 0.95 * THEIRS:
        return f"over {THEIRS:.0f} s"
    if ran.status != 0:
        return f"ends by {ran.status}"
    return f"{show_seconds(ran.cpu)} ({ours / max(ran.cpu, 0.01):.2g})"


class Wrong(Exception):
    """A case that isn't what it says."""


def made_of(name):
    made = CASES[name][1]()
    try:
        differs = made.differs()
    except (NoSource, KeyError) as found:
        differs = f"it can't be counted: {found}"
    if differs:
        raise Wrong(f"{name}: {differs}")
    return made


def growth(program, names, seconds, memory):
    """Times at three sizes."""
    global SCALE
    found = False
    heads = ["case", "command", "an eighth, s", "a quarter, s", "a half, s", "power", "peaks, MB", "marks"]
    print(table(heads, []), flush=True)
    for name in names:
        took, peaks, row = [], [], []
        for part in (8, 4, 2):
            SCALE = 1 / part
            made = CASES[name][1]()
            words = ["check", "s.v"] if made.source is not None and "check" in program[1:] else ["run", "script"]
            with tempfile.TemporaryDirectory(prefix="at-limits-") as folder:
                write(folder, *made.written())
                ran = measure([program[0], *words], folder, seconds=seconds, memory=memory, kept=100)
            took.append(ran.cpu)
            peaks.append(show_memory(ran.peak))
            row.append(f"{show_seconds(ran.cpu)}{'' if ran.status == 0 else f' ({ran.status})'}")
            if ran.status == "late":
                break
        power = math.log(took[-1] / max(took[-2], 0.01), 2) if len(took) > 1 and took[-1] > 0.2 else 0.0
        row = [name, words[0], *row, *[""] * (3 - len(row)), f"{power:.1f}" if power else "", ", ".join(peaks), "grows" if power > POWER else ""]
        found = found or power > POWER
        print(table(heads, [row]).split("\n")[2], flush=True)
    return 1 if found else 0


def counted(names):
    """What is counted of each source."""
    wrong = False
    for name in names:
        try:
            made = made_of(name)
            said = counts(made.source)._asdict() if made.source is not None else script_counts(made.script)
            print(f"{name}: " + ", ".join(f"{k} {n:,}" for k, n in said.items()), flush=True)
        except Wrong as found:
            print(f"WRONG {found}", flush=True)
            wrong = True
        except NoSource as found:
            print(f"{name}: {found}", flush=True)
    return 1 if wrong else 0


def set_room(program, memory):
    """A fabric for one counter: half as much again as it costs."""
    global ROOM
    with tempfile.TemporaryDirectory(prefix="at-limits-") as folder:
        write(folder, "", {"s.v": COUNTER})
        words = measure([program, "check", "s.v"], folder, memory=memory, kept=400).out.split()
    if len(words) == 4 and words[0] == b"cost":
        ROOM = tuple(int(n) * 3 // 2 for n in words[1:])


def main():
    asks = argparse.ArgumentParser(description="Runs fabhost at its limits.")
    asks.add_argument("program", nargs="?")
    asks.add_argument("names", nargs="*")
    asks.add_argument("--seconds", type=float, default=120)
    asks.add_argument("--memory", type=float, default=8, help="the limit of addresses in GB (with AddressSanitizer there is none)")
    asks.add_argument("--scale", type=float, default=1.0, help="a part of the size of sources, as 0.25; what is counted of them isn't compared then")
    asks.add_argument("--growth", action="store_true", help="prints how times grow with the size")
    asks.add_argument("--no-others", action="store_true", help="without Icarus and Verilator")
    asks.add_argument("--counts", action="store_true", help="makes the sources, and counts them")
    asks.add_argument("--list", action="store_true")
    asks.add_argument("--keep", help="a folder for what is made")
    it = asks.parse_intermixed_args()
    stop_softly()
    if it.list or it.counts:
        names = [n for n in [it.program, *it.names] if n] or list(CASES)
        if it.counts:
            return counted(names)
        print("\n".join(f"{name}: {CASES[name][0]}" for name in names))
        return 0
    if it.program is None:
        asks.print_usage()
        return 2
    program = os.path.abspath(it.program)
    unknown = [n for n in it.names if n not in CASES]
    if unknown or not os.access(program, os.X_OK):
        sys.exit(f"no such cases: {unknown}" if unknown else f"{program} is no program")
    memory = None if has_sanitizer(program) else int(it.memory * (1 << 30)) or None
    if it.growth:
        return max(growth([program, command], it.names or GROWTH, it.seconds, memory) for command in ("check", "run"))
    global SCALE
    SCALE = it.scale
    set_room(program, memory)
    others = [] if it.no_others else [t for t in OTHERS if shutil.which(t)]
    heads = ["case", "what", "command", "status", "seconds", "of the clock", "peak, MB", *[OTHERS[t][0] for t in others], "marks"]
    print(table(heads, []), flush=True)
    runs, marked = 0, 0
    for name in it.names or CASES:
        try:
            made = made_of(name)
        except Wrong as found:
            sys.exit(f"WRONG {found}")
        folder = os.path.join(it.keep, name) if it.keep else tempfile.mkdtemp(prefix="at-limits-")
        os.makedirs(folder, exist_ok=True)
        try:
            write(folder, *made.written())
            commands = [(["check", "s.v"], made.checked)] if made.source is not None else []
            commands.append((["run", "script"], made.ran))
            for words, wanted in commands:
                ran = measure([program, *words], folder, seconds=it.seconds, memory=memory, kept=400)
                mark = marks(ran, wanted, it.seconds)
                theirs = [beside(OTHERS[t][1], folder, ran.cpu, memory) if words[0] == "check" and t not in made.without and made.checked == 0 else "" for t in others]
                what = CASES[name][0] if words == commands[0][0] else ""
                row = [name, what, words[0], ran.status, show_seconds(ran.cpu), show_seconds(ran.clock), show_memory(ran.peak), *theirs, mark]
                print(table(heads, [row]).split("\n")[2], flush=True)
                runs, marked = runs + 1, marked + bool(mark)
        finally:
            if not it.keep:
                shutil.rmtree(folder, ignore_errors=True)
    print(f"\n{runs} runs, {marked} marked", flush=True)
    return 1 if marked else 0


if __name__ == "__main__":
    sys.exit(main())
