#!/usr/bin/env python3
"""Runs fabhost on what is nested as deep as it takes, one level deeper, as deep as the tokens of a source allow, and 100,000 levels.

    tools/too_deep.py PROGRAM [WORD..] [--seconds 120] [--memory 8] [--step 1] [--near] [--marked] [--part 1/1] [--list] [--keep FOLDER]

PROGRAM is a built fabhost. With words only the cases whose names begin with one of them. Sources are run by `check`, and those that are
accepted also in a script of three ticks; of each the answer follows from docs/LANGUAGE.md and docs/FORMATS.md: from its bytes and its
tokens, which tools/counts.py counts, else from its case. Scripts, and a snapshot that is cut at each byte or has one byte changed at
each place (each --step-th), are run by `run`; what is wanted of a snapshot is found by a reader of its format that stands here. A row is
marked where the answer isn't the wanted one, and where it took more than 10 seconds of the processor. A run is stopped after --seconds
of the processor. `--memory` is the limit of the address space in GB, 0 for none (with AddressSanitizer there is none); `--near` leaves
out what is far from a limit; `--part 2/4` runs the second of four parts of it all. Nothing is random.

With --keep no program is run: the sources are written into a folder, with a list of what is wanted of each.

A table is printed, row by row as they are found, and then a line of what was run. The exit status is 1 where a row is marked, else 0.
"""
import argparse
import collections
import os
import shutil
import struct
import sys
import tempfile

sys.dont_write_bytecode = True

from counts import text_answer
from running import has_sanitizer, measure, quick, show_memory, show_seconds, stop_softly, table

AMPLE = 1_000_000_000
FAR = 100_000
CASES = []


class Deep:
    """A source with n levels. `kinds` says what it is answered where its bytes and tokens are within their limits: a kind, then in
    turn the n from which on there is another one, and that. `others` are further n that are tried."""

    def __init__(self, name, make, kinds, others):
        self.name, self.make, self.kinds, self.others = name, make, kinds, others

    def wanted(self, n, text):
        found = text_answer(text)
        if found:
            return found
        found = self.kinds[0]
        for begun, kind in zip(self.kinds[1::2], self.kinds[2::2]):
            found = kind if n >= begun else found
        return found

    def sizes(self, near):
        """At each limit and one past it, and far from them."""
        found = [m for n in self.kinds[1::2] for m in (n - 1, n) if m > 0]
        return found + ([] if near and found else [*self.others, FAR])


def deep(name, *kinds, others=()):
    def add(make):
        CASES.append(Deep(name, make, kinds, others))
        return make

    return add


def module(items):
    return f"module m(input k);\nreg [7:0] a, b; wire [7:0] w;\nreg [7:0] q [0:15];\n{items}\nendmodule\n"


# ---- statements: 128 around a token. The token at which one more begins is refused.


@deep("blocks", "cost", 128, "limit 3", others=(99_000,))
def nested_blocks(n):
    return module("always @(posedge k) " + "begin " * n + "a <= 1; " + "end " * n)


@deep("blocks of a function", "cost", 128, "limit 3", others=(99_000,))
def function_blocks(n):
    return module("function f(input x); " + "begin " * n + "f = x; " + "end " * n + " endfunction")


@deep("empty blocks", "cost", 129, "limit 3", others=(99_000,))
def empty_blocks(n):
    return module("initial " + "begin " * n + "end " * n)


@deep("blocks that nothing ends", "parse", 129, "limit 3", others=(170_000,))
def open_blocks(n):
    return module("initial " + "begin " * n)


@deep("if", "cost", 128, "limit 3", others=(49_000,))
def nested_ifs(n):
    return module("always @(posedge k) " + "if (a) " * n + "a <= 1;")


@deep("if and else", "cost", 128, "limit 3", others=(22_000,))
def else_ifs(n):
    return module("always @(posedge k) " + "if (a) b <= 1; else " * n + "a <= 1;")


@deep("if and else, in a combinational block", "cost", 128, "limit 3", others=(22_000,))
def comb_else_ifs(n):
    return module("always @* " + "if (w) b = 1; else " * n + "b = 2;")


@deep("if in then with else", "cost", 128, "limit 3", others=(22_000,))
def then_ifs(n):
    return module("always @(posedge k) " + "if (a) " * n + "a <= 1;" + " else b <= 1;" * n)


@deep("if that holds a call", "cost", 128, "limit 3", others=(49_000,))
def calling_ifs(n):
    return module("always @(posedge k) " + "if (a) " * n + '$display("x");')


@deep("case", "cost", 128, "limit 3", others=(24_000,))
def cases(n):
    return module("always @(posedge k) " + "case (a) 1: " * n + "a <= 1;" + " endcase" * n)


@deep("for", "cost", 128, "limit 3", others=(9000,))
def loops(n):
    names = [f"i{j}" for j in range(n)]
    return module("integer " + ", ".join(names) + ";\nalways @(posedge k) " + " ".join(f"for ({x} = 0; {x} < 1; {x} = {x} + 1)" for x in names) + " a <= 1;")


@deep("repeat", "cost", 128, "limit 3", others=(49_000,))
def repeats(n):
    return module("always @(posedge k) " + "repeat (1) " * n + "a <= a + 1;")


@deep("repeat (2): 2 to the n-th statements", "cost", 16, "limit 8", 128, "limit 3", others=(49_000,))
def doubled(n):
    return module("always @(posedge k) " + "repeat (2) " * n + "a <= a + 1;")


# ---- expressions: 1,000 tokens


@deep("parentheses", "cost", 500, "limit 4", others=(99_000,))
def parentheses(n):
    return module("assign w = " + "(" * n + "a" + ")" * n + ";")


@deep("parentheses that nothing closes", "parse", 1001, "limit 4", others=(199_000,))
def open_parentheses(n):
    return module("assign w = " + "(" * n + ";")


@deep("unary operators", "cost", 1000, "limit 4", others=(199_000,))
def unaries(n):
    return module("assign w = " + "~ " * n + "a;")


@deep("unary minus in a block", "cost", 1000, "limit 4", others=(199_000,))
def minuses(n):
    return module("always @(posedge k) a <= " + "- " * n + "a;")


@deep("binary operators, to the left", "cost", 500, "limit 4", others=(99_000,))
def sums(n):
    return module("assign w = a" + " + a" * n + ";")


@deep("binary operators, to the right by parentheses", "cost", 250, "limit 4", others=(49_000,))
def right_sums(n):
    return module("assign w = " + "a ^ (" * n + "a" + ")" * n + ";")


@deep("all levels of binary operators, in parentheses", "cost", 46, "limit 4", others=(9000,))
def levels(n):
    return module("assign w = " + "a || a && a | a ^ a & a == a < a << a + a * (" * n + "a" + ")" * n + ";")


@deep("?: to the right", "cost", 250, "limit 4", others=(49_000,))
def choices(n):
    return module("assign w = " + "a ? b : " * n + "a;")


@deep("?: in the middle", "cost", 250, "limit 4", others=(49_000,))
def middle_choices(n):
    return module("assign w = " + "a ? " * n + "a" + " : b" * n + ";")


@deep("?: in the condition, by parentheses", "cost", 167, "limit 4", others=(33_000,))
def condition_choices(n):
    return module("assign w = " + "(" * n + "a" + " ? a : b)" * n + ";")


@deep("concatenations", "cost", 500, "limit 4", others=(99_000,))
def concatenations(n):
    return module("assign w = " + "{" * n + "a" + "}" * n + ";")


@deep("replications", "cost", 200, "limit 4", others=(39_000,))
def replications(n):
    return module("assign w = " + "{1{" * n + "a" + "}}" * n + ";")


@deep("indices", "cost", 334, "limit 4", others=(66_000,))
def indices(n):
    return module("always @(posedge k) a <= " + "q[" * n + "a" + "]" * n + ";")


@deep("indices of bits", "cost", 334, "limit 4", others=(66_000,))
def bit_indices(n):
    return module("always @(posedge k) a <= " + "b[" * n + "a" + "]" * n + ";")


@deep("indices on the left side", "cost", 335, "limit 4", others=(66_000,))
def left_indices(n):
    return module("always @(posedge k) " + "q[" * n + "a" + "]" * n + " <= 1;")


@deep("concatenations on the left side", "cost", 500, "limit 4", others=(99_000,))
def left_concatenations(n):
    return module("always @(posedge k) " + "{" * n + "a" + "}" * n + " <= 1;")


@deep("concatenations on the left side of an assign", "cost", 500, "limit 4", others=(99_000,))
def left_assigns(n):
    return module("assign " + "{" * n + "w" + "}" * n + " = 1;")


@deep("selects of selects", "cost", 2, "construct 4", 334, "limit 4", others=(66_000,))
def selects(n):
    return module("assign w = a" + "[0]" * n + ";")


@deep("calls", "cost", 334, "limit 4", others=(66_000,))
def calls(n):
    return module("function [7:0] f(input [7:0] x); f = x + 1; endfunction\nassign w = " + "f(" * n + "a" + ")" * n + ";")


@deep("$signed", "cost", 334, "limit 4", others=(66_000,))
def signs(n):
    return module("assign w = " + "$signed(" * n + "a" + ")" * n + ";")


@deep("arguments of a $display", "cost", others=(400, 99_000))
def arguments(n):
    return module("always @(posedge k) $display(" + ", ".join(["a"] * n) + ");")


@deep("items of one format", "cost", others=(400, 60_000))
def formats(n):
    return module('always @(posedge k) $display("' + "%d" * n + '", ' + ", ".join(["a"] * n) + ");")


@deep("parts of a concatenation", "cost", 129, "construct 10", 500, "limit 4", others=(99_000,))
def parts(n):
    return module("wire [127:0] v; reg c; assign v = {" + ", ".join(["c"] * n) + "};")


@deep("a replication of n", "cost", 129, "construct 10")
def replicated(n):
    return module("wire [127:0] v; reg c; assign v = {" + str(n) + "{c}};")


@deep("parentheses in a constant", "cost", 500, "limit 4", others=(99_000,))
def constants(n):
    return module("parameter P = " + "(" * n + "1" + ")" * n + ";\nwire [P:0] v;")


@deep("parentheses in a range", "cost", 500, "limit 4", others=(99_000,))
def ranges(n):
    return module("wire [" + "(" * n + "1" + ")" * n + ":0] v;")


@deep("parentheses in a connection", "cost", 500, "limit 4", others=(99_000,))
def connections(n):
    return "module s(input i); endmodule\n" + module("s u(" + "(" * n + "a" + ")" * n + ");")


# ---- instances: 255 bytes of a path


@deep("instances", "cost", 128, "limit 11", others=(14_000,))
def instances(n):
    mods = ["module t0(input k); endmodule"]
    mods += [f"module t{i}(input k); t{i - 1} u(k); endmodule" for i in range(1, n)]
    return "\n".join(mods) + f"\nmodule m(input k); t{n - 1} u(k); endmodule\n"


@deep("instances, modules from the top down", "cost", 128, "limit 11", others=(14_000,))
def instances_down(n):
    return "\n".join(reversed(instances(n).strip().split("\n"))) + "\n"


@deep("instances in a circle", "construct 5", others=(1, 14_000))
def circle(n):
    return "module m(input k); t0 u(k); endmodule\n" + "\n".join(f"module t{i}(input k); t{(i + 1) % n} u(k); endmodule" for i in range(n)) + "\n"


# the path of the 128th instance that is met, at the 128th level, is too long before there are 4,097 of them
@deep("two instances a level: 2 to the n-th", "cost", 12, "limit 5", 128, "limit 11", others=(16, 32, 60, 64, 100, 10_000))
def trees(n):
    mods = ["module t0(input k); endmodule"] + [f"module t{i}(input k); t{i - 1} u(k), v(k); endmodule" for i in range(1, n)]
    return "\n".join(mods) + f"\nmodule m(input k); t{n - 1} u(k), v(k); endmodule\n"


@deep("instances through which a net goes", "cost", 127, "limit 11", others=(9000,))
def through(n):
    mods = ["module t0(input i, output o); assign o = !i; endmodule"]
    mods += [f"module t{i}(input i, output o); t{i - 1} u(i, o); endmodule" for i in range(1, n)]
    return "\n".join(mods) + f"\nmodule m(input k); reg a; wire w; t{n - 1} u(a, w); endmodule\n"


# ---- functions


def mixed(n):
    """The numbers below n in an order that has little of theirs."""
    step = next(p for p in (7919, 7907, 104_729, 1) if n % p)
    return [i * step % n for i in range(n)]


@deep("functions that call the one before", "cost", others=(1000, 12_000, 13_300))
def functions(n):
    fs = ["function f0(input x); f0 = x; endfunction"] + [f"function f{i}(input x); f{i} = f{i - 1}(x); endfunction" for i in range(1, n)]
    return module("\n".join(fs) + f"\nassign w = f{n - 1}(a[0]);")


@deep("functions that call the one behind", "cost", others=(1000, 12_000, 13_300))
def functions_down(n):
    fs = [f"function f{i}(input x); f{i} = f{i + 1}(x); endfunction" for i in range(n - 1)] + [f"function f{n - 1}(input x); f{n - 1} = x; endfunction"]
    return module("\n".join(fs) + "\nassign w = f0(a[0]);")


@deep("functions that call one another, in a mixed order", "cost", others=(1000, 12_000, 13_300))
def functions_mixed(n):
    fs = ["function f0(input x); f0 = x; endfunction"] + [f"function f{i}(input x); f{i} = f{i - 1}(x); endfunction" for i in range(1, n)]
    return module("\n".join(fs[i] for i in mixed(n)) + f"\nassign w = f{n - 1}(a[0]);")


@deep("functions beside one another, of which one more calls each twelfth", "cost", others=(1000, 12_000))
def functions_beside(n):
    fs = [f"function f{i}(input x); f{i} = x; endfunction" for i in range(n)]
    calls = " ".join(f"g = g ^ f{i}(x);" for i in range(n // 12))
    return module("\n".join(fs) + f"\nfunction g(input x); begin g = x; {calls} end endfunction\nassign w = g(a[0]);")


@deep("functions that call the one before twice", "cost", 17, "limit 8", others=(9000,))
def double_functions(n):
    fs = ["function f0(input x); f0 = x; endfunction"] + [f"function f{i}(input x); f{i} = f{i - 1}(x) ^ f{i - 1}(x); endfunction" for i in range(1, n)]
    return module("\n".join(fs) + f"\nassign w = f{n - 1}(a[0]);")


@deep("functions in a circle", "construct 20", others=(1, 12_000))
def function_circle(n):
    fs = [f"function f{i}(input x); f{i} = f{(i + 1) % n}(x); endfunction" for i in range(n)]
    return module("\n".join(fs) + "\nassign w = f0(a[0]);")


# ---- nets


@deep("a chain of nets", "cost", 16_381, "limit 6", others=(1000, 28_000))
def nets(n):
    return module("wire " + ", ".join(f"w{i}" for i in range(n)) + ";\n" + "\n".join(f"assign w{i} = {f'w{i + 1}' if i + 1 < n else 'a'};" for i in range(n)))


@deep("a circle of nets", "loop", 16_381, "limit 6", others=(1, 2, 28_000))
def net_circle(n):
    return module("wire " + ", ".join(f"w{i}" for i in range(n)) + ";\n" + "\n".join(f"assign w{i} = w{(i + 1) % n};" for i in range(n)))


@deep("a chain of parameters", "cost", others=(1000, 27_000))
def parameters(n):
    return module("parameter P0 = 1;\n" + "\n".join(f"parameter P{i} = P{i - 1} + 1;" for i in range(1, n)) + f"\nassign w = P{n - 1};")


# ---- texts


@deep("comments in a comment", "cost", others=(1000, 300_000))
def comments(n):
    return module("/* " * n + "*/")


@deep("attributes in an attribute", "cost", others=(1000, 300_000))
def attributes(n):
    return module("(* " * n + "*)")


@deep("comments, one behind the other", "cost", others=(1000, 200_000))
def many_comments(n):
    return module("/**/\n" * n)


@deep("lines", "cost", others=(1000, 1_000_000))
def lines(n):
    return module("\n" * n)


@deep("a line of n blanks", "cost", others=(1000, 1_000_000))
def blanks(n):
    return module(" " * n)


@deep("bytes of a source", "cost", others=(1000, 1_048_576, 1_048_577, 2_097_152, 2_097_153))
def size(n):
    text = module("")
    return text + " " * (n - len(text))


# each `;` is a statement
@deep("tokens of a source, nearly all of them null statements", "cost", 100_019, "limit 8", others=(200_000, 200_001))
def tokens(n):
    return "module m(input k); reg a; always @(posedge k) begin " + ";" * (n - 19) + " end endmodule\n"


@deep("tokens of a source, nearly all of them of sums", "cost", others=(1000, 199_999, 200_000, 200_001))
def sum_tokens(n):
    front, back = "module m(input k); reg [7:0] a; always @(posedge k) begin ", "end endmodule\n"
    whole, rest = divmod(n - 24, 1002)
    last = "; " if rest % 2 else ""
    rest -= rest % 2
    if rest >= 4:
        last += "a <= a" + " + a" * (rest // 2 - 2) + ";\n"
    else:
        last += "; " * rest
    return front + ("a <= a" + " + a" * 499 + ";\n") * whole + last + back


@deep("a name of a register, bytes", "cost", 254, "limit 11", others=(1_000_000,))
def names(n):
    return f"module m(input k); reg {'x' * n}; endmodule\n"


@deep("an escaped name, bytes", "cost", 254, "limit 11", others=(1_000_000,))
def escaped(n):
    return f"module m(input k); reg \\{'%' * n} ; endmodule\n"


@deep("a name of a parameter, bytes", "cost", others=(1000, 500_000))
def parameter_names(n):
    return f"module m(input k); parameter {'x' * n} = 1; wire w = {'x' * n}; endmodule\n"


@deep("a name of a function, bytes", "cost", others=(1000, 500_000))
def function_names(n):
    return f"module m(input k); function {'x' * n}(input y); {'x' * n} = y; endfunction endmodule\n"


@deep("a name of a module, bytes", "cost", 254, "limit 11", others=(1_000_000,))
def module_names(n):
    return f"module {'x' * n}(input k); wire w; endmodule\n"


@deep("a system name, bytes", "construct 9", others=(1000, 1_000_000))
def system_names(n):
    return f"module m(input k); initial ${'x' * n}; endmodule\n"


@deep("digits of an unsized number that is 0", "cost", others=(1000, 1_000_000))
def zeros(n):
    return f"module m(input k); wire w = {'0' * n}; endmodule\n"


@deep("digits of an unsized number", "cost", 10, "lex 5", others=(1_000_000,))
def digits(n):
    return f"module m(input k); wire w = {'9' * n}; endmodule\n"


@deep("digits of a sized number, base d", "cost", others=(1000, 1_000_000))
def sized_digits(n):
    return f"module m(input k); wire w = 128'd{'9' * n}; endmodule\n"


@deep("digits of a sized number, base h", "cost", others=(1000, 1_000_000))
def hex_digits(n):
    return f"module m(input k); wire w = 128'h{'f' * n}; endmodule\n"


@deep("digits of a label of a casez", "cost", others=(1000, 1_000_000))
def label_digits(n):
    return f"module m(input k); reg a; always @(posedge k) casez (a) 128'b{'z' * n}: a <= 1; endcase endmodule\n"


@deep("digits of a size", "cost", others=(1000, 1_000_000))
def size_digits(n):
    return f"module m(input k); wire w = {'0' * n}8'd1; endmodule\n"


@deep("underscores in a number", "cost", others=(1000, 1_000_000))
def underscores(n):
    return f"module m(input k); wire w = 1{'_' * n}; endmodule\n"


@deep("a string that is printed, bytes", "cost", others=(1000, 1_000_000))
def strings(n):
    return f"module m(input k); initial $display(\"{'x' * n}\"); endmodule\n"


@deep("a string operand, bytes", "cost", 17, "construct 24", others=(1_000_000,))
def operands(n):
    return f"module m(input k); initial $display(\"%s\", \"{'x' * n}\"); endmodule\n"


@deep("a string of escapes", "cost", others=(1000, 250_000))
def escapes(n):
    return "module m(input k); initial $display(\"" + "\\101" * n + "\"); endmodule\n"


@deep("a string of % items without an argument", "construct 9", others=(1, 500_000))
def items(n):
    return "module m(input k); initial $display(\"" + "%d" * n + "\"); endmodule\n"


@deep("a string of %m", "cost", others=(1000, 500_000))
def paths(n):
    return "module m(input k); initial $display(\"" + "%m" * n + "\"); endmodule\n"


@deep("a name of a file, bytes", "cost", others=(1000, 1_000_000))
def file_names(n):
    return f"module m(input k); integer fd = $fopen(\"{'x' * n}\", \"r\"); endmodule\n"


@deep("a name of a snapshot, bytes", "cost", 33, "construct 9", others=(1_000_000,))
def snapshot_names(n):
    return f"module m(input k); always @(posedge k) $save(\"{'x' * n}\"); endmodule\n"


@deep("names of snapshots", "cost", 17, "limit 10", others=(39_000,))
def snapshots(n):
    return "module m(input k); always @(posedge k) begin " + " ".join(f'$save("n{i}");' for i in range(n)) + " end endmodule\n"


@deep("open brackets of all kinds", "parse", others=(1, 60_000))
def brackets(n):
    return module("assign w = " + "([{" * n + ";")


@deep("words of a memory", "cost", 65_537, "limit 7")
def words(n):
    return f"module m(input k); reg [127:0] q [0:{n - 1}]; endmodule\n"


@deep("words of all memories", "cost", 262_145, "limit 7", others=(1_000_000,))
def all_words(n):
    sizes = [65_536] * (n // 65_536) + [n % 65_536] * (n % 65_536 > 0)
    return "module m(input k); " + " ".join(f"reg q{i} [0:{w - 1}];" for i, w in enumerate(sizes)) + " endmodule\n"


@deep("turns of a loop", "cost", 4097, "limit 8")
def turns(n):
    return module(f"integer i; always @(posedge k) for (i = 0; i < {n}; i = i + 1) a <= i;")


@deep("turns of a repeat", "cost", 4097, "limit 8")
def repeat_turns(n):
    return module(f"always @(posedge k) repeat ({n}) a <= a + 1;")


@deep("instances side by side", "cost", 4097, "limit 5", others=(39_000,))
def side_by_side(n):
    return "module s(input k); endmodule\nmodule m(input k); s " + ", ".join(f"u{i}(k)" for i in range(n)) + "; endmodule\n"


@deep("signals", "cost", 16_385, "limit 6", others=(99_000,))
def signals(n):
    return "module m(input k); wire " + ", ".join(f"w{i}" for i in range(n)) + "; endmodule\n"


# ---- running sources

HEADS = ["what", "how many", "command", "status", "what it says", "seconds of the processor", "peak, MB", "marks"]
SLOW = 10.0


class Tool:
    def __init__(self, program, seconds, memory, marked):
        self.program, self.seconds, self.memory, self.marked = program, seconds, memory, marked
        self.folder = tempfile.mkdtemp(prefix="too-deep-")
        self.runs, self.differ, self.slowest = collections.Counter(), 0, (0.0, "nothing")
        print(table(HEADS, []), flush=True)

    def write(self, stored):
        for name, data in stored.items():
            with open(os.path.join(self.folder, name), "wb") as it:
                it.write(data if isinstance(data, bytes) else data.encode())

    def run(self, kind, *words):
        self.runs[kind] += 1
        return measure([self.program, *words], self.folder, seconds=self.seconds, memory=self.memory, kept=4000)

    def row(self, what, how, command, ran, said, mark):
        """Prints a row as it is found."""
        if not mark and ran.cpu > SLOW:
            mark = f"over {SLOW:.0f} s"
        self.slowest = max(self.slowest, (ran.cpu, f"{what}, {how}"))
        self.tell([what, how, command, ran.status, said, show_seconds(ran.cpu), show_memory(ran.peak), mark])

    def tell(self, row):
        self.differ += bool(row[-1])
        if row[-1] or not self.marked:
            print(table(HEADS, [row]).split("\n")[2], flush=True)


SCRIPT = f"fabric F {AMPLE} {AMPLE} {AMPLE}\ntenant A s.v F 3\n"


def kind_of(ran):
    """What `check` said: `cost`, the kind of the refusal, or `toolong`."""
    words = ran.out.decode("latin-1").split()
    if words[:1] == ["cost"] and len(words) == 4:
        return "cost"
    if words[:1] == ["refused"]:
        return " ".join(words[3:])
    return "toolong" if words == ["read", "s.v", "toolong"] else ran.out[:60].decode("latin-1")


STATUSES = {"cost": 0, "toolong": 5}


def ended(tool, ran):
    """A mark where a run has no answer at all."""
    if ran.status == "late":
        return f"over {tool.seconds:.0f} s, and was stopped"
    return "" if ran.status in (0, 3, 4, 5) else f"ends by {ran.status}"


def try_sources(tool, cases, near):
    for case in cases:
        for n in dict.fromkeys(case.sizes(near)):
            text = case.make(n)
            wanted = case.wanted(n, text)
            tool.write({"s.v": text, "script": SCRIPT})
            ran = tool.run("sources by check", "check", "s.v")
            said = kind_of(ran)
            mark = ended(tool, ran) or ("" if said == wanted and ran.status == STATUSES.get(wanted, 3) else "differs")
            tool.row(case.name, f"{n:,}", "check", ran, said, f"{mark}: {wanted} is wanted" if mark else "")
            if ran.status == 0:
                ran = tool.run("sources by run", "run", "script")
                said = " ".join(ran.out[:60].decode("latin-1").split("\n")[0].split())
                mark = ended(tool, ran) or ("" if ran.status == 0 and said.startswith("tenant A budget 3 ") else "a run of 3 ticks is wanted")
                tool.row(case.name, f"{n:,}", "run", ran, said, mark)


def keep(folder, cases, near):
    """Writes the sources, and what is wanted of each."""
    os.makedirs(folder, exist_ok=True)
    for number, case in enumerate(cases):
        for n in dict.fromkeys(case.sizes(near)):
            text = case.make(n)
            path = os.path.join(folder, f"{number:02}-{n}.v")
            with open(path, "w", encoding="utf-8") as it:
                it.write(text)
            print(f"{path}: {case.name}: {case.wanted(n, text)}", flush=True)


# ---- scripts

MODULE = "module m(input k);\n  reg [7:0] a;\n  always @(posedge k) a <= a + 1;\nendmodule\n"


def scripts():
    """Name, script, what it prints (None: nothing is wanted), status."""
    f, t = f"fabric F {AMPLE} {AMPLE} {AMPLE}\n", "tenant A s.v F 3\n"
    yield "a comment of 1,024 bytes", f + t + "#" * 1024 + "\n", None, 0
    yield "a comment of 1,025 bytes", f + t + "#" * 1025 + "\n", "script 3 8", 4
    yield "a line of 1 MiB", "x" * 1_048_576, "script 1 8", 4
    yield "a line of 1 MiB of blanks", " " * 1_048_576, "script 1 8", 4
    yield "a script of 1 MiB and a byte", "\n" * 1_048_577, "read script toolong", 5
    yield "1,048,576 empty lines", "\n" * 1_048_576, "script 1048577 9", 4
    yield "10,000 empty lines and a script", "\n" * 10_000 + f + t, None, 0
    yield "10,000 lines of a comment", f + t + "# x\n" * 10_000, None, 0
    yield "10,000 carriage returns", f + t + "\r\n" * 10_000, None, 0
    yield "10,000 tenants", f + "".join(f"tenant T{i} s.v F 3\n" for i in range(10_000)), "script 66 7", 4
    yield "10,000 fabrics", "".join(f"fabric F{i} 1 1 1\n" for i in range(10_000)), "script 9 7", 4
    yield "10,000 errands", f + t + "".join(f"at A {i} save x\n" for i in range(10_000)), "script 259 7", 4
    yield "10,000 files", f + t + "".join(f"file A x{i} s.v\n" for i in range(10_000)), "script 19 7", 4
    yield "10,000 free orders", f + t + "free watch A\n" * 10_000, "script 259 7", 4
    yield "256 free orders", f + t + "free watch A\n" * 256, None, 0
    yield "a name of 32 bytes", f + f"tenant {'x' * 32} s.v F 3\n", None, 0
    yield "a name of 33 bytes", f + f"tenant {'x' * 33} s.v F 3\n", "script 2 2", 4
    yield "a name of 10,000 bytes", f + f"tenant {'x' * 10_000} s.v F 3\n", "script 2 8", 4
    yield "a path of 255 bytes", f + f"tenant A {'x' * 255} F 3\n", f"read {'x' * 255} notthere", 5
    yield "a path of 256 bytes", f + f"tenant A {'x' * 256} F 3\n", "script 2 2", 4
    yield "a path of 241 bytes, up to the root", f + f"tenant A {'../' * 80}x F 3\n", None, 5
    yield "a number of 10 digits", f + "tenant A s.v F 1000000000\nat A 3 stop\n", None, 0
    yield "a number above 1,000,000,000", f + "tenant A s.v F 1000000001\n", "script 2 3", 4
    yield "a number of 900 digits", f + f"tenant A s.v F {'1' * 900}\n", "script 2 3", 4
    yield "500 words", f + "x " * 500 + "\n", "script 2 1", 4
    yield "no byte", "", "script 1 9", 4
    yield "bytes of 0", "\0" * 1000, "script 1 8", 4
    yield "a source that is a folder", f + "tenant A . F 3\n", "read . failed", 5
    yield "a tenant's source that is the script", f + "tenant A script F 3\n", "refused A 1 1 parse", 3


def try_scripts(tool):
    tool.write({"s.v": MODULE})
    for name, script, said, wanted in scripts():
        tool.write({"script": script})
        ran = tool.run("scripts", "run", "script")
        first = ran.out.decode("latin-1").split("\n")[0]
        mark = ended(tool, ran) or ("" if ran.status == wanted and said in (None, first) else f"status {wanted}{f' with {said}' if said else ''} is wanted")
        tool.row("scripts", name, "run", ran, first[:60], mark)


# ---- snapshots

SAVED = """module m(input k);
  reg [7:0] c; reg signed [127:0] w; reg [2:0] t; reg [11:0] q [0:3];
  integer fd = $fopen("data", "rb"), g = $fopen("data", "r"), d;
  always @(posedge k) begin
    d = $fgetc(fd); c <= c + d; w <= w - d; t <= t + 3; q[c] <= d;
    $display("%0d %0d %0d %0d %0d", c, w, t, q[0], d);
  end
endmodule
"""
# name, width and words of its rows; its files; the ticks of the script
ROWS = [(b"m.c", 8, 0), (b"m.w", 128, 0), (b"m.t", 3, 0), (b"m.q", 12, 4), (b"m.fd", 32, 0), (b"m.g", 32, 0), (b"m.d", 32, 0)]
DATA = bytes([65, 1, 255, 0, 9, 200, 3, 7])
TICKS = 6


class Fault(Exception):
    pass


def resumes(data):
    """What is wanted of these bytes: `runs`, or the fault, by docs/FORMATS.md: the fields in order, each once it is whole."""
    at = 0

    def field(size):
        nonlocal at
        if at + size > len(data):
            raise Fault("snapshot 3")
        at += size
        return data[at - size : at]

    def number(size, passes, kind):
        value = int.from_bytes(field(size), "big")
        if not passes(value):
            raise Fault(f"snapshot {kind}")
        return value

    try:
        if field(8) != b"FABSNAP\n":
            raise Fault("snapshot 1")
        number(4, lambda n: n == 1, 2)
        tick = number(8, lambda n: True, 0)
        number(4, lambda n: n == len(ROWS), 5)
        for name, width, words in ROWS:
            number(2, lambda n: n == len(name), 5)
            if field(len(name)) != name:
                raise Fault("snapshot 5")
            number(1, lambda n: n == width, 5)
            number(4, lambda n: n == words, 5)
        for _, width, words in ROWS:
            for _ in range(max(1, words)):
                number((width + 7) // 8, lambda n: n < 1 << width, 6)
        least = 0
        for _ in range(number(1, lambda n: True, 0)):
            least = number(1, lambda n: least <= n <= 15, 7) + 1
            if field(number(2, lambda n: True, 0)) != b"data":
                raise Fault("snapshot 7")
            number(8, lambda n: n <= len(DATA), 7)
            number(1, lambda n: n <= 1, 7)
        if at < len(data):
            raise Fault("snapshot 4")
    except Fault as found:
        return str(found)
    return "runs" if tick <= TICKS else "snapshot 8"


def try_snapshots(tool, step):
    at = f"fabric F {AMPLE} {AMPLE} {AMPLE}\ntenant A s.v F {TICKS}\nfile A data data\n"
    for name in os.listdir(tool.folder):
        os.unlink(os.path.join(tool.folder, name))
    tool.write({"s.v": SAVED, "data": DATA, "save": at + "at A 3 save s\n", "resume": at + "resume A snap\n"})
    ran = tool.run("snapshots", "run", "save")
    try:
        with open(os.path.join(tool.folder, "A.s"), "rb") as it:
            whole = it.read()
    except OSError:
        tool.row("snapshots", "the one that is changed", "run", ran, "", "no snapshot is saved")
        return

    def resumed(data):
        tool.write({"snap": data})
        tool.runs["snapshots"] += 1
        return quick([tool.program, "run", "resume"], tool.folder, tool.seconds, tool.memory)

    def count(what, datas):
        """Runs each, and counts the answers."""
        seen, bad, slowest = collections.Counter(), [], 0.0
        for place, data in datas:
            ran = resumed(data)
            words = ran.out.decode("latin-1").split()
            said = " ".join(words[4:]) if words[:4] == ["refused", "A", "0", "0"] else "runs" if words[:4] == ["tenant", "A", "budget", "6"] else "toolong" if words == ["read", "snap", "toolong"] else "?"
            wanted = resumes(data) if len(data) <= 16 << 20 else "toolong"
            seen[said] += 1
            slowest = max(slowest, ran.clock)
            if said != wanted or ran.status != {"runs": 0, "toolong": 5}.get(wanted, 3):
                bad.append(f"at byte {place}: status {ran.status}, {said}, and {wanted} is wanted")
        answers = ", ".join(f"{n} {said}" for said, n in sorted(seen.items()))
        mark = f"{len(bad)} differ; the first {bad[0]}" if bad else ""
        if not mark and slowest > SLOW:
            mark = f"over {SLOW:.0f} s"
        tool.tell(["snapshots", f"{what}: {sum(seen.values())} runs", "run", "", answers, f"{slowest:.2f} of the clock, the slowest", "", mark])

    n = len(whole)
    count("the whole", [(n, whole)])
    count("cut at a byte", [(p, whole[:p]) for p in range(0, n, step)])
    count("bytes behind it", [(n + k, whole + b"\0" * k) for k in (1, 2, 1000, 1_000_000, (16 << 20) - n, (16 << 20) - n + 1)])
    for how, change in [("one bit", lambda b: b ^ 1), ("the highest bit", lambda b: b ^ 128), ("to 255", lambda b: 255 if b != 255 else 254), ("to 0", lambda b: 0 if b else 1)]:
        count(f"a byte changed, {how}", [(p, whole[:p] + bytes([change(whole[p])]) + whole[p + 1 :]) for p in range(0, n, step)])
    # the length of the first row's name stands behind mark, version, tick and the number of rows
    count("the first name of another length", [(24, whole[:24] + struct.pack(">H", k) + whole[26:]) for k in (0, 1, 2, 4, 255, 65535)])
    count("another number of rows", [(20, whole[:20] + struct.pack(">I", k) + whole[24:]) for k in (0, 1, 6, 8, 65535, 65536, (1 << 32) - 1)])
    count("another tick", [(12, whole[:12] + struct.pack(">Q", k) + whole[20:]) for k in (0, 1, 5, 6, 7, 1_000_000_000, 1 << 32, 1 << 63, (1 << 64) - 1)])
    end = n - 2 * (1 + 2 + 4 + 8 + 1) - 1
    count("another number of open files", [(end, whole[:end] + bytes([k]) + whole[end + 1 :]) for k in (0, 1, 3, 16, 17, 255)])
    count("a file's place", [(end + 8, whole[: end + 8] + struct.pack(">Q", k) + whole[end + 16 :]) for k in (0, 7, 8, 9, 1 << 32, (1 << 64) - 1)])


def main():
    asks = argparse.ArgumentParser(description="Runs fabhost on what is too deep.")
    asks.add_argument("program", nargs="?")
    asks.add_argument("words", nargs="*")
    asks.add_argument("--seconds", type=float, default=120)
    asks.add_argument("--memory", type=float, default=8)
    asks.add_argument("--step", type=int, default=1)
    asks.add_argument("--near", action="store_true", help="at the limit and one past it alone")
    asks.add_argument("--marked", action="store_true", help="prints the rows with a mark alone")
    asks.add_argument("--part", default="1/1")
    asks.add_argument("--list", action="store_true", help="prints the names, with the n that are tried")
    asks.add_argument("--keep", help="a folder for the sources; nothing is run")
    it = asks.parse_intermixed_args()
    stop_softly()
    words = it.words if it.program is None or not (it.list or it.keep) else [it.program, *it.words]
    asked = lambda name: not words or any(name.startswith(w) for w in words)
    part, parts = map(int, it.part.split("/"))
    cases = [c for c in CASES if asked(c.name)][part - 1 :: parts]
    if it.list or (it.program is None and not it.keep):
        print("\n".join([f"{c.name}: " + ", ".join(f"{n:,}" for n in dict.fromkeys(c.sizes(it.near))) for c in cases] + [w for w in ("scripts", "snapshots") if asked(w)]))
        return 0 if it.list else 2
    if it.keep:
        keep(it.keep, cases, it.near)
        return 0
    program = os.path.abspath(it.program)
    if not os.access(program, os.X_OK):
        sys.exit(f"{program} is no program")
    tool = Tool(program, it.seconds, None if has_sanitizer(program) else int(it.memory * (1 << 30)) or None, it.marked)
    whole = False
    try:
        try_sources(tool, cases, it.near)
        if asked("scripts") and part == 1:
            try_scripts(tool)
        if asked("snapshots") and part == parts:
            try_snapshots(tool, it.step)
        whole = True
    finally:
        shutil.rmtree(tool.folder, ignore_errors=True)
        runs = ", ".join(f"{n:,} {what}" for what, n in tool.runs.items())
        print(f"\n{'' if whole else 'stopped before its end: '}{sum(tool.runs.values()):,} runs ({runs}); {tool.differ} marked; the slowest took {tool.slowest[0]:.1f} s ({tool.slowest[1]})", flush=True)
    return 1 if tool.differ else 0


if __name__ == "__main__":
    sys.exit(main())
