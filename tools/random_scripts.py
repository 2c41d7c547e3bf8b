#!/usr/bin/env python3
"""Random scripts for fabhost, by a seeded generator: fabrics, some of them tight; tenants with small Verilog sources, files, errands
and snapshots to resume from; and free orders in a share of the scripts.

`make(rng, pool, costs_of)` gives a `Case`. `pool` has `Kept`s: snapshots that earlier cases saved. `costs_of(sources)` gives
for each source its cost (bits of registers, cells, bits of memories), or None where the source is refused; capacities are chosen by it.
Alone, `random_scripts.py SEED COUNT FOLDER` writes COUNT cases, with costs as a rough guess, into FOLDER/000, FOLDER/001, ..
"""
import dataclasses
import os
import random
import sys

AMPLE = 1_000_000_000


@dataclasses.dataclass
class Kept:
    """A snapshot, with what it was saved from: the source's text, the tenant's files (a list of name and bytes) and its budget."""

    bytes: bytes
    source: bytes
    files: list
    tick: int
    budget: int
    is_exact: bool = True


@dataclasses.dataclass
class Tenant:
    """What a script says of a tenant. Errands are (tick, 'move', F), (tick, 'save', NAME) or (tick, 'stop', ''), in the lines' order."""

    name: str
    source: bytes
    fabric: int
    budget: int
    files: list = dataclasses.field(default_factory=list)
    resume: bytes = None
    kept: Kept = None
    errands: list = dataclasses.field(default_factory=list)
    path: str = ""
    resume_path: str = ""
    file_paths: list = dataclasses.field(default_factory=list)


@dataclasses.dataclass
class Case:
    """A script with its files. `fabrics` are (name, registers, cells, memory); `free` are (word, tenant's number, fabric's number or name).
    `wanted` is None, or the status and the text that a faulty script or a missing file gives."""

    fabrics: list
    tenants: list
    free: list
    script: bytes = b""
    stored: dict = dataclasses.field(default_factory=dict)
    wanted: tuple = None


# ---- sources


def literal(rng, width):
    """A number below 2^width as Verilog has it."""
    kind = rng.randrange(4)
    low = rng.getrandbits(rng.randint(1, width))
    if kind == 0:
        return f"{width}'d{low}"
    if kind == 1:
        return f"{width}'h{rng.getrandbits(width):x}"
    if kind == 2:
        return f"{width}'b{rng.getrandbits(min(width, 12)):b}"
    return str(low % 200)


def counter(rng):
    """A counter that prints each few ticks, and finishes or saves now and then."""
    width = rng.choice([3, 4, 8, 8, 16, 32, 64])
    step, every = rng.randint(1, 9), rng.choice([1, 1, 1, 2, 3, 5])
    lines = [f"reg [{width - 1}:0] c = {literal(rng, width)};", "reg [31:0] n = 0;", "always @(posedge clk) begin"]
    form = rng.choice(["%0d", "%d", "%h", "%b", "c=%0h", "%0o|%0d"])
    args = ", ".join(["c"] * form.count("%"))
    lines.append(f'if (n % {every} == 0) ${rng.choice(["display", "display", "write"])}("{form}", {args});')
    lines.append(f"c <= c {rng.choice('+-^')} {step}; n <= n + 1;")
    if rng.random() < 0.4:
        lines.append(f"if (n == {rng.randint(0, 60)}) $finish;")
    if rng.random() < 0.4:
        lines.append(f'if (n % {rng.randint(2, 25)} == {rng.randint(0, 3)}) $save("{rng.choice(["two", "s", "a.b", "x-1"])}");')
    return module(rng, lines + ["end"])


def module(rng, lines, clk="clk", before=""):
    name = rng.choice(["m", "top", "t", "main"])
    gap = rng.choice(["\n", "\n  ", " "])
    return before + f"module {name}(input wire {clk});\n" + gap.join(lines) + "\nendmodule\n"


def memory(rng):
    """A linear congruential generator stirs a memory, of which it shows words."""
    bits = rng.choice([2, 3, 4, 6, 8])
    size, width = 1 << bits, rng.choice([1, 5, 8, 32, 40])
    lines = [
        f"reg [31:0] s = {rng.randint(1, 99)};",
        f"reg [{width - 1}:0] m [{rng.choice([f'0:{size - 1}', f'{size - 1}:0'])}];",
        "integer k; reg [7:0] p = 0;",
        f"initial for (k = 0; k < {size}; k = k + 1) m[k] = k * {rng.randint(0, 9)};",
        "always @(posedge clk) begin",
        f"s <= s * 32'd1664525 + 32'd{rng.randint(1, 1 << 30)};",
        f"m[p] <= m[s[{bits + 7}:8]] {rng.choice('+^-')} s;",
        f"p <= p + {rng.choice([1, 1, 3])};",
        f'if (p % {rng.randint(1, 9)} == 0) $display("%h %0d", s, m[p{rng.choice(["", " ^ 1", " + s[3:0]"])}]);',
    ]
    if rng.random() < 0.5:
        lines.append(f'if (p == {rng.randint(1, 40)}) $save("mem");')
    return module(rng, lines + ["end"])


def edges(rng):
    """Two blocks or three, on both edges, and nets between them."""
    lines = [
        f"reg [7:0] a = {rng.randint(0, 255)}, b = {rng.randint(0, 255)};",
        f"reg signed [9:0] d = {rng.randint(-200, 200)};",
        f"wire [8:0] w = a + b; wire less = d < {rng.randint(-100, 100)};",
        f"always @({rng.choice(['posedge', 'negedge'])} clk) begin a <= b {rng.choice('+-^')} {rng.randint(1, 9)}; $display(\"a %0d %0d\", a, w); end",
        f"always @({rng.choice(['posedge', 'negedge'])} clk) begin b <= a; if (less) $write(\"b%0d \", b); end",
    ]
    if rng.random() < 0.6:
        lines.append(f"always @(negedge clk) begin d = d * {rng.randint(-3, 3)} - {rng.randint(0, 30)}; $display(\"d %0d %b %0d\", d, less, $time); end")
    if rng.random() < 0.3:
        lines.append(f"always @(negedge clk) if (w == {rng.randint(0, 300)} || $time >= {rng.randint(1, 80)}) $finish({rng.randint(0, 2)});")
    return module(rng, lines)


def functions(rng):
    """Functions, one of which calls another."""
    lines = [
        f"reg [7:0] x = {rng.randint(0, 255)};",
        "wire [3:0] n;",
        "function [3:0] set(input [7:0] b); integer i; begin set = 0; for (i = 0; i < 8; i = i + 1) set = set + b[i]; end endfunction",
        f"function automatic signed [7:0] turn(input [7:0] b, input up); reg [7:0] t; begin t = b {rng.choice(['<<', '>>', '>>>'])} {rng.randint(0, 4)}; if (up) turn = t + set(b); else turn = t - set(~b); end endfunction",
        "assign n = set(x);",
        "always @(posedge clk) begin",
        f'$display("{rng.choice(["%d %h %0d", "%0d|%b|%0d", "%c%0o%d"])}", x, turn(x, n[0]), n);',
        f"x <= x + {rng.randint(1, 40)} + turn(x, 1'b{rng.randint(0, 1)});",
    ]
    if rng.random() < 0.3:
        lines.append(f'if (n == {rng.randint(0, 8)}) $save("f");')
    if rng.random() < 0.2:
        lines.append(f"if (x == {rng.randint(0, 255)}) $finish;")
    return module(rng, lines + ["end"])


def characters(rng):
    """A file read byte by byte, to its end or again and again."""
    end = rng.choice(["$finish;", "begin $fclose(fd); fd = $fopen(\"data\", \"r\"); end", 'if ($feof(fd)) $write("<eof>");', "$fclose(fd);"])
    lines = [
        f'integer fd = $fopen("{rng.choice(["data", "data", "data", "gone"])}", "{rng.choice(["r", "rb"])}"); integer c; reg [31:0] sum = 0;',
        "always @(posedge clk) begin c = $fgetc(fd);",
        f"if (c < 0) {end}",
        f'else begin sum = sum * {rng.randint(1, 99)} + c; $write("{rng.choice(["%c", "%0d ", "%h,"])}", c[7:0]); end',
        f"if (sum[{rng.randint(0, 5)}:0] == 0) $display(\" %0d\", sum); end",
    ]
    if rng.random() < 0.4:
        lines.append(f'always @(negedge clk) if (c == {rng.choice([97, 101, 10, 32, 48])}) $save("at{rng.randint(0, 2)}");')
    return module(rng, lines)


def words(rng):
    """A file read by $fread into variables of some width."""
    width = rng.choice([8, 12, 16, 24, 32, 64, 128])
    lines = [
        f'integer fd, n, other; reg [{width - 1}:0] r = 0; reg [31:0] t = 0; reg e;',
        'initial begin fd = $fopen("data", "rb"); other = $fopen("more", "r"); $display("%h %h", fd, other); end',
        f'always @({rng.choice(["posedge", "negedge"])} clk) begin {rng.choice(["n = $fread(r, fd);", "if (t[0]) n = $fread(r, other); else n = $fread(r, fd);"])}',
        't <= t + 1; e = $feof(fd); $display("%0d %h %b", n, r, e);',
    ]
    if rng.random() < 0.6:
        lines.append("if ($feof(fd)) $finish;")
    return module(rng, lines + ["end"])


def hexadecimal(rng):
    """A memory that an initial block reads from a text."""
    width, high = rng.choice([4, 8, 16, 33]), rng.choice([3, 7, 15])
    lines = [
        f"reg [{width - 1}:0] m [0:{high}]; reg [4:0] i = 0;",
        f'initial begin {rng.choice(["m[1] = 5;", ""])} $readmemh("{rng.choice(["hex", "hex", "hex", "gone"])}", m); end',
        f'always @(posedge clk) begin $write("%h{rng.choice([" ", "", chr(92) + "n"])}", m[i]); m[i] <= m[i] + {rng.randint(0, 7)}; i <= i + {rng.randint(1, 3)};',
        f"if (i == {rng.randint(0, 31)}) $display; end",
    ]
    return module(rng, lines)


def instances(rng):
    """Instances with parameters, which hold registers, print, and save."""
    step, other = rng.randint(-9, 9), rng.randint(1, 30)
    before = (
        f"module leaf #(parameter STEP = {rng.randint(1, 5)}, WIDTH = 8) (input wire clk, input [WIDTH-1:0] in, output [WIDTH-1:0] out);\n"
        "  reg [WIDTH-1:0] r = 0;\n  assign out = r ^ in;\n"
        f"  always @({rng.choice(['posedge', 'negedge'])} clk) begin r <= r + STEP + in; if (r[2:0] == {rng.randint(0, 7)}) $write(\"%m:%0d \", r); end\n"
        "  initial $display(\"%m %0d\", STEP);\nendmodule\n"
    )
    lines = [
        "wire [7:0] a, b; reg [7:0] x = 1; reg [15:0] n = 0;",
        f"leaf #({step}) u(clk, x, a);",
        f"leaf #(.STEP({other})) v(.clk(clk), .in(a), .out(b));",
        f"always @(posedge clk) begin x <= b; n <= n + 1; if (n[{rng.randint(0, 2)}:0] == 0) $display(\"%0d %0d %0d\", x, a, b);",
    ]
    if rng.random() < 0.3:
        lines.append(f'if (n == {rng.randint(0, 30)}) $save("i");')
    if rng.random() < 0.3:
        lines.append(f"if (n == {rng.randint(0, 70)}) $finish;")
    return module(rng, lines + ["end"], before=before)


def choices(rng):
    """Combinational blocks with case and casez."""
    labels = "".join(f"{rng.randint(0, 7)}{'' if rng.random() < 0.5 else ', ' + str(rng.randint(8, 15))}: y = {literal(rng, 8)}; " for _ in range(rng.randint(1, 4)))
    lines = [
        f"reg [3:0] s = {rng.randint(0, 15)}; reg [7:0] y, z; reg [1:0] q;",
        f"always @* begin case (s) {labels} default: y = {{s, ~s}}; endcase end",
        f"always @(s or y) casez ({{s, y[1:0]}}) 6'b1?0??1: z = y + 1; 6'b?{rng.randint(0, 1)}1???: z = y - s; default: z = {{2{{s}}}}; endcase",
        f"always @* begin q = 0; if (z > {rng.randint(0, 255)}) q = q + 2; if (^y) q[0] = 1; end",
        f"always @(posedge clk) begin s <= s * {rng.choice([3, 5, 7])} + q + {rng.randint(0, 9)}; $display(\"%0d %0d %0d %0d\", s, y, z, q); end",
    ]
    if rng.random() < 0.4:
        lines.append(f'always @(negedge clk) if (q == 2) $save("q");')
    return module(rng, lines)


def silent(rng):
    """Little: nothing printed, time zero alone, an end at once."""
    kind = rng.randrange(6)
    if kind == 0:
        return module(rng, ["reg a = 0; always @(posedge clk) a <= ~a;"])
    if kind == 1:
        return module(rng, [f'initial begin $display("zero %0d", $time); {rng.choice(["$finish;", "", chr(36) + "save(" + chr(34) + "z" + chr(34) + ");"])} end'])
    if kind == 2:
        return module(rng, [""])
    if kind == 3:
        return module(rng, [f'always @(posedge clk) if ($time == {rng.randint(1, 30)}) begin $write("end"); $finish; $display("never"); end'])
    if kind == 4:
        names = " ".join(f'{k}: $save("n{k}");' for k in range(rng.randint(1, 16)))
        return module(rng, [f"reg [3:0] k = 0; always @(negedge clk) begin k <= k + 1; case (k) {names} default: ; endcase end"])
    return module(rng, ['always @(negedge clk) $write("%s%s", "ab", {8\'d99, 8\'d10});'])


def operand(rng, names, depth):
    """An expression over these names."""
    if depth == 0 or rng.random() < 0.15:
        return rng.choice(names) if rng.random() < 0.75 else literal(rng, rng.choice([1, 4, 8, 16, 33]))
    kind, inner = rng.randrange(10), lambda: operand(rng, names, depth - 1)
    if kind < 5:
        return f"({inner()} {rng.choice(['+', '-', '*', '/', '%', '<<', '>>', '>>>', '&', '|', '^', '~^', '<', '<=', '==', '!=', '&&', '||'])} {inner()})"
    if kind == 5:
        return f"({rng.choice(['-', '~', '!', '&', '|', '^', '~&', '~|', '~^'])}{inner()})"
    if kind == 6:
        return f"({inner()} ? {inner()} : {inner()})"
    if kind == 7:
        # sized operands alone: names stand for signals
        return "{" + rng.choice(names) + ", " + rng.choice(names) + "}"
    if kind == 8:
        return f"${rng.choice(['signed', 'unsigned'])}({inner()})"
    return "{" + str(rng.randint(1, 2)) + "{" + rng.choice(names) + "}}"


def expressions(rng):
    """Registers and nets of some widths, each a random expression of the others."""
    names, lines = [], []
    for k in range(rng.randint(2, 4)):
        width = rng.choice([1, 3, 8, 16, 31, 32])
        names.append(f"r{k}")
        lines.append(f"reg {rng.choice(['', 'signed '])}[{width - 1}:0] r{k} = {rng.getrandbits(width) & 0xffff};")
    nets = []
    for k in range(rng.randint(0, 2)):
        lines.append(f"wire {rng.choice(['', 'signed '])}[{rng.choice([1, 7, 15, 40])}:0] w{k} = {operand(rng, names + nets, rng.randint(1, 3))};")
        nets.append(f"w{k}")
    shown = names + nets
    lines.append(f"always @({rng.choice(['posedge', 'posedge', 'negedge'])} clk) begin")
    lines += [f"{name} {rng.choice(['<=', '<=', '='])} {operand(rng, shown, rng.randint(1, 3))};" for name in names]
    form = " ".join(rng.choice(["%0d", "%h", "%b", "%d", "%0o", "%0h"]) for _ in shown)
    lines.append(f'$display("{form}", {", ".join(shown)});')
    if rng.random() < 0.3:
        lines.append(f"if ({operand(rng, shown, 1)} == {rng.randint(0, 5)}) $finish;")
    if rng.random() < 0.3:
        lines.append(f'if ({operand(rng, shown, 1)}) $save("e");')
    return module(rng, lines + ["end"])


def faulty(rng):
    """A source with a fault, most likely."""
    kind = rng.randrange(9)
    if kind == 0:
        return "module m(input clk);\n"
    if kind == 1:
        return module(rng, ["wire a, b; assign a = b; assign b = a;"])
    if kind == 2:
        return module(rng, ["reg a; wire b = 0; always @* if (b) a = 1;"])
    if kind == 3:
        return module(rng, ["wire w = nowhere;"])
    if kind == 4:
        return module(rng, ["reg [200:0] r;"])
    if kind == 5:
        return ""
    text = rng.choice(GOOD)(rng)
    if kind == 6:
        at = rng.randrange(len(text))
        return text[:at] + text[at + 1 :]
    if kind == 7:
        at = rng.randrange(len(text))
        return text[:at] + rng.choice(list("?#'\"@;)(x$\x01") + ["begin", " 9'b102 ", "endmodule"]) + text[at:]
    return text[: rng.randrange(len(text))]


GOOD = [counter, counter, memory, edges, functions, characters, characters, words, hexadecimal, instances, choices, silent, expressions, expressions]


def source(rng):
    """The text of a source."""
    text = (faulty if rng.random() < 0.05 else rng.choice(GOOD))(rng)
    if rng.random() < 0.1:
        text = "// " + "".join(rng.choice("abc xyz") for _ in range(9)) + "\n" + text
    return text.encode("latin-1")


# ---- files


def file_of(rng, name):
    """The bytes of a file of this name."""
    if name == "hex":
        parts = []
        for _ in range(rng.randint(0, 14)):
            parts.append(rng.choice([f"{rng.getrandbits(16):x}", f"{rng.getrandbits(4):X}", f"@{rng.randint(0, 8):x}", "// note\n", "/* x */", f"{rng.getrandbits(70):x}"]))
        if rng.random() < 0.1:
            parts.insert(rng.randint(0, len(parts)), rng.choice(["zz", "@ffffffff", "/* open", "@"]))
        return rng.choice([" ", "\n", "\t\n "]).join(parts).encode()
    length = rng.choice([0, 1, 3, 8, 17, 40, 200])
    if rng.random() < 0.5:
        return bytes(rng.choice(b"abcdefgh 0123\n") for _ in range(length))
    return rng.randbytes(length)


def files_of(rng, text):
    """The files of a tenant with this source: those that it names, mostly, and others."""
    names = [n for n in ("data", "hex", "more", "gone") if f'"{n}"'.encode() in text]
    chosen = [n for n in names if n != "gone" and rng.random() < 0.93]
    if rng.random() < 0.05:
        chosen.append("idle")
    rng.shuffle(chosen)
    return [(name, file_of(rng, name)) for name in chosen]


# ---- snapshots


def damaged(rng, data):
    """Bytes near those of a snapshot, or other ones."""
    kind = rng.randrange(5)
    if kind == 0 or not data:
        return rng.choice([b"", b"nothing of a snapshot", b"FABSNAP\n", rng.randbytes(rng.randint(1, 60))])
    if kind == 1:
        return data[: rng.randrange(len(data))]
    if kind == 2:
        return data + rng.choice([b"\0", b"x", b"FABSNAP\n"])
    at = rng.randrange(len(data))
    if kind == 3:
        return data[:at] + bytes([data[at] ^ (1 << rng.randrange(8))]) + data[at + 1 :]
    return data[:at] + data[at + 1 :]


# ---- tenants


def names_of(rng, count, style):
    """Names of fabrics (F) or tenants (T), all different."""
    if style == "F":
        return [rng.choice(["F", "fab_", "F-", "9"]) + str(k) for k in range(count)]
    return [rng.choice(["ABCDEFGH"[k], f"t{k}", f"tenant_{k}", f"{k}-x", "L" * 30 + f"{k:02}"]) for k in range(count)]


def budget_of(rng):
    kind = rng.random()
    if kind < 0.04:
        return 0
    if kind < 0.55:
        return rng.randint(1, 12)
    if kind < 0.88:
        return rng.randint(10, 90)
    if kind < 0.97:
        return rng.randint(100, 700)
    return rng.randint(1000, 6000)


def errands_of(rng, budget, first, fabrics):
    """Errands at ticks around those of a run."""
    last = budget + 3
    errands, taken = [], set()
    count = rng.choice([0, 0, 1, 1, 2, 3, 5, 9, 20])
    names = rng.choice([["s"], ["s", "t"], ["one", "two", "three", "a.b", "-", "_"]])
    for _ in range(count):
        tick = rng.choice([rng.randint(0, last), rng.randint(min(first, last), last), first, budget, max(0, budget - 1)])
        kind = rng.random()
        if kind < 0.62:
            if (tick, "go") not in taken:
                taken.add((tick, "go"))
                errands.append((tick, "move", rng.randrange(fabrics)))
        elif kind < 0.92:
            name = rng.choice(names)
            if (tick, name) not in taken:
                taken.add((tick, name))
                errands.append((tick, "save", name))
        elif (tick, "go") not in taken and rng.random() < 0.6:
            taken.add((tick, "go"))
            errands.append((tick, "stop", ""))
    return errands


def tenant(rng, name, fabrics, pool, shared):
    """A tenant, new or resumed from a snapshot."""
    kept, resume, first = None, None, 0
    if pool and rng.random() < 0.22:
        kept = rng.choice(pool)
        text, files, resume = kept.source, list(kept.files), kept.bytes
        budget = rng.choice([kept.budget, kept.budget, kept.tick + rng.randint(0, 30), kept.tick, max(0, kept.tick - 1)])
        first = kept.tick
        kind = rng.random()
        if kind < 0.14:
            resume, kept = damaged(rng, resume), None
        elif kind < 0.2:
            text, kept = source(rng), None
            files = files_of(rng, text)
        elif kind < 0.25:
            files, kept = [(n, b[: len(b) // 2]) for n, b in files[: rng.randint(0, 1)]], None
    else:
        text = rng.choice(shared) if shared and rng.random() < 0.25 else source(rng)
        shared.append(text)
        files, budget = files_of(rng, text), budget_of(rng)
        if rng.random() < 0.02:
            resume = damaged(rng, b"")
    it = Tenant(name=name, source=text, fabric=rng.randrange(fabrics), budget=budget, files=files, resume=resume, kept=kept)
    it.errands = errands_of(rng, budget, first, fabrics)
    return it


# ---- fabrics


def capacity(rng, costs):
    """A capacity for tenants of these costs: ample, or just enough for the largest, for two, for all, or for some alone."""
    kind = rng.random()
    if not costs or kind < 0.2:
        return (100_000, 1_000_000, 10_000_000) if rng.random() < 0.9 else (rng.randint(0, 300),) * 3
    most = [max(c[k] for c in costs) for k in range(3)]
    total = [sum(c[k] for c in costs) for k in range(3)]
    if kind < 0.5:
        return tuple(most)
    if kind < 0.65:
        return tuple(m + rng.randint(0, max(0, t - m)) for m, t in zip(most, total))
    if kind < 0.75:
        return tuple(total)
    if kind < 0.85:
        some = rng.sample(costs, min(2, len(costs)))
        return tuple(max(m, sum(c[k] for c in some)) for k, m in enumerate(most))
    if kind < 0.93:
        middle = rng.choice(costs)
        return tuple(middle)
    short, which = list(most), rng.randrange(3)
    short[which] = max(0, short[which] - 1)
    return tuple(short)


# ---- the script's text


def spelt(rng, words, ragged):
    """A line of these words."""
    if not ragged:
        return " ".join(words)
    out = rng.choice(["", "", " ", "\t"])
    out += "".join(word + (rng.choice([" ", " ", "  ", "\t", " \t "])) for word in words[:-1]) + words[-1]
    return out + rng.choice(["", "", " ", " # note", "#at A 1 stop", "\t\r", "\r"])


def digits(rng, value, ragged):
    text = str(value)
    return text.rjust(rng.randint(len(text), 10), "0") if ragged and rng.random() < 0.1 else text


def write_script(rng, case):
    """Lays the script's lines out: each behind those that it stands on."""
    ragged = rng.random() < 0.3
    fabric_lines = [["fabric", name] + [digits(rng, n, ragged) for n in room] for name, *room in case.fabrics]
    tenant_lines = []
    for t in case.tenants:
        named = case.fabrics[t.fabric][0]
        tenant_lines.append(["tenant", t.name, t.path, named, digits(rng, t.budget, ragged)])
    # each of these lines stands behind a fabric and a tenant, whose numbers come first
    rest = []
    for n, t in enumerate(case.tenants):
        own = [(0, n, ["file", t.name, name, path]) for (name, _), path in zip(t.files, t.file_paths)]
        if t.resume is not None:
            own.insert(rng.randint(0, len(own)), (0, n, ["resume", t.name, t.resume_path]))
        for tick, word, what in t.errands:
            need = what if word == "move" else 0
            end = [case.fabrics[what][0]] if word == "move" else [what] if word == "save" else []
            own.insert(rng.randint(0, len(own)), (need, n, ["at", t.name, digits(rng, tick, ragged), word, *end]))
        rest.append(own)
    free = []
    for word, n, what in case.free:
        end = [case.fabrics[what][0]] if word == "move" else [what] if word == "save" else []
        free.append((what if word == "move" else 0, n, ["free", word, case.tenants[n].name, *end]))
    rest.append(free)
    if rng.random() < 0.4:
        # all fabrics, all tenants, and then the others, one tenant's behind the other's
        lines = fabric_lines + tenant_lines + [line for own in rest for _, _, line in own]
    else:
        lines, f, t = [], 0, 0
        heads = [0] * len(rest)
        while True:
            ways = []
            if f < len(fabric_lines):
                ways.append(("fabric", 0))
            if t < len(tenant_lines) and case.tenants[t].fabric < f:
                ways.append(("tenant", 0))
            for k, own in enumerate(rest):
                if heads[k] < len(own) and own[heads[k]][0] < f and own[heads[k]][1] < t:
                    ways.append(("rest", k))
            if not ways:
                break
            way, k = rng.choice(ways)
            if way == "fabric":
                lines.append(fabric_lines[f])
                f += 1
            elif way == "tenant":
                lines.append(tenant_lines[t])
                t += 1
            else:
                lines.append(rest[k][heads[k]][2])
                heads[k] += 1
    texts = []
    for words_ in lines:
        if ragged and rng.random() < 0.1:
            texts.append(rng.choice(["", "# a comment", "   ", "\t# x \x7e", "\r"]))
        texts.append(spelt(rng, words_, ragged))
    return texts


def break_script(rng, case, texts):
    """A fault in the script or a file that isn't there, with what is to be printed."""
    kind = rng.randrange(8)
    first = case.tenants[0].name
    added = [
        ("grant A F", 1),
        (f"tenant {first} x {case.fabrics[0][0]}", 1),
        ("fabric F! 1 1 1", 2),
        ("fabric new 1 2 1000000001", 3),
        (f"fabric {case.fabrics[0][0]} 1 1 1", 4),
        ("at nobody 1 stop", 5),
        ("fabric new 1 1 1 \x7f", 8),
    ]
    if kind < 7:
        line, cause = added[kind]
        at = rng.randint(0, len(texts)) if kind in (0, 2, 3, 6) else len(texts)
        case.wanted = (4, f"script {at + 1} {cause}\n".encode())
        return texts[:at] + [line] + texts[at:]
    # the paths in the order in which they are read; one of them is taken away
    paths = []
    for t in case.tenants:
        paths += [t.path, *t.file_paths, *([t.resume_path] if t.resume is not None else [])]
    gone = rng.choice(paths)
    case.stored.pop(gone, None)
    case.wanted = (5, f"read {gone} notthere\n".encode())
    return texts


def make(rng, pool, costs_of):
    """A case."""
    fabric_count = rng.choice([1, 1, 2, 2, 3, 4])
    tenant_count = rng.choice([1, 2, 3, 3, 4, 5, 6, 8])
    shared = []
    tenants = [tenant(rng, name, fabric_count, pool, shared) for name in names_of(rng, tenant_count, "T")]
    costs = costs_of([t.source for t in tenants])
    known = [c for c in costs if c is not None]
    fabrics = []
    for name in names_of(rng, fabric_count, "F"):
        fabrics.append((name, *(min(AMPLE, n) for n in capacity(rng, known))))
    small = None
    if fabric_count > 1 and rng.random() < 0.25:
        # a fabric too small for most, on which no tenant begins
        small = rng.randrange(fabric_count)
        others = [g for g in range(fabric_count) if g != small]
        fabrics[small] = (fabrics[small][0], *(rng.choice(known) if known and rng.random() < 0.3 else (rng.randint(0, 200), rng.randint(0, 200), 0)))
        for t in tenants:
            t.fabric = t.fabric if t.fabric != small else rng.choice(others)
    free = []
    if rng.random() < 0.25:
        for _ in range(rng.choice([1, 2, 3, 6, 12])):
            word, n = rng.choice(["move", "move", "stop", "save", "watch", "watch"]), rng.randrange(tenant_count)
            goal = small if small is not None and rng.random() < 0.4 else rng.randrange(fabric_count)
            what = goal if word == "move" else rng.choice(["s", "free", "f.1"]) if word == "save" else ""
            free.append((word, n, what))
    case = Case(fabrics, tenants, free)
    place(rng, case)
    texts = write_script(rng, case)
    if rng.random() < 0.04:
        texts = break_script(rng, case, texts)
    case.script = "\n".join(texts).encode("latin-1") + (b"" if rng.random() < 0.1 else b"\n")
    return case


def place(rng, case):
    """Gives each text, file and snapshot a path; equal sources may share one."""
    paths = {}
    for n, t in enumerate(case.tenants):
        t.path = paths.setdefault(t.source, f"{n}.v")
        case.stored[t.path] = t.source
        t.file_paths = [f"{n}-{name}" for name, _ in t.files]
        for path, (_, data) in zip(t.file_paths, t.files):
            case.stored[path] = data
        if t.resume is not None:
            # now and then under the very name of a snapshot that the run writes
            t.resume_path = f"{t.name}.s" if rng.random() < 0.3 else f"{n}.snap"
            case.stored[t.resume_path] = t.resume


def main():
    seed, count, folder = int(sys.argv[1]), int(sys.argv[2]), sys.argv[3]
    rng = random.Random(seed)
    for number in range(count):
        case = make(rng, [], lambda sources: [(128, 300, 256) for _ in sources])
        at = os.path.join(folder, f"{number:03}")
        os.makedirs(at, exist_ok=True)
        for name, data in [("script", case.script), *case.stored.items()]:
            with open(os.path.join(at, name), "wb") as it:
                it.write(data)


if __name__ == "__main__":
    main()
