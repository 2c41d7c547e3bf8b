"""Makes the input and the wanted output of two programs of rows. crates/machine_rows has three sections: `cells` by tools/cell_rows.py;
`splits` and `fabrics`, whose rows stand in the tables tools/split_rows.txt and tools/fabric_rows.txt as the program reads them, with a line
`---` between two. crates/host_rows has rows from the tables tools/host_rows.txt, tools/run_rows.txt, tools/width_rows.txt and
tools/host_scripts.txt.

`host_rows.py SECTION` only prints the rows of that section, `host_rows.py host` those of the host.
"""

import sys

sys.dont_write_bytecode = True

from cell_rows import cell_rows
from flat_rows import MARK, TOOLS, TOP, expanded, marked, numbered, parted, text_of
from items import item
from values import corners

MACHINE = TOP / "crates" / "machine_rows"
HOST = TOP / "crates" / "host_rows"
USAGE = "usage: fabhost run SCRIPT | check SOURCE | demo N"
ROOM = "fabric F 1000000000 1000000000 1000000000"
LETTERS = "begin " + " ".join(f"msg[{i}] = {ord(c)};" for i, c in enumerate("Hello\n")) + " end"
COUNTER = (TOP / "examples" / "counter.v").read_text().rstrip("\n")
BLOCK = "module m(input wire k); reg [7:0] a; always @(posedge k) begin {} end endmodule"


def ran(ticks, end, printed):
    """The status and the lines of a run: it ended for a reason, after so many ticks and any number of cycles, and printed these lines."""
    reason, number = (end.split() + [ticks])[:2]
    count = sum(len(line.encode()) + 1 for line in printed)
    stays = [f"stay main F 0 {number}"] * (number != "0")
    return ["status 0", f"tenant main {reason} {number} * {count}"] + printed + [""] + stays


def with_script(source, ticks):
    """The files of a script of one tenant that runs a source."""
    return f"+ m.v\n{source}\n+ s\n{ROOM}\ntenant main m.v F {ticks}"


def refused(kind, source):
    """The status and the line of a refusal at the mark, and the source without it."""
    line, column, rest = marked(source)
    return ["status 3", f"refused main {line} {column} {kind}"], rest


def rows_of(head, rest):
    """The rows of a case: the lines before what is wanted, what is wanted, and the files."""
    words = head.split()
    if words[0] == "run":
        printed, source = ("\n" + rest).split("\n\n", 1)
        wanted = ran(words[1], " ".join(words[2:]), printed.split("\n")[1:])
        return [(["@ run s"], wanted, with_script(text_of(source), words[1]))]
    if words[0] == "usage":
        return [([f"@ {line}"], ["status 2", USAGE], with_script(COUNTER, 3)) for line in rest.split("\n")]
    if words[0] == "bytes":
        status, *printed = rest.split("\n")
        wanted = [status] + printed + ["", "stay main F 0 3"] * (status == "status 0")
        return [(["@ run s", f"! 4096 0 0 {int(words[1]) - len(COUNTER)}"], wanted, with_script(COUNTER, 3))]
    if words[0] == "refused":
        sources = [text_of(rest)]
    elif words[0] == "sources":
        sources = [text_of(line) for line in rest.split("\n")]
    else:
        assert words[0] == "blocks", head
        sources = [BLOCK.format(text_of(line)) for line in rest.split("\n")]
    kind = " ".join(words[1:] if words[0] == "refused" else words[2:])
    return [(["@ run s"], wanted, with_script(source, 3)) for wanted, source in (refused(kind, source) for source in sources)]


def scripts():
    """The rows of the table of scripts, as they stand there but for files and repetitions."""
    for head, rest in parted((TOOLS / "host_scripts.txt").read_text()):
        yield "\n".join([head] + [text_of(line) if line.startswith("file examples/") else expanded(line) for line in rest.split("\n")])


def run():
    """Sources of many nets, and the examples that need many ticks."""
    # each net is the one before it and 1, the last in the text first
    nets = "\n".join(f"  assign w{i} = w{i - 1} + 1;" for i in range(999, 0, -1))
    yield "run 3 budget", f"999\n1000\n1001\n\nmodule m(input wire k);\n  reg [15:0] x;\n  wire [15:0] {numbered('w', 1000)};\n{nets}\n  assign w0 = x;\n  always @(posedge k) begin $display(\"%0d\", w999); x <= x + 1; end\nendmodule"
    # a chain through each bit of ten nets: a bit follows the one before it, and the first bit of a net the last of the net before it
    bits = "\n".join(f"  assign w{i // 100}[{i % 100}] = w{(i - 1) // 100}[{(i - 1) % 100}];" for i in range(999, 0, -1))
    yield "run 3 budget", f"0\n1\n0\n\nmodule m(input wire k);\n  reg a;\n  wire [99:0] {numbered('w', 10)};\n{bits}\n  assign w0[0] = a;\n  always @(posedge k) begin $display(\"%0d\", w9[99]); a <= !a; end\nendmodule"
    yield "run 3 budget", f"3 + 9 = 12\n8 + 6 = 14\n13 + 3 = 16\n\n{text_of('file examples/adder.v')}"
    shown = "250 fa 11111010 has 6\n252 fc 11111100 has 6\n254 fe 11111110 has 7\n  0 00 00000000 has 0"
    yield "run 4 budget", f"{shown}\n\n{text_of('file examples/bits.v')}"
    yield "run 600 budget", f"8d3135aa\na5a002aa\n\n{text_of('file examples/lcg.v')}"
    uart = text_of("file examples/uart.v").replace('$readmemh("hello.hex", msg);', LETTERS)
    yield "run 600 finished 247", "Hello\n117 22 1 4 1\n\n" + uart


def formats():
    """Values at the ends of widths, unsigned and signed, by the items of a format."""
    items = [(letter, least) for letter in "dhxob" for least in [False, True]]
    words = "".join(f"[%{'0' * least}{letter}]" for letter, least in items)
    for width in [1, 7, 8, 31, 32, 33, 64, 127, 128]:
        for sign in ["", "signed "]:
            lines = [
                "".join(f"[{item(letter, least, value, width, sign != '').decode()}]" for letter, least in items)
                for value in corners(width)
            ]
            calls = "\n".join(
                f'    a = {width}\'h{value:x};\n    $display("{words}"{", a" * len(items)});' for value in corners(width)
            )
            printed = "\n".join(lines)
            yield "run 0 budget", f"{printed}\n\nmodule m(input wire k);\n  reg {sign}[{width - 1}:0] a;\n  initial begin\n{calls}\n  end\nendmodule"


def large():
    """Sources at limits, from both sides."""
    registers = numbered("r", 16384)
    block = "  always @(posedge k) begin $display(\"%0d\", r16383); r16383 <= r0 + 3; end\nendmodule"
    yield "run 2 budget", f"0\n3\n\nmodule m(input wire k);\n  reg [7:0] {registers};\n{block}"
    yield "refused limit 6", f"module m(input wire k);\n  reg [7:0] {registers}, {MARK}x;\n{block}"
    # 15 times 1 + 16 * 16, 15 times 16, and one more are 4,096 instances
    yield "refused limit 5", "\n".join([
        "module c(input k); endmodule",
        f"module b(input k); c {numbered('u', 15, '{}(k)')}; endmodule",
        f"module a(input k); b {numbered('u', 16, '{}(k)')}; endmodule",
        f"module m(input k); a {numbered('u', 15, '{}(k)')}; b {numbered('v', 15, '{}(k)')}; c w(k); «c z(k); endmodule",
    ])
    # 18 tokens stand before the block's assignments and 2 behind them; one of 500 ones has 1,002, one of 290 has 582
    ones = "\n".join(["a=" + "+".join(["1"] * 500) + ";"] * 199 + ["a=" + "+".join(["1"] * 290) + ";"])
    tokens = f"module m(input wire k);\nreg [15:0] a;\ninitial begin\n{ones}MORE\nend\nMARKendmodule"
    yield "run 1 budget", "\n" + tokens.replace("MARK", "").replace("MORE", "")
    yield "refused limit 2", tokens.replace("MARK", MARK).replace("MORE", ";")
    # a leaf's 100 statements have 99,900 nodes, and 10 leaves with the top's two 1,000,000
    sum_of = "a = " + "+".join(["1"] * 500) + ";"
    leaf = "module leaf(input wire k);\n  reg [15:0] a;\n  initial begin\n" + "\n".join([sum_of] * 100) + "\n  end\nendmodule\n"
    top = f"module m(input wire k);\n  reg [15:0] a;\n  leaf {numbered('u', 10, '{}(k)')};\n  MARKinitial begin {sum_of} a = 7; MORE end\n  always @(posedge k) ;\nendmodule"
    yield "run 1 budget", "\n" + leaf + top.replace("MARK", "").replace("MORE", "")
    yield "refused limit 9", leaf + top.replace("MARK", MARK).replace("MORE", "a = 7;")


# ---- cut input, single failures, full lines: the counter for three ticks with a snapshot at tick 2

SAVING = f"{ROOM}\ntenant A m.v F 3\nat A 2 save s"
REPORT = "tenant A budget 3 11 6\n0\n1\n2\n\nstay A F 0 3\n"
SAVED = "464142534e41500a0000000100000000000000020000000100036d2e6308000000000200"
# the first bytes of the counter that are refused so; of the others only the last two fronts are accepted
CUTS = {0: "1 1 parse", 76: "4 5 lex 1", 79: "4 9 parse", 85: "4 14 lex 3", 98: "5 4 parse", 102: "5 7 parse", 125: "7 9 parse"}


def case(words, wanted, files, *more):
    """A row of these words: the status and the lines that are wanted, further lines, and the files."""
    return "\n".join([f"@ {words}", *more, *[f"= {line}" for line in wanted]] + [f"+ {path}\n{text}" if text else f"+ {path}" for path, text in files])


def digits(data):
    """A file's bytes as lines of a row."""
    return "^ " + " ".join(f"{byte:02x}" for byte in data) if data else ""


def cut_rows():
    """The counter cut behind each number of its bytes, and a snapshot of no byte."""
    source = (TOP / "examples" / "counter.v").read_bytes()
    for n in range(len(source) + 1):
        files = [("s", f"{ROOM}\ntenant A m.v F 3"), ("m.v", digits(source[:n]))]
        if n >= len(source) - 1:
            yield case("run s", ["status 0", *REPORT.splitlines()], files)
        elif n in CUTS:
            yield case("run s", ["status 3", f"refused A {CUTS[n]}"], files)
        else:
            yield case("run s", ["status 3", "..."], files, "- tenant", "- stay")
    yield case("run s", ["status 3", "refused A 0 0 snapshot 3"], [("s", f"{ROOM}\ntenant A m.v F 3\nresume A A.s"), ("A.s", ""), ("m.v", COUNTER)])


def failing_rows():
    """Each call of the store that fails, and each of the sink, which takes 4 bytes in a call."""
    files = [("s", SAVING), ("m.v", COUNTER)]
    for call, path in [(1, "s"), (2, "m.v")]:
        yield case("run s", ["status 5", f"read {path} failed"], files, f"! 4096 {call} 0 0", "> A.s -")
    yield case("run s", ["status 6", *REPORT.splitlines()], files, "! 4096 3 0 0", "> A.s -")
    calls = -(-len(REPORT) // 4)
    for call in range(1, calls + 1):
        *whole, part = REPORT[: 4 * (call - 1)].split("\n")
        row = case("run s", ["status 6", *whole], [], f"! 4 0 {call} 0", "> A.s -")
        yield "\n".join([row, *[f"% {part}"] * (part != ""), *[f"+ {path}\n{text}" for path, text in files]])
    yield case("run s", ["status 0", *REPORT.splitlines()], files, f"! 4 0 {calls + 1} 0", f"> A.s {SAVED}")


def crowded_rows():
    """Three tenants on two fabrics with room for one each, which move past each other; and the demonstration at its largest."""
    lines = [str(n) for n in range(200)]
    stays = {"A": ["F1 0 100", "F2 100 200"], "B": ["F2 0 100", "F1 100 200"], "C": ["F1 0 200"]}
    wanted = ["status 0"]
    for name in stays:
        wanted += [f"tenant {name} budget 200 602 690", *lines, "", *[f"stay {name} {stay}" for stay in stays[name]]]
    moves = "tenant A m.v F1 200\nat A 100 move F2\ntenant B m.v F2 200\nat B 100 move F1\ntenant C m.v F1 200"
    yield case("run s", wanted, [("s", f"fabric F1 128 48 0\nfabric F2 128 48 0\n{moves}"), ("m.v", COUNTER)])
    yield case("demo 32", ["status 0", *[demonstrated(number) for number in range(1, 33)]], [])


def demonstrated(number):
    """What the demonstration tells of the tenant of a number, by what its source does."""
    value, place, printed = number, 0, b""
    for _ in range(4096):
        if place == 255:
            printed += b"%08x\n" % value
        value, place = (value * 1664525 + 1013904223) % 2**32, (place + 1) % 256
    # time zero has two cycles; a tick has one for the choice that holds the display, one for the wave's end and one for its update, and the display its own
    return f"demo T{number} budget 4096 {2 + 3 * 4096 + len(printed) // 9} {len(printed)} {sum(printed)}"


def host_rows():
    """The rows of the host, and the lines that are wanted."""
    tables = [case for name in ("host_rows.txt", "run_rows.txt", "width_rows.txt") for case in parted((TOOLS / name).read_text())]
    rows = [row for case in [*tables, *run(), *formats(), *large()] for row in rows_of(*case)]
    shown = ["\n".join(head + [f"= {line}" for line in wanted]) + "\n" + files for head, wanted, files in rows]
    shown += [*scripts(), *cut_rows(), *failing_rows(), *crowded_rows()]
    return "\n".join(shown) + "\n", "ok\n" * len(shown)


def named_rows(table):
    """The rows of a table, each of which begins with a line `= ` of its name, and the lines that are wanted."""
    lines = [line for line in (TOOLS / table).read_text().splitlines() if line != "---" and not line.startswith("#")]
    names = [line[2:] for line in lines if line.startswith("= ")]
    return "\n".join(lines).strip("\n") + "\n", "".join(f"ok {name}\n" for name in names)


def sections():
    """The sections of crates/machine_rows: the name, the rows, and the lines that are wanted of each."""
    yield "cells", *cell_rows()
    yield "splits", *named_rows("split_rows.txt")
    yield "fabrics", *named_rows("fabric_rows.txt")


def write(folder, rows, wanted):
    """Writes the input and the wanted output of a program."""
    (folder / "stdin").write_text(rows)
    (folder / "stdout").write_text(wanted)


if sys.argv[1:] == ["host"]:
    print(host_rows()[0], end="")
elif len(sys.argv) > 1:
    print("".join(f"### {name}\n{rows}" for name, rows, _ in sections() if name == sys.argv[1]), end="")
else:
    made = list(sections())
    write(MACHINE, "".join(f"### {name}\n{rows}" for name, rows, _ in made), "".join(wanted for _, _, wanted in made))
    write(HOST, *host_rows())
