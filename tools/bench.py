#!/usr/bin/env python3
"""Measures how many ticks a second fabhost runs, beside Icarus and Verilator.

    tools/bench.py PROGRAM [NAME..] [--seconds 3] [--times 3] [--no-others] [--no-valgrind] [--check]

PROGRAM is a built fabhost. Four designs alone: the source of the demonstration's first tenant, a counter that prints each 256 ticks, the
transmitter of examples/uart.v that sends its message again and again, and a chain of nets of some 1,000 cells; then 1, 2, 8 and 32 of the
demonstration's tenants on one fabric and over two, on two processors (`taskset`). With names only those: demo counter uart nets tenants
callgrind.

The ticks of a run are raised until it takes --seconds of the processor; the median of --times runs counts, and what a run of one tick
takes is left out. Where `vvp` and `verilator` are installed they run the same design in the same way, under a bench that drives the clock
(`verilator --binary`, which needs g++, with a bench of three lines; and, since that bench costs more than the design, with a C++ main too); compiling
isn't counted, and in brackets is how many times as many ticks a second as fabhost. What each prints in 700 ticks is compared with
what fabhost prints. Where `valgrind` is installed (and PROGRAM has no AddressSanitizer), the ten dearest functions of the
demonstration's tenant are listed, by instructions.

With --check only the outputs are compared. A row is printed as it is found. The exit status is 1 where a run ends otherwise than it
should, or prints something else than the others, else 0.
"""
import argparse
import os
import re
import shutil
import statistics
import subprocess
import sys
import tempfile

sys.dont_write_bytecode = True

from running import has_sanitizer, measure, quick, stop_softly, table

TOP = os.path.dirname(os.path.dirname(os.path.abspath(__file__)))
AMPLE = 1_000_000_000
MOST = 500_000_000


def demo(i):
    return f"""module t(input wire clk);
  reg [31:0] s = {i};
  reg [7:0] p = 0;
  reg [31:0] m [0:255];
  integer k;
  initial for (k = 0; k < 256; k = k + 1) m[k] = k * {i};
  always @(posedge clk) begin
    s <= s * 32'd1664525 + 32'd1013904223;
    m[p] <= m[s[7:0]] ^ s;
    p <= p + 1;
    if (p == 8'd255) $display("%h", s);
  end
endmodule
"""


COUNTER = """module t(input wire clk);
  reg [31:0] c = 0;
  always @(posedge clk) begin
    c <= c + 1;
    if (c[7:0] == 0) $display("%0d", c);
  end
endmodule
"""


def uart():
    """The transmitter, which begins its message again at its end and says nothing but its letters."""
    with open(os.path.join(TOP, "examples", "uart.v"), encoding="utf-8") as it:
        text = it.read()
    whole = re.sub(r"n <= n \+ 1;\s*end else if \(!busy\) begin.*?end\s*end\s*endmodule", "n <= n == 5 ? 0 : n + 1;\n    end\n  end\nendmodule", text, flags=re.S)
    assert whole != text
    return whole.replace("module top(", "module t(")


def nets(n=38):
    """A shift register, and n nets that are sums of those before them, some 1,000 cells; the last is printed each 256th tick."""
    items = ["module t(input wire clk);", "  reg [15:0] c = 1;", "  reg [7:0] p = 0;", "  wire [15:0] " + ", ".join(f"w{i}" for i in range(n)) + ";"]
    at = lambda i: f"w{i}" if i >= 0 else "c"
    items += [f"  assign w{i} = {at(i - 1)} {'+^-'[i % 3]} ({at(i - 3)} {'^&|'[i % 3]} {i});" if i % 7 else f"  assign w{i} = {at(i - 1)} + {i};" for i in range(n)]
    items += [f"  always @(posedge clk) begin c <= {{c[14:0], c[15] ^ c[13] ^ c[12] ^ c[10]}}; p <= p + 1; if (p == 255) $display(\"%0d\", w{n - 1}); end", "endmodule"]
    return "\n".join(items) + "\n"


DESIGNS = {
    "demo": ("the demonstration's first tenant", lambda: demo(1)),
    "counter": ("a counter that prints each 256 ticks", lambda: COUNTER),
    "uart": ("the transmitter of examples/uart.v, without an end", uart),
    "nets": ("a chain of 38 nets", nets),
}

# for vvp, and for `verilator --binary --timing`
BENCH = """module bench;
  reg clk = 0;
  integer n;
  t u(clk);
  initial begin
    if (!$value$plusargs("ticks=%d", n)) n = 1;
    repeat (n) begin #1 clk = 1; #1 clk = 0; end
    $finish(0);
  end
endmodule
"""

MAIN = """#include "Vt.h"
#include "verilated.h"
#include <cstdlib>
int main(int argc, char** argv) {
  VerilatedContext context;
  Vt t(&context);
  long ticks = argc > 1 ? atol(argv[1]) : 1;
  t.clk = 0;
  t.eval();
  for (long n = 0; n < ticks && !context.gotFinish(); ++n) {
    t.clk = 1;
    t.eval();
    t.clk = 0;
    t.eval();
  }
  t.final();
  return 0;
}
"""


class Failed(Exception):
    pass


class Bench:
    def __init__(self, program, seconds, times):
        self.program, self.seconds, self.times = program, seconds, times
        self.folder = tempfile.mkdtemp(prefix="bench-")
        self.put("hello.hex", "48 65 6c 6c 6f 0a\n")

    def put(self, name, text):
        with open(os.path.join(self.folder, name), "w", encoding="utf-8") as it:
            it.write(text)

    def script(self, sources, fabrics, ticks):
        lines = [f"fabric F{f} {AMPLE} {AMPLE} {AMPLE}" for f in range(fabrics)]
        for n, source in enumerate(sources):
            lines += [f"tenant T{n} {source} F{n % fabrics} {ticks}", f"file T{n} hello.hex hello.hex"]
        self.put("script", "\n".join(lines) + "\n")

    def run(self, words, kept=1 << 16):
        ran = measure(words, self.folder, seconds=max(120, 40 * self.seconds), kept=kept)
        if ran.status != 0:
            raise Failed(f"{os.path.basename(words[0])} ends by {ran.status}: {ran.out[-200:]}")
        return ran

    def rate(self, words_at):
        """The medians of ticks a second of the processor and of the clock, the ticks of a run, and the last run."""
        begun = min((self.run(words_at(1)) for _ in range(2)), key=lambda r: r.cpu)
        ticks, ran = 1000, self.run(words_at(1000))
        while ran.cpu - begun.cpu < self.seconds and ticks < MOST:
            took = max(ran.cpu - begun.cpu, 0.01)
            ticks = min(MOST, int(ticks * min(20, max(1.3, 1.15 * self.seconds / took))))
            ran = self.run(words_at(ticks))
        runs = [ran] + [self.run(words_at(ticks)) for _ in range(self.times - 1)]
        median = lambda times: ticks / max(statistics.median(times), 1e-6)
        return median([r.cpu - begun.cpu for r in runs]), median([r.clock - begun.clock for r in runs]), ticks, runs[-1]

    def fabhost(self, sources, fabrics, before=()):
        def words(ticks):
            self.script(sources, fabrics, ticks)
            return [*before, self.program, "run", "script"]

        return self.rate(words)

    # the words of a run of so many ticks; each compiles first

    def icarus(self, source):
        self.put("bench.v", source + BENCH)
        self.call(["iverilog", "-g2005", "-o", "bench.vvp", "bench.v"])
        return lambda ticks: ["vvp", "-n", "bench.vvp", f"+ticks={ticks}"]

    def made(self, name, words):
        """The program that Verilator builds in a folder of this name."""
        folder = os.path.join(self.folder, name)
        shutil.rmtree(folder, ignore_errors=True)
        self.call(["verilator", "-O3", "-Wno-fatal", "-Wno-lint", "-CFLAGS", "-O2", "--Mdir", name, *words])
        return folder

    def verilator(self, source):
        self.put("bench.v", source + BENCH)
        folder = self.made("binary", ["--binary", "--timing", "--top-module", "bench", "bench.v"])
        return lambda ticks: [os.path.join(folder, "Vbench"), f"+ticks={ticks}"]

    def verilator_main(self, source):
        self.put("t.v", source)
        self.put("main.cpp", MAIN)
        folder = self.made("main", ["--cc", "--exe", "--build", "--top-module", "t", "t.v", "main.cpp"])
        return lambda ticks: [os.path.join(folder, "Vt"), str(ticks)]

    def call(self, words):
        done = subprocess.run(words, cwd=self.folder, stdin=subprocess.DEVNULL, capture_output=True)
        if done.returncode:
            raise Failed(f"{words[0]}: {done.stderr[-300:].decode(errors='replace')}")


def thousands(rate):
    return f"{rate / 1000:,.0f}" if rate >= 10_000 else f"{rate / 1000:,.2f}"


def tell(heads, row):
    """Prints a row as it is found."""
    print(table(heads, [row]).split("\n")[2], flush=True)
    return bool(row[-1])


def printed(bench, source):
    """What 700 ticks print."""
    bench.put("s.v", source)
    bench.script(["s.v"], 1, 700)
    out = bench.run([bench.program, "run", "script"]).out.decode("latin-1")
    head, _, rest = out.partition("\n")
    return rest[: int(head.split()[5])]


def prints_else(bench, label, words, wanted):
    """Whether another program prints something else in 700 ticks; what the end of its run says isn't counted."""
    said = bench.run(words).out.decode("latin-1")
    said = "\n".join(x for x in said.split("\n") if not x.startswith("- ") and "$finish" not in x)
    return "" if said.rstrip("\n") == wanted.rstrip("\n") else f"{label} prints something else in 700 ticks"


def alone(bench, names, others, check):
    heads = ["design", "cells", "fabhost, 1,000 ticks a second", *[label + " (times)" for label, _ in others], "marks"]
    print(table(heads, []), flush=True)
    wrong = False
    for name in names:
        what, make = DESIGNS[name]
        source = make()
        row, marks, rate = [what, "", ""], [], None
        try:
            wanted = printed(bench, source)
            row[1] = bench.run([bench.program, "check", "s.v"]).out.split()[2].decode()
            if not wanted:
                marks.append("nothing is printed in 700 ticks")
            if not check:
                rate, _, ticks, _ = bench.fabhost(["s.v"], 1)
                row[2] = f"{thousands(rate)} ({ticks:,} ticks)"
        except (Failed, ValueError, IndexError) as failed:
            wrong |= tell(heads, row + [""] * len(others) + [str(failed)])
            continue
        for label, compile_it in others:
            row.append("")
            try:
                words = compile_it(source)
                marks.append(prints_else(bench, label, words(700), wanted))
                if not check:
                    their, _, _, _ = bench.rate(words)
                    row[-1] = f"{thousands(their)} ({their / rate:.2g})"
            except Failed as failed:
                marks.append(str(failed))
        wrong |= tell(heads, row + ["; ".join(m for m in marks if m)])
    return wrong


def tenants(bench):
    heads = ["tenants", "fabrics", "1,000 ticks of all a second of the clock", "of the processor", "times one tenant's, of the clock", "peak, MB", "marks"]
    first, wrong = None, False
    before = ("taskset", "-c", "0,1") if shutil.which("taskset") else ()
    print(table(heads, []), flush=True)
    for count in (1, 2, 8, 32):
        for n in range(count):
            bench.put(f"t{n}.v", demo(n + 1))
        for fabrics in (1, 2):
            try:
                cpu, clock, _, ran = bench.fabhost([f"t{n}.v" for n in range(count)], fabrics, before)
            except Failed as failed:
                wrong |= tell(heads, [count, fabrics, "", "", "", "", str(failed)])
                continue
            first = first or clock
            tell(heads, [count, fabrics, thousands(clock * count), thousands(cpu * count), f"{clock * count / first:.2f}", f"{ran.peak / 1e6:.0f}", ""])
    return wrong


def callgrind(bench):
    """The ten functions that take the most instructions of their own."""
    bench.put("s.v", demo(1))
    bench.script(["s.v"], 1, 20_000)
    ran = quick(["valgrind", "--tool=callgrind", "--callgrind-out-file=counts", bench.program, "run", "script"], bench.folder, seconds=900)
    if ran.status != 0:
        print(f"valgrind ends by {ran.status}: {ran.out[-300:].decode(errors='replace')}")
        return True
    done = subprocess.run(["callgrind_annotate", "--threshold=100", "counts"], cwd=bench.folder, capture_output=True, text=True, errors="replace")
    rows, total = [], ""
    for line in done.stdout.split("\n"):
        found = re.match(r"\s*([\d,]+)\s*\(\s*([\d.]+)%\)\s+(.*)", line)
        if found and "PROGRAM TOTALS" in line:
            total = found.group(1)
        elif found and len(rows) < 10:
            name = re.sub(r"^\S*\?\?\?:|^[^ ]*:(?=\S)", "", found.group(3))
            rows.append([re.sub(r" \[[^\]]*\]$", "", name).strip(), found.group(1), found.group(2)])
    print(f"\n{total} instructions, with the front end, in 20,000 ticks of the demonstration's first tenant; of their own:\n")
    print(table(["function", "instructions", "percent"], rows))
    return not rows


def main():
    asks = argparse.ArgumentParser(description="Measures ticks a second.")
    asks.add_argument("program")
    asks.add_argument("names", nargs="*")
    asks.add_argument("--seconds", type=float, default=3)
    asks.add_argument("--times", type=int, default=3)
    asks.add_argument("--no-others", action="store_true")
    asks.add_argument("--no-valgrind", action="store_true")
    asks.add_argument("--check", action="store_true", help="compares what is printed, and measures nothing")
    it = asks.parse_intermixed_args()
    stop_softly()
    program = os.path.abspath(it.program)
    names = it.names or [*DESIGNS, "tenants", "callgrind"]
    if not os.access(program, os.X_OK) or any(n not in [*DESIGNS, "tenants", "callgrind"] for n in names):
        sys.exit("a program, and names of: " + " ".join([*DESIGNS, "tenants", "callgrind"]))
    bench, wrong = Bench(program, it.seconds, it.times), False
    try:
        designs = [n for n in names if n in DESIGNS]
        if designs:
            there = [] if it.no_others else [("Icarus", bench.icarus)] * bool(shutil.which("vvp"))
            if not it.no_others and shutil.which("verilator"):
                there += [("Verilator, --binary", bench.verilator), ("Verilator, C++ main", bench.verilator_main)]
            wrong |= alone(bench, designs, there, it.check)
        if "tenants" in names and not it.check:
            print()
            wrong |= tenants(bench)
        if "callgrind" in names and not it.no_valgrind and not it.check:
            if shutil.which("valgrind") and not has_sanitizer(program):
                wrong |= callgrind(bench)
            else:
                print("\nno instruction counts: valgrind isn't there, or the program has AddressSanitizer")
    finally:
        shutil.rmtree(bench.folder, ignore_errors=True)
    return 1 if wrong else 0


if __name__ == "__main__":
    sys.exit(main())
