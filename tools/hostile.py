#!/usr/bin/env python3
"""Gives fabhost sources, snapshots and scripts with random faults, and looks at how it ends.

    tools/hostile.py PROGRAM [SEED [COUNT]] [--jobs 1] [--kinds sources,snapshots,scripts] [--from 0] [--keep hostile-found] [--memory 4]

PROGRAM is a built fabhost, SEED 1 and COUNT 10,000 where they aren't given. Of each kind COUNT mutations are made: sources, of
examples/*.v and of the rows in tools/*.txt that are sources; snapshots, which are made first by runs that save; and scripts, of
examples/*.script and of tools/host_scripts.txt. A mutation is one to four of: a bit that is flipped, bytes that are replaced, a range
that is deleted, doubled or exchanged with another, words of another file in between, a number that is made large, an end that is cut
off; of scripts mostly whole lines and words. It is made of the seed, the kind and its number alone, so --from N begins with the N-th
again.

Each source is run by `check` and, in a script of one tenant and 20 ticks, by `run`; snapshots are resumed; scripts are run, budgets above
5,000 ticks cut to less, so that a run that is right ends soon. Each run may use 20 seconds of the processor and --memory GB of addresses
(none with AddressSanitizer).

Findings: a status other than 0, 2, 3, 4, 5 (7 under the limit of memory), a signal, a run that takes too long, an output that isn't one
of its status, and a source that `check` and `run` judge differently. Each is kept in a folder and printed. The exit status is 1 where
there is one, else 0; where it is told to stop, it says what was done.
"""
import argparse
import collections
import glob
import multiprocessing
import os
import random
import re
import resource
import shutil
import signal
import subprocess
import sys
import tempfile
import time

sys.dont_write_bytecode = True

from running import has_sanitizer

TOP = os.path.dirname(os.path.dirname(os.path.abspath(__file__)))
SECONDS, PATIENCE = 20, 30
AMPLE = 1_000_000_000
KINDS = ["sources", "snapshots", "scripts"]

ONE = f"fabric F {AMPLE} {AMPLE} {AMPLE}\ntenant A s.v F 20\nfile A data data\nfile A hello.hex hello.hex\n"
FILES = {"data": bytes(range(200, 256)) + bytes(range(40)), "hello.hex": b"48 65 6c 6c 6f 0a\n@1 zz"}

SAVED = b"""module m(input k);
  reg [7:0] c; reg signed [127:0] w; reg [2:0] t; reg [11:0] q [0:3];
  integer fd = $fopen("data", "rb"), g = $fopen("data", "r"), d;
  always @(posedge k) begin
    d = $fgetc(fd); c <= c + d; w <= w - d; t <= t + 3; q[c] <= d;
    $display("%0d %0d %0d %0d %0d", c, w, t, q[0], d);
    if (c == 9) $save("nine");
  end
endmodule
"""


# ---- what mutations begin with


def rows_of(path):
    """The cases of a table, without marks."""
    with open(path, encoding="utf-8") as it:
        text = it.read()
    for part in re.split(r"^---$", text, flags=re.M):
        yield re.sub("[«»]", "", part)


# tables that were added since the figures of docs/TESTING.md: without them the same first number gives the same mutations
LATER = ("cost_rows.txt", "fabric_rows.txt", "split_rows.txt")


def sources_of(folder):
    """Sources of the examples and of the tables."""
    found = []
    for path in sorted(glob.glob(os.path.join(folder, "examples", "*.v"))):
        with open(path, "rb") as it:
            found.append(it.read())
    for path in sorted(glob.glob(os.path.join(folder, "tools", "*.txt"))):
        if os.path.basename(path) in LATER:
            continue
        for part in rows_of(path):
            at = part.find("module ")
            if at >= 0:
                found.append(part[at:].encode())
    return found


def scripts_of(folder):
    """Scripts, each with the files beside it."""
    found, beside = [], {}
    for path in sorted(glob.glob(os.path.join(folder, "examples", "*"))):
        with open(path, "rb") as it:
            data = it.read()
        if path.endswith(".script"):
            found.append(data)
        else:
            beside["examples/" + os.path.basename(path)] = data
    for part in rows_of(os.path.join(folder, "tools", "host_scripts.txt")):
        lines = part.split("\n")
        kept = [x for x in lines if re.match(r"(fabric|tenant|resume|at|free) |file \S+ \S+ \S+$", x)]
        if kept:
            found.append(re.sub(r"(?<=\s)[\w./-]*\.v(?=\s)", "examples/counter.v", "\n".join(kept) + "\n").encode())
    return found, beside


# ---- mutations

SPECIAL = [0, 9, 10, 13, 32, 34, 35, 39, 40, 41, 42, 47, 48, 57, 91, 92, 93, 96, 123, 125, 127, 128, 254, 255]
NUMBERS = [b"0", b"1", b"127", b"128", b"129", b"255", b"256", b"4095", b"4096", b"4097", b"65535", b"65536", b"262144", b"1000000000", b"2147483647", b"2147483648", b"4294967295", b"4294967296", b"18446744073709551616", b"128'd340282366920938463463374607431768211455", b"32'h8000_0003"]
PIECE = re.compile(rb"\w+|\s+|[^\w\s]")


def spot(rng, data, most=64):
    """A range."""
    at = rng.randrange(len(data) + 1)
    return at, min(len(data), at + rng.randrange(1, most))


def mutated(rng, data, others):
    for _ in range(rng.choice([1, 1, 1, 2, 2, 3, 4])):
        way = rng.randrange(10)
        if not data:
            way = 6
        if way == 0:
            at = rng.randrange(len(data))
            data = data[:at] + bytes([data[at] ^ 1 << rng.randrange(8)]) + data[at + 1 :]
        elif way == 1:
            at, end = spot(rng, data, 6)
            data = data[:at] + bytes(rng.choice(SPECIAL) if rng.random() < 0.6 else rng.randrange(256) for _ in range(end - at)) + data[end:]
        elif way == 2:
            at, end = spot(rng, data)
            data = data[:at] + data[end:]
        elif way == 3:
            at, end = spot(rng, data)
            data = data[:end] + data[at:end] * rng.choice([1, 1, 1, 2, 40]) + data[end:]
        elif way == 4:
            a, b = spot(rng, data)
            c, d = spot(rng, data)
            if c >= b:
                data = data[:a] + data[c:d] + data[b:c] + data[a:b] + data[d:]
        elif way == 5:
            data = data[: rng.randrange(len(data) + 1)]
        elif way in (6, 7):
            pieces = PIECE.findall(rng.choice(others))
            at = rng.randrange(len(pieces) + 1)
            put = rng.randrange(len(data) + 1)
            data = data[:put] + b"".join(pieces[at : at + rng.randrange(1, 12)]) + data[put:]
        elif way == 8:
            # a word, by another of the same file
            words = [x.span() for x in re.finditer(rb"\w+", data)]
            if words:
                (a, b), (c, d) = rng.choice(words), rng.choice(words)
                data = data[:a] + data[c:d] + data[b:]
        else:
            numbers = [x.span() for x in re.finditer(rb"\d+", data)]
            if numbers:
                a, b = rng.choice(numbers)
                data = data[:a] + rng.choice(NUMBERS) + data[b:]
    return data


def mutated_bytes(rng, data, others):
    """Of a snapshot: numbers of two, four and eight bytes too."""
    if rng.random() < 0.4 and len(data) > 8:
        size = rng.choice([1, 2, 4, 8])
        at = rng.randrange(len(data) - size)
        value = rng.choice([0, 1, 2, 255, 256, 65535, 1 << 31, (1 << 32) - 1, 1 << 63, (1 << 64) - 1, rng.getrandbits(64)]) % (1 << 8 * size)
        return data[:at] + value.to_bytes(size, "big") + data[at + size :]
    return mutated(rng, data, others)


def mutated_script(rng, data, others):
    """Of a script: mostly whole lines and words, since most other changes leave no script."""
    for _ in range(rng.choice([1, 1, 1, 1, 2, 3])):
        if rng.random() < 0.15:
            data = mutated(rng, data, others)
            continue
        lines = data.split(b"\n")
        at, to, way = rng.randrange(len(lines)), rng.randrange(len(lines)), rng.randrange(6)
        if way == 0:
            del lines[at]
        elif way == 1:
            lines.insert(to, lines[at])
        elif way == 2:
            lines[at], lines[to] = lines[to], lines[at]
        elif way == 3:
            lines.insert(to, rng.choice(rng.choice(others).split(b"\n")))
        else:
            words, others_words = lines[at].split(b" "), lines[to].split(b" ")
            words[rng.randrange(min(1, len(words) - 1), len(words))] = rng.choice(NUMBERS if way == 4 else others_words)
            lines[at] = b" ".join(words)
        data = b"\n".join(lines)
    return data


def with_small_budgets(script):
    def cut(found):
        return found.group(1) + str(int(found.group(2)) % 5000).encode()

    return re.sub(rb"^([ \t]*tenant[ \t]+\S+[ \t]+\S+[ \t]+\S+[ \t]+)(\d{4,10})\b", cut, script, flags=re.M)


# ---- running

COST = re.compile(rb"cost \d+ \d+ \d+\n")
REFUSED = re.compile(rb"refused (\d+ \d+ (?:parse|loop|(?:lex|limit|construct) \d+))\n")


class Worker:
    def __init__(self, asked):
        self.asked = asked
        self.folder = tempfile.mkdtemp(prefix="hostile-")
        self.out = tempfile.TemporaryFile()
        self.sources = sources_of(TOP)
        self.scripts, self.beside = scripts_of(TOP)
        resource.setrlimit(resource.RLIMIT_CORE, (0, 0))
        if asked["memory"]:
            resource.setrlimit(resource.RLIMIT_AS, (asked["memory"], asked["memory"]))
        self.clean()
        self.snapshots = self.saved()

    def clean(self):
        shutil.rmtree(self.folder, ignore_errors=True)
        os.makedirs(os.path.join(self.folder, "examples"))
        self.write({**self.beside, **FILES})
        self.made = 0

    def write(self, stored):
        for name, data in stored.items():
            with open(os.path.join(self.folder, name), "wb") as it:
                it.write(data if isinstance(data, bytes) else data.encode())

    def run(self, *words):
        """The status, and the output, of one run."""
        self.made += 1
        if self.made % 500 == 0 and len(os.listdir(self.folder)) > 300:
            kept = {n: open(os.path.join(self.folder, n), "rb").read() for n in ("s.v", "script", "snap") if os.path.exists(os.path.join(self.folder, n))}
            self.clean()
            self.write(kept)
        self.out.seek(0)
        self.out.truncate()
        child = subprocess.Popen([self.asked["program"], *words], cwd=self.folder, stdin=subprocess.DEVNULL, stdout=self.out, stderr=subprocess.STDOUT)
        try:
            resource.prlimit(child.pid, resource.RLIMIT_CPU, (SECONDS, SECONDS + 1))
        except (ProcessLookupError, PermissionError):
            pass
        try:
            status = child.wait(timeout=SECONDS * PATIENCE)
        except subprocess.TimeoutExpired:
            child.kill()
            child.wait()
            status = -signal.SIGXCPU
        self.out.seek(0)
        out = self.out.read(200_000)
        return "late" if status in (-signal.SIGXCPU, -signal.SIGKILL) else status if status >= 0 else f"signal {-status}", out

    def saved(self):
        """Snapshots, each with the source that it is of."""
        found = []
        for source in (SAVED, self.beside["examples/save.v"], self.beside["examples/lcg.v"]):
            self.write({"s.v": source, "script": ONE + "at A 3 save x\nat A 7 save y\n"})
            self.run("run", "script")
            for path in sorted(glob.glob(os.path.join(self.folder, "A.*"))):
                with open(path, "rb") as it:
                    found.append((source, it.read()))
                os.unlink(path)
        return found

    def ends(self, status, out, allowed):
        """What is wrong with an end, or nothing."""
        if status == "late":
            return f"over {SECONDS} s"
        if status == 7 and self.asked["memory"]:
            return ""
        if status not in allowed:
            return f"ends by {status}"
        if b"AddressSanitizer" in out or b"panicked" in out or b"runtime error" in out:
            return "says that it is wrong"
        front = {2: b"usage: ", 4: b"script ", 5: b"read "}
        if status in front and not out.startswith(front[status]):
            return f"status {status} with another output"
        return ""

    def source(self, rng):
        data = mutated(rng, rng.choice(self.sources), self.sources)
        self.write({"s.v": data, "script": ONE})
        status, out = self.run("check", "s.v")
        wrong = self.ends(status, out, (0, 3, 5))
        judged = None
        if not wrong and status in (0, 3):
            found = COST.fullmatch(out) if status == 0 else REFUSED.fullmatch(out)
            wrong = "" if found else f"status {status} with another output"
            judged = found.group(1) if found and status == 3 else b""
        seen = [f"check {status}"]
        if not wrong:
            again, said = self.run("run", "script")
            seen.append(f"run {again}")
            wrong = self.ends(again, said, (0, 3, 4, 5))
            if not wrong and again != 7 and status != 7:
                wrong = "" if again == status else f"check answers {status}, run {again}"
                if not wrong and again == 3 and said != b"refused A " + judged + b"\n":
                    wrong = "check and run refuse it differently"
            out += b"\n----\n" + said
        return seen, wrong, {"s.v": data}, out

    def snapshot(self, rng):
        source, data = rng.choice(self.snapshots)
        if rng.random() < 0.1:
            source = rng.choice(self.snapshots)[0]
        data = mutated_bytes(rng, data, [d for _, d in self.snapshots])
        self.write({"s.v": source, "snap": data, "script": ONE + "resume A snap\n"})
        status, out = self.run("run", "script")
        wrong = self.ends(status, out, (0, 3))
        if not wrong and status == 3 and not re.fullmatch(rb"refused A 0 0 snapshot [1-8]\n", out):
            wrong = "status 3 with another output"
        kind = out.split()[4:6] if status == 3 else []
        return [f"run {status}" + "".join(" " + x.decode("latin-1") for x in kind)], wrong, {"s.v": source, "snap": data}, out

    def script(self, rng):
        data = with_small_budgets(mutated_script(rng, rng.choice(self.scripts), self.scripts))
        self.write({"script": data})
        status, out = self.run("run", "script")
        wrong = self.ends(status, out, (0, 3, 4, 5))
        return [f"run {status}" + (" cause " + out.split()[2].decode("latin-1") if status == 4 and len(out.split()) > 2 else "")], wrong, {"script": data}, out

    def one(self, kind, number):
        rng = random.Random(f"{self.asked['seed']} {kind} {number}")
        begun = time.monotonic()
        seen, wrong, stored, out = {"sources": self.source, "snapshots": self.snapshot, "scripts": self.script}[kind](rng)
        if wrong:
            at = os.path.join(self.asked["keep"], f"{kind}-{self.asked['seed']}-{number}")
            os.makedirs(at, exist_ok=True)
            script = stored.get("script") or open(os.path.join(self.folder, "script"), "rb").read()
            for name, data in {**stored, "script": script, "out": out[:100_000], "why": wrong.encode()}.items():
                with open(os.path.join(at, name), "wb") as it:
                    it.write(data)
            wrong += f" ({at})"
        return kind, number, seen, wrong, time.monotonic() - begun


WORKER = None


def begin(asked):
    global WORKER
    signal.signal(signal.SIGINT, signal.SIG_IGN)
    signal.signal(signal.SIGTERM, signal.SIG_DFL)
    WORKER = Worker(asked)
    multiprocessing.util.Finalize(None, lambda: shutil.rmtree(WORKER.folder, ignore_errors=True), exitpriority=1)


def work(job):
    return WORKER.one(*job)


def main():
    asks = argparse.ArgumentParser(description="Gives fabhost what has random faults.")
    asks.add_argument("program")
    asks.add_argument("seed", nargs="?", type=int, default=1)
    asks.add_argument("count", nargs="?", type=int, default=10_000)
    asks.add_argument("--jobs", type=int, default=1)
    asks.add_argument("--kinds", default=",".join(KINDS))
    asks.add_argument("--from", dest="first", type=int, default=0)
    asks.add_argument("--keep", default="hostile-found")
    asks.add_argument("--memory", type=float, default=4)
    it = asks.parse_intermixed_args()
    program = os.path.abspath(it.program)
    if not os.access(program, os.X_OK):
        sys.exit(f"{program} is no program")
    memory = 0 if has_sanitizer(program) else int(it.memory * (1 << 30))
    asked = {"program": program, "seed": it.seed, "keep": os.path.abspath(it.keep), "memory": memory}
    counts, found, begun = collections.defaultdict(collections.Counter), 0, time.monotonic()
    jobs = ((kind, number) for kind in it.kinds.split(",") for number in range(it.first, it.first + it.count))
    slowest = (0.0, None)
    done, stopped = collections.Counter(), False

    def stop(*_):
        raise KeyboardInterrupt

    signal.signal(signal.SIGTERM, stop)
    with multiprocessing.Pool(it.jobs, begin, (asked,)) as pool:
        try:
            for kind, number, seen, wrong, seconds in pool.imap(work, jobs, chunksize=1 if it.jobs == 1 else 20):
                counts[kind].update(seen)
                done[kind] += 1
                slowest = max(slowest, (seconds, f"{kind} {number}"))
                if wrong:
                    found += 1
                    print(f"{kind} {number}: {wrong}", flush=True)
            pool.close()
            pool.join()
        except KeyboardInterrupt:
            stopped = True
            pool.terminate()
    if stopped:
        print("stopped before its end")
    for kind, seen in counts.items():
        print(f"{kind}: {done[kind]} mutations of seed {it.seed}: " + ", ".join(f"{n} {what}" for what, n in sorted(seen.items())))
    print(f"{found} findings, {time.monotonic() - begun:.0f} s, the slowest {slowest[0]:.1f} s ({slowest[1]}), {'no limit of memory' if not memory else f'{it.memory:g} GB'}")
    return 1 if found else 0


if __name__ == "__main__":
    sys.exit(main())
