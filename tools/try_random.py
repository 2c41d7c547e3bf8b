#!/usr/bin/env python3
"""Runs random scripts (random_scripts.py) by a built fabhost, and checks what it prints and writes:

1. two runs of a script without free orders give the same bytes, status and files;
2. so do a run on one processor and, as root, one that can make no thread beside the one in which it runs (another user whose limit of
   processes is 2); for scripts with free orders these are judged by the other checks instead;
3. each tenant that isn't refused for its cost has the block (status, ticks, cycles and bytes; or the refusal) and the snapshots that
   it has alone on a large fabric, with its errands but for moves, and with the free stops and saves that were done, at their ticks;
   a refusal for cost comes exactly where the cost, as a fabric of 0 0 0 refuses it, doesn't fit;
4. stays chain from the first tick to the last and are those that errands and free moves call for; replies to free orders are such as
   docs/FORMATS.md allows; the status is 0 or 3, or what a faulty script or a missing file calls for;
5. a tenant that is resumed from a snapshot of its own source prints the end of what it prints from the beginning, ends alike and
   saves the same.

    try_random.py [--program FILE] [--seeds 1-5] [--count 200] [--keep FOLDER] [--user N]

A line a seed. At a seed's first difference its script is kept, with its files and what was printed, and the status is 1.
"""
import argparse
import collections
import os
import random
import re
import resource
import shutil
import signal
import subprocess
import sys
import tempfile
import time

sys.dont_write_bytecode = True

import random_scripts
from random_scripts import AMPLE, Case, Kept, Tenant

TOP = os.path.dirname(os.path.dirname(os.path.abspath(__file__)))
LIMIT = 300

Ran = collections.namedtuple("Ran", "status out files")
Block = collections.namedtuple("Block", "name status ticks cycles bytes stays refusal")


class Differs(Exception):
    """What differs, and the runs that show it."""

    def __init__(self, what, **runs):
        super().__init__(what)
        self.runs = runs


def want(holds, what, **runs):
    if not holds:
        raise Differs(what, **runs)


# ---- running


class Runner:
    def __init__(self, program, user):
        self.program = program
        self.folder = tempfile.mkdtemp(prefix="try-random-")
        os.chmod(self.folder, 0o777)
        self.user = user
        self.runs = 0
        self.mode_seconds = collections.Counter()

    def close(self):
        shutil.rmtree(self.folder, ignore_errors=True)

    def prepare(self, mode):
        if mode == "one processor":
            cpu = min(os.sched_getaffinity(0))
            return lambda: os.sched_setaffinity(0, {cpu})
        if mode == "no thread":
            user = self.user

            def drop():
                resource.setrlimit(resource.RLIMIT_CORE, (0, 0))
                resource.setrlimit(resource.RLIMIT_NPROC, (2, 2))
                os.setgroups([])
                os.setgid(user)
                os.setuid(user)

            return drop
        return lambda: resource.setrlimit(resource.RLIMIT_CORE, (0, 0))

    def run(self, script, stored, mode="plain"):
        """Runs a script beside these files. Returns the status, the output and the files that are there afterwards, the script aside."""
        for name in os.listdir(self.folder):
            os.unlink(os.path.join(self.folder, name))
        for name, data in [("script", script), *stored.items()]:
            at = os.path.join(self.folder, name)
            with open(at, "wb") as it:
                it.write(data)
            os.chmod(at, 0o666)
        begun = time.monotonic()
        try:
            done = subprocess.run(
                [self.program, "run", "script"],
                cwd=self.folder,
                stdin=subprocess.DEVNULL,
                capture_output=True,
                timeout=LIMIT,
                preexec_fn=self.prepare(mode),
            )
            status, out, said = done.returncode, done.stdout, done.stderr
        except subprocess.TimeoutExpired as late:
            status, out, said = "hangs", late.stdout or b"", late.stderr or b""
        self.runs += 1
        self.mode_seconds[mode] += time.monotonic() - begun
        files = {}
        for name in os.listdir(self.folder):
            if name != "script":
                with open(os.path.join(self.folder, name), "rb") as it:
                    files[name] = it.read()
        if said:
            out += b"\n(standard error) " + said
        return Ran(status, out, files)


# ---- reading reports


def read_report(ran, case):
    """The blocks and the free lines of a report."""
    out, at, blocks, free = ran.out, 0, [], []
    want(ran.status in (0, 3), f"status {ran.status}, with {out[-200:]}", run=ran)

    def line():
        nonlocal at
        end = out.find(b"\n", at)
        want(end >= 0, "the report ends inside a line", run=ran)
        text = out[at:end].decode("latin-1")
        at = end + 1
        return text

    for t in case.tenants:
        words = line().split(" ")
        want(len(words) > 1 and words[1] == t.name, f"the report has no block of {t.name} in its place", run=ran)
        if words[0] == "refused":
            blocks.append(Block(t.name, None, 0, 0, b"", [], " ".join(words[2:])))
            continue
        want(words[0] == "tenant" and len(words) == 6 and words[2] in ("finished", "budget", "stopped"), f"{t.name}: {words}", run=ran)
        ticks, cycles, count = map(int, words[3:])
        printed = out[at : at + count]
        at += count
        want(len(printed) == count and out[at : at + 1] == b"\n", f"{t.name}: its bytes are not as many as said", run=ran)
        at += 1
        stays = []
        while out.startswith(f"stay {t.name} ".encode(), at):
            _, _, fabric, since, until = line().split(" ")
            names = [f[0] for f in case.fabrics]
            want(fabric in names, f"{t.name}: a stay on {fabric}", run=ran)
            stays.append((names.index(fabric), int(since), int(until)))
        blocks.append(Block(t.name, words[2], ticks, cycles, printed, stays, None))
    for word, n, what in case.free:
        words = line().split(" ")
        end = [case.fabrics[what][0]] if word == "move" else [what] if word == "save" else []
        order = ["free", word, case.tenants[n].name, *end]
        want(words[: len(order)] == order, f"the line of {order} is {words}", run=ran)
        free.append(words[len(order) :])
    want(at == len(out), "the report goes on behind its end", run=ran)
    return blocks, free


def tick_in(reply):
    """The tick of a reply that is a tick, else None."""
    return int(reply[0]) if len(reply) == 1 and reply[0].isdigit() else None


def fits(cost, room):
    return all(c <= r for c, r in zip(cost, room))


def saved_by(ran, name):
    """The files NAME.* behind a run."""
    return {path: data for path, data in ran.files.items() if path.startswith(name + ".")}


# ---- checks of one run


def check_status(ran, blocks):
    refused = any(b.refusal is not None for b in blocks)
    want(ran.status == (3 if refused else 0), f"status {ran.status}, with {'a' if refused else 'no'} tenant refused", run=ran)


def check_cost(case, n, block, cost, ran):
    """Refused for its cost exactly where that doesn't fit, with these numbers."""
    t = case.tenants[n]
    room = case.fabrics[t.fabric][1:]
    if cost is None:
        want(block.refusal is not None and not block.refusal.startswith("0 0 "), f"{t.name}: its source has a fault alone, and here: {block.refusal}", run=ran)
        return
    said = "0 0 cost " + " ".join(map(str, cost)) + " " + " ".join(map(str, room))
    is_refused = block.refusal is not None and block.refusal.startswith("0 0 cost")
    want(is_refused == (not fits(cost, room)), f"{t.name}: cost {cost} on {room}: {block.refusal}", run=ran)
    want(not is_refused or block.refusal == said, f"{t.name}: refused {block.refusal}, not {said}", run=ran)


def first_of(t):
    return int.from_bytes(t.resume[12:20], "big") if t.resume is not None else 0


def answers_of(case, free, n, word):
    """The orders of a kind to a tenant that have a tick as reply: what, tick."""
    return [(what, tick_in(reply)) for (w, k, what), reply in zip(case.free, free) if w == word and k == n and tick_in(reply) is not None]


def check_stays(case, n, block, free, cost, ran):
    t, first, last = case.tenants[n], first_of(case.tenants[n]), block.ticks
    what = f"{t.name}: stays {block.stays} of a run from {first} to {last}"
    at = first
    for _, since, until in block.stays:
        want(since == at and until >= since, f"{what} don't chain", run=ran)
        at = until
    want(at == last or not block.stays and first == last, f"{what} don't end with it", run=ran)
    order = [(since, until, fabric) for fabric, since, until in block.stays]
    want(order == sorted(order), f"{what} are out of order", run=ran)
    moves, saves, stops = (answers_of(case, free, n, word) for word in ("move", "save", "stop"))
    if first == last and not stops and not block.stays:
        want(not moves and not saves, f"{what}: free orders were done", run=ran)
        return
    want(first != last or stops, f"{what}, though it ends where it begins", run=ran)
    planned = [(tick, f) for tick, word, f in t.errands if word == "move" and fits(cost, case.fabrics[f][1:])]
    puts = collections.Counter([(first, t.fabric)] + [p for p in planned if first <= p[0] < last] + [(k, f) for f, k in moves])
    found = collections.Counter((since, fabric) for fabric, since, _ in block.stays)
    more, less = found - puts, puts - found
    # one that an order took out of a line has no stay there
    taken = {k for _, k in moves + saves + stops}
    want(all(tick in taken for tick, _ in less), f"{what}: errands call for {sorted(puts.elements())}", run=ran)
    # put back where it was saved; and perhaps moved at the tick of a free stop
    back = collections.Counter(k for _, k in saves)
    late = [p for p in planned if p[0] == last and stops]
    for put in sorted(more.elements()):
        leaves = any(fabric == put[1] and until == put[0] for fabric, _, until in block.stays)
        if back[put[0]] and leaves:
            back[put[0]] -= 1
        elif put in late:
            late.remove(put)
        else:
            want(False, f"{what}: nothing puts it on {put}; errands call for {sorted(puts.elements())}", run=ran)


def check_replies(case, blocks, free, costs, ran):
    watched = collections.defaultdict(int)
    for (word, n, what), reply in zip(case.free, free):
        t, b = case.tenants[n], blocks[n]
        said = f"free {word} {t.name} {what}: {' '.join(reply)}"
        if b.refusal is not None:
            want(reply == ["refused"], said, run=ran)
            continue
        k = tick_in(reply)
        # where a tenant is put in line or leaves: one that is taken out of a line has no stay there
        bounds = {first_of(t)} | {until for _, _, until in b.stays}
        if word == "move":
            room = case.fabrics[what][1:]
            if not fits(costs[n], room):
                want(reply == ["small"], said, run=ran)
            elif k is not None:
                want(k in bounds, said, run=ran)
            else:
                want(reply == ["ended", str(b.ticks)], said, run=ran)
        elif word == "stop":
            want(reply == ["ended", str(b.ticks)] or k == b.ticks and b.status == "stopped" and k in bounds, said, run=ran)
        elif word == "save":
            want(reply == ["ended", str(b.ticks)] or k is not None and first_of(t) <= k <= b.ticks and k in bounds, said, run=ran)
        else:
            least = first_of(t) if b.stays else 0
            want(k is not None and max(least, watched[n]) <= k <= b.ticks, said, run=ran)
        if k is not None:
            watched[n] = max(watched[n], k)


def check_files(case, blocks, ran):
    """Files change only as TENANT.NAME of tenants that ran."""
    ran_names = {b.name for b in blocks if b.refusal is None}
    for path, data in ran.files.items():
        if case.stored.get(path) != data:
            want(path.split(".")[0] in ran_names, f"the file {path} has changed", run=ran)
    for path in case.stored:
        want(path in ran.files, f"the file {path} is gone", run=ran)


# ---- a tenant alone


def alone_script(t, errands, resumed=True, budget=None):
    """A script of this tenant by itself on a large fabric."""
    lines = [f"fabric Alone {AMPLE} {AMPLE} {AMPLE}", f"tenant {t.name} {t.path} Alone {t.budget if budget is None else budget}"]
    lines += [f"file {t.name} {name} {path}" for (name, _), path in zip(t.files, t.file_paths)]
    if resumed and t.resume is not None:
        lines.append(f"resume {t.name} {t.resume_path}")
    for tick, word, what in errands:
        lines.append(f"at {t.name} {tick} {word} {what}".rstrip())
    return "\n".join(lines).encode() + b"\n"


def stored_of(case, t):
    paths = [t.path, *t.file_paths, *([t.resume_path] if t.resume is not None else [])]
    return {path: case.stored[path] for path in paths}


def alone_case(t):
    return Case([("Alone", AMPLE, AMPLE, AMPLE)], [t], [])


def run_alone(runner, case, n, errands, resumed=True):
    t = case.tenants[n]
    ran = runner.run(alone_script(t, errands, resumed), stored_of(case, t))
    blocks, _ = read_report(ran, alone_case(t))
    check_status(ran, blocks)
    return ran, blocks[0]


def own_errands(case, free, n):
    """The errands of a tenant but for moves, with the free orders that were done, each once."""
    errands = [e for e in case.tenants[n].errands if e[1] != "move"]
    stops = answers_of(case, free, n, "stop")
    for _, tick in stops:
        errands = [e for e in errands if not (e[1] == "stop" and e[0] == tick)] + [(tick, "stop", "")]
    for name, tick in answers_of(case, free, n, "save"):
        if (tick, "save", name) not in errands:
            errands.append((tick, "save", name))
    return errands


def check_alone(runner, case, n, block, free, ran):
    errands = own_errands(case, free, n)
    alone, single = run_alone(runner, case, n, errands)
    same = block._replace(stays=[]) == single._replace(stays=[])
    want(same, f"{block.name}: {shown(block)} here, {shown(single)} alone", run=ran, alone=alone)
    want(saved_by(ran, block.name) == saved_by(alone, block.name), f"{block.name}: other snapshots than alone", run=ran, alone=alone)
    if single.refusal is None:
        stays = [(0, first_of(case.tenants[n]), single.ticks)] if single.ticks != first_of(case.tenants[n]) or single.stays else []
        want(single.stays == stays, f"{block.name}: stays alone {single.stays}", alone=alone)
    return single, alone


def check_resumed(runner, case, n, free, single, alone):
    """A tenant resumed from a snapshot of its own source, against the same from the beginning."""
    t = case.tenants[n]
    errands = [e for e in t.errands if e[1] != "move" and e[0] >= t.kept.tick]
    if any(e[1] != "move" for e in t.errands if e[0] < t.kept.tick) or answers_of(case, free, n, "stop") + answers_of(case, free, n, "save"):
        # errands below the first tick do nothing in a resumed run, and it is compared without free orders
        alone, single = run_alone(runner, case, n, errands)
    whole, begun = run_alone(runner, case, n, errands, resumed=False)
    ends = (single.status, single.ticks) == (begun.status, begun.ticks) and begun.bytes.endswith(single.bytes)
    want(ends, f"{t.name}: {shown(single)} resumed at {t.kept.tick}, {shown(begun)} from the beginning", resumed=alone, begun=whole)
    was = case.stored.get(t.resume_path)
    for path, data in saved_by(alone, t.name).items():
        if path == t.resume_path and data == was:
            continue
        want(saved_by(whole, t.name).get(path) == data, f"{path}: another snapshot than from the beginning", resumed=alone, begun=whole)


def shown(block):
    if block.refusal is not None:
        return f"refused {block.refusal}"
    return f"{block.status} {block.ticks} {block.cycles} {len(block.bytes)}"


# ---- a case


def costs_of(runner, sources):
    """The cost of each source, or None where it is refused for its own fault."""
    lines = ["fabric P 0 0 0"]
    stored = {}
    for n, text in enumerate(sources):
        stored[f"{n}.v"] = text
        lines.append(f"tenant T{n} {n}.v P 0")
    ran = runner.run("\n".join(lines).encode() + b"\n", stored)
    tenants = [Tenant(f"T{n}", text, 0, 0) for n, text in enumerate(sources)]
    blocks, _ = read_report(ran, Case([("P", 0, 0, 0)], tenants, []))
    costs = []
    for b in blocks:
        found = re.fullmatch(r"0 0 cost (\d+) (\d+) (\d+) 0 0 0", b.refusal or "")
        costs.append(tuple(map(int, found.groups())) if found else None if b.refusal is not None else (0, 0, 0))
    return costs


def judge(case, costs, ran):
    """Checks 3 (costs) and 4 on one run."""
    blocks, free = read_report(ran, case)
    check_status(ran, blocks)
    check_files(case, blocks, ran)
    for n, block in enumerate(blocks):
        check_cost(case, n, block, costs[n], ran)
        if block.refusal is None:
            check_stays(case, n, block, free, costs[n], ran)
    check_replies(case, blocks, free, costs, ran)
    return blocks, free


def try_case(runner, case, costs, modes, counts, pool):
    base = runner.run(case.script, case.stored)
    others = {mode: runner.run(case.script, case.stored, mode) for mode in modes}
    if case.wanted is not None:
        counts["faulty"] += 1
        for mode, ran in [("plain", base), *others.items()]:
            want((ran.status, ran.out) == case.wanted and ran.files == case.stored, f"{mode}: {case.wanted} is wanted", run=ran)
        return
    counts["free"] += bool(case.free)
    blocks, free = judge(case, costs, base)
    if not case.free:
        for mode, ran in others.items():
            want(ran == base, f"another run ({mode}) differs", run=base, other=ran)
        seen = [(base, blocks, free)]
    else:
        counts["free lines"] += len(case.free)
        for reply in free:
            counts["free " + (reply[0] if tick_in(reply) is None else "tick")] += 1
        counts["free done"] += sum(tick_in(reply) is not None and word != "watch" for (word, _, _), reply in zip(case.free, free))
        seen = [(base, blocks, free)]
        for mode, ran in others.items():
            if (ran.status, ran.out, ran.files) != (base.status, base.out, base.files):
                seen.append((ran, *judge(case, costs, ran)))
                counts["free differing"] += 1
    for ran, blocks_, free_ in seen:
        for n, block in enumerate(blocks_):
            if block.refusal is not None and block.refusal.startswith("0 0 cost"):
                continue
            single, alone = check_alone(runner, case, n, block, free_, ran)
            counts["alone"] += 1
            t = case.tenants[n]
            if ran is base and single.refusal is None and t.kept is not None and t.kept.is_exact:
                check_resumed(runner, case, n, free, single, alone)
                counts["resumed against whole"] += 1
    for n, (t, block) in enumerate(zip(case.tenants, blocks)):
        counts["tenants"] += 1
        counts["moved"] += len(block.stays) > 1
        counts["stays"] += len(block.stays)
        if block.refusal is not None:
            kind = block.refusal.split(" ")[2]
            counts["refused " + (kind if kind in ("cost", "snapshot") else "source")] += 1
            continue
        counts[block.status] += 1
        counts["resumed"] += t.resume is not None
        counts["bytes"] += len(block.bytes)
        kept = {p: d for p, d in saved_by(base, t.name).items() if case.stored.get(p) != d}
        counts["saved"] += bool(kept)
        counts["snapshots"] += len(kept)
        exact = t.resume is None or t.kept is not None and t.kept.is_exact
        for data in kept.values():
            pool.append(Kept(data, t.source, t.files, int.from_bytes(data[12:20], "big"), t.budget, exact))
    del pool[:-80]
    # a line at the beginning: those that run from their first tick on a fabric don't all fit there
    for g, (_, *room) in enumerate(case.fabrics):
        here = [c for t, b, c in zip(case.tenants, blocks, costs) if b.refusal is None and b.stays and t.fabric == g]
        if here and not fits([sum(c[k] for c in here) for k in range(3)], room):
            counts["fabrics with a line"] += 1


def keep(folder, seed, number, case, differs):
    at = os.path.join(folder, f"seed-{seed}-{number}")
    shutil.rmtree(at, ignore_errors=True)
    os.makedirs(at)
    things = [("script", case.script), *case.stored.items(), ("difference", f"{differs}\n".encode())]
    for name, ran in differs.runs.items():
        things.append((f"out-{name}", ran.out + f"\n(status {ran.status})\n".encode()))
        things += [(f"left-{name}-{path}", data) for path, data in ran.files.items() if case.stored.get(path) != data]
    for name, data in things:
        with open(os.path.join(at, name), "wb") as it:
            it.write(data)
    return at


WORDS = ["finished", "budget", "stopped", "moved", "stays", "refused source", "refused cost", "refused snapshot", "saved", "snapshots", "resumed"]
WORDS += ["alone", "resumed against whole", "fabrics with a line", "faulty", "free", "free lines", "free ended", "free small", "free refused", "free done", "free differing"]


def try_seed(runner, seed, count, modes, folder):
    pool, counts, begun = [], collections.Counter(), time.monotonic()
    for number in range(count):
        case, costs = Case([], [], []), None
        try:
            asked = []

            def costs_now(sources):
                asked.append(costs_of(runner, sources))
                return asked[0]

            case = random_scripts.make(random.Random(f"{seed} {number}"), pool, costs_now)
            costs = asked[0]
            try_case(runner, case, costs, modes, counts, pool)
            counts["scripts"] += 1
        except Differs as differs:
            at = keep(folder, seed, number, case, differs)
            return counts, f"script {number}: {differs} ({at})", time.monotonic() - begun
    return counts, None, time.monotonic() - begun


def seeds_in(text):
    for part in text.split(","):
        low, _, high = part.partition("-")
        yield from range(int(low), int(high or low) + 1)


def main():
    asks = argparse.ArgumentParser(description="Runs random scripts by fabhost and checks what it says.")
    asks.add_argument("--program", default=os.path.join(TOP, "crates/fabhost/out/fabhost"))
    asks.add_argument("--seeds", default="1")
    asks.add_argument("--count", type=int, default=200)
    asks.add_argument("--keep", default="differences")
    asks.add_argument("--user", type=int, default=61234, help="the number of a user that runs nothing, for runs without threads; another for each try_random.py at one time; 0: no such runs")
    it = asks.parse_args()
    program = os.path.abspath(it.program)
    if not os.access(program, os.X_OK):
        sys.exit(f"{program} is no program: build it, or give --program FILE")
    modes = ["again", "one processor"]
    if os.geteuid() == 0 and it.user:
        modes.append("no thread")
    else:
        print("no runs without threads: these want root and a user")
    # so that the folder is removed where this is told to stop
    signal.signal(signal.SIGTERM, lambda *_: sys.exit(143))
    runner, failed = Runner(program, it.user), False
    try:
        for seed in seeds_in(it.seeds):
            counts, differs, seconds = try_seed(runner, seed, it.count, modes, it.keep)
            said = ", ".join(f"{counts[w]} {w}" for w in WORDS if counts[w])
            print(f"seed {seed}: {counts['scripts']} scripts, {counts['tenants']} tenants ({said}), {seconds:.0f} s: {differs or 'ok'}", flush=True)
            failed = failed or differs is not None
        by_mode = ", ".join(f"{mode} {seconds:.1f} s" for mode, seconds in runner.mode_seconds.items())
        print(f"{runner.runs} runs ({by_mode})")
    finally:
        runner.close()
    return 1 if failed else 0


if __name__ == "__main__":
    sys.exit(main())
