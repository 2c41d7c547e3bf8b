#!/usr/bin/env python3
"""gate_times.py [--page FILE] COMMAND..: runs COMMAND (say `rt ci`), looks once a second at the checks and builds of `rattle` on
this machine, and then prints what each crate took, in seconds of processor: the proof of its own contracts (of a library, with
what others check against), its test functions, its must-fail edits, and of a program its builds by both compilers. The dearest
stand first; behind the sums stand how long COMMAND ran before the first check, and in all. Only what COMMAND starts is counted, and
what a run finds kept on the machine costs nothing: the table of a whole gate is made where nothing is kept. With --page the table
stands in FILE as a table of Markdown, in place of the one between the two marks there. Ends with COMMAND's status."""

import collections
import os
import subprocess
import sys
import time

TICK = os.sysconf("SC_CLK_TCK")
KINDS = ("proof", "tests", "edits", "builds")
BEGIN, END = "<!-- gate_times begins -->", "<!-- gate_times ends -->"
ALONE = 60


def words_of(process):
    """The words of this process's command, if it is a check or a build of `rattle`."""
    with open(f"/proc/{process}/cmdline", "rb") as file:
        words = file.read().decode("utf8", "replace").split("\0")
    return words if os.path.basename(words[0]) == "rattle" and "--crate-name" in words else None


def kind_of(words, folder):
    if "rt-edit" in folder:
        return "edits"
    if "--test" in words:
        return "tests"
    return "builds" if "--crate-checked" in words else "proof"


def stat_of(process):
    """What the system tells of a process behind its name: the second is the process that started it."""
    with open(f"/proc/{process}/stat") as file:
        return file.read().rsplit(")", 1)[1].split()


def is_below(process, first):
    """The process is the first one, or was started by one that is below it."""
    while process not in ("0", "1"):
        if process == first:
            return True
        process = stat_of(process)[1]
    return False


def look(seen, first):
    """Notes of each check and build below the first process what it took so far, with what it started."""
    for process in filter(str.isdigit, os.listdir("/proc")):
        try:
            words = words_of(process)
            if words is None or not is_below(process, first):
                continue
            stat = stat_of(process)
            folder = os.readlink(f"/proc/{process}/cwd")
        except (OSError, IndexError):
            continue
        name = words[words.index("--crate-name") + 1]
        took = sum(int(stat[at]) for at in (11, 12, 13, 14)) / TICK
        seen[process, stat[19]] = (name, kind_of(words, folder), took)


def sums(seen):
    """The seconds by crate and kind, the dearest crate first."""
    table = collections.defaultdict(collections.Counter)
    for name, kind, took in seen.values():
        table[name][kind] += took
    return sorted(table.items(), key=lambda row: -sum(row[1].values()))


def markdown(table, minutes):
    """The crates that take a minute or more with a line each, the others in one, and the sums."""
    lines = ["| crate | " + " | ".join(KINDS) + " | together |", "|---|" + "---:|" * (len(KINDS) + 1)]
    rest, all_of, few = collections.Counter(), collections.Counter(), 0

    def row(name, took):
        cells = [f"{took[kind]:,.0f}" if took[kind] >= 0.5 else "" for kind in KINDS]
        lines.append(f"| {name} | " + " | ".join(cells) + f" | {sum(took.values()):,.0f} |")

    for name, took in table:
        all_of.update(took)
        if sum(took.values()) >= ALONE:
            row(f"`{name}`", took)
        else:
            rest.update(took)
            few += 1
    row(f"{few} others, under {ALONE} s each", rest)
    row("all", all_of)
    total = sum(all_of.values()) / 60
    lines += ["", f"{total:.0f} minutes of processor, in {minutes:.0f} minutes on {len(os.sched_getaffinity(0))} processors."]
    return "\n".join(lines)


def put(page, text):
    """Puts the text between the marks of a page."""
    with open(page, encoding="utf8") as file:
        before, rest = file.read().split(BEGIN, 1)
    with open(page, "w", encoding="utf8") as file:
        file.write(f"{before}{BEGIN}\n\n{text}\n\n{END}{rest.split(END, 1)[1]}")


def main():
    words, page = sys.argv[1:], None
    if words[:1] == ["--page"] and len(words) > 1:
        page, words = words[1], words[2:]
    if not words:
        print(__doc__)
        return 2
    seen, begun, first = {}, time.time(), None
    child = subprocess.Popen(words)
    while child.poll() is None:
        look(seen, str(child.pid))
        if first is None and seen:
            first = time.time() - begun
        time.sleep(1)
    minutes, table = (time.time() - begun) / 60, sums(seen)
    print(f'{"crate":20}' + "".join(f"{kind:>8}" for kind in KINDS))
    for name, took in table + [("all", sum((row for _, row in table), collections.Counter()))]:
        print(f"{name:20}" + "".join(f"{took[kind]:8.0f}" for kind in KINDS))
    print(f"the first check began after {first or 0:.0f} seconds")
    print(f"{minutes:.0f} minutes on {len(os.sched_getaffinity(0))} processors")
    if page is not None:
        put(page, markdown(table, minutes))
    return child.returncode


sys.exit(main())
