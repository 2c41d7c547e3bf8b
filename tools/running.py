#!/usr/bin/env python3
"""Runs a program once and measures it, for the tools that try it:

    measure(words, folder, seconds=.., memory=.., kept=..)  ->  Ran(status, cpu, clock, peak, out)

`status` is a number, `signal N`, or `late` where the run took more than so many seconds of the processor, or 30 times as many of the
clock (a busy machine may give it few), and was killed. `cpu` is the seconds of the processor of the program and its threads, `clock` those of the clock, `peak` the greatest resident memory in bytes (ru_maxrss of
os.wait4), `out` the first `kept` bytes of standard output. The program is started by a small process of its own, so that the memory
of the tool isn't counted; what is below FLOOR is that process's.

`quick(words, folder, ..)` does the same without this process and without the memory.
"""
import collections
import json
import os
import resource
import signal
import subprocess
import sys
import tempfile
import time

# for programs with AddressSanitizer, which wants all addresses and so has no limit of them
os.environ.setdefault("ASAN_OPTIONS", "detect_leaks=0:hard_rss_limit_mb=6000")

FLOOR = 12 << 20
# how many times the seconds of the processor a run may take of the clock
PATIENCE = 30

Ran = collections.namedtuple("Ran", "status cpu clock peak out")


def limits(memory, seconds):
    """What a child does before the program begins."""

    def prepare():
        resource.setrlimit(resource.RLIMIT_CORE, (0, 0))
        whole = max(1, int(seconds + 0.999))
        resource.setrlimit(resource.RLIMIT_CPU, (whole, whole + 1))
        if memory is not None:
            resource.setrlimit(resource.RLIMIT_AS, (memory, memory))

    return prepare


def said(code):
    if code == -signal.SIGXCPU:
        return "late"
    return code if code >= 0 else f"signal {-code}"


def measure(words, folder, seconds=600.0, memory=None, kept=1 << 20):
    out_file, out_path = tempfile.mkstemp(prefix="out-")
    os.close(out_file)
    try:
        asked = json.dumps({"words": list(map(str, words)), "folder": folder, "seconds": seconds, "memory": memory, "out": out_path})
        helper = subprocess.Popen([sys.executable, "-S", "-E", os.path.abspath(__file__)], stdin=subprocess.PIPE, stdout=subprocess.PIPE, preexec_fn=os.setpgrp)
        try:
            found = json.loads(helper.communicate(asked.encode())[0])
        except BaseException:
            # so that nothing runs on where the tool is stopped
            os.killpg(helper.pid, signal.SIGKILL)
            helper.wait()
            raise
        with open(out_path, "rb") as it:
            out = it.read(kept)
        return Ran(found["status"], found["cpu"], found["clock"], found["peak"], out)
    finally:
        os.unlink(out_path)


def has_sanitizer(program):
    """Built with AddressSanitizer, which wants all addresses."""
    with open(program, "rb") as it:
        return b"__asan_init" in it.read()


def quick(words, folder, seconds=20.0, memory=None, kept=1 << 20):
    begun = time.monotonic()
    with tempfile.TemporaryFile() as out:
        child = subprocess.Popen(list(map(str, words)), cwd=folder, stdin=subprocess.DEVNULL, stdout=out, stderr=subprocess.STDOUT, preexec_fn=limits(memory, seconds))
        try:
            status = said(child.wait(timeout=seconds * PATIENCE))
        except subprocess.TimeoutExpired:
            child.kill()
            child.wait()
            status = "late"
        out.seek(0)
        return Ran(status, 0.0, time.monotonic() - begun, 0, out.read(kept))


def serve():
    asked = json.loads(sys.stdin.read())
    out = os.open(asked["out"], os.O_WRONLY | os.O_CREAT | os.O_TRUNC)
    nothing = os.open(os.devnull, os.O_RDONLY)
    begun = time.monotonic()
    child = os.fork()
    if child == 0:
        try:
            os.chdir(asked["folder"])
            os.dup2(nothing, 0)
            os.dup2(out, 1)
            os.dup2(out, 2)
            limits(asked["memory"], asked["seconds"])()
            os.execvp(asked["words"][0], asked["words"])
        finally:
            os._exit(127)
    late = []

    def kill(*_):
        late.append(True)
        os.kill(child, signal.SIGKILL)

    signal.signal(signal.SIGALRM, kill)
    signal.setitimer(signal.ITIMER_REAL, asked["seconds"] * PATIENCE)
    _, status, used = os.wait4(child, 0)
    signal.setitimer(signal.ITIMER_REAL, 0)
    clock = time.monotonic() - begun
    found = "late" if late else said(os.waitstatus_to_exitcode(status))
    print(json.dumps({"status": found, "cpu": used.ru_utime + used.ru_stime, "clock": clock, "peak": used.ru_maxrss * 1024}), flush=True)
    if late:
        # what the program started
        os.killpg(0, signal.SIGKILL)


def stop_softly():
    """So that folders are removed where a tool is told to stop."""
    signal.signal(signal.SIGTERM, lambda *_: sys.exit(143))


def show_seconds(n):
    return f"{n:.2f}" if n < 10 else f"{n:.0f}"


def show_memory(n):
    """In MB; nothing below FLOOR is measured."""
    return f"{n / 1e6:.0f}" if n > FLOOR else f"< {FLOOR / 1e6:.0f}"


def table(heads, rows):
    """A Markdown table."""
    lines = ["| " + " | ".join(heads) + " |", "|" + "---|" * len(heads)]
    lines += ["| " + " | ".join(str(x).replace("|", "\\|") for x in row) + " |" for row in rows]
    return "\n".join(lines)


if __name__ == "__main__":
    serve()
