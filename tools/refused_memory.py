#!/usr/bin/env python3
"""refused_memory.py P [ROW..]: runs the program P on three scripts (the counter for three ticks; a tenant that moves between fabrics, one of
which is too small; a snapshot, and a run that goes on from it), once for each allocation that it makes, which is refused; and then so that
each allocation from there on is refused. Each run has to end with status 7 and a front of what is printed else, or with all of that and the
status that it has else; and a snapshot file is there only behind a whole report, with its right bytes or cut off.

The refusals are made by a small library that is compiled by `cc` and put before the C library (LD_PRELOAD), so P runs as it was built. It
prints how many runs there were of each kind, and each that was wrong; its status is 1 where one was. The rows are `counter`, `moves`,
`save` and `resume`; all of them where none is named."""

import collections
import mmap
import os
import pathlib
import subprocess
import sys
import tempfile

TOP = pathlib.Path(__file__).resolve().parent.parent
ROOM = "fabric F 1000000000 1000000000 1000000000"
SAVED = bytes.fromhex("464142534e41500a0000000100000000000000020000000100036d2e6308000000000200")
SECONDS = 20

# counts each request for memory in a shared file, and refuses the one of a number, or all from it on; other threads are counted too
LIBRARY = r"""
#define _GNU_SOURCE
#include <errno.h>
#include <fcntl.h>
#include <stddef.h>
#include <stdlib.h>
#include <sys/mman.h>
#include <unistd.h>
extern void *__libc_malloc(size_t), *__libc_calloc(size_t, size_t), *__libc_realloc(void *, size_t), *__libc_memalign(size_t, size_t);
static unsigned long *count, at, on;
__attribute__((constructor)) static void begin(void) {
    const char *path = getenv("REFUSED_COUNT"), *number = getenv("REFUSED_AT");
    int file = path ? open(path, O_RDWR) : -1;
    at = number ? strtoul(number, 0, 10) : 0;
    on = getenv("REFUSED_ON") != 0;
    if (file >= 0) {
        count = mmap(0, 4096, PROT_READ | PROT_WRITE, MAP_SHARED, file, 0);
        close(file);
    }
}
static int refused(void) {
    if (!count) return 0;
    unsigned long number = __atomic_add_fetch(count, 1, __ATOMIC_SEQ_CST);
    if (!at || number < at || (number > at && !on)) return 0;
    errno = ENOMEM;
    return 1;
}
void *malloc(size_t n) { return refused() ? 0 : __libc_malloc(n); }
void *calloc(size_t m, size_t n) { return refused() ? 0 : __libc_calloc(m, n); }
void *realloc(void *p, size_t n) { return refused() ? 0 : __libc_realloc(p, n); }
void *memalign(size_t a, size_t n) { return refused() ? 0 : __libc_memalign(a, n); }
void *aligned_alloc(size_t a, size_t n) { return refused() ? 0 : __libc_memalign(a, n); }
int posix_memalign(void **p, size_t a, size_t n) {
    if (refused()) return ENOMEM;
    *p = __libc_memalign(a, n);
    return *p ? 0 : ENOMEM;
}
"""


def text_of(name):
    return (TOP / "examples" / name).read_bytes()


def numbers(first, last):
    return "".join(f"{n % 256}\n" for n in range(first, last))


def rows():
    """Name, script, further files, what is printed and with which status, and the snapshot that is left."""
    once = f"{ROOM}\ntenant A m.v F 3"
    counted = "tenant A budget 3 11 6\n0\n1\n2\n\nstay A F 0 3\n"
    fabrics = "\n".join(ROOM.replace("F", name, 1) for name in ("F1", "F2")) + "\nfabric F3 1 1 1"
    moves = f"{fabrics}\ntenant A m.v F1 300\nat A 100 move F2\nat A 200 move F1\nat A 250 move F3"
    stays = "stay A F1 0 100\nstay A F2 100 200\nstay A F1 200 300\n"
    yield "counter", once, {}, counted, None
    yield "moves", moves, {}, f"tenant A budget 300 902 1036\n{numbers(0, 300)}\n{stays}", None
    yield "save", f"{once}\nat A 2 save s", {}, counted, SAVED
    yield "resume", f"{ROOM}\ntenant A m.v F 5\nresume A A.s", {"A.s": SAVED}, "tenant A budget 5 9 6\n2\n3\n4\n\nstay A F 2 5\n", None


class Room:
    """A folder with the library and a row's files, where the program is run."""

    def __init__(self, program, folder):
        self.program = os.path.abspath(program)
        self.folder = pathlib.Path(folder)
        self.library = self.folder / "refused.so"
        self.counts = self.folder / "counts"
        (self.folder / "refused.c").write_text(LIBRARY)
        subprocess.run(["cc", "-O1", "-shared", "-fPIC", "-o", self.library, self.folder / "refused.c"], check=True)
        self.counts.write_bytes(bytes(4096))

    def begin(self, script, files):
        self.files = self.folder / "files"
        self.files.mkdir(exist_ok=True)
        for path in self.files.iterdir():
            path.unlink()
        for name, data in {"s": script.encode(), "m.v": text_of("counter.v"), **files}.items():
            (self.files / name).write_bytes(data)
        self.names = {"s", "m.v", *files}

    def run(self, at, on):
        """The status and output of a run in which the allocation of a number is refused, and how many were asked for."""
        for path in self.files.iterdir():
            if path.name not in self.names:
                path.unlink()
        with open(self.counts, "r+b") as file, mmap.mmap(file.fileno(), 4096) as page:
            page[:8] = bytes(8)
            env = {"LD_PRELOAD": str(self.library), "REFUSED_COUNT": str(self.counts), "REFUSED_AT": str(at), **({"REFUSED_ON": "1"} if on else {})}
            try:
                ran = subprocess.run([self.program, "run", "s"], cwd=self.files, env=env, stdin=subprocess.DEVNULL, stdout=subprocess.PIPE, stderr=subprocess.PIPE, timeout=SECONDS)
                status, out = ran.returncode, ran.stdout
            except subprocess.TimeoutExpired:
                status, out = "hangs", b""
            return status, out, int.from_bytes(page[:8], "little")

    def saved(self):
        path = self.files / "A.s"
        return path.read_bytes() if "A.s" not in self.names and path.exists() else None


def fault(status, out, saved, wanted, snapshot):
    """What is wrong with a run, if anything is."""
    if status not in (0, 7):
        return f"status {status}"
    if not wanted.startswith(out) or status == 0 and out != wanted:
        return f"status {status} with other output"
    if saved is not None and (snapshot is None or out != wanted or not snapshot.startswith(saved)):
        return "a snapshot file that is not to be there, or with other bytes"
    if status == 0 and saved != snapshot:
        return "no snapshot file, or another"
    return None


def main():
    if len(sys.argv) < 2:
        print(__doc__)
        return 2
    wrong, asked = 0, set(sys.argv[2:])
    with tempfile.TemporaryDirectory(prefix="refused-") as folder:
        room = Room(sys.argv[1], folder)
        for name, script, files, printed, snapshot in rows():
            if asked and name not in asked:
                continue
            room.begin(script, files)
            wanted = printed.encode()
            status, out, count = room.run(0, False)
            why = fault(status, out, room.saved(), wanted, snapshot) or (None if status == 0 else "status 7")
            if why:
                print(f"{name}: with all memory {why}: {out[:200]!r}")
                wrong += 1
                continue
            for on in (False, True):
                kinds = collections.Counter()
                for at in range(1, count + 1):
                    status, out, _ = room.run(at, on)
                    why = fault(status, out, room.saved(), wanted, snapshot)
                    if why:
                        wrong += 1
                        print(f"{name}: refused {'from ' if on else ''}{at} of {count}: {why}: {out[:120]!r}", flush=True)
                    kinds["wrong" if why else "whole" if status == 0 else "nothing" if not out else "a front"] += 1
                told = ", ".join(f"{kinds[kind]} {kind}" for kind in ("whole", "a front", "nothing", "wrong") if kinds[kind])
                print(f"{name}: {count} allocations, {'each from one on' if on else 'one at a time'} refused: {told}", flush=True)
    return 1 if wrong else 0


sys.exit(main())
