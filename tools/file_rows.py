"""Makes the rows of the section `files` of crates/value_rows: calls on tables of open files and on real files, and what they answer."""

import random
import sys

sys.dont_write_bytecode = True

from sections import write_values

FIRST = 0x80000003

random.seed(20051364)
rows = []
answers = []
names = []
files = {}
table = {}


def put(row, *answer):
    rows.append(row)
    answers.append(row + " =" + "".join(f" {word}" for word in answer))


def new():
    names.clear()
    files.clear()
    table.clear()
    put("new")


def file(name, text):
    """One more file; none where the name is there or 16 files are."""
    if name not in files and len(files) < 16:
        names.append(name)
        files[name] = text.encode()
    table.clear()
    put(f"file {name} {text}")


def open_file(name):
    """Opens at the lowest descriptor of 16 that isn't open."""
    free = [slot for slot in range(16) if slot not in table]
    if name in files and free:
        table[free[0]] = [name, 0, False]
        put(f"open {name}", f"{FIRST + free[0]:x}")
        return FIRST + free[0]
    put(f"open {name}", "0")
    return 0


def take(fd, count):
    """So many next bytes of an open file, or fewer at its end; None where it isn't open."""
    held = table.get(fd - FIRST)
    if held is None:
        return None
    name, place, _ = held
    got = files[name][place : place + count]
    held[1] += len(got)
    if len(got) < count:
        held[2] = True
    return got


def read(fd, width, value):
    """The bytes that were read stand for the first ones of the variable's, and bits past its width are dropped."""
    size = -(-width // 8)
    got = take(fd, size) or b""
    old = value.to_bytes(size, "big")
    result = int.from_bytes(got + old[len(got) :], "big") & ((1 << width) - 1)
    put(f"read {fd:x} {width:x} {value:x}", f"{result:x}", f"{len(got):x}")


def getc(fd):
    got = take(fd, 1)
    put(f"getc {fd:x}", f"{got[0]:x}" if got else "none")


def end(fd):
    held = table.get(fd - FIRST)
    put(f"end {fd:x}", 1 if held is None or held[2] else 0)


def close(fd):
    table.pop(fd - FIRST, None)
    put(f"close {fd:x}")


def row(slot):
    held = table.get(slot)
    if held is None:
        put(f"row {slot:x}", "none")
    else:
        name, place, ended = held
        put(f"row {slot:x}", f"{names.index(name):x}", f"{place:x}", int(ended))


def all_rows():
    for slot in range(16):
        row(slot)


def descriptors():
    """16 open, a 17th, and those that were closed given again."""
    new()
    file("a", "one")
    file("b", "two")
    opened = [open_file("ab"[turn % 2]) for turn in range(17)]
    all_rows()
    for fd in [opened[5], opened[2], 0, FIRST - 1, FIRST + 16, 0xFFFFFFFF, opened[5]]:
        close(fd)
    open_file("c")
    for _ in range(3):
        open_file("b")
    all_rows()


def short_reads():
    """At each width of 1 to 16 bytes, of which the last may be in part: whole, short, and none left."""
    text = "0123456789abcdefghijklmnopqrstuvwxyzABCDEFGHIJKLMNOPQRSTUVWXYZ"
    for size in range(1, 17):
        for width in [8 * size, 8 * size - 3, 8 * size - 7]:
            new()
            file("f", text[: 2 * size + size // 2])
            fd = open_file("f")
            for _ in range(4):
                read(fd, width, random.getrandbits(width))
                end(fd)
                row(0)


def ends():
    """The flag of the end comes with the read past it, and of each open file by itself."""
    new()
    file("two", "xy")
    file("none", "")
    first, second, third = open_file("two"), open_file("two"), open_file("none")
    for fd in [first, first, second, first, third, first, second, second]:
        getc(fd)
        end(first)
        end(second)
        end(third)
    read(first, 16, 0x4142)
    close(first)
    for fd in [first, 0, FIRST - 3, FIRST + 16]:
        getc(fd)
        end(fd)
        read(fd, 20, 0xABCDE)
    again = open_file("two")
    end(again)
    getc(again)


def some_calls():
    """Calls at random on few files."""
    for _ in range(6):
        new()
        for name in ["a", "b", "c", "a"]:
            file(name, "".join(random.choice("abcdef") for _ in range(random.randint(0, 9))))
        for _ in range(60):
            fd = FIRST + random.choice([-1, 0, 1, 2, 3, 4, 15, 16])
            call = random.choice(["open", "open", "read", "read", "getc", "getc", "end", "close", "row"])
            if call == "open":
                open_file(random.choice("abcd"))
            elif call == "read":
                width = random.randint(1, 40)
                read(fd, width, random.getrandbits(width))
            elif call == "row":
                row(random.randint(0, 15))
            else:
                {"getc": getc, "end": end, "close": close}[call](fd)


def full_set():
    """16 files, and a 17th that isn't added."""
    new()
    for number in range(17):
        file(f"f{number}", f"{number}")
    for number in [0, 15, 16]:
        getc(open_file(f"f{number}"))


def folder(call, *answer):
    """A call on the real files of the folder in which the program runs."""
    put(f"folder {call}", *answer)


def real_files():
    """What the program's folder does: files are kept and read up to a limit, and what can't be read or written is told and counted."""
    absences = 0
    long = b"7" * 10_000
    folder(f"fill long.txt {len(long):x}", "ok")
    for most in [0, 1, 4095, 4096, 4097, 8192, 9999, 10_000, 10_001, 2**64 - 1]:
        if len(long) <= most:
            folder(f"load long.txt {most:x}", f"{len(long):x}", long[:8].decode())
        else:
            folder(f"load long.txt {most:x}", "toolong")
            absences += 1
    for text in ["short", "a"]:
        # The file is as long as what was written last.
        folder(f"save long.txt {text}", "ok")
        folder(f"load long.txt {len(text):x}", f"{len(text):x}", text)
        folder(f"load long.txt {len(text) - 1:x}", "toolong")
        absences += 1
    folder("fill chunk.txt 1000", "ok")
    folder("load chunk.txt 1000", "1000", "77777777")
    folder("load chunk.txt fff", "toolong")
    folder("load missing.txt 9", "notthere")
    folder("load missing/a.txt 9", "notthere")
    # A file with no end is not read to it.
    folder("load /dev/zero 2328", "toolong")
    absences += 4
    folder("reports", "0", f"{absences:x}")
    # A folder is no file.
    folder("load . 9", "failed")
    folder("save . text", "failed")
    folder("save missing/a.txt text", "failed")
    folder("reports", "3", f"{absences:x}")
    folder("load chunk.txt 1000", "1000", "77777777")
    folder("reports", "3", f"{absences:x}")


for part in [descriptors, short_reads, ends, some_calls, full_set, real_files]:
    part()
write_values("files", rows, answers)
