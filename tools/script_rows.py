"""Makes the input and the wanted output of crates/script_rows from the table tools/script_rows.txt, and adds large scripts."""

import pathlib
import re

TOOLS = pathlib.Path(__file__).resolve().parent
FOLDER = TOOLS.parent / "crates" / "script_rows"


def expanded(text):
    """The text with each ¤C*N¤ as N bytes C."""
    return re.sub(r"¤(.)\*(\d+)¤", lambda found: found[1] * int(found[2]), text)


def cases(text):
    """The cases of a table: the kind, the lines that are wanted, and the lines of the script or of what a report is made of."""
    lines = [line for line in text.split("\n") if not line.startswith("//")]
    for case in "\n".join(lines).split("\n---\n"):
        if not case.strip("\n"):
            continue
        head, rest = expanded(case.lstrip("\n")).split("\n", 1)
        if head.startswith("script "):
            yield "script", [head], rest.split("\n")
        else:
            assert head in ("fine", "report"), case
            wanted, body = rest.split("\n\n\n" if head == "report" else "\n\n", 1)
            yield ("report" if head == "report" else "script"), wanted.split("\n"), body.split("\n")


def longest():
    """A script at all limits: 8 fabrics, 64 tenants with 16 files, a snapshot and 256 errands each, and 256 free orders."""
    script, wanted = [], []
    for f in range(8):
        script.append(f"fabric F{f} 1000000000 1000000000 1000000000")
        wanted.append(script[-1])
    for t in range(64):
        script.append(f"tenant T{t} t{t}.v F{t % 8} 1000000000")
        wanted.append(f"tenant T{t} t{t}.v {t % 8} 1000000000")
        for k in range(16):
            script.append(f"file T{t} f{k} d/{t}.{k}")
            wanted.append(f"file f{k} d/{t}.{k}")
        script.append(f"resume T{t} T{t}.s")
        wanted.append(f"resume T{t}.s")
        for k in range(256):
            script.append(f"at T{t} {255 - k} {f'move F{k % 8}' if k % 2 else f'save s{k}'}")
        for k in reversed(range(256)):
            wanted.append(f"{255 - k} {f'move {k % 8}' if k % 2 else f'save s{k}'}")
    for k in range(256):
        script.append(f"free watch T{k % 64}")
        wanted.append(f"free watch {k % 64}")
    return script, wanted


def past(lines, cause, line):
    """The row of a line with a cause behind others."""
    return "script", [f"script {len(lines) + 1} {cause}"], lines + [line]


def large():
    """The longest script, and lines that are one past a limit."""
    script, wanted = longest()
    yield "script", wanted, script
    begun = ["fabric F 1 1 1", "tenant T0 m.v F 3"]
    yield past(["fabric F 1 1 1"] + [f"tenant T{t} m.v F 3" for t in range(64)], 7, "tenant U m.v F 3")
    yield past(["fabric F 1 1 1"] + [f"tenant T{t} m.v F 3" for t in range(64)], 4, "tenant T63 m.v F 3")
    errands = begun + [f"at T0 {k} move F" for k in range(256)]
    yield past(errands, 7, "at T0 256 stop")
    yield past(errands, 6, "at T0 255 stop")
    yield past(errands, 5, "at T0 255 move G")
    orders = begun + ["free watch T0"] * 128 + ["free stop T0"] * 128
    yield past(orders, 7, "free save T0 s")
    yield past(orders, 7, "free watch T0")
    yield past(orders, 5, "free move T0 G")
    yield past(begun + [f"file T0 f{k} d" for k in range(16)], 4, "file T0 f15 d")


def main():
    rows = list(cases((TOOLS / "script_rows.txt").read_text())) + list(large())
    given = []
    for kind, wanted, body in rows:
        given.append("@ " + kind)
        given += ["= " + line for line in wanted] + ["| " + line for line in body]
    FOLDER.joinpath("stdin").write_text("\n".join(given) + "\n")
    FOLDER.joinpath("stdout").write_text("ok\n" * len(rows))


main()
