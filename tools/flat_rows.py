"""Makes the section `flat` of the input and of the wanted output of crates/check_rows from the tables tools/flat_rows.txt and
tools/name_rows.txt, and looks that docs/DESIGNS.md has the designs of its two examples; the other sections stay as they are."""

import pathlib
import re
import sys

sys.dont_write_bytecode = True

import sections

TOOLS = pathlib.Path(__file__).resolve().parent
TOP = TOOLS.parent
MARK = "«"


def expanded(text):
    """The text with each ¤TEXT*N¤ as N times TEXT."""
    return re.sub(r"¤([^¤]+)\*(\d+)¤", lambda found: found[1] * int(found[2]), text)


def text_of(text):
    """The text that is written so: that of a file where it is `file PATH`."""
    if text.startswith("file "):
        return (TOP / text.split()[1]).read_text().rstrip("\n")
    return expanded(text)


def parted(text):
    """The cases of a table: their first lines and the others."""
    lines = [line for line in text.split("\n") if not line.startswith("#")]
    for case in "\n".join(lines).split("\n---"):
        case = case.strip("\n")
        if case:
            yield case.split("\n", 1)


def cases(text):
    """The cases of a table of designs: what is wanted in its first line, the lines of a design, and the source."""
    for wanted, rest in parted(text):
        design, source = rest.split("\n\n", 1) if wanted.startswith("fine ") else ("", rest)
        yield wanted, expanded(design), text_of(source)


def column_of(line, token, count):
    """The column of a token, from 1 in bytes: that of so manyth of a word, or of a text that begins with another byte."""
    pattern = re.escape(token)
    if re.match(r"\w", token):
        pattern = r"(?<![\w$'])" + pattern + r"(?!\w)"
    found = [m.start() for m in re.finditer(pattern, line)]
    assert len(found) >= count, (line, token)
    return len(line[: found[count - 1]].encode()) + 1


def placed(row, lines):
    """A line of a design with its places written out. `@3:x` is that of the token x of line 3, `@3:x#2` that of the second
    one there, and behind a path `@3` that of the path's last name."""

    def place(found):
        before, line, token, count = found[1], int(found[2]), found[3], int(found[4] or 1)
        if token is None:
            token = before.split(".")[-1]
        return f"{before} at {line}:{column_of(lines[line - 1], token, count)}"

    return re.sub(r"(\S+) @(\d+)(?::([^\s#]+)(?:#(\d+))?)?", place, row)


def marked(source):
    """The line and the column of the mark in a source, and the source without it."""
    assert source.count(MARK) == 1, source
    before = source[: source.index(MARK)]
    line, column = before.count("\n") + 1, len(before.split("\n")[-1].encode()) + 1
    return line, column, source.replace(MARK, "")


def fault(wanted, source):
    """The wanted answer where a fault is marked, and the source without the mark."""
    assert wanted.split()[0] in ("construct", "limit"), wanted
    line, column, rest = marked(source)
    return [f"{wanted} at {line} {column}"], rest


def answer(wanted, design, source):
    """The lines of the wanted answer, and the source: `named` where no fault of names is wanted, whatever the design."""
    if not wanted.startswith("fine ") and wanted != "named":
        return fault(wanted, source)
    assert MARK not in source, source
    if wanted == "named":
        return [wanted], source
    lines = source.split("\n")
    return [wanted] + [placed(row, lines) for row in design.split("\n")], source


def numbered(name, count, form="{}"):
    """So many items: names with their numbers, in a form."""
    return ", ".join(form.format(f"{name}{i}") for i in range(count))


def nested(depth):
    """A top module m, in which modules to n(depth) stand in one another; the last isn't defined."""
    inner = [f"module n{i}(input k); n{i + 1} u(k); endmodule" for i in range(1, depth)]
    return "\n".join(["module m(input k); n1 u(k); endmodule"] + inner)


def large():
    """Sources at the limits of instances and signals, from both sides."""
    instances = "\n".join([
        "module c(input k); endmodule",
        f"module b(input k); c {numbered('u', 15, '{}(k)')}; endmodule",
        f"module a(input k); b {numbered('u', 16, '{}(k)')}; endmodule",
        # 15 times 1 + 16 * 16, 15 times 16, and one more are 4,096
        f"module m(input k); a {numbered('u', 15, '{}(k)')}; b {numbered('v', 15, '{}(k)')}; c w(k);",
    ])
    yield "limit 5", instances + "\n  «c z(k);\nendmodule"
    yield "limit 5", instances + f"\n  «c {'z' * 254}(k);\nendmodule"
    yield "construct 10", instances + "\n  reg [128:0] «x;\nendmodule"
    # 2^30 instances and more, and more than any number of 32 or 64 bits: depth first, the 4,097th is one of a1
    for levels in (30, 60, 100):
        doubled = "\n".join(
            ["module a1(input k); endmodule"]
            + [f"module a{i}(input k); {MARK if i == 2 else ''}a{i - 1} u(k), v(k); endmodule" for i in range(2, levels + 1)]
        )
        yield "limit 5", doubled + f"\nmodule m(input k); a{levels} u(k), v(k); endmodule"
    # instances in one another: the path of the 127th has 255 bytes
    yield "construct 10", nested(127) + "\nmodule n127(input k); reg [128:0] «x; endmodule"
    yield "limit 11", nested(127) + "\nmodule n127(input k); «n128 u(k); endmodule\nmodule n128(input k); endmodule"
    signals = "\n".join([
        f"module b(input k); reg {numbered('a', 64)}; endmodule",
        f"module a(input k); b {numbered('u', 16, '{}(k)')}; integer i; initial for (i = 0; i < 2; i = i + 1) ; endmodule",
        # 16 times 16 times 64 are 16,384; neither clocks nor loop variables nor a function's locals count
        f"module m(input k); a {numbered('u', 16, '{}(k)')}; function f(input y); f = y; endfunction",
    ])
    yield "limit 6", signals + "\n  reg «x;\nendmodule"
    yield "limit 6", signals + "\n  reg [128:0] «x;\nendmodule"
    yield "construct 24", signals + '\n  initial $display((«"12345678901234567"));\nendmodule'


def write(section, rows):
    """Writes a section whose rows are compared with what is wanted, and the output that is wanted of it."""
    lines = [line for wanted, source in rows for line in [f"= {each}" for each in wanted] + source.split("\n")]
    sections.write(section, lines, ["ok"] * len(rows))


def check_documents(rows):
    """Looks that docs/DESIGNS.md has the designs of its two examples."""
    designs = (TOP / "docs" / "DESIGNS.md").read_text()
    for lines, source in rows:
        for example in ("lcg.v", "uart.v"):
            if source == (TOP / "examples" / example).read_text().rstrip("\n"):
                assert "\n".join(lines[1:]) in designs, "docs/DESIGNS.md differs from the table:\n" + "\n".join(lines[1:])


if __name__ == "__main__":
    tables = [(TOOLS / name).read_text() for name in ("flat_rows.txt", "name_rows.txt")]
    answers = [answer(*case) for table in tables for case in cases(table)] + [fault(*case) for case in large()]
    write("flat", answers)
    check_documents(answers)
