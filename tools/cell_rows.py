"""Prints the section `cells` of the rows of crates/machine_rows: sources with combinational blocks, what their registers hold, and the
value that is wanted of a signal. It stands first there; tools/host_rows.py puts it in.

The rows of tools/cell_rows.txt were worked out by hand. The others are the expressions of tools/width_rows.py, whose values it
computes in whole numbers: `y` is assigned by an `always @*`, and `a`, `b` and so on are registers.
"""

import pathlib
import sys

sys.dont_write_bytecode = True

from width_rows import PARTS, Context, Maker, unique

TOOLS = pathlib.Path(__file__).resolve().parent


def row(wanted, told, body):
    """A row: the signal and its value, registers and what they hold, and lines of the module."""
    name, value = wanted
    return "\n".join(
        [
            f"= m.{name} {value}",
            *(f": m.{register} {held}" for register, held in told),
            "module m(input k);",
            *(f"  {line}" for line in body),
            "endmodule",
            "",
        ]
    )


def rows_of(expression, side):
    """A row for each signal that the left side assigns."""
    context = Context(max(side.width, expression.width), expression.signed)
    names = unique([*expression.names, *side.names])
    told = [(node.text, node.bits) for node in names]
    side.write(expression.value(context))
    body = [
        *(node.declared() for node in [*names, *side.targets]),
        "always @* begin",
        *(f"  {target.text} = 0;" for target in side.targets if side.text != target.text),
        f"  {side.text} = {expression.text};",
        "end",
    ]
    return [row((target.text, target.bits), told, body) for target in side.targets]


def told_of(line):
    name, value = line[2:].split()
    return name, int(value, 0)


def rows_by_hand():
    """The rows of the table: lines `= ` of what is wanted, `: ` of registers, and the module's lines; a `---` stands between two."""
    for case in (TOOLS / "cell_rows.txt").read_text().split("\n---\n"):
        lines = [line for line in case.splitlines() if line and not line.startswith("#")]
        told = [told_of(line) for line in lines if line.startswith(": ")]
        body = [line for line in lines if line[:2] not in ("= ", ": ")]
        for line in lines:
            if line.startswith("= "):
                yield row(told_of(line), told, body)


def cell_rows():
    """All rows, and the lines that are wanted."""
    made = list(rows_by_hand())
    for title, part in PARTS:
        for expression, side in part(Maker(title)):
            made += rows_of(expression, side)
    return "".join(made), "ok\n" * len(made)


if __name__ == "__main__":
    print("### cells\n" + cell_rows()[0], end="")
