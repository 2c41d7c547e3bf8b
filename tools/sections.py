"""Sections of the input of a program of rows: a line `### NAME`, and behind it rows. In crates/check_rows a row is a source behind lines
`= `, in crates/value_rows it is a line. The wanted output has a line for each row. Who makes the rows of a section writes these alone, and
leaves the others as they stand."""

import pathlib

CRATES = pathlib.Path(__file__).resolve().parent.parent / "crates"
FOLDER = CRATES / "check_rows"
NAMES = ("parse", "flat", "check")
VALUES = CRATES / "value_rows"
VALUE_NAMES = ("operators", "texts", "files")
HEAD = "### "


def lines_of(path):
    """The lines of a file; a carriage return is a character of its line."""
    return path.read_bytes().decode().split("\n")[:-1]


def parted(lines, names=NAMES):
    """The lines of each section."""
    sections = {name: [] for name in names}
    for line in lines:
        if line.startswith(HEAD):
            section = sections[line[len(HEAD) :]]
        else:
            section.append(line)
    return sections


def count_of(lines):
    """How many rows these lines are."""
    return sum(line.startswith("= ") and not before.startswith("= ") for before, line in zip([""] + lines, lines))


def text_of(lines):
    """The text of lines, in bytes."""
    return "".join(line + "\n" for line in lines).encode()


def write(name, lines, answers):
    """Writes a section: the lines of its rows, and a line for each row of what is wanted."""
    assert not any(line.startswith(HEAD) for line in lines), name
    assert count_of(lines) == len(answers), name
    rows, outputs = parted(lines_of(FOLDER / "stdin")), lines_of(FOLDER / "stdout")
    assert sum(map(count_of, rows.values())) == len(outputs), "the input has not as many rows as the output has lines"
    wanted = {}
    for each, section in rows.items():
        count = count_of(section)
        wanted[each], outputs = outputs[:count], outputs[count:]
    rows[name], wanted[name] = lines, answers
    (FOLDER / "stdin").write_bytes(b"".join(text_of([HEAD + each] + section) for each, section in rows.items()))
    (FOLDER / "stdout").write_bytes(b"".join(text_of(section) for section in wanted.values()))


def write_values(name, lines, answers):
    """Writes a section of crates/value_rows: a line for each row, and one for what is wanted of it."""
    assert not any(line.startswith(HEAD) for line in lines), name
    assert len(lines) == len(answers), name
    rows, outputs = parted(lines_of(VALUES / "stdin"), VALUE_NAMES), lines_of(VALUES / "stdout")
    wanted = {}
    for each, section in rows.items():
        wanted[each], outputs = outputs[: len(section)], outputs[len(section) :]
    rows[name], wanted[name] = lines, answers
    (VALUES / "stdin").write_bytes(b"".join(text_of([HEAD + each] + section) for each, section in rows.items()))
    (VALUES / "stdout").write_bytes(b"".join(text_of(section) for section in wanted.values()))
