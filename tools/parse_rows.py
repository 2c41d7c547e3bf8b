"""Makes the section `parse` of the input and of the wanted output of crates/check_rows from the table tools/parse_rows.txt; the other
sections stay as they are."""

import pathlib
import re
import sys

sys.dont_write_bytecode = True

import sections

TOOLS = pathlib.Path(__file__).resolve().parent

# What stands before and behind a row's text, and around its tree.
FRAMES = {
    "source": ("", "", "", ""),
    "item": ("module m ;\n", "\nendmodule", "@1:1 @1:1m@1:8 {", ";}"),
    "statement": ("module m ; initial\n", "\nendmodule", "@1:1 @1:1m@1:8 {initial@1:12 ", ";}"),
    "expression": ("", "", "", ""),
}
MARK = re.compile(r"«(limit [34]»)?")
BREAK = "\\\n"


def repeated(row):
    """The row with ⟨N TEXT⟩ written N times."""
    return re.sub(r"⟨(\d+) ([^⟩]*)⟩", lambda m: m[2] * int(m[1]), row)


def characters(text):
    """The text with each ⟦HH⟧ as the character that has that number."""
    return re.sub(r"⟦(\w*)⟧", lambda m: m[1] and chr(int(m[1], 16)), text)


def place(text, index):
    """Line and column, from 1, of the first token from the index on; 0:0 is the end."""
    while index < len(text) and text[index] in " \n":
        index += 1
    if index == len(text):
        return "@0:0"
    before = text[:index]
    return f"@{before.count(chr(10)) + 1}:{index - before.rfind(chr(10))}"


def fault(text):
    """The text without its mark, and the fault that is marked."""
    mark = MARK.search(text)
    plain = text[: mark.start()] + text[mark.end() :]
    assert not MARK.search(plain), text
    return plain, (mark[1] or "fault»")[:-1] + place(plain, mark.start())


def answer(frame, row, tree):
    """What is asked of a row, its source, and the answer that is wanted."""
    if frame == "tokens":
        return frame, characters(row), re.sub(r"@(\d+)(?![\d:])", r"@1:\1", characters(tree))
    before, behind, front, back = FRAMES[frame]
    alone = frame == "expression"
    text = before + row + behind
    if MARK.search(text):
        assert tree is None, row
        return ("length" if alone else "read", *fault(text))
    count = str(len(text.split("»")[0].split())) if alone else ""
    text = text.replace("»", "")
    if tree is None:
        return "length" if alone else "read", text, count or "read"
    line = before.count("\n") + 1
    tree = re.sub(r"@(\d+)", rf"@{line}:\1", tree)
    return ("expression", text, f"{count} {tree}") if alone else ("tree", text, front + tree + back)


def fronts(row):
    """The row, and each of its fronts, whose fault stands at the end."""
    yield row
    tokens = list(re.finditer(r"\S+", row))
    for token in tokens:
        yield row[: token.start()] + "«"


def rows(table):
    """The rows of the table: the frame, the row, and its tree or none."""
    lines = [line for line in table.replace(BREAK, "\0").split("\n") if line and line[:1] != "#"]
    heading = None
    for line, after in zip(lines, lines[1:] + [""]):
        if line.startswith("== "):
            heading = line[3:]
        elif not line.startswith("  "):
            tree = after[2:] if after.startswith("  ") else None
            row = repeated(line.replace("\0", "\n"))
            if heading == "fronts":
                yield from (("source", front, None) for front in fronts(row))
            elif heading == "marks":
                yield from (("tokens", mark, f"@1 M {mark}|") for mark in row.split())
            else:
                yield heading, row, tree


asked = [answer(*row) for row in rows((TOOLS / "parse_rows.txt").read_text())]
lines = [line for question, text, _ in asked for line in [f"= {question}", *text.split("\n")]]
sections.write("parse", lines, [wanted for _, _, wanted in asked])
