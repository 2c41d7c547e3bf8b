"""Makes the section `check` of the input and of the wanted output of crates/check_rows from the tables tools/check_rows.txt and
tools/cost_rows.txt; the other sections stay as they are."""

import sys

sys.dont_write_bytecode = True

from flat_rows import MARK, TOOLS, marked, parted, text_of, write

MODULE = (
    "module m(input k); wire [7:0] u, v, w; reg [7:0] a, b, c; reg p; integer i, j; reg [7:0] r [0:3]; {} endmodule"
)
KINDS = ("construct", "limit", "loop", "lex", "parse")


def row(wanted, source):
    """What is wanted of a source, in a line, and the source without the mark."""
    if wanted.split()[0] in ("accepted", "cost"):
        assert MARK not in source, source
        return [wanted], source
    assert wanted.split()[0] in KINDS, wanted
    line, column, rest = marked(source)
    return [f"{wanted} at {line} {column}"], rest


def rows_of(head, text):
    """The rows of a case: its first line, and the others."""
    form, _, wanted = head.partition(" ")
    if form == "sources":
        return [row(wanted, text_of(line)) for line in text.split("\n")]
    if form == "items":
        return [row(wanted, MODULE.format(text_of(line))) for line in text.split("\n")]
    return [row(head, text_of(text))]


def saves(first, last, before=""):
    """Calls of `$save` with the names of these numbers, the last of them behind a mark."""
    calls = [f'$save("s{i}");' for i in range(first, last + 1)]
    return " ".join(calls[:-1] + [before + calls[-1]])


def large():
    """Sources with many names of snapshots: limit 10, at the first call with a name past 16, in the order of the design."""
    yield "accepted", MODULE.format(f"initial begin {saves(1, 16)} end")
    yield "limit 10", MODULE.format(f"initial begin {saves(1, 17, MARK)} end")
    yield "limit 10", MODULE.format(f"initial begin {saves(1, 17, MARK)} {saves(18, 20)} end")
    yield "limit 10", MODULE.format(f"always @(posedge k) begin {saves(1, 17, MARK)} end")
    yield "limit 10", MODULE.format(f"initial begin {saves(1, 10)} end always @(negedge k) begin {saves(11, 17, MARK)} end")
    # a name counts once
    yield "accepted", MODULE.format(f"initial begin {saves(1, 16)} {saves(1, 16)} end always @(posedge k) begin {saves(5, 16)} end")
    yield "limit 10", MODULE.format(f"initial begin {saves(1, 16)} {saves(3, 9)} {MARK}$save(\"s\"); {saves(3, 9)} end")
    # by its bytes
    yield "limit 10", MODULE.format(f"initial begin {saves(1, 16)} {MARK}$save(\"S1\"); end")
    yield "limit 10", MODULE.format(f"initial begin {saves(1, 16)} {MARK}$save(\"s01\"); end")
    # a call that isn't done counts
    yield "limit 10", MODULE.format(f"initial begin {saves(1, 16)} repeat (0) {MARK}$save(\"s\"); end")
    yield "limit 10", MODULE.format(f"initial repeat (0) begin {saves(1, 17, MARK)} end")
    yield "limit 10", MODULE.format(f"initial if (a) begin {saves(1, 9)} end else begin {saves(10, 17, MARK)} end")
    yield "accepted", MODULE.format(f"initial repeat (20) begin {saves(1, 16)} end")
    # instances of one module give the same names
    leaf = "module s(input k); initial begin {} end endmodule"
    yield "accepted", f"{leaf.format(saves(1, 16))} module m(input k); s u(k), v(k); initial $save(\"s7\"); endmodule"
    yield "limit 10", f"{leaf.format(saves(1, 16))} module m(input k); s u(k), v(k); initial {MARK}$save(\"s17\"); endmodule"
    # the 17th name is that of the leaf's last call, which stands before all others in the text, or that of the top's
    given = f"{saves(1, 1)} {saves(17, 17, MARK)}"
    yield "limit 10", f"{leaf.format(given)} module m(input k); initial begin {saves(2, 16)} end s u(k); endmodule"
    yield "limit 10", f"{leaf.format(saves(18, 18))} module m(input k); initial begin {saves(1, 17, MARK)} end s u(k); endmodule"
    # before and behind other faults, and at the place of one
    yield "limit 10", MODULE.format(f"initial begin {saves(1, 17, MARK)} a = w; end")
    yield "construct 23", MODULE.format(f"initial begin a = {MARK}w; {saves(1, 17)} end")
    yield "construct 23", MODULE.format(f"initial begin {saves(1, 16)} a = {MARK}w; {saves(17, 17)} end")
    yield "limit 10", MODULE.format(f"initial begin {saves(1, 16)} end always @* {MARK}$save(\"s\");")
    yield "construct 18", MODULE.format(f"initial begin {saves(1, 16)} end always @* {MARK}$save(\"s1\");")
    yield "construct 18", MODULE.format(f"initial begin {saves(1, 16)} end function f(input x); begin {MARK}$save(\"s\"); f = x; end endfunction")
    yield "limit 10", MODULE.format(f"initial repeat (4097) begin {saves(1, 17, MARK)} end always @* if (p) a = 1; assign w = w;")


if __name__ == "__main__":
    faults, costs = (parted((TOOLS / name).read_text()) for name in ("check_rows.txt", "cost_rows.txt"))
    write("check", [found for case in [*faults, *large(), *costs] for found in rows_of(*case)])
