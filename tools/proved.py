#!/usr/bin/env python3
"""Writes what is proved of each crate into docs/PROVED.md, from the lines `//!` at the head of its lib.rt or main.rt.

    tools/proved.py [--check]

The first paragraph of these lines says what a crate is, in at most 200 characters. Paragraphs that begin with `Proved: `, `Defined: ` or
`Tested: ` go into the page, others don't. What stands outside the two marks of the page is kept. With --check nothing is written. Ends
with status 1 and a line where a crate has no such first paragraph or no room, or, with --check, where the page is another one.
"""
import os
import re
import sys

TOP = os.path.dirname(os.path.dirname(os.path.abspath(__file__)))
PAGE = os.path.join(TOP, 'docs', 'PROVED.md')
BEGIN, END = '<!-- crates -->', '<!-- end -->'
KINDS = ('Proved: ', 'Defined: ', 'Tested: ')
MOST = 200
# the rooms of the page, with what the names of their crates look like
ROOMS = [
    (r'vl_|plain_run|fmt_text', 'The language', 'From the bytes of a source to its accepted design, and what that design does.'),
    (r'elab_', 'Elaboration', 'The parts of a source as they stand in its flat design.'),
    (r'cell_|sub_', 'Cells and states', 'From the blocks of a design to states of cells, and what a cycle of them does.'),
    (r'ten_|trap_|reg_|snap_', 'A tenant', 'A design with its bank, its files and its snapshots, and its run.'),
    (r'fab_', 'Fabrics', 'Tenants that share banks, the histories of fabrics, and the threads that run them.'),
    (r'host_(?!rows)|fabhost', 'The command', 'From the words of the command line to the bytes of the report.'),
    (r'\w+_rows', 'Tests', 'Programs that read rows, and print what comes of each.'),
]


def read(*parts):
    with open(os.path.join(TOP, *parts), encoding='utf-8') as file:
        return file.read()


def paragraphs_of(name):
    """The paragraphs at the head of a crate, each in one line."""
    main = 'lib.rt' if os.path.exists(os.path.join(TOP, 'crates', name, 'src', 'lib.rt')) else 'main.rt'
    lines = [line[3:].strip() for line in read('crates', name, 'src', main).split('\n') if line.startswith('//!')]
    found = [part.strip() for part in ' '.join(line or '\n' for line in lines).split('\n')]
    if not found[0] or found[0].startswith(KINDS) or len(found[0]) > MOST:
        sys.exit(f'crates/{name}/src/{main}: the first paragraph of `//!` has to say in at most {MOST} characters what the crate is')
    return found


def table():
    """What the page has between its marks."""
    names = re.findall(r'^(\w+):', read('crates.txt'), re.MULTILINE)
    rooms = {name: next((room for room in ROOMS if re.match(room[0], name)), None) or sys.exit(f'{name} has no room') for name in names}
    out = []
    for room in ROOMS:
        out += [f'## {room[1]}', room[2]]
        for name in (name for name in names if rooms[name] is room):
            first, *others = paragraphs_of(name)
            out += [f'### `{name}`', first, *(other for other in others if other.startswith(KINDS))]
    return '\n\n'.join(out)


page = read(PAGE)
made = f'{page.split(BEGIN)[0]}{BEGIN}\n\n{table()}\n\n{END}{page.split(END)[1]}'
if '--check' in sys.argv[1:]:
    sys.exit(0 if made == page else 'docs/PROVED.md is not what the crates say: run tools/proved.py')
with open(PAGE, 'w', encoding='utf-8') as out_file:
    out_file.write(made)
