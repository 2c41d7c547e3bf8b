#!/usr/bin/env python3
"""Shows what is made of a source on its way: for whoever wants to look inside.

    tools/show.py SOURCE design          its flat design, as a table
    tools/show.py SOURCE nodes           the table of nodes of its clocked blocks
    tools/show.py SOURCE states          the states made of these: the registers that each sets, or its trap, and where it leads
    tools/show.py SOURCE cells           the states with their cells and writes
    tools/show.py SOURCE bank TICKS      what the bank holds behind so many ticks

It gives the source as a row in which nothing is wanted to a program of rows (crates/check_rows for the design, else crates/machine_rows),
which then prints what came. The proved program is run where it is there (`rt run` in its folder makes it), else the sources as they
stand, by `rt try`, which takes some minutes. docs/STATES.md explains what is shown.
"""
import os
import subprocess
import sys

TOP = os.path.dirname(os.path.dirname(os.path.abspath(__file__)))
ROWS = {
    'design': ('check_rows', '### flat\n= nothing\n{source}'),
    'nodes': ('machine_rows', '### splits\n= shown\n{source}'),
    'states': ('machine_rows', '### splits\n= shown\n> states nothing\n{source}'),
    'cells': ('machine_rows', '### splits\n= shown\n> cells nothing\n{source}'),
    'bank': ('machine_rows', '### splits\n= shown\n> bank {ticks}\n{source}'),
}


def printed(program, rows):
    """What a program of rows prints of rows."""
    folder = f'{TOP}/crates/{program}'
    built = f'{folder}/out/{program}'
    words = [built] if os.access(built, os.X_OK) else ['rt', 'try']
    return subprocess.run(words, cwd=folder, input=rows, stdout=subprocess.PIPE, encoding='utf-8').stdout


def main():
    words = sys.argv[1:]
    if len(words) < 2 or words[1] not in ROWS or len(words) != 2 + (words[1] == 'bank'):
        print(__doc__)
        return 2
    program, row = ROWS[words[1]]
    source = open(words[0], encoding='utf-8').read().rstrip('\n') + '\n'
    text = printed(program, row.format(source=source, ticks=words[2] if len(words) > 2 else ''))
    for line in text.splitlines():
        if not line.endswith((' wanted,', 'but this came:')) and line not in ('shown:', 'nothing', 'states nothing', 'cells nothing', 'came'):
            print(line)
    return 0


if __name__ == '__main__':
    sys.exit(main())
