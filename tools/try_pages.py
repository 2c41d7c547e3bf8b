#!/usr/bin/env python3
"""Runs the commands that the pages show, and compares what they print with what the pages say.

    tools/try_pages.py [PROGRAM [PAGE..]]

PROGRAM stands for `./fabhost` (by default the repository's own script of that name); the pages are README.md and all of docs/ by
default. A command is a line `$ ..` of a fenced block, with the lines `> ..` right below it where it goes on, and what it prints are the
lines up to the next one or the block's end. The commands of a page run one after the other in one folder, which begins with the repository's examples/. A block under the line
`<!-- another run prints other numbers -->` shows a report: of it only the tenants' names and the orders are compared.
Ends with status 1 where a page is wrong.
"""
import difflib
import os
import re
import shutil
import subprocess
import sys
import tempfile

TOP = os.path.dirname(os.path.dirname(os.path.abspath(__file__)))
DIFFERS = '<!-- another run prints other numbers -->'


def commands_of(page):
    """The commands of a page: the line's number, whether its numbers may differ, the command, and what it prints."""
    found, fenced, differs, mark = [], False, False, ''
    with open(page, encoding='utf-8') as file:
        for number, line in enumerate(file.read().split('\n'), 1):
            if line.startswith('```'):
                fenced = not fenced
                differs = fenced and mark == DIFFERS
                open_command = False
            elif not fenced:
                mark = line.strip() or mark
                if line.strip() and line.strip() != DIFFERS:
                    mark = ''
            elif line.startswith('$ '):
                found.append([number, differs, line[2:], []])
                open_command = True
            elif open_command and line.startswith('> ') and not found[-1][3]:
                found[-1][2] += '\n' + line[2:]
            elif open_command:
                found[-1][3].append(line)
    return found


def plain(lines, differs):
    """What is compared of some lines."""
    if not differs:
        return lines
    tenants = [line.split()[:2] for line in lines if line.startswith('tenant ')]
    orders = [re.sub(r'( ended)? \d+$', '', line) for line in lines if line.startswith('free ')]
    return [' '.join(words) for words in tenants] + orders


def try_page(page, program):
    """Runs a page's commands in a folder of their own, and returns how many print something else."""
    wrong = 0
    folder = tempfile.mkdtemp(prefix='fabhost-page-')
    try:
        shutil.copytree(os.path.join(TOP, 'examples'), os.path.join(folder, 'examples'))
        with open(os.path.join(folder, 'fabhost'), 'w', encoding='utf-8') as file:
            file.write(f'#!/bin/sh\nexec "{program}" "$@"\n')
        os.chmod(os.path.join(folder, 'fabhost'), 0o755)
        found = commands_of(page)
        for number, differs, command, said in found:
            ran = subprocess.run(['bash', '-c', command], cwd=folder, capture_output=True, text=True, check=False)
            printed = ran.stdout.split('\n')
            if printed and printed[-1] == '':
                printed.pop()
            if plain(printed, differs) != plain(said, differs):
                wrong += 1
                print(f'{os.path.relpath(page, TOP)}:{number}: `{command.splitlines()[0]}` prints something else, with status {ran.returncode}:')
                print('\n'.join(difflib.unified_diff(said, printed, 'page', 'run', lineterm='')))
                if ran.stderr:
                    print(ran.stderr.rstrip())
        print(f'{os.path.relpath(page, TOP)}: {len(found)} commands, {wrong} wrong')
    finally:
        shutil.rmtree(folder)
    return wrong


def main():
    program = os.path.abspath(sys.argv[1]) if len(sys.argv) > 1 else os.path.join(TOP, 'fabhost')
    docs = os.path.join(TOP, 'docs')
    pages = sys.argv[2:] or [os.path.join(TOP, 'README.md'), *(os.path.join(docs, name) for name in sorted(os.listdir(docs)))]
    return 1 if sum(try_page(page, program) for page in pages) else 0


sys.exit(main())
