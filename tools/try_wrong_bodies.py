#!/usr/bin/env python3
"""Tries wrong bodies that the gate doesn't try: the prover has to refuse each.

    tools/try_wrong_bodies.py [--list] [CRATE..]

A wrong body is a file tools/wrong_bodies/CRATE/NAME.edit of the form of the gate's must-fail edits (CONTRIBUTING.md): a mistake such as a
person makes, in a crate whose contracts must not let it through. They stand outside the gate for its time alone: one costs up to two
minutes, and a crate with some is proved once more. The crates are copied into a folder of their own with these edits in place of their
own, and `rt must-fail` is run there, which begins with what checks on this machine left; where there is nothing yet it proves all that is
below the crates first. --list prints the names alone. Ends with the status of `rt must-fail`: 0 where each is refused.
"""
import os
import shutil
import subprocess
import sys
import tempfile

TOP = os.path.dirname(os.path.dirname(os.path.abspath(__file__)))
BODIES = f'{TOP}/tools/wrong_bodies'


def edits_of(crate):
    return sorted(it for it in os.listdir(f'{BODIES}/{crate}') if it.endswith('.edit'))


def copied(folder):
    """The repository's crates with the wrong bodies in place of their own edits."""
    for name in ('HANDLES', 'crates.txt'):
        shutil.copy2(f'{TOP}/{name}', folder)
    shutil.copytree(f'{TOP}/crates', f'{folder}/crates', ignore=shutil.ignore_patterns('out', 'must-fail'))
    for crate in os.listdir(BODIES):
        shutil.copytree(f'{BODIES}/{crate}', f'{folder}/crates/{crate}/must-fail')


def main():
    words = [it for it in sys.argv[1:] if it != '--list']
    crates = words or sorted(os.listdir(BODIES))
    unknown = [it for it in crates if not os.path.isdir(f'{BODIES}/{it}')]
    if unknown:
        print(f'no wrong bodies of {" ".join(unknown)}', file=sys.stderr)
        return 2
    for crate in crates:
        for edit in edits_of(crate):
            print(f'{crate}/{edit[:-5]}', flush=True)
    if '--list' in sys.argv:
        return 0
    with tempfile.TemporaryDirectory(prefix='wrong-bodies-') as folder:
        copied(folder)
        return subprocess.run(['rt', 'must-fail', *crates], cwd=folder).returncode


if __name__ == '__main__':
    sys.exit(main())
