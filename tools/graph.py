#!/usr/bin/env python3
"""Holds the graph of crates within its figures, and the edits to the text that they change.

    tools/graph.py [--paths]

Prints how many crates, edges and paths crates.txt has and its longest chain, and ends with 1 where one is above its figure: the toolchain
of kit 13b reads files along every path. A library that a crate lists and doesn't name is told, and so is an edit (of must-fail/ or of
tools/wrong_bodies/) whose text doesn't stand just once where it changes it. --paths prints the paths that end in each crate as well.
"""
import os
import re
import sys

TOP = os.path.dirname(os.path.dirname(os.path.abspath(__file__)))
FIGURES = {'crates': 95, 'edges': 300, 'paths': 100_000, 'chain': 18}


def listed():
    """Each crate with the crates of the repository that it lists."""
    rows = {}
    for line in open(f'{TOP}/crates.txt', encoding='utf-8'):
        head, _, libraries = line.split('#')[0].strip().partition(':')
        if head:
            rows[head.split()[0]] = libraries.split()
    return {crate: [it for it in libraries if it in rows] for crate, libraries in rows.items()}


def counted(graph, start, joined):
    """A number of each crate, from those of the crates that it lists."""
    known = {}

    def of(crate):
        if crate not in known:
            known[crate] = start + joined([of(it) for it in graph[crate]])
        return known[crate]

    for crate in graph:
        of(crate)
    return known


def texts(crate):
    """The files of a crate that name others."""
    for folder, _, names in os.walk(f'{TOP}/crates/{crate}'):
        if '/out' not in folder:
            for name in names:
                if name.endswith(('.rt', '.antt')):
                    yield open(f'{folder}/{name}', encoding='utf-8').read()


def unnamed(graph):
    """Libraries that are listed and not named."""
    for crate, libraries in graph.items():
        whole = '\n'.join(texts(crate))
        for library in libraries:
            if not re.search(rf'\b(?:Rattle\.{library}\b|{library}::)', whole):
                yield f'{crate} lists {library}, and names nothing of it'


def edits():
    """Edits, each with the folder of its crate."""
    for top in ('crates', 'tools/wrong_bodies'):
        for crate in sorted(os.listdir(f'{TOP}/{top}')):
            folder = f'{TOP}/{top}/{crate}/must-fail' if top == 'crates' else f'{TOP}/{top}/{crate}'
            for name in sorted(os.listdir(folder)) if os.path.isdir(folder) else []:
                if name.endswith('.edit'):
                    yield f'{folder}/{name}', f'{TOP}/crates/{crate}'


def misplaced():
    """Edits whose text doesn't stand just once in what they made of their file so far."""
    for edit, crate in edits():
        lines = open(edit, encoding='utf-8').read().splitlines()
        path = next(line[6:] for line in lines if line.startswith('file: '))
        if not os.path.isfile(f'{crate}/{path}'):
            yield f'{edit[len(TOP) + 1:]}: there is no {path}'
            continue
        text = open(f'{crate}/{path}', encoding='utf-8').read()
        olds = [line[5:] for line in lines if line.startswith('old: ')]
        news = [line[5:] for line in lines if line.startswith('new: ')] + [''] * len(olds)
        for old, new in zip(olds, news):
            if text.count(old) != 1:
                yield f'{edit[len(TOP) + 1:]}: its text stands {text.count(old)} times in {path}: {old.strip()}'
                break
            text = text.replace(old, new)


def main():
    graph = listed()
    paths = counted(graph, 1, sum)
    chain = counted(graph, 1, lambda lengths: max(lengths, default=0))
    found = {'crates': len(graph), 'edges': sum(map(len, graph.values())), 'paths': sum(paths.values()), 'chain': max(chain.values())}
    print(', '.join(f'{number} {name}' for name, number in found.items()))
    if '--paths' in sys.argv:
        for crate in sorted(graph, key=paths.get):
            print(f'{paths[crate]:8} {crate}')
    faults = [f'{name}: {found[name]}, and {most} at most' for name, most in FIGURES.items() if found[name] > most]
    faults += [*unnamed(graph), *misplaced()]
    for fault in faults:
        print(fault)
    return 1 if faults else 0


if __name__ == '__main__':
    sys.exit(main())
