#!/usr/bin/env python3
"""Writes which names crates pass on, and from which library each crate has the names that it uses.

    tools/pass_on.py           a crate lists the libraries whose functions it calls; other names it has through one of these
    tools/pass_on.py --full    a crate lists each library that it names, and nothing is passed on

For whoever moves a file from one crate to another: `--full` first, then the move (in code, `specs/`, `proofs/` and their `Lib.antt`), then
once more without, and `rt fmt` in each crate. Definitions and lemmas are passed on by `pub use Rattle.vl_base as vl_base` in
`specs/Lib.antt`, types by `pub use` in `lib.rt`: a module that has types alone as a whole, another type by its name. A crate that takes
values of a recursive type apart lists the crate that declares it. Ends with 1, the names in full, where two
names would be one.
"""
import os
import re
import sys

TOP = os.path.dirname(os.path.dirname(os.path.abspath(__file__)))
CRATES = f'{TOP}/crates'
USE = re.compile(r'(?m)^([ \t]*)(pub(?:\([\w ]+\))? )?use ([a-z_]\w*)(::[^;]*);')
PASSED = re.compile(r'(?m)^pub use ([a-z_]\w*)(::[^;]*);\n')
ALIAS = re.compile(r'(?m)^pub use Rattle\.(?:\w+\.specs\.)?(\w+) as (\w+)\n')
# modules whose names others have too: their types are passed on by name
BY_NAME = {'vl_base::items', 'ten_files::table', 'cell_form::bank', 'ten_core::image'}


def read(path):
    with open(path, encoding='utf-8') as file:
        return file.read()


def write(path, text):
    with open(path, 'w', encoding='utf-8') as file:
        file.write(text)


def files(crate):
    """The files of a crate that name others."""
    for folder, folders, names in os.walk(f'{CRATES}/{crate}'):
        folders[:] = [it for it in folders if it != 'out']
        yield from (f'{folder}/{name}' for name in names if name.endswith(('.rt', '.antt')))


def uncommented(text):
    return re.sub(r'//[^\n]*', '', text)


def paths_of(tree):
    """The paths of a tree of `use`, each with its new name, if it has one."""
    tree, at = tree.strip(), tree.strip().find('{')
    if at < 0:
        path, _, name = re.sub(r'\s+', ' ', tree).partition(' as ')
        return [(path.strip().split('::'), name.strip() or None)]
    head = [it for it in tree[:at].split('::') if it.strip()]
    parts, depth = [''], 0
    for letter in tree[at + 1 : tree.rindex('}')]:
        depth += (letter == '{') - (letter == '}')
        if letter == ',' and not depth:
            parts.append('')
        else:
            parts[-1] += letter
    return [(head + path, name) for part in parts if part.strip() for path, name in paths_of(part)]


class Graph:
    """Crates, what they list, and what they name of each other."""

    def __init__(self):
        self.listed = {}
        for line in read(f'{TOP}/crates.txt').splitlines():
            head, _, libraries = line.split('#')[0].partition(':')
            if head.strip():
                self.listed[head.split()[0]] = libraries.split()
        self.kit = {crate: [it for it in libraries if it not in self.listed] for crate, libraries in self.listed.items()}

    def named(self):
        """Of each crate, for each library that it names: whether by antt, which types, and whether it has to be listed."""
        recursive = self.recursive()
        found = {crate: {} for crate in self.listed}
        for crate in self.listed:
            def entry(library):
                return found[crate].setdefault(library, {'antt': False, 'types': set(), 'called': False})
            for path in files(crate):
                text = read(path)
                for library in re.findall(r'Rattle\.(\w+)\.', text):
                    if library in self.listed and library != crate:
                        entry(library)['antt'] = True
                if not path.endswith('.rt'):
                    continue
                code = uncommented(text)
                for library in re.findall(r'(?<![\w:.])(\w+)::(?:specs|proofs)::', code):
                    if library in self.listed and library != crate:
                        entry(library)['called'] = True
                for use in USE.finditer(code):
                    if use[3] not in self.listed or use[3] == crate:
                        continue
                    for parts, _ in paths_of(use[3] + use[4]):
                        if parts[-1][0].islower() or (use[3], parts[-1]) in recursive:
                            entry(use[3])['called'] = True
                        if not parts[-1][0].islower():
                            entry(use[3])['types'].add('::'.join(parts))
        return found

    def recursive(self):
        """The recursive types, by their fields."""
        found = set()
        for crate in self.listed:
            fields = {}
            for path in files(crate):
                if path.endswith('.rt') and '/src/' in path:
                    code = uncommented(read(path))
                    for head in re.finditer(r'(?m)^(?:pub(?:\(crate\))? )?(?:struct|enum) (\w+)[^{;(]*[{(]', code):
                        at, depth = head.end(), 1
                        while at < len(code) and depth:
                            depth += (code[at] in '{(') - (code[at] in '})')
                            at += 1
                        fields.setdefault(head[1], set()).update(re.findall(r'\b[A-Z]\w*', code[head.end() : at]))
            for name in fields:
                seen, left = set(), list(fields[name])
                while left:
                    inner = left.pop()
                    if inner in fields and inner not in seen:
                        seen.add(inner)
                        left += fields[inner]
                if name in seen:
                    found.add((crate, name))
        return found


def ordered(graph):
    """The crates, each behind those that it stands on, else as crates.txt has them."""
    done, place = {}, {crate: number for number, crate in enumerate(graph)}

    def go(crate):
        if crate not in done:
            for library in sorted(graph[crate], key=place.get):
                go(library)
            done[crate] = None
    for crate in graph:
        go(crate)
    return list(done)


def thinned(named):
    """Of each crate the libraries that it has to list: those that it calls, and what else it can't reach through these."""
    order = ordered(named)
    place = {crate: number for number, crate in enumerate(order)}
    edges, below = {}, {}

    def reached(libraries):
        return set(libraries).union(*(below[it] for it in libraries))
    for crate in order:
        called = [it for it, how in named[crate].items() if how['called']]
        more = []
        for library in sorted(set(named[crate]) - reached(called), key=place.get, reverse=True):
            if library not in reached(called + more):
                more.append(library)
        for library in list(more):
            if library in reached(called + [it for it in more if it != library]):
                more.remove(library)
        edges[crate] = sorted(called + more, key=place.get)
        below[crate] = reached(edges[crate])
    return edges, below, order


class Passing:
    """Through which libraries crates have names, and what each passes on."""

    def __init__(self, named, edges, below, order):
        self.edges, self.below = edges, below
        self.place = {crate: number for number, crate in enumerate(order)}
        self.pages = {crate: {} for crate in order}
        self.types = {crate: {} for crate in order}
        self.chosen, self.faults = {}, []
        for crate in order:
            for library in sorted(named[crate], key=self.place.get):
                if library not in edges[crate]:
                    how = named[crate][library]
                    if how['antt']:
                        self.pass_page(self.through(crate, library), library)
                    for unit in sorted({unit_of(it) for it in how['types']}):
                        self.pass_type(self.through(crate, library), unit)

    def through(self, crate, library):
        """The listed library through which a crate has the names of another."""
        if library in self.edges[crate]:
            return library
        if (crate, library) not in self.chosen:
            able = [it for it in self.edges[crate] if library in self.below[it]]
            self.chosen[crate, library] = min(able, key=lambda it: (library not in self.pages[it], library not in self.edges[it], self.place[it]))
        return self.chosen[crate, library]

    def pass_page(self, crate, library):
        if library not in self.pages[crate]:
            self.pages[crate][library] = None
            at = self.through(crate, library)
            if at != library:
                self.pass_page(at, library)
            self.pages[crate][library] = at

    def pass_type(self, crate, unit):
        name = unit.split('::')[-1]
        if self.types[crate].get(name) == unit:
            return
        if name in self.types[crate] or os.path.exists(f'{CRATES}/{crate}/src/{name}.rt'):
            self.faults.append(f'{crate} would pass on two things as {name}: one is {unit}')
        self.types[crate][name] = unit
        library = unit.split('::')[0]
        at = self.through(crate, library)
        if at != library:
            self.pass_type(at, unit)

    def path(self, crate, path):
        """How a crate writes the path of a type."""
        library = path.split('::')[0]
        at = self.through(crate, library)
        unit = unit_of(path)
        return path if at == library else at + '::' + unit.split('::')[-1] + path[len(unit) :]


def unit_of(path):
    """What is passed on for a type: its module, where that has types alone, else itself."""
    parts = path.split('::')
    module = '::'.join(parts[:2])
    if len(parts) != 3 or module in BY_NAME or os.path.isdir(f'{CRATES}/{parts[0]}/src/{parts[1]}'):
        return path
    return path if re.search(r'(?m)^pub fn ', read(f'{CRATES}/{parts[0]}/src/{parts[1]}.rt')) else module


def in_full(graph):
    """Names everything where it stands."""
    passed = {}
    for crate in graph.listed:
        root = f'{CRATES}/{crate}/src/lib.rt'
        if os.path.isfile(root):
            text = read(root)
            for use in PASSED.finditer(text):
                if use[1] in graph.listed:
                    passed.update({(crate, name or path[-1]): path for path, name in paths_of(use[1] + use[2])})
            write(root, PASSED.sub(lambda use: '' if use[1] in graph.listed else use[0], text).rstrip('\n') + '\n')
        pages = f'{CRATES}/{crate}/specs/Lib.antt'
        if os.path.isfile(pages):
            text = ALIAS.sub(lambda use: '' if use[1] == use[2] and use[1] in graph.listed else use[0], read(pages))
            if text.strip():
                write(pages, text)
            else:
                os.remove(pages)

    def whole(path):
        while len(path) > 1 and (path[0], path[1]) in passed:
            path = passed[path[0], path[1]] + path[2:]
        return path

    def direct(use):
        found = paths_of(use[3] + use[4]) if use[3] in graph.listed else []
        if all(whole(path) == path for path, _ in found):
            return use[0]
        return '\n'.join(f"{use[1]}{use[2] or ''}use {'::'.join(whole(path))}{' as ' + name if name else ''};" for path, name in found)
    alias = re.compile(r'Rattle\.(\w+)\.specs\.(\w+)\.(?=specs|proofs)')
    for crate in graph.listed:
        for path in files(crate):
            before = text = read(path)
            while True:
                shorter = alias.sub(lambda it: f'Rattle.{it[2]}.' if it[2] in graph.listed and it[1] in graph.listed else it[0], text)
                if shorter == text:
                    break
                text = shorter
            if path.endswith('.rt'):
                text = USE.sub(direct, text)
            if text != before:
                write(path, text)


def in_short(graph, named, passing):
    """Names through listed libraries what isn't listed, and writes what is passed on."""
    for crate in graph.listed:
        gone = {it for it in named[crate] if it not in passing.edges[crate]}

        def shorter(use):
            if use[3] not in gone:
                return use[0]
            return '\n'.join(
                f"{use[1]}{use[2] or ''}use {passing.path(crate, '::'.join(path))}{' as ' + name if name else ''};"
                for path, name in paths_of(use[3] + use[4])
            )
        for path in files(crate):
            before = read(path)
            text = re.sub(r'Rattle\.(\w+)\.', lambda it: f'Rattle.{passing.through(crate, it[1])}.specs.{it[1]}.' if it[1] in gone else it[0], before)
            if path.endswith('.rt'):
                text = USE.sub(shorter, text)
            if text != before:
                write(path, text)
    for crate in graph.listed:
        lines = []
        for library in sorted(passing.pages[crate], key=passing.place.get):
            at = passing.through(crate, library)
            lines.append(f'pub use Rattle.{library} as {library}' if at == library else f'pub use Rattle.{at}.specs.{library} as {library}')
        if lines:
            pages = f'{CRATES}/{crate}/specs/Lib.antt'
            os.makedirs(os.path.dirname(pages), exist_ok=True)
            before = read(pages).rstrip('\n') + '\n' if os.path.isfile(pages) else ''
            write(pages, before + '\n'.join(lines) + '\n')
        uses = sorted(f'pub use {passing.path(crate, unit)};' for unit in passing.types[crate].values())
        if uses:
            root = f'{CRATES}/{crate}/src/lib.rt'
            write(root, read(root).rstrip('\n') + '\n\n' + '\n'.join(uses) + '\n')


def write_graph(graph, edges, order):
    lines = ['# One line a crate: its name and the libraries whose functions it calls, or through which it has their names.']
    lines += [f"{crate}: {' '.join(edges[crate] + graph.kit[crate])}".rstrip() for crate in order]
    write(f'{TOP}/crates.txt', '\n'.join(lines) + '\n')


def main():
    graph = Graph()
    in_full(graph)
    named = graph.named()
    if '--full' in sys.argv:
        order = ordered(named)
        write_graph(graph, {crate: sorted(named[crate], key=order.index) for crate in order}, order)
        return 0
    edges, below, order = thinned(named)
    passing = Passing(named, edges, below, order)
    for fault in passing.faults:
        print(fault)
    if passing.faults:
        return 1
    in_short(graph, named, passing)
    write_graph(graph, edges, order)
    return 0


if __name__ == '__main__':
    sys.exit(main())
