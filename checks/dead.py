#!/usr/bin/env python3
"""Lists the definitions and lemmas that nobody cites, and the definitions that a crate gives out without a sentence above them.

    checks/dead.py               both lists, each with its count
    checks/dead.py --uncited     the first alone
    checks/dead.py --untold      the second alone

A definition of `specs/` or a lemma of `proofs/` is cited where its name stands in code, a clause, a proof of a function, or in
another definition or lemma that is itself cited so, and that file names the file of it. What stands in a comment or in a line `use`
alone is no citation. Names that are operators, as `_+_`, are passed over. The script reads names and not types: of two that are
spelled alike in files that are spelled alike, both count where one is cited. It fails nothing: its status is 0.
"""
import re
import sys
from collections import namedtuple
from pathlib import Path

TOP = Path(__file__).resolve().parent.parent / 'crates'
WORD = re.compile(r"[\w'×-]+")
START = re.compile(r"(abbrev|unfoldable(?! pub use)|def|record|data|pub (?!use|mod)\S+) |[\w'×-]+ : ")
NAMED = re.compile(r"(?:(?:pub|abbrev|unfoldable|def|record|data) )*(\S+)")

# A definition or lemma: its file, its name, its line, the words that it says, and whether a comment stands above it.
Item = namedtuple('Item', 'file name line words told is_pub')


class File:
    """A file: its items, the words that stand outside of them, and what its uses name."""

    def __init__(self, path):
        self.path, self.stem = path, path.stem
        self.crate, self.part, *_ = path.relative_to(TOP).parts
        text = path.read_text()
        mark = '--' if path.suffix == '.antt' else '//'
        lines = text.split('\n')
        self.seen = set(WORD.findall(text))
        self.locals = dict(re.findall(r"([\w'×-]+) as ([\w'×-]+)", text))
        is_kept = path.suffix == '.antt' and (self.part == 'specs' or path.parent.name == 'proofs')
        self.items, self.words = [], set()
        inside = at_the_margin(lines)
        starts = [n for n, line in enumerate(inside) if is_kept and START.match(line)]
        starts = [n for place, n in enumerate(starts) if place == 0 or name_in(inside[n]) != name_in(inside[starts[place - 1]])]
        for start, after in zip(starts, starts[1:] + [len(lines)]):
            words = self.said(lines[start:after], mark)
            self.items.append(Item(self, name_in(inside[start]), start + 1, words, start > 0 and lines[start - 1].lstrip().startswith(mark),
                                   ' pub ' in f' {inside[start]}'))
        self.words = self.said(lines[:starts[0]] if starts else lines, mark)

    def said(self, lines, mark):
        """The words of lines, without comments and lines `use`, and with the names for which local ones stand."""
        code = '\n'.join(line.partition(mark)[0] for line in lines)
        if self.path.suffix == '.antt':
            code = re.sub(r'(?m)^\s*(?:unfoldable )?(?:pub )?use .*$', '', code)
        else:
            code = re.sub(r'(?m)^\s*(?:unfoldable )?(?:pub )?ghost use .*$', '', code)
        words = set(WORD.findall(code))
        return words | {name for name, local in self.locals.items() if local in words}


def at_the_margin(lines):
    """The lines with those of each `module` and `mutual`, also of one in another, brought to the margin."""
    if not any(re.match(r'module |mutual$', line) for line in lines):
        return lines
    inside, out = False, []
    for line in lines:
        if re.match(r'module |mutual$', line):
            inside, line = True, ''
        elif inside and line and not line.startswith(('  ', '--')):
            inside = False
        out.append(line.removeprefix('  ') if inside else line)
    return at_the_margin(out)


def name_in(line):
    return NAMED.match(line)[1].replace('◌', '_')


def files():
    paths = [path for pattern in ('*/src/**/*.rt', '*/specs/**/*.antt', '*/proofs/**/*.antt') for path in sorted(TOP.glob(pattern))]
    return [File(path) for path in paths]


def uncited(all_files):
    """The items that can't be reached from code, clauses and proofs of functions."""
    by_name = {}
    for file in all_files:
        for item in file.items:
            by_name.setdefault(item.name, []).append(item)

    def cited(file, words):
        for word in words & by_name.keys():
            yield from (item for item in by_name[word] if item.file is file or item.file.stem in file.seen)
    live = set()
    queue = [item for file in all_files for item in cited(file, file.words)]
    while queue:
        item = queue.pop()
        if id(item) not in live:
            live.add(id(item))
            queue += cited(item.file, item.words)
    return [item for file in all_files for item in file.items if id(item) not in live and '_' not in (item.name[0], item.name[-1])]


def untold(all_files):
    """The definitions in files that a `Lib.antt` of specs gives out, with no comment above them."""
    given = {(file.crate, name) for file in all_files if file.part == 'specs' and file.stem == 'Lib'
             for name in re.findall(r'(?m)^pub mod (\w+)', file.path.read_text())}
    return [item for file in all_files if file.part == 'specs' and (file.crate, file.stem) in given
            for item in file.items if item.is_pub and not item.told]


def printed(what, items):
    print(f'{len(items)} {what}')
    for item in items:
        print(f'    {item.file.path.relative_to(TOP)}:{item.line} {item.name}')


def main():
    all_files = files()
    if '--untold' not in sys.argv:
        printed('definitions and lemmas that nobody cites', uncited(all_files))
    if '--uncited' not in sys.argv:
        printed('definitions that are given out without a sentence above them', untold(all_files))


if __name__ == '__main__':
    main()
