#!/usr/bin/env python3
"""Tries the wrong bodies that stand beside the gate: edits of functions that the prover has to refuse.

    wrong_bodies/try.py                     all of them, crate by crate in the order of crates.txt
    wrong_bodies/try.py CRATE [EDIT ..]     those of a crate, or these of them
    wrong_bodies/try.py --list [CRATE]      proves nothing: places each over the code as it stands, and says which can't be placed
    wrong_bodies/try.py --table             writes the table of README.md anew

They are tried in a copy of the repository, which goes at the end, by `rt must-fail`. The libraries that were built here, and
the work that checks kept, are taken along, so that they aren't proved again. In an edit that was refused the line `refused:`
says the day then, and the table is written anew. The status is 1 where one is not refused or can't be placed.
"""
import argparse
import datetime
import os
import re
import shutil
import subprocess
import sys
import tempfile
from collections import Counter
from pathlib import Path

HERE = Path(__file__).resolve().parent
TOP = HERE.parent
PAGE = HERE / 'README.md'
KEPT = ('rlib', 'incremental')
PROVED = re.compile(r'^(?:rt: )?must-fail (\w+)/([\w.-]+)\.edit: (.*)$', re.M)
REFUSED = 'refused, as it must be'
DAY = re.compile(r'\d{4}-\d\d-\d\d$')


class Edit:
    """An edit: the file of its crate that it changes, its pairs of texts, and when it was last refused."""

    def __init__(self, path):
        self.path, self.crate, self.name = path, path.parent.name, path.stem
        self.file, self.pairs, self.refused = '', [], ''
        for line in path.read_text().splitlines():
            word, _, rest = line.partition(': ')
            if word == 'file':
                self.file = rest
            elif word == 'old':
                self.pairs.append([rest, ''])
            elif word in ('new', 'new:'):
                self.pairs[-1][1] = rest
            elif word == 'refused':
                self.refused = rest

    def misplaced(self):
        """Why it can't be placed over the code as it stands, if it can't."""
        path = TOP / 'crates' / self.crate / self.file
        if not path.is_file():
            return f'there is no file {self.file}'
        text = path.read_text()
        for old, new in self.pairs:
            if text.count(old) != 1:
                return f'this stands in {self.file} {text.count(old)} times: {old.strip()}'
            text = text.replace(old, new)
        return None

    def is_refused(self):
        """Writes down that it was refused today."""
        today = datetime.date.today().isoformat()
        self.path.write_text(re.sub(r'(?m)^refused: .*$', f'refused: {today}', self.path.read_text()))
        self.refused = today


def crates():
    """The crates in the order of crates.txt."""
    lines = (line.partition('#')[0].partition(':')[0].split() for line in (TOP / 'crates.txt').read_text().splitlines())
    return [words[0] for words in lines if words]


def edits_of(crate):
    return [Edit(path) for path in sorted((HERE / crate).glob('*.edit'))]


def chosen(names):
    """The edits that the words of the command line name, all if there are none."""
    if not names:
        return [edit for crate in crates() for edit in edits_of(crate)]
    there = {edit.name: edit for edit in edits_of(names[0])}
    wanted = [name.removesuffix('.edit') for name in names[1:]] or list(there)
    lacking = [name for name in wanted if name not in there]
    if lacking or not wanted:
        sys.exit(f'there are no such wrong bodies of {names[0]}: {" ".join(lacking)}')
    return [there[name] for name in wanted]


# ---- the table

def table():
    """How many a crate has, and when they were last refused."""
    rows, all_days, total = [], Counter(), 0
    for crate in crates():
        days = Counter(edit.refused for edit in edits_of(crate))
        if days:
            rows.append(f'| `{crate}` | {sum(days.values())} | {said(days)} |')
            all_days += days
            total += sum(days.values())
    return ['| crate | wrong bodies | last refused |', '|---|---|---|', *rows, f'| all | {total} | {said(all_days)} |']


def said(days):
    return ', '.join(f'{count} on {day}' if DAY.match(day) else f'{count} {day}' for day, count in sorted(days.items()))


def write_table():
    text = PAGE.read_text()
    PAGE.write_text(re.sub(r'\| crate \|.*?\n\n|\| crate \|.*\Z', '\n'.join(table()) + '\n\n', text, flags=re.S).rstrip() + '\n')


# ---- trying

def taken_along(one, other):
    """Links what was proved, since a check replaces such a file and changes none, and copies the rest."""
    if one.endswith('.oantt'):
        try:
            return os.link(one, other)
        except OSError:
            pass
    return shutil.copy2(one, other)


def copy_to(folder):
    """The repository without its own wrong bodies, and with what was built here."""
    for name in ('crates.txt', 'HANDLES'):
        shutil.copy(TOP / name, folder / name)
    for crate in crates():
        here, there = TOP / 'crates' / crate, folder / 'crates' / crate
        shutil.copytree(here, there, ignore=lambda at, names: [name for name in names if name in ('out', 'must-fail')])
        for kept in KEPT:
            if (here / 'out' / kept).is_dir():
                shutil.copytree(here / 'out' / kept, there / 'out' / kept, copy_function=taken_along)


def tried(folder, crate, edits):
    """Tries edits of one crate, and answers how many are not refused."""
    place = folder / 'crates' / crate / 'must-fail'
    place.mkdir()
    for edit in edits:
        shutil.copy(edit.path, place)
    ran = subprocess.run(['rt', 'must-fail', crate], cwd=folder, stdin=subprocess.DEVNULL, stdout=subprocess.PIPE,
                         stderr=subprocess.STDOUT, text=True)
    shutil.rmtree(place)
    came = {name: what for _, name, what in PROVED.findall(ran.stdout)}
    missed = 0
    for edit in edits:
        what = came.get(edit.name, 'nothing was said of it')
        print(f'{crate}/{edit.name}: {what}', flush=True)
        if what.startswith(REFUSED):
            edit.is_refused()
        else:
            missed += 1
    if missed:
        print(ran.stdout, end='', flush=True)
    return missed


def main():
    words = argparse.ArgumentParser(description=__doc__, formatter_class=argparse.RawDescriptionHelpFormatter)
    words.add_argument('--list', action='store_true')
    words.add_argument('--table', action='store_true')
    words.add_argument('names', nargs='*', metavar='CRATE [EDIT ..]')
    words = words.parse_args()
    edits = chosen(words.names)
    if words.table:
        return write_table()
    misplaced = {edit: why for edit in edits if (why := edit.misplaced())}
    for edit, why in misplaced.items():
        print(f'{edit.crate}/{edit.name} can\'t be placed: {why}')
    if words.list:
        is_right = '\n'.join(table()) in PAGE.read_text()
        print(f'{len(edits)} wrong bodies, {len(misplaced)} of which can\'t be placed; the table of README.md '
              f'{"is right" if is_right else "is not right"}')
        return 1 if misplaced or not is_right else 0
    missed = 0
    with tempfile.TemporaryDirectory(prefix='wrong-bodies-') as folder:
        copy_to(Path(folder))
        for crate in dict.fromkeys(edit.crate for edit in edits):
            missed += tried(Path(folder), crate, [edit for edit in edits if edit.crate == crate and edit not in misplaced])
    write_table()
    print(f'{len(edits) - len(misplaced) - missed} refused, {missed} not refused, {len(misplaced)} can\'t be placed')
    return 1 if missed or misplaced else 0


if __name__ == '__main__':
    sys.exit(main())
