#!/usr/bin/env python3
"""Says which libraries crates.txt lists for a crate though no file of the crate names them, which it leaves out, and how many
paths lead down from each crate through the list: tools that sum up a crate's sources along each path take as long as that.

    checks/cited.py            prints what differs and the sums; status 1 where something differs
    checks/cited.py --paths    prints the number of paths of each crate too
"""
import re
import subprocess
import sys
from functools import lru_cache
from pathlib import Path

TOP = Path(__file__).resolve().parent.parent
KIT = Path(subprocess.run(['rt', 'doc'], capture_output=True, text=True, check=True).stdout.strip()).parent / 'rlibs'
BUILT_IN = {'std', 'core', 'io', 'log', 'libc', 'os'}  # words that each program may name


def listed():
    """The libraries that crates.txt lists for each crate."""
    crates = {}
    for line in (TOP / 'crates.txt').read_text().splitlines():
        line = line.partition('#')[0].strip()
        if line:
            name, _, libraries = line.partition(':')
            crates[name.split()[0]] = libraries.split()
    return crates


def words_of(path):
    """The names that a file uses as those of libraries, and perhaps other names."""
    text = path.read_text()
    words = set(re.findall(r'\bRattle\.(\w+)', text))
    if path.suffix == '.rt':
        code = re.sub(r'(?m)^\s*//.*$', '', text)
        words |= set(re.findall(r'(?<![\w:])(\w+)::', code))
        words |= set(re.findall(r'(?m)^\s*(?:pub )?use (\w+)', code))
    return words


def cited(crate, libraries):
    """The libraries that a file of the crate names."""
    folder = TOP / 'crates' / crate
    files = [path for part in ('src', 'specs', 'proofs') for path in (folder / part).rglob('*')]
    words = set().union(*(words_of(path) for path in files if path.suffix in ('.rt', '.antt')))
    own = {path.stem for path in files if path.suffix == '.rt'}
    return (words & libraries) - BUILT_IN - own - {crate}


def main():
    crates = listed()
    libraries = set(crates) | {path.stem for path in KIT.glob('*.rlib')}
    differs = False
    for crate, lists in crates.items():
        names = cited(crate, libraries)
        for what, which in (('lists and does not name', set(lists) - names), ('names and does not list', names - set(lists))):
            if which:
                differs = True
                print(f'{crate} {what}: {" ".join(sorted(which))}')

    @lru_cache(None)
    def paths(crate):
        return 1 + sum(paths(below) for below in crates[crate] if below in crates)

    if '--paths' in sys.argv:
        for crate in sorted(crates, key=paths):
            print(f'{paths(crate):6} {crate}')
    print(f'{len(crates)} crates, {sum(map(len, crates.values()))} entries, {sum(map(paths, crates)):,} paths')
    return int(differs)


sys.exit(main())
