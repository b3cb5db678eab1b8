#!/usr/bin/env python3
"""Measures and tries the built program `tcf`.

    bench/bench.py WHAT [--program P] [--before P] [--turns N]

Without --program it builds the program first, which proves it. With --before each figure is measured of this earlier program too,
in runs that alternate. Each figure is the one in the middle of so many turns (5); where nothing else is said it is processor time.
Rows are printed as README.md has them, with the machine's load behind each. The status is 1 where a line says NO, or where the
program refused what was to be measured.

    show           `tcf show` beside a plain C program that prints the same
    load           `tcf load 7`, beside `tcf show` of all its messages
    chain          schedules: long ones, many readings, many chains, pieces, value-adds, stores, ticks
    journal        `tcf journal` beside `tcf chain`, `tcf check` beside playing, and long journals
    pages          memory that processes share, breakpoints, starts, SHA-256
    threads        processes of 8 threads
    hits           ticks that hit an ignored breakpoint
    elf            starts from ELF files: what comes of each, and what it costs        [--mutations N] [--seed N] [--batch N] [--pairs N]
    instructions   each instruction beside QEMU, on random operands                    [--seeds N]
    serve          an agent beside gdbserver and QEMU's stub, and with peers that aren't well
    requests       one request at a time, by a client in C, of an agent and of gdbserver  [--count N]
    relay          value-adds over sockets: sessions, peers that aren't well, stored answers
    hub            a hub beside a value-add and an agent
    debuggers      debuggers that come to a hub and go, one after the other            [--count N]
    out_of_order   answers in order, in reverse, shuffled
    hostile        random and half-right bytes                                         [--streams N] [--connections N] [--sessions N] [--seed N]
    refusals       each allocation refused in turn                                     [--most N] [--all-later] [SCHEDULE ..]
"""
import argparse
import importlib
import re
import sys
from pathlib import Path

sys.dont_write_bytecode = True
from tool.measuring import built  # noqa: E402

WHATS = re.findall(r'(?m)^    (\w+) {2,}', __doc__)


def main():
    words = argparse.ArgumentParser(description=__doc__, formatter_class=argparse.RawDescriptionHelpFormatter, add_help=False)
    words.add_argument('what', metavar='WHAT', choices=WHATS, nargs='?')
    if sys.argv[1:] in (['-h'], ['--help']):
        return print(__doc__)
    if len(sys.argv) < 2 or sys.argv[1] not in WHATS:
        sys.exit(__doc__)
    module = importlib.import_module(f'tool.{sys.argv[1]}')
    words.add_argument('--program', type=Path)
    words.add_argument('--before', type=Path)
    words.add_argument('--turns', type=int, default=5)
    if hasattr(module, 'arguments'):
        module.arguments(words)
    given = words.parse_args()
    given.program = str((given.program or built()).resolve())
    given.before = str(given.before.resolve()) if given.before else None
    sys.exit(0 if module.measure(given) in (None, True) else 1)


if __name__ == '__main__':
    main()
