"""Measures `tcf show` beside a plain C program that prints the same."""
import tempfile
from pathlib import Path

from tool.measuring import Ran, check, compiled, head, holds, in_turn, programs, ratio, row
from tool.schedules import sync_commands, threes

STREAMS = (('`Locator sync` commands under counting tokens', sync_commands), ('results of one megabyte of the byte 3', threes))


def measure(given):
    fine = True
    with tempfile.TemporaryDirectory() as folder:
        baseline, path = compiled('show_baseline.c', folder), Path(folder) / 'stream'
        head('`show` of', 'bytes', '`tcf`', 'the C program', 'ratio', 'memory, in files', *(['before', 'ratio'] if given.before else []))
        for what, made in STREAMS:
            path.write_bytes(made())
            size, wanted, most = path.stat().st_size, Ran([baseline, path]).text, 0

            def ours(program):
                nonlocal most
                ran = Ran([program, 'show', path])
                holds('the outputs differ', ran.text == wanted)
                if program == given.program:
                    most = max(most, ran.memory)
                return ran.seconds
            one, base, *before = in_turn([lambda: ours(given.program), lambda: Ran([baseline, path]).seconds,
                                          *(lambda program=program: ours(program) for program in programs(given)[1:])], given.turns)
            row(what, f'{size:,}', f'{one:.3f} s', f'{base:.3f} s', ratio(one, base), f'{most / size:.1f}',
                *(f'{time:.3f} s | {ratio(one, time)}' for time in before))
            fine &= check('at most three times the time, and four files of memory', one <= 3 * base and most <= 4 * size)
    return fine
