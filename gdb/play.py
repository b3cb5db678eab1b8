#!/usr/bin/env python3
"""Plays the sessions of gdb/sessions through the bridge, and compares what gdb prints with the text that is wanted.

    gdb/play.py [PROGRAM]        PROGRAM is the built `tcf`; if left out, crates/tcf/out/tcf
    gdb/play.py --wanted         makes the wanted texts anew, under `qemu-riscv32 -g`

The first line of a session names its program in gdb/programs, behind `# program:`. A session `NAME.gdb` is a script for
`gdb-multiarch -batch`, and `NAME.txt` beside it what gdb printed under QEMU, but for what names the target. Of a session
with `# not under QEMU` in its second line, which needs threads or `run`, the text was read by hand.
It wants Debian's gdb-multiarch, qemu-user (for --wanted) and gcc-riscv64-unknown-elf.
"""
from __future__ import annotations

import difflib
import re
import subprocess
import sys
import tempfile
from pathlib import Path

from client import COMPILER, HERE, LOOPBACK, Agent, Bridge, Qemu, compiled, lacking, program_of

DEBUGGER = 'gdb-multiarch'
SECONDS = 120
# what names the target, and the lines that only say how gdb came there
NAMES = [(re.compile(r'\(process \d+\)|process \d+'), '(process N)'), (re.compile(r'Thread \d+\.\d+'), 'Thread N')]
PASSED = re.compile(r'Remote debugging using |warning: remote target does not support file transfer')


class Session:
    """A script with its program and its wanted text."""

    def __init__(self, path: Path) -> None:
        self.path, self.wanted = path, path.with_suffix('.txt')
        first, second, *_ = path.read_text().splitlines()
        self.program = first.removeprefix('# program: ')
        self.is_for_qemu = second != '# not under QEMU'

    def printed(self, elf: Path, port: int, kind: str) -> list[str]:
        """The lines that gdb prints, through a server on that port."""
        begin = ['set style enabled off', 'set filename-display basename', f'target {kind} {LOOPBACK}:{port}']
        words = [DEBUGGER, '-batch', '-nx', *(word for line in begin for word in ('-ex', line)), '-x', str(self.path), str(elf)]
        ended = subprocess.run(words, stdin=subprocess.DEVNULL, stdout=subprocess.PIPE, stderr=subprocess.STDOUT,
                               text=True, timeout=SECONDS)
        return [named_alike(line) for line in ended.stdout.splitlines() if not PASSED.match(line)]


def named_alike(line: str) -> str:
    """A line without what names the target."""
    for pattern, name in NAMES:
        line = pattern.sub(name, line)
    return line.rstrip()


def sessions() -> list[Session]:
    """All sessions, by their names."""
    return [Session(path) for path in sorted((HERE / 'sessions').glob('*.gdb'))]


def make_wanted(folder: Path) -> None:
    """Writes what gdb prints under QEMU."""
    for session in sessions():
        if session.is_for_qemu:
            elf = compiled(HERE / 'programs' / session.program, folder)
            with Qemu(elf) as qemu:
                session.wanted.write_text('\n'.join(session.printed(elf, qemu.port, 'remote')) + '\n')
            print(f'{session.wanted.name}: written')


def play(program: str, folder: Path) -> int:
    """Plays all sessions; answers how many differ."""
    sources = {session.program for session in sessions()}
    images = {Path(source).stem: compiled(HERE / 'programs' / source, folder) for source in sources}
    differ = 0
    for session in sessions():
        name = Path(session.program).stem
        kind, words = ('remote', ['--start', name]) if session.is_for_qemu else ('extended-remote', [])
        with Agent(program, images) as agent, Bridge(agent.address, *words) as bridge:
            printed = session.printed(images[name], bridge.port, kind)
        wanted = session.wanted.read_text().splitlines()
        print(f'{session.path.name}: {"same" if printed == wanted else "DIFFERS"}', flush=True)
        if printed != wanted:
            differ += 1
            print('\n'.join(difflib.unified_diff(wanted, printed, 'wanted', 'printed', n=1, lineterm='')))
    print(f'{len(sessions()) - differ} sessions are the same, {differ} differ')
    return differ


def main() -> int:
    makes = sys.argv[1:] == ['--wanted']
    if wanting := lacking(DEBUGGER, COMPILER, *(['qemu-riscv32'] if makes else [])):
        sys.exit(f'not installed: {", ".join(wanting)}')
    with tempfile.TemporaryDirectory() as folder:
        if makes:
            make_wanted(Path(folder))
            return 0
        return 1 if play(program_of(sys.argv[1:]), Path(folder)) else 0


if __name__ == '__main__':
    sys.exit(main())
