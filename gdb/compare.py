#!/usr/bin/env python3
"""Steps programs under `qemu-riscv32 -g` and through the bridge, by the same client, and compares the two after each step.

    gdb/compare.py [PROGRAM]

PROGRAM is the built `tcf`; if left out, crates/tcf/out/tcf. The sources of the programs lie in gdb/programs. Of each that
QEMU can run, pc and all registers are compared after each step, all memory of its segments after each 1,000 steps, and in
the end how it ended. QEMU knows no threads of the target's kind, so the program with two is stepped through the bridge alone.
It wants Debian's qemu-user and gcc-riscv64-unknown-elf.
"""
from __future__ import annotations

import struct
import sys
import tempfile
from pathlib import Path

from client import COMPILER, HERE, Agent, Bridge, Gdb, Qemu, compiled, lacking, program_of

PROGRAMS = {'sort': 61, 'crc32': 1, 'sha256': 1, 'recursion': 75, 'copies': 64, 'wide': 75}
THREADS, SUM = 'threads', 1830 % 251
STEPS_IN_ALL = 50_000
MOST_STEPS = 200_000
EVERY = 1_000
PC = 32


class Differs(Exception):
    """The two aren't the same."""


def same(what: str, theirs: str, ours: str) -> None:
    """Refuses what differs."""
    if theirs != ours:
        raise Differs(f'{what}: {theirs} under QEMU, {ours} through the bridge')


def segments_of(elf: Path) -> list[range]:
    """The addresses of the segments that are loaded from a file."""
    file = elf.read_bytes()
    [place], [size, count] = struct.unpack_from('<I', file, 28), struct.unpack_from('<HH', file, 42)
    headers = [struct.unpack_from('<8I', file, place + size * number) for number in range(count)]
    return [range(header[2], header[2] + header[5]) for header in headers if header[0] == 1]


def same_memory(theirs: Gdb, ours: Gdb, segments: list[range], step: int) -> None:
    """Refuses a byte that differs."""
    for segment in segments:
        pair = [gdb.memory(segment.start, len(segment)) for gdb in (theirs, ours)]
        for address, one, other in zip(segment, *pair):
            if one != other:
                raise Differs(f'the byte at {address:#x} after {step} steps: {one} under QEMU, {other} through the bridge')


def pc_of(registers: str) -> str:
    """The pc within all registers."""
    return registers[8 * PC:8 * PC + 8]


def compare(elf: Path, bridge: Bridge, status: int) -> int:
    """Steps a program to its end; answers the number of steps."""
    with Qemu(elf) as qemu:
        theirs, ours = Gdb(qemu.port), Gdb(bridge.port)
        clear_but_pc(theirs)
        clear_but_pc(ours)
        segments = segments_of(elf)
        for step in range(MOST_STEPS):
            registers = theirs.ask('g')
            same(f'registers after {step} steps', registers, ours.ask('g'))
            if step % EVERY == 0:
                same_memory(theirs, ours, segments, step)
            stops = theirs.ask('s'), ours.ask('s')
            if not stops[0].startswith('T05'):
                same(f'the end after {step} steps', *stops)
                same('the status', f'W{status:02x}', stops[1])
                return step + 1
            if not stops[1].startswith('T05'):
                raise Differs(f'a stop {stops[1]} at {pc_of(registers)}')
        raise Differs(f'no end within {MOST_STEPS} steps')


def clear_but_pc(gdb: Gdb) -> None:
    """QEMU begins with a stack of its own."""
    gdb.ask('?')
    registers = gdb.ask('g')
    gdb.ask('G' + '0' * 8 * PC + pc_of(registers))


def step_threads(bridge: Bridge) -> int:
    """Steps two threads in turn; what one does leaves the registers of the other as they were. Answers the number of steps."""
    gdb = Gdb(bridge.port, 'multiprocess+')
    gdb.ask('?')
    process = gdb.ask('qC').removeprefix('QCp').split('.')[0]
    for step in range(MOST_STEPS):
        threads = gdb.ask('qfThreadInfo')[1:].split(',')
        turn, others = threads[step % len(threads)], [name for name in threads if name != threads[step % len(threads)]]
        before = [registers_of(gdb, name) for name in others]
        stop = gdb.ask(f'vCont;s:{turn}')
        if stop.startswith('W'):
            same('the status', f'W{SUM:02x};process:{process}', stop)
            if len(threads) != 2:
                raise Differs(f'{len(threads)} threads at the end')
            return step + 1
        if not stop.startswith(f'T05thread:{turn};'):
            raise Differs(f'a stop {stop} of {turn}')
        if before != [registers_of(gdb, name) for name in others]:
            raise Differs(f'a step of {turn} changed registers of another thread')
    raise Differs(f'no end within {MOST_STEPS} steps')


def registers_of(gdb: Gdb, thread: str) -> str:
    """All registers of a thread."""
    gdb.ask(f'Hg{thread}')
    return gdb.ask('g')


def main() -> int:
    program = program_of(sys.argv[1:])
    if wanting := lacking('qemu-riscv32', COMPILER):
        sys.exit(f'not installed: {", ".join(wanting)}')
    steps = 0
    with tempfile.TemporaryDirectory() as folder:
        images = {name: compiled(HERE / 'programs' / f'{name}.c', Path(folder)) for name in [*PROGRAMS, THREADS]}
        with Agent(program, images) as agent:
            for name, elf in images.items():
                with Bridge(agent.address, '--start', name) as bridge:
                    try:
                        done = step_threads(bridge) if name == THREADS else compare(elf, bridge, PROGRAMS[name])
                    except Differs as differs:
                        print(f'{name}: {differs}')
                        return 1
                print(f'{name}: {done} steps {"of two threads" if name == THREADS else "the same"}', flush=True)
                steps += done
    print(f'{steps} steps in all')
    return 0 if steps >= STEPS_IN_ALL else 1


if __name__ == '__main__':
    sys.exit(main())
