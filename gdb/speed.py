#!/usr/bin/env python3
"""Measures the bridge beside `qemu-riscv32 -g`, with the same client, in turns.

    gdb/speed.py [PROGRAM] [TURNS]

PROGRAM is the built `tcf`; if left out, crates/tcf/out/tcf. Of each kind of request the two are asked for a tenth of a
second in turn, TURNS times (21); what is told are the medians, and the median of the ratios of a turn. Then the two ways to
step a thread of the agent are measured, beside a process that runs, and a `continue` beside what the agent does alone.
It wants Debian's qemu-user and gcc-riscv64-unknown-elf.
"""
from __future__ import annotations

import base64
import statistics
import sys
import tempfile
import time
from pathlib import Path
from typing import Callable

from agent import Channel
from client import COMPILER, HERE, Agent, Bridge, Gdb, Qemu, compiled, lacking, program_of

SECONDS = 0.1
BEGIN, END, SIZE = 0x2000, 0xf000, 64
COUNT, LONGEST = 10_000_000, 600.0

Request = Callable[[Gdb, int], None]


def step(gdb: Gdb, _: int) -> None:
    """One step."""
    gdb.ask('s')


def read(gdb: Gdb, number: int) -> None:
    """64 bytes, each time of another place."""
    gdb.ask(f'm{BEGIN + number * SIZE % (END - BEGIN):x},{SIZE:x}')


def step_and_read(gdb: Gdb, number: int) -> None:
    """A step, and then 64 bytes, so that nothing that was read before can be kept."""
    step(gdb, number)
    read(gdb, number)


def step_and_registers(gdb: Gdb, _: int) -> None:
    """A step, and then all registers."""
    gdb.ask('s')
    gdb.ask('g')


REQUESTS: dict[str, Request] = {'steps': step, 'reads of 64 bytes': read, 'steps, and as many reads of 64 bytes': step_and_read,
                                'steps, and as many reads of all registers': step_and_registers}


def rate(gdb: Gdb, request: Request) -> float:
    """How many a second."""
    begin, done = time.perf_counter(), 0
    while time.perf_counter() - begin < SECONDS:
        for _ in range(20):
            request(gdb, done)
            done += 1
    return done / (time.perf_counter() - begin)


def compare(ours: Gdb, theirs: Gdb, turns: int) -> None:
    """Prints a row for each kind of request."""
    print('| a second | the bridge | QEMU | ratio |')
    print('|---|---|---|---|')
    for what, request in REQUESTS.items():
        rows = [(rate(ours, request), rate(theirs, request)) for _ in range(turns)]
        columns = [statistics.median(column) for column in zip(*rows)]
        ratio = statistics.median(one / other for one, other in rows)
        print(f'| {what} | {columns[0]:,.0f} | {columns[1]:,.0f} | {ratio:.2f} |', flush=True)


class Beside:
    """A process that runs beside, and counts its turns."""

    def __init__(self, channel: Channel) -> None:
        self.channel = channel
        self.identifier = channel.ask('Processes', 'start', '', 'loop', [], [], False)[0]['ID']

    def turns(self) -> int:
        """How many there were."""
        text, _ = self.channel.ask('Memory', 'get', self.identifier, BEGIN, 4, 4, 0, error_at=1)
        return int.from_bytes(base64.b64decode(text), 'little')


def steps_by(channel: Channel, beside: Beside, way: tuple[str, ...] | None) -> tuple[float, float]:
    """Steps a second, and turns of the process beside; without a way nobody steps."""
    stops: list[bytes] = []
    channel.hearer = lambda service, name, parts: stops.append(name) if name == b'contextSuspended' else None
    begin, first, done = time.perf_counter(), beside.turns(), 0
    while time.perf_counter() - begin < 2 * SECONDS:
        if way is None:
            time.sleep(SECONDS)
            continue
        stops.clear()
        channel.ask_for_parts(*way)
        while not stops:
            channel.receive()
        done += 1
    seconds = time.perf_counter() - begin
    return done / seconds, (beside.turns() - first) / seconds


def compare_ways(agent: Agent, turns: int) -> None:
    """Prints what a step costs by each way, and what a process beside executes meanwhile."""
    channel = agent.channel()
    thread = f'"{channel.ask("Processes", "start", "", "loop", [], [], True)[0]["ID"]}.1"'
    beside = Beside(agent.channel())
    ways = {'nobody steps': None, '`RunControl resume` with mode 2': ('RunControl', 'resume', thread, '2', '1'),
            '`Trace run`': ('Trace', 'run', thread, '1')}
    rows = {what: [] for what in ways}
    for _ in range(turns):
        for what, way in ways.items():
            rows[what].append(steps_by(channel, beside, way))
    print('| steps of a client of the agent | a second | turns of the process beside |')
    print('|---|---|---|')
    for what, row in rows.items():
        steps, others = (statistics.median(column) for column in zip(*row))
        print(f'| {what} | {steps:,.0f} | {others:,.0f} |')
    beside.channel.close()
    channel.close()


def run_long(agent: Agent, turns: int) -> None:
    """A `continue` over many instructions, and the same by the agent alone."""
    bridged, alone = [], []
    for _ in range(turns):
        with Bridge(agent.address, '--start', 'long') as bridge:
            gdb = Gdb(bridge.port)
            gdb.socket.settimeout(LONGEST)
            begin = time.perf_counter()
            if gdb.ask('c') != 'W00':
                raise ValueError('the program ended otherwise')
            bridged.append(time.perf_counter() - begin)
            alone.append(run_alone(agent))
    print(f'`continue` over {COUNT:,} instructions: {statistics.median(bridged):.2f} s through the bridge, '
          f'{statistics.median(alone):.2f} s by the agent alone')


def run_alone(agent: Agent) -> float:
    """The same program, resumed by a client of the agent."""
    channel = agent.channel()
    channel.socket.settimeout(LONGEST)
    [context] = channel.ask('Processes', 'start', '', 'long', [], [], True)
    ended: list[bytes] = []
    channel.hearer = lambda service, name, parts: ended.append(name) if name == b'exited' else None
    begin = time.perf_counter()
    channel.ask('RunControl', 'resume', context['ID'] + '.1', 0, 1)
    while not ended:
        channel.receive()
    seconds = time.perf_counter() - begin
    channel.close()
    return seconds


def long_image(folder: Path) -> Path:
    """A program of two instructions that are executed again and again, as often as is asked for."""
    # lui x5, COUNT / 2 >> 12; addi x5, x5, COUNT / 2 & 0xfff; addi x5, x5, -1; bne x5, x0, -4; addi x17, x0, 93; ecall
    turns = COUNT // 2
    upper, lower = (turns + 0x800) >> 12, turns & 0xfff
    words = [upper << 12 | 0x2b7, lower << 20 | 0x28293, 0xfff28293, 0xfe029ee3, 0x05d00893, 0x00000073]
    path = folder / 'long'
    path.write_bytes(b''.join(word.to_bytes(4, 'little') for word in words))
    return path


def main() -> int:
    program = program_of(sys.argv[1:2])
    turns = int(sys.argv[2]) if len(sys.argv) > 2 else 21
    if wanting := lacking('qemu-riscv32', COMPILER):
        sys.exit(f'not installed: {", ".join(wanting)}')
    with tempfile.TemporaryDirectory() as name:
        folder = Path(name)
        elf = compiled(HERE / 'programs' / 'loop.c', folder)
        with Agent(program, {'loop': elf, 'long': long_image(folder)}) as agent:
            with Bridge(agent.address, '--start', 'loop') as bridge, Qemu(elf) as qemu:
                compare(Gdb(bridge.port), Gdb(qemu.port), turns)
            compare_ways(agent, turns)
            run_long(agent, min(turns, 5))
    return 0


if __name__ == '__main__':
    sys.exit(main())
