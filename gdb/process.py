"""The process that gdb debugs, as the agent tells of it: its threads, registers, memory and breakpoints."""
from __future__ import annotations

import base64
import json
import secrets
from dataclasses import dataclass
from typing import Iterator

from agent import Channel, Command, Refused, value_of

REGISTERS = [f'x{number}' for number in range(32)] + ['pc']
PC = 32
MEMORY = 65536
BLOCK = 1024
TERMINATED = -1


@dataclass
class Thread:
    """A thread. What was read of it is kept until it runs, or somebody writes a register."""
    number: int
    identifier: str
    runs: bool = True
    pc: int | None = None
    reason: str = ''
    registers: bytes | None = None

    def __post_init__(self) -> None:
        """What commands name it by, and all of its registers."""
        self.text = json.dumps(self.identifier)
        self.locations = json.dumps([[f'{self.identifier}.{register}', 0, 4] for register in REGISTERS])

    def forget(self) -> None:
        """Some register was written, so none is known."""
        self.pc = self.registers = None


def start(channel: Channel, image: str) -> Process:
    """A new process from an image, suspended at its first instruction."""
    [context] = channel.ask('Processes', 'start', '', image, [], [], True)
    return Process(channel, context['ID'], image)


def attach(channel: Channel, identifier: str) -> Process:
    """A process that is there already. Whoever else has it attached keeps it, too."""
    [context] = channel.ask('Processes', 'getContext', identifier)
    if not context.get('Attached'):
        channel.ask('Processes', 'attach', identifier)
    return Process(channel, identifier, context.get('Name', ''))


class Process:
    """A process that is attached. `code` is that of its end, once it has ended."""

    def __init__(self, channel: Channel, identifier: str, name: str) -> None:
        self.channel, self.identifier, self.name = channel, identifier, name
        self.number = int(identifier.removeprefix('P'))
        self.threads: dict[int, Thread] = {}
        self.made: list[Thread] = []
        self.stops: list[Thread] = []
        self.code: int | None = None
        self.breakpoints: dict[int, str] = {}
        self._mark = secrets.token_hex(4)
        self._blocks: dict[int, bytes] = {}
        channel.hearer = self.hear
        [threads] = channel.ask('RunControl', 'getChildren', identifier)
        for thread in threads:
            self._ask_for_state(self._added(thread))
        self.made.clear()
        self.stops.clear()

    # ---- what the agent tells

    def hear(self, service: bytes, name: bytes, parts: list[bytes]) -> None:
        """Takes an event of any process."""
        if service == b'RunControl':
            self._hear_of_running(name, parts)
        elif name == b'memoryChanged':
            if value_of(parts[0]) in self._names():
                self._blocks.clear()
        elif name == b'registerChanged':
            thread = self._named(str(value_of(parts[0])).rpartition('.')[0])
            if thread:
                thread.forget()
        elif service == b'Registers':
            for thread in self.threads.values():
                thread.forget()
        elif name == b'exited' and value_of(parts[0]) == self.identifier:
            self.code = value_of(parts[1])

    def _hear_of_running(self, name: bytes, parts: list[bytes]) -> None:
        if name == b'contextSuspended':
            thread = self._named(value_of(parts[0]))
            if thread:
                thread.runs, thread.pc, thread.reason = False, value_of(parts[1]), value_of(parts[2])
                self.stops.append(thread)
        elif name == b'contextResumed':
            thread = self._named(value_of(parts[0]))
            if thread:
                self._goes_on(thread)
        elif name == b'contextAdded':
            for context in value_of(parts[0]):
                if context.get('ParentID') == self.identifier:
                    self._added(context['ID'])

    def _names(self) -> list[str]:
        return [self.identifier, *(thread.identifier for thread in self.threads.values())]

    def _named(self, identifier: str) -> Thread | None:
        process, _, number = identifier.partition('.')
        return self.threads.get(int(number)) if process == self.identifier and number.isdigit() else None

    def _added(self, identifier: str) -> Thread:
        thread = Thread(int(identifier.rpartition('.')[2]), identifier)
        self.threads[thread.number] = thread
        self.made.append(thread)
        self._blocks.clear()
        return thread

    def _goes_on(self, thread: Thread) -> None:
        thread.runs = True
        thread.forget()
        self._blocks.clear()

    def _ask_for_state(self, thread: Thread) -> None:
        is_suspended, pc, reason, _ = self.channel.ask('RunControl', 'getState', thread.identifier)
        thread.runs, thread.pc, thread.reason = not is_suspended, pc, reason or ''

    # ---- running

    @property
    def has_ended(self) -> bool:
        """There is no such process any more."""
        return self.code is not None

    def running(self) -> list[Thread]:
        """The threads that run."""
        return [thread for thread in self.threads.values() if thread.runs]

    def resume(self, threads: list[Thread]) -> None:
        """Lets threads go on."""
        for thread in threads:
            self._goes_on(thread)
        self._ask_of_threads([('RunControl', 'resume', thread.text, '0', '1') for thread in threads])

    def step(self, thread: Thread) -> None:
        """Has a thread execute one instruction; that it has is told as a stop.

        By `Trace run`, whose answer and events come at once, this takes less time than by `resume` with mode 2, and other
        processes go on as much.
        """
        self._goes_on(thread)
        self._ask_of_threads([('Trace', 'run', thread.text, '1')])

    def suspend_all(self) -> None:
        """Suspends all threads. Threads that are made meanwhile are told before the answers, so the last round is exact."""
        while not self.has_ended and (threads := self.running()):
            self.suspend(threads)

    def suspend(self, threads: list[Thread]) -> None:
        """Suspends threads."""
        self._ask_of_threads([('RunControl', 'suspend', thread.text) for thread in threads])

    def _ask_of_threads(self, commands: list[Command]) -> None:
        """A thread may have stopped, or gone with its process, before it is asked."""
        for refused in self.channel.ask_all(commands) if commands else ():
            if refused and not self.has_ended and refused.text not in ('already-stopped', 'already-running'):
                raise refused

    def terminate(self) -> None:
        """Ends the process."""
        if not self.has_ended:
            self.channel.ask('Processes', 'terminate', self.identifier)

    def detach(self) -> None:
        """Lets the process go on without a debugger."""
        if not self.has_ended:
            self.channel.ask('Processes', 'detach', self.identifier)

    # ---- registers and memory

    def pc_of(self, thread: Thread) -> int:
        """Where a suspended thread stands."""
        if thread.pc is None:
            thread.pc = int.from_bytes(self.registers_of(thread)[4 * PC:], 'little')
        return thread.pc

    def registers_of(self, thread: Thread) -> bytes:
        """All 33 registers of a suspended thread, of four bytes each, the least first."""
        if thread.registers is None:
            [text] = self.channel.ask_for_parts('Registers', 'getm', thread.locations)
            thread.registers = base64.b64decode(text)
        return thread.registers

    def set_registers(self, thread: Thread, first: int, data: bytes) -> None:
        """Writes registers that follow each other."""
        count = len(data) // 4
        locations = [[f'{thread.identifier}.{register}', 0, 4] for register in REGISTERS[first:first + count]]
        self.channel.ask('Registers', 'setm', locations, base64.b64encode(data).decode())
        thread.forget()

    def memory(self, address: int, size: int) -> bytes:
        """Bytes of memory. While no thread runs, blocks of what was read are kept until somebody writes."""
        first = address - address % BLOCK
        block = self._blocks.get(first)
        if address + size > first + BLOCK or (block is None and (address >= MEMORY or self.running())):
            return self._read(address, size)
        if block is None:
            block = self._blocks[first] = self._read(first, BLOCK)
        return block[address - first:address - first + size]

    def set_memory(self, address: int, data: bytes) -> None:
        """Writes bytes of memory."""
        self.channel.ask('Memory', 'set', self.identifier, address, 1, len(data), 0, base64.b64encode(data).decode())
        self._blocks.clear()

    def _read(self, address: int, size: int) -> bytes:
        identifier = f'"{self.identifier}"'
        text, _ = self.channel.ask_for_parts('Memory', 'get', identifier, str(address), '1', str(size), '0', error_at=1)
        return base64.b64decode(text)

    # ---- breakpoints

    def insert_breakpoint(self, address: int) -> None:
        """Sets a breakpoint; a second one at its place is the same."""
        if address % 4 or address >= MEMORY:
            raise Refused('Breakpoints add', 1, f'no instruction can stand at {address:#x}')
        if address not in self.breakpoints:
            identifier = f'gdb.{self._mark}.{address:x}'
            self.channel.ask('Breakpoints', 'add', {'ID': identifier, 'Enabled': True, 'Location': hex(address),
                                                    'ContextIds': [self.identifier]})
            self.breakpoints[address] = identifier

    def remove_breakpoint(self, address: int) -> None:
        """Takes a breakpoint out, where there is one."""
        if address in self.breakpoints:
            self.channel.ask('Breakpoints', 'remove', [self.breakpoints.pop(address)])

    def remove_breakpoints(self) -> None:
        """Takes out all that the channel has set."""
        if self.breakpoints:
            self.channel.ask('Breakpoints', 'set', [])
            self.breakpoints.clear()

    def stands_on_breakpoint(self, threads: list[Thread]) -> Iterator[Thread]:
        """The threads that stand where a breakpoint is."""
        return (thread for thread in threads if self.breakpoints and self.pc_of(thread) in self.breakpoints)
