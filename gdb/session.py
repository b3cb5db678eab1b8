"""The commands of gdb's remote serial protocol, for one gdb: what each packet asks, done by the agent.

"Debugging with GDB", appendix "GDB Remote Serial Protocol", has the packets. Nothing runs but between a packet that resumes
and its stop reply, and all threads are suspended before that is sent.
"""
from __future__ import annotations

import re
import sys
from dataclasses import dataclass
from typing import Callable

from agent import Channel, Refused
from descriptions import MEMORY_MAP, SIGINT, SIGKILL, SIGTRAP, TARGET, signal_of
from packets import INTERRUPT, Bad, Connection, GdbGone, escaped, unescaped
from process import PC, REGISTERS, TERMINATED, Process, Thread, attach, start

PACKET_SIZE = 0x10000
MOST_WAITING = 1000
ANY, ALL = 0, -1
FEATURES = (f'PacketSize={PACKET_SIZE:x};QStartNoAckMode+;multiprocess+;vContSupported+;qXfer:features:read+;'
            'qXfer:memory-map:read+')
NAME = re.compile('[^:;,]*')
DOCUMENTS = {'features': TARGET, 'memory-map': MEMORY_MAP}
HELP = '''monitor processes    the processes of the agent; those that are marked * are attached to a debugger
monitor threads      the threads of this process, where they stand and why
monitor breakpoints  all breakpoints of the agent, with their hits
'''


class Malformed(Exception):
    """A packet whose arguments can't be read, or name what isn't there."""


@dataclass
class Action:
    """What a thread is to do: to go on, or to take a step, again and again while it is in a range."""
    steps: bool
    begin: int = 0
    end: int = 0

    def has_done(self, pc: int) -> bool:
        """A thread that has taken a step and stands at `pc` now is told to gdb."""
        return not self.begin <= pc < self.end


@dataclass
class Run:
    """What gdb has resumed: an action for each thread, and perhaps one for threads that are made meanwhile."""
    actions: dict[int, Action]
    of_new: Action | None


@dataclass
class Subject:
    """What is debugged, by one gdb after the other: a process, the image for another one, and who has begun it."""
    channel: Channel
    image: str | None = None
    process: Process | None = None
    is_own: bool = False

    def start(self, image: str) -> Process:
        """Starts a process, and debugs it."""
        self.process, self.image, self.is_own = start(self.channel, image), image, True
        return self.process

    def attach(self, identifier: str) -> Process:
        """Debugs a process that is there."""
        self.process, self.is_own = attach(self.channel, identifier), False
        return self.process

    def drop(self) -> None:
        """The process is debugged no more, so its breakpoints go."""
        if self.process:
            self.process.remove_breakpoints()
        self.process = None

    def live(self) -> Process:
        """The process, which must be there."""
        if not self.process or self.process.has_ended:
            raise Malformed('no process is debugged')
        return self.process


class Session:
    """One gdb. `take` does what it sends, and `look` what the agent has told meanwhile."""

    def __init__(self, connection: Connection, subject: Subject) -> None:
        self.connection, self.subject = connection, subject
        self.waiting: list[bytes | Bad] = []
        self.run: Run | None = None
        self.is_interrupted = self.is_multiprocess = self.is_extended = self.is_over = self.owes_answer = False
        self.current = 1
        self.for_resume = ANY
        self.end_reply = b'W00'
        self.letters: dict[str, Callable[[str], str | None]] = {
            '!': self.extended_mode, '?': self.why, 'g': self.read_registers, 'G': self.write_registers,
            'p': self.read_register, 'P': self.write_register, 'm': self.read_memory, 'M': self.write_memory,
            'X': self.write_binary, 'c': lambda place: self.resume_plainly(False, place),
            's': lambda place: self.resume_plainly(True, place), 'C': lambda rest: self.resume_by_signal(False, rest),
            'S': lambda rest: self.resume_by_signal(True, rest), 'H': self.choose_thread, 'T': self.is_alive, 'Z': self.insert,
            'z': self.remove, 'D': self.detach, 'k': self.kill}
        self.names: dict[str, Callable[[str], str | None]] = {
            'qSupported': self.supported, 'QStartNoAckMode': self.no_acknowledgments, 'qXfer': self.document,
            'qC': self.which_thread, 'qfThreadInfo': self.list_threads, 'qsThreadInfo': lambda _: 'l',
            'qThreadExtraInfo': self.describe_thread, 'qAttached': self.was_attached, 'qRcmd': self.monitor,
            'vCont?': lambda _: 'vCont;c;C;s;S;r', 'vCont': self.resume, 'vKill': self.kill_process,
            'vRun': self.run_image, 'vAttach': self.attach}

    # ---- packets

    def take(self) -> None:
        """Takes what gdb has sent."""
        for item in self.connection.receive():
            if item == INTERRUPT:
                self.is_interrupted = True
            else:
                self.waiting.append(item)
        if len(self.waiting) > MOST_WAITING:
            raise GdbGone(f'gdb has sent more than {MOST_WAITING} packets at once')
        self.answer_waiting()

    def answer_waiting(self) -> None:
        """Answers what waits, as far as nothing runs."""
        while self.waiting and not self.run and not self.is_over:
            item = self.waiting.pop(0)
            if not isinstance(item, Bad):
                self.answer(item)
            elif not item.comes_again:
                self.send(error(item))

    def answer(self, body: bytes) -> None:
        """Does what a packet asks, and answers it, unless its answer is that of a run."""
        self.owes_answer = True
        try:
            reply = self.reply_to(body.decode('latin-1'))
        except (Malformed, Refused, Bad) as wrong:
            self.run = None
            self.send(error(wrong))
        except (ValueError, LookupError, OverflowError):
            self.send(b'E01')
        else:
            if reply is not None:
                self.send(reply.encode('latin-1'))

    def send(self, body: bytes) -> None:
        """Sends the answer that gdb waits for."""
        self.owes_answer = False
        self.connection.send(body)

    def reply_to(self, text: str) -> str | None:
        """The answer to a packet: none where a run has begun, and the empty one to what isn't known."""
        known = self.letters.get(text[:1])
        if known:
            return known(text[1:])
        name = NAME.match(text)[0]
        known = self.names.get(name)
        return known(text[len(name):]) if known else ''

    # ---- what gdb and the bridge agree on

    def supported(self, text: str) -> str:
        """qSupported: the features of the bridge."""
        self.is_multiprocess = 'multiprocess+' in text[1:].split(';')
        return FEATURES if self.is_multiprocess else FEATURES.replace('multiprocess+;', '')

    def no_acknowledgments(self, _: str) -> None:
        """QStartNoAckMode: from here on packets are not acknowledged."""
        self.send(b'OK')
        self.connection.acknowledges = False

    def extended_mode(self, _: str) -> str:
        """!: gdb stays where a process ends, and may start another."""
        self.is_extended = True
        return 'OK'

    def document(self, text: str) -> str:
        """qXfer: a piece of a description."""
        _, kind, action, annex, window = text.split(':')
        document = DOCUMENTS.get(kind)
        if not document or action != 'read':
            return ''
        if annex != ('target.xml' if kind == 'features' else ''):
            return 'E00'
        offset, length = numbers(window)
        piece = document[offset:offset + length]
        return ('m' if offset + length < len(document) else 'l') + escaped(piece).decode('latin-1')

    def monitor(self, text: str) -> str:
        """qRcmd: a command for the bridge itself, and its text."""
        words = bytes.fromhex(text[1:]).decode(errors='replace').split()
        told = {'processes': self.tell_processes, 'threads': self.tell_threads, 'breakpoints': self.tell_breakpoints}
        tell = told.get(words[0]) if len(words) == 1 else None
        return ((tell() if tell else HELP) or 'none\n').encode().hex()

    def tell_processes(self) -> str:
        """The processes of the agent, a line each."""
        [attached] = self.subject.channel.ask('Processes', 'getChildren', '', True)
        [identifiers] = self.subject.channel.ask('Processes', 'getChildren', '', False)
        contexts = [self.subject.channel.ask('Processes', 'getContext', identifier)[0] for identifier in identifiers]
        return ''.join(f'{"*" if context["ID"] in attached else " "} {context["ID"]} {context.get("Name", "")}\n'
                       for context in contexts)

    def tell_threads(self) -> str:
        """The threads of the process, a line each."""
        process = self.subject.live()
        return ''.join(f'{thread.identifier} {process.pc_of(thread):#06x} {thread.reason}\n'
                       for thread in process.threads.values())

    def tell_breakpoints(self) -> str:
        """The breakpoints of the agent, a line each."""
        [identifiers] = self.subject.channel.ask('Breakpoints', 'getIDs')
        lines = []
        for identifier in identifiers:
            [status] = self.subject.channel.ask('Breakpoints', 'getStatus', identifier)
            places = [f'{place["LocationContext"]} {place.get("Address", 0):#06x} hits {place.get("HitCount", 0)}'
                      for place in status.get('Instances', []) if 'Error' not in place]
            lines.append(f'{identifier}: {"; ".join(places) or "nowhere"}\n')
        return ''.join(lines)

    # ---- threads

    def name_of(self, number: int) -> str:
        """A thread as gdb names it."""
        return f'p{self.subject.live().number:x}.{number:x}' if self.is_multiprocess else f'{number:x}'

    def number_of(self, name: str) -> int:
        """The number of a thread that gdb names, or ANY or ALL."""
        process, _, thread = name[1:].partition('.') if name.startswith('p') else ('', '', name)
        if process and int(process, 16) not in (ANY, ALL, self.subject.live().number):
            raise Malformed(f'no process {process} is debugged here')
        return int(thread, 16) if thread or not process else ALL

    def thread(self, number: int) -> Thread:
        """A thread that lives, or the current one for ANY and ALL."""
        process = self.subject.live()
        if number in (ANY, ALL):
            number = self.current if self.current in process.threads else min(process.threads)
        if number not in process.threads:
            raise Malformed(f'there is no thread {number}')
        return process.threads[number]

    def choose_thread(self, text: str) -> str:
        """H: the thread of the packets that follow."""
        number = self.number_of(text[1:])
        if text[0] == 'c':
            self.for_resume = number
        elif text[0] == 'g':
            self.current = self.thread(number).number
        else:
            return ''
        return 'OK'

    def is_alive(self, text: str) -> str:
        """T: whether a thread is there."""
        self.thread(self.number_of(text))
        return 'OK'

    def which_thread(self, _: str) -> str:
        """qC: the current thread."""
        return 'QC' + self.name_of(self.thread(ANY).number)

    def list_threads(self, _: str) -> str:
        """qfThreadInfo: all threads, in one answer."""
        if not self.subject.process or self.subject.process.has_ended:
            return 'l'
        return 'm' + ','.join(self.name_of(number) for number in self.subject.process.threads)

    def describe_thread(self, text: str) -> str:
        """qThreadExtraInfo: what `info threads` shows beside a thread."""
        thread = self.thread(self.number_of(text[1:]))
        return f'{thread.identifier}, {"runs" if thread.runs else thread.reason}'.encode().hex()

    def was_attached(self, _: str) -> str:
        """qAttached: whether the process was there before, so that gdb lets it go in the end."""
        return '0' if self.subject.is_own else '1'

    # ---- registers and memory

    def read_registers(self, _: str) -> str:
        """g: all registers."""
        return self.subject.live().registers_of(self.thread(self.current)).hex()

    def write_registers(self, text: str) -> str:
        """G: all registers."""
        data = bytes.fromhex(text)
        if len(data) != 4 * len(REGISTERS):
            raise Malformed('there are 33 registers of four bytes')
        self.subject.live().set_registers(self.thread(self.current), 0, data)
        return 'OK'

    def read_register(self, text: str) -> str:
        """p: one register."""
        number = int(text, 16)
        if not 0 <= number <= PC:
            return 'E01'
        return self.subject.live().registers_of(self.thread(self.current))[4 * number:4 * number + 4].hex()

    def write_register(self, text: str) -> str:
        """P: one register."""
        name, _, digits = text.partition('=')
        number, data = int(name, 16), bytes.fromhex(digits)
        if not 0 <= number <= PC or len(data) != 4:
            return 'E01'
        self.subject.live().set_registers(self.thread(self.current), number, data)
        return 'OK'

    def read_memory(self, text: str) -> str:
        """m: bytes of memory."""
        address, size = numbers(text)
        return self.subject.live().memory(address, size).hex()

    def write_memory(self, text: str) -> str:
        """M: bytes of memory, in hexadecimal digits."""
        where, _, digits = text.partition(':')
        return self.write(where, bytes.fromhex(digits))

    def write_binary(self, text: str) -> str:
        """X: bytes of memory, as they are."""
        where, _, data = text.partition(':')
        return self.write(where, unescaped(data.encode('latin-1')))

    def write(self, where: str, data: bytes) -> str:
        """Writes memory; no bytes are asked for by gdb to see whether the packet is known."""
        address, size = numbers(where)
        if len(data) != size:
            raise Malformed(f'{size} bytes were told, and {len(data)} came')
        self.subject.live()
        if size:
            self.subject.live().set_memory(address, data)
        return 'OK'

    # ---- breakpoints

    def insert(self, text: str) -> str:
        """Z0 and Z1: a breakpoint. Watchpoints are not known."""
        if text[:2] not in ('0,', '1,'):
            return ''
        self.subject.live().insert_breakpoint(numbers(text[2:])[0])
        return 'OK'

    def remove(self, text: str) -> str:
        """z0 and z1: the breakpoint goes."""
        if text[:2] not in ('0,', '1,'):
            return ''
        if self.subject.process:
            self.subject.process.remove_breakpoint(numbers(text[2:])[0])
        return 'OK'

    # ---- running

    def resume_plainly(self, steps: bool, place: str) -> str | None:
        """c and s, perhaps with an address; the thread was chosen by `Hc`."""
        if self.subject.process and self.subject.process.has_ended:
            return self.ended(self.subject.process)
        chosen = self.thread(self.for_resume)
        if place:
            self.subject.live().set_registers(chosen, PC, int(place, 16).to_bytes(4, 'little'))
        actions = {chosen.number: Action(steps)}
        if self.for_resume in (ANY, ALL):
            actions |= {number: Action(False) for number in self.subject.live().threads if number != chosen.number}
        return self.begin(Run(actions, Action(False) if self.for_resume in (ANY, ALL) else None))

    def resume_by_signal(self, steps: bool, text: str) -> str | None:
        """C and S: the signal is passed over."""
        signal, _, place = text.partition(';')
        int(signal, 16)
        return self.resume_plainly(steps, place)

    def resume(self, text: str) -> str | None:
        """vCont: of the actions of a thread the first counts."""
        if self.subject.process and self.subject.process.has_ended:
            return self.ended(self.subject.process)
        run = Run({}, None)
        threads = self.subject.live().threads
        for word in text[1:].split(';'):
            what, _, name = word.partition(':')
            number = self.number_of(name) if name else ALL
            named = list(threads) if number == ALL else [self.thread(number).number]
            action = action_of(what)
            run.actions = {other: action for other in named} | run.actions
            if number == ALL and not run.of_new:
                run.of_new = action
        return self.begin(run)

    def begin(self, run: Run) -> str | None:
        """Begins a run. A thread that would begin on a breakpoint has hit it, as if its instruction stood there."""
        process = self.subject.live()
        threads = [process.threads[number] for number in sorted(run.actions, key=lambda number: number != self.current)]
        process.suspend_all()
        process.stops.clear()
        process.made.clear()
        if self.is_interrupted:
            self.is_interrupted = False
            return self.stopped(threads[0], SIGINT)
        for thread in process.stands_on_breakpoint(threads):
            return self.stopped(thread, SIGTRAP)
        self.run = run
        process.resume([thread for thread in threads if not run.actions[thread.number].steps])
        for thread in threads:
            if run.actions[thread.number].steps:
                process.step(thread)
        return None

    @property
    def has_news(self) -> bool:
        """`look` has something to do without waiting."""
        process = self.subject.process
        return bool(self.run and process and (process.has_ended or process.stops or process.made or self.is_interrupted))

    def look(self) -> None:
        """Goes on with a run, as far as the agent has told of it, and tells gdb that it has stopped."""
        if not self.has_news:
            return
        try:
            reply = self.reply_to_run(self.subject.process, self.run)
            answer = None if reply is None else reply.encode()
        except (Refused, Malformed) as wrong:
            answer = error(wrong)
        if answer is not None:
            self.run = None
            self.send(answer)
            self.answer_waiting()

    def reply_to_run(self, process: Process, run: Run) -> str | None:
        """The stop reply, once there is one."""
        if process.has_ended:
            return self.ended(process)
        made, process.made = process.made, []
        for thread in made:
            self.take_up(process, run, thread)
        stops, process.stops = process.stops, []
        for thread in stops:
            action = run.actions.get(thread.number)
            if not action or thread.runs:
                continue
            if thread.reason != 'Step' or action.has_done(process.pc_of(thread)):
                return self.stop(process, thread)
            process.step(thread)
        if self.is_interrupted:
            self.is_interrupted = False
            number = self.current if self.current in run.actions else min(run.actions)
            return self.stop(process, process.threads[number], SIGINT)
        return None

    @staticmethod
    def take_up(process: Process, run: Run, thread: Thread) -> None:
        """A thread that was made runs already; it goes on only where gdb has resumed all."""
        if run.of_new:
            run.actions[thread.number] = Action(False)
        elif thread.runs:
            process.suspend([thread])

    def stop(self, process: Process, thread: Thread, signal: int | None = None) -> str:
        """Stops all threads, and tells of one, by the signal that says why it stands where none is given."""
        process.suspend_all()
        if process.has_ended:
            return self.ended(process)
        return self.stopped(thread, signal_of(process, thread) if signal is None else signal)

    def stopped(self, thread: Thread, signal: int) -> str:
        """The reply that tells of a thread."""
        self.current = thread.number
        pc = self.subject.live().pc_of(thread).to_bytes(4, 'little').hex()
        return f'T{signal:02x}thread:{self.name_of(thread.number)};{PC:x}:{pc};'

    def ended(self, process: Process) -> str:
        """The reply that tells of an end. Where nothing ran, somebody has ended the process."""
        was_killed = process.code == TERMINATED and not self.run
        reply = f'X{SIGKILL:02x}' if was_killed else f'W{process.code & 0xffffffff:02x}'
        if self.is_multiprocess:
            reply += f';process:{process.number:x}'
        self.end_reply = reply.encode()
        self.subject.drop()
        return reply

    def why(self, _: str) -> str:
        """?: why the process stands, or that there is none."""
        process = self.subject.process
        if not process:
            return self.end_reply.decode()
        process.suspend_all()
        if process.has_ended:
            return self.ended(process)
        thread = self.thread(ANY)
        return self.stopped(thread, signal_of(process, thread) or SIGTRAP)

    # ---- beginnings and ends

    def run_image(self, text: str) -> str:
        """vRun: an image by its name, or the one of before. Arguments aren't handed on, since the agent passes them over."""
        if self.subject.process:
            raise Malformed('a process is debugged already')
        name = bytes.fromhex(text[1:].split(';')[0]).decode() or self.subject.image
        if not name:
            raise Malformed('no image is named; `set remote exec-file NAME` names one')
        try:
            process = self.subject.start(name)
        except Refused as refused:
            say(str(refused))
            raise
        return self.stopped(process.threads[1], SIGTRAP)

    def attach(self, text: str) -> str:
        """vAttach: a process that is there."""
        if self.subject.process:
            raise Malformed('a process is debugged already')
        self.subject.attach(f'P{int(text[1:], 16)}')
        return self.why('')

    def detach(self, text: str) -> str:
        """D: the process goes on without a debugger."""
        process = self.subject.live()
        if text and int(text[1:], 16) != process.number:
            raise Malformed('no such process is debugged here')
        process.detach()
        self.subject.drop()
        self.is_over = not self.is_extended
        return 'OK'

    def kill_process(self, text: str) -> str:
        """vKill: the process ends."""
        process = self.subject.live()
        if int(text[1:], 16) != process.number:
            raise Malformed('no such process is debugged here')
        process.terminate()
        self.subject.drop()
        return 'OK'

    def kill(self, _: str) -> None:
        """k has no answer."""
        if self.subject.process:
            self.subject.process.terminate()
        self.subject.drop()
        self.is_over = not self.is_extended

    def leave(self) -> None:
        """gdb has gone: what runs is suspended, and its breakpoints are taken out."""
        process = self.subject.process
        if not process:
            return
        try:
            process.remove_breakpoints()
            process.suspend_all()
        except Refused as refused:
            say(f'{process.identifier} is debugged no more: {refused}')
            self.subject.process = None


def say(text: str) -> None:
    """One line on standard error."""
    print(f'bridge: {text}', file=sys.stderr, flush=True)


def action_of(word: str) -> Action:
    """An action of vCont; a signal is passed over."""
    letter, rest = word[:1], word[1:]
    if letter in ('C', 'S'):
        int(rest, 16)
    if letter == 'r':
        return Action(True, *numbers(rest))
    if letter not in ('c', 'C', 's', 'S') or (letter in ('c', 's') and rest):
        raise Malformed(f'no action `{word}`')
    return Action(letter in ('s', 'S'))


def numbers(text: str) -> tuple[int, int]:
    """Two numbers in hexadecimal digits, with a comma between."""
    if '-' in text:
        raise Malformed('a number below 0')
    first, second, *_ = text.split(',')
    return int(first, 16), int(second, 16)


def error(wrong: Exception) -> bytes:
    """The answer that something is wrong, with what it is."""
    return b'E.' + ''.join(sign if sign not in '#$}*' else ' ' for sign in str(wrong)).encode()
