"""Starts `tcf agent` on loopback, treats it badly, and measures it beside gdbserver and QEMU's stub.

It wants Debian's gdbserver and qemu-system-misc for the comparison; without them only the agent is measured.
"""
import re
import shutil
import statistics
import subprocess
import sys
import tempfile
import time

from tool.measuring import check, head, programs, ratio, row
from tool.peers import EOM, EOS, LOOPBACK, Agent, Channel, Gdb, asked, connected, free_port, rate, reset, rest_of, served, stepped

def measure_agent(agent):
    channel = Channel(agent.port)
    process = channel.start()
    thread = f'{process}.1'
    memory = ('Memory', 'get', f'"{process}"', '0', '1', '4', '0')
    register = ('Registers', 'get', f'"{thread}.x5"')
    rates = {
        'memory reads of 4 bytes': rate(agent.process, 1, asked(channel, 1, *memory)),
        'memory reads of 4 bytes, 64 in the pipe': rate(agent.process, 64, asked(channel, 64, *memory)),
        'register reads': rate(agent.process, 1, asked(channel, 1, *register)),
        'register reads, 64 in the pipe': rate(agent.process, 64, asked(channel, 64, *register)),
        'steps': rate(agent.process, 1, stepped(channel, thread)),
    }
    channel.ask('RunControl', 'terminate', f'"{process}"')
    channel.close()
    return rates


# ---- a thread that runs

def going(channel, thread, seconds=1.0, do=lambda: time.sleep(0.01)):
    """How many instructions a second the thread executes while this is done again and again, and how often it is done."""
    first, done = channel.executed(thread), 0
    channel.resume(thread)
    begin = time.perf_counter()
    while time.perf_counter() - begin < seconds:
        do()
        done += 1
    taken = time.perf_counter() - begin
    channel.suspend(thread)
    return (channel.executed(thread) - first) / taken, done / taken


def measure_running(program):
    """A thread that goes on for ever: alone, beside a client that asks without pause, and that client without it."""
    with Agent(program) as agent:
        channel, other, silent = agent.channel(), agent.channel(), connected(agent.port)
        process = channel.start()
        thread = f'{process}.1'
        read = asked(other, 1, 'Memory', 'get', f'"{process}"', '0', '1', '4', '0')
        calm, _ = rate(agent.process, 1, read)
        free, _ = going(channel, thread)
        beside, busy = going(channel, thread, do=read)
        steps, _ = rate(agent.process, 1, stepped(channel, thread))
        waits = []
        for _ in range(100):
            channel.resume(thread)
            time.sleep(0.002)
            begin = time.perf_counter()
            channel.suspend(thread)
            waits.append(time.perf_counter() - begin)
        silent.close()
    return {
        'instructions of a thread that runs': free,
        'the same beside a client that asks without pause': beside,
        'answers to that client': busy,
        'answers where no thread runs': calm,
        'steps': steps,
        'suspends of an endless loop, by the slowest of 100': 1 / max(waits),
    }


def compare_running(given):
    """The same of two programs, in runs that alternate, of which the middle one counts."""
    runs = [[measure_running(program) for program in programs(given)] for _ in range(given.turns)]
    head('a second', *(['now', 'before', 'ratio'] if given.before else ['now']))
    for what in runs[0][0]:
        middle = [statistics.median(run[at][what] for run in runs) for at in range(len(runs[0]))]
        row(what, *(f'{count:,.0f}' for count in middle), *([ratio(*middle)] if given.before else []))


def crowded(program):
    """64 channels that ask without pause while eight threads run."""
    with Agent(program) as agent:
        channels = [agent.channel() for _ in range(64)]
        one = channels[0]
        processes = [one.start() for _ in range(8)]
        for process in processes:
            one.resume(f'{process}.1')
        begin, answers = time.perf_counter(), 0
        while time.perf_counter() - begin < 2:
            for channel in channels:
                channel.socket.sendall(channel.command('Locator', 'sync'))
            for channel in channels:
                channel.answer(channel.token)
                answers += 1
        taken = time.perf_counter() - begin
        for process in processes:
            one.suspend(f'{process}.1')
        least = min(one.executed(f'{process}.1') for process in processes)
    print(f'64 channels that ask without pause while eight threads run: {answers / taken:,.0f} answers a second, '
          f'and {least / taken:,.0f} instructions of the slowest thread')
    return check('each is answered, and each thread goes on', least > 0)


# ---- the stubs, measured

def right(answer):
    """The answer of a stub that carried a request out."""
    if not answer or answer.startswith(b'E'):
        sys.exit(f'a stub refused a request: {answer!r}')
    return answer


def spread(answer):
    """An answer's text, in which `*` and a letter stand for more of the letter before, as many as the letter's code less 29."""
    return re.sub(r'(.)\*(.)', lambda run: run[1] * (ord(run[2]) - 28), answer.decode())


def measure_stub(process, port, place):
    """What a stub does; `place` gives, by all its registers, an address of its memory. It is asked for all registers at once,
    since gdbserver answers for no single one."""
    gdb = Gdb(port)
    right(gdb.ask(b'?'))
    read = b'm%x,4' % place(bytes.fromhex(spread(right(gdb.ask(b'g'))).replace('x', '0')))
    registers = b'g'

    def asked_for(body):
        return lambda: right(gdb.ask(body))

    def piped(body):
        def do():
            gdb.socket.sendall(gdb.spelled(body) * 64)
            for _ in range(64):
                right(gdb.packet())
        return do

    rates = {
        'memory reads of 4 bytes': rate(process, 1, asked_for(read)),
        'memory reads of 4 bytes, 64 in the pipe': rate(process, 64, piped(read)),
        'register reads': rate(process, 1, asked_for(registers)),
        'register reads, 64 in the pipe': rate(process, 64, piped(registers)),
        'steps': rate(process, 1, asked_for(b's')),
    }
    gdb.close()
    return rates


def measure_gdbserver():
    if not shutil.which('gdbserver'):
        return None
    port = free_port()
    server = subprocess.Popen(['gdbserver', '--once', f'{LOOPBACK}:{port}', '/bin/sleep', '600'],
                              stdout=subprocess.DEVNULL, stderr=subprocess.DEVNULL)
    try:
        # where the program is to begin: its instruction pointer, behind 16 registers of 8 bytes on x86-64
        return measure_stub(server, port, lambda registers: int.from_bytes(registers[128:136], 'little'))
    finally:
        server.kill()
        server.wait()


def measure_qemu():
    if not shutil.which('qemu-system-riscv32'):
        return None
    port = free_port()
    # the machine `virt` begins at the address 4096, in its ROM
    emulator = subprocess.Popen(['qemu-system-riscv32', '-M', 'virt', '-bios', 'none', '-display', 'none', '-monitor', 'none',
                                 '-serial', 'none', '-S', '-gdb', f'tcp:{LOOPBACK}:{port}'],
                                stdout=subprocess.DEVNULL, stderr=subprocess.DEVNULL)
    try:
        return measure_stub(emulator, port, lambda registers: 4096)
    finally:
        emulator.kill()
        emulator.wait()


def compare(program):
    with Agent(program) as agent:
        ours = measure_agent(agent)
    others = {'gdbserver': measure_gdbserver(), 'QEMU': measure_qemu()}
    head('a second', '`tcf agent`', 'gdbserver', 'QEMU', 'to gdbserver', 'to QEMU')
    for what, (count, _) in ours.items():
        cells = [f'{rates[what][0]:,.0f}' if rates else '-' for rates in others.values()]
        cells += [ratio(count, rates[what][0]) if rates else '-' for rates in others.values()]
        row(what, f'{count:,.0f}', *cells)
    head('microseconds of its processor time for one', '`tcf agent`', 'gdbserver', 'QEMU')
    for what, (_, cost) in ours.items():
        row(what, f'{cost:.1f}', *(f'{rates[what][1]:.1f}' if rates else '-' for rates in others.values()))


# ---- idle and flooding peers

def many_idle(program):
    with Agent(program) as agent:
        one = Channel(agent.port)
        process = one.start()
        read = asked(one, 1, 'Memory', 'get', f'"{process}"', '0', '1', '4', '0')
        alone, _ = rate(agent.process, 1, read)
        others = [Channel(agent.port) for _ in range(63)]
        beside, _ = rate(agent.process, 1, read)
        before = agent.processor()
        time.sleep(2)
        idle = (agent.processor() - before) / 2
        for channel in others:
            channel.close()
    print(f'memory reads with 63 idle connections beside: {beside / alone:.2f} times as many as without')
    print(f'64 idle connections take {idle * 100:.1f} % of a processor')


def flooded(program):
    with Agent(program) as agent:
        calm = Channel(agent.port)
        process = calm.start()
        words = ('Memory', 'get', f'"{process}"', '0', '1', '4', '0')
        flood = Channel(agent.port)
        flood.socket.setblocking(False)
        piece = b''.join(flood.command('Locator', 'sync') for _ in range(2000))
        waits = []
        for _ in range(200):
            try:
                flood.socket.send(piece)
            except BlockingIOError:
                pass
            try:
                flood.socket.recv(1 << 20)
            except BlockingIOError:
                pass
            begin = time.perf_counter()
            calm.ask(*words)
            waits.append(time.perf_counter() - begin)
    waits.sort()
    print(f'beside a peer that floods an answer takes {waits[100] * 1000:.2f} ms in the middle, {waits[-1] * 1000:.2f} ms at most')


# ---- peers that behave badly

def treat_badly(start):
    """What a peer does whose clients behave badly: `start` begins an agent, perhaps behind a value-add."""
    fine = True
    with start() as peer:
        broken = peer.channel()
        broken.socket.sendall(b'C\0001\0Loc')
        reset(broken.socket)
        fine &= check('a connection is reset in the middle of a message, and another is served', served(peer) and peer.lives())

        silent = peer.channel()
        silent.socket.setblocking(False)
        command = b''.join(silent.command('Locator', 'sync') for _ in range(1000))
        try:
            for _ in range(2000):
                silent.socket.send(command)
        except BlockingIOError:
            pass
        fine &= check('one never reads, and another is served', served(peer))
        silent.close()

        slow = peer.channel()
        for byte in slow.command('Locator', 'sync'):
            slow.socket.send(bytes([byte]))
        fine &= check('bytes come one at a time, and the answer goes out', slow.answer(slow.token).startswith(b'R'))
        slow.close()

        strange = peer.channel()
        strange.socket.sendall(b'A' + EOM)
        fine &= check('a message of no kind closes its own connection with the end of the stream', rest_of(strange.socket).endswith(EOS) and served(peer))

    with start() as peer:
        channels = [peer.channel() for _ in range(64)]
        late = connected(peer.port)
        fine &= check('a 65th connection gets the end of the stream, and is shut', rest_of(late) == EOS)
        fine &= check('and the first 64 are served', all(c.ask('Locator', 'sync').startswith(b'R') for c in channels))
        for channel in channels:
            channel.close()

    with start() as peer:
        for _ in range(100):
            served(peer)
        before = peer.memory()
        good = all(served(peer) for _ in range(1000))
        after = peer.memory()
        fine &= check(f'1,000 connections one after the other: {before} KiB before, {after} KiB after', good and after <= before + 64)
    return fine


def comes_too_early(program):
    with tempfile.NamedTemporaryFile(suffix='.script') as script:
        script.write(b'send Locator sync\nwait\n')
        script.flush()
        run = subprocess.run([program, 'client', f'{LOOPBACK}:{free_port()}', script.name, '1000'], capture_output=True)
        return check('a client that is there before the agent says `wire fault`', run.stdout == b'wire fault\n' and run.returncode == 5)


def measure(given):
    program = given.program
    fine = treat_badly(lambda: Agent(program))
    fine &= comes_too_early(program)
    fine &= crowded(program)
    many_idle(program)
    flooded(program)
    compare_running(given)
    compare(program)
    return fine
