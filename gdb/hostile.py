#!/usr/bin/env python3
"""Treats the bridge badly: packets that are wrong, gdbs that go or are too many, agents and value-adds that aren't there.

    gdb/hostile.py [PROGRAM]

PROGRAM is the built `tcf`; if left out, crates/tcf/out/tcf. It wants Python 3 and nothing else. A line for each thing that was
tried begins with `yes` where it holds; the status is 1 where one doesn't.
"""
from __future__ import annotations

import random
import socket
import struct
import subprocess
import sys
import tempfile
import time
from pathlib import Path
from typing import Callable, Iterator

from agent import Channel
from client import HERE, LOOPBACK, SECONDS, TURNS, Agent, Bridge, Gdb, Started, checks, connected, free_port, program_of
from packets import LONGEST, framed

# addi x5, x5, 1; jal x0, -4: goes on for ever
LOOP = bytes.fromhex('93821200') + bytes.fromhex('6ff0dfff')
# addi x10, x0, 42; addi x17, x0, 93; ecall
ENDS = bytes.fromhex('1305a002') + bytes.fromhex('9308d005') + bytes.fromhex('73000000')
# at 0, 8, 16, 24 and 32: ebreak, no instruction, a load and a jump that can't be done, a call that isn't known
FAULTS = bytes.fromhex('73001000 00000000 ffffffff 00000000 83a2f0ff 00000000 6f002000 00000000 73000000'.replace(' ', ''))
SIGNALS = {0: 5, 8: 4, 16: 11, 24: 10, 32: 12, 0x10000: 11}
# at 0: three threads more are asked for; each of the four then goes on for ever at 36 and 40
FOUR = b''.join(word.to_bytes(4, 'little') for word in (
    0x3e800893, 0x02400513, 0x73, 0x02400513, 0x73, 0x02400513, 0x73, 0x13, 0x13, 0x00128293, 0xffdff06f))
TURN, BACK = 0x24, 0x28
ROUNDS, RUNS = 3000, 400

GONE = 'TPROCESS.9 HgPROCESS.9 vCont;c:PROCESS.9 vCont;s:PROCESS.9 Tp77.1 qThreadExtraInfo,PROCESS.9'
UNREADABLE = '''m mzz m0 M0,4:00 M0,1:zz X0,4:ab P P99=00000000 P1=00 P20=01000000 p p21 G00 H Hgx T Z0, Z0,x,4 sx cx Czz
                vCont vCont; vCont;x vCont;rx vCont;Czz vKill;zz vRun;zz vAttach;zz D;99 qRcmd,z qXfer
                qXfer:features:read:nothing:0,10'''
DRAWN_BEGINS = '''g G p P m M X Hg Hc T Z0, z0, Z1, qXfer:features:read: qXfer:memory-map:read: qRcmd, qC qAttached qThreadExtraInfo,
                  qSupported vAttach; vRun; ! ? Q q vMustReplyEmpty j'''.split()
DRAWN_SIGNS = '0123456789abcdef,:;=.-pPx'

Check = tuple[str, bool]


def is_error(reply: str) -> bool:
    """An error, and not an answer that begins with the same letter."""
    return reply.startswith('E')


def soon(holds: Callable[[], bool]) -> bool:
    """Whether something holds, now or within some seconds."""
    until = time.monotonic() + SECONDS
    while not holds():
        if time.monotonic() > until:
            return False
        time.sleep(0.02)
    return True


def runs(channel: Channel, thread: str) -> bool:
    """Whether a thread runs."""
    return channel.ask('RunControl', 'getState', thread)[0] is False


def process_of(gdb: Gdb) -> str:
    """The process of a gdb, as the agent names it."""
    return f"P{int(gdb.ask('qC').removeprefix('QCp').split('.')[0], 16)}"


def run_on(gdb: Gdb, channel: Channel) -> None:
    """Lets the process of a gdb go on, and waits until it does."""
    thread = process_of(gdb) + '.1'
    gdb.send('vCont;c')
    soon(lambda: runs(channel, thread))


def all_errors(gdb: Gdb, packets: str) -> bool:
    """Whether each of these packets has an error."""
    return all(is_error(gdb.ask(packet)) for packet in packets.split())


def wrong_packets(bridge: Bridge) -> Iterator[Check]:
    """Packets of bad form, or that ask what can't be had."""
    gdb = Gdb(bridge.port, 'multiprocess+')
    name = gdb.ask('qC').removeprefix('QC')
    process = name.split('.')[0]
    yield 'a packet of no known kind has the empty answer', all(gdb.ask(words) == '' for words in ('j', 'vNothing;1', 'qNothing:'))
    yield 'so have one of 100,000 bytes, and watchpoints', gdb.ask('j' * 100_000) == gdb.ask('Z2,0,4') == ''
    yield 'one that is too long has an error', is_error(gdb.ask('m' * (LONGEST + 100_000)))
    gdb.socket.sendall(b'$g#00')
    yield 'a bad checksum has an error, where nothing is acknowledged', is_error(gdb.receive())
    gdb.socket.sendall(b'$g#zz')
    yield 'so has one that is no number', is_error(gdb.receive())
    yield 'memory past the end has an error', all_errors(gdb, 'm10000,1 mfffe,4 mffffffff,4 m0,ffffffff m-4,4 m0,-4')
    yield 'and memory up to the end has none', len(gdb.ask('mfffc,4')) == 8 and len(gdb.ask('m0,10000')) == 0x20000
    yield 'so have writes past the end', all_errors(gdb, 'Mffff,2:0000 X10000,1:a')
    yield 'a breakpoint at an odd address, and past the end, has an error', all_errors(gdb, 'Z0,1,4 Z0,2,4 Z0,10000,4 Z0,fffffffc,4')
    yield 'a thread that is gone has an error', all_errors(gdb, GONE.replace('PROCESS', process))
    yield 'arguments that can\'t be read have an error', all_errors(gdb, UNREADABLE)
    yield 'and all is as it was', gdb.ask('qC') == 'QC' + name and gdb.ask('p20') == '00000000' and gdb.ask('T' + name) == 'OK'
    gdb.close()


def random_packets(bridge: Bridge) -> Iterator[Check]:
    """Packets that are drawn; of those that would let something run none is among them."""
    draw = random.Random(7)
    gdb = Gdb(bridge.port)
    for _ in range(ROUNDS):
        gdb.ask(draw.choice(DRAWN_BEGINS) + ''.join(draw.choice(DRAWN_SIGNS) for _ in range(draw.randrange(12))))
    yield f'{ROUNDS} packets that were drawn are answered', gdb.ask('qC').startswith('QC')
    gdb.close()


def acknowledged(bridge: Bridge) -> Iterator[Check]:
    """Before acknowledgments end, a wrong packet is asked for again."""
    raw = connected(bridge.port)
    raw.sendall(b'+$qC#00')
    first = raw.recv(1)
    raw.sendall(framed(b'qC'))
    answer = framed(b'QC1')
    yield 'a bad checksum is answered by `-`, and then the packet is taken', first == b'-' and exactly(raw, b'+' + answer)
    raw.sendall(b'-')
    yield 'an answer that came wrong is sent again', exactly(raw, answer)
    raw.close()


def exactly(raw: socket.socket, wanted: bytes) -> bool:
    """Whether these bytes come."""
    came = b''
    while len(came) < len(wanted) and (piece := raw.recv(len(wanted) - len(came))):
        came += piece
    return came == wanted


def signals(agent: Agent) -> Iterator[Check]:
    """What an exception is to gdb goes by the word at pc."""
    with Bridge(agent.address, '--start', 'faults') as bridge:
        gdb = Gdb(bridge.port)
        seen = {}
        for place in SIGNALS:
            gdb.ask('P20=' + place.to_bytes(4, 'little').hex())
            seen[place] = gdb.ask('c')[:3]
        yield 'exceptions are SIGTRAP, SIGILL, SIGSEGV, SIGBUS and SIGSYS', seen == {
            place: f'T{number:02x}' for place, number in SIGNALS.items()}
        gdb.close()


def going_gdb(agent: Agent) -> Iterator[Check]:
    """A gdb that goes in the middle of a run."""
    with Bridge(agent.address, '--start', 'loop') as bridge:
        for way in ('closes', 'resets the connection'):
            gdb, channel = Gdb(bridge.port, 'multiprocess+'), agent.channel()
            thread = process_of(gdb) + '.1'
            gdb.ask('Z0,40,4')
            run_on(gdb, channel)
            ran = runs(channel, thread)
            if way != 'closes':
                gdb.socket.setsockopt(socket.SOL_SOCKET, socket.SO_LINGER, struct.pack('ii', 1, 0))
            gdb.close()
            stands = soon(lambda: not runs(channel, thread))
            left = soon(lambda: channel.ask('Breakpoints', 'getIDs')[0] == [])
            channel.close()
            yield f'a gdb {way} in the middle of `c`: its threads are suspended, its breakpoints taken out', ran and stands and left
        gdb = Gdb(bridge.port)
        yield 'the next one finds the process where it stands', gdb.ask('?').startswith('T05thread:1;')
        gdb.close()


def interrupted(bridge: Bridge) -> Iterator[Check]:
    """ctrl-C, in time and too early."""
    gdb = Gdb(bridge.port)
    gdb.send('vCont;c')
    time.sleep(0.1)
    gdb.interrupt()
    yield 'ctrl-C stops what runs', gdb.receive().startswith('T02thread:1;')
    gdb.interrupt()
    yield 'one that comes too early stops what is resumed next', gdb.ask('vCont;c').startswith('T02')
    gdb.send('c')
    gdb.send('g')
    gdb.interrupt()
    yield 'a packet behind `c` waits for the stop', gdb.receive().startswith('T02') and len(gdb.receive()) == 264
    gdb.close()


def attached(agent: Agent) -> Iterator[Check]:
    """A process that another client has started, and that runs."""
    channel = agent.channel()
    process = channel.ask('Processes', 'start', '', 'loop', [], [], False)[0]['ID']
    with Bridge(agent.address, '--attach', process) as bridge:
        gdb = Gdb(bridge.port, 'multiprocess+')
        yield 'a process that runs is attached to, and stands', gdb.ask('?').startswith(f'T05thread:p{int(process[1:]):x}.1;')
        yield 'gdb hears that it was there', gdb.ask('qAttached') == '1'
        gdb.ask('Z0,0,4')
        yield 'and lets it go on', gdb.ask('D') == 'OK' and channel.ask('RunControl', 'getState', process + '.1')[0] is False
        yield 'without breakpoints', channel.ask('Breakpoints', 'getIDs')[0] == []
        gdb.close()
        gdb = Gdb(bridge.port, 'multiprocess+')
        yield 'the next gdb is attached again', gdb.ask('qC').startswith('QCp') and not runs(channel, process + '.1')
        gdb.close()
    channel.ask('RunControl', 'terminate', process)
    channel.close()


def four_threads(agent: Agent) -> Iterator[Check]:
    """Four threads, of which some are resumed, some take steps, and some hit breakpoints or are interrupted."""
    draw = random.Random(7)
    with Bridge(agent.address, '--start', 'four') as bridge:
        gdb, channel = Gdb(bridge.port, 'multiprocess+'), agent.channel()
        process = f'{int(process_of(gdb)[1:]):x}'
        gdb.ask(f'Z0,{BACK:x},4'), gdb.ask('c'), gdb.ask(f'z0,{BACK:x},4')
        all_stand = told_was_resumed = True
        for _ in range(RUNS):
            places = [place for place in (TURN, BACK) if draw.random() < 0.3]
            for place in places:
                gdb.ask(f'Z0,{place:x},4')
            resumed = draw.sample((1, 2, 3, 4), draw.randrange(1, 5))
            actions = [draw.choice(('c', 's', 'C05', f'r{TURN:x},{BACK:x}', f'r{TURN:x},{BACK + 4:x}')) + f':p{process}.{thread}'
                       for thread in resumed]
            gdb.send('vCont;' + ';'.join(actions))
            if not places:
                time.sleep(draw.random() * 0.01)
                gdb.interrupt()
            reply = gdb.receive()
            states = [channel.ask('RunControl', 'getState', f'P{int(process, 16)}.{thread}')[0] for thread in (1, 2, 3, 4)]
            all_stand &= states == [True] * 4
            told_was_resumed &= any(f'thread:p{process}.{thread};' in reply for thread in resumed)
            for place in places:
                gdb.ask(f'z0,{place:x},4')
        yield f'behind {RUNS} runs of four threads all stand when gdb hears of a stop', all_stand
        yield 'and who is told was resumed', told_was_resumed
        gdb.close()
        channel.close()


def second_gdb(agent: Agent) -> Iterator[Check]:
    """Two gdbs on one bridge."""
    with Bridge(agent.address, '--start', 'loop') as bridge:
        gdb = Gdb(bridge.port)
        late = connected(bridge.port)
        late.settimeout(SECONDS)
        is_closed = late.recv(100) == b''
        late.close()
        yield 'a second gdb is refused, and the first one is served on', is_closed and gdb.ask('qC') == 'QC1'
        gdb.close()
        bridge.process.terminate()
        status, errors = bridge.end()
        yield 'with a line on standard error', status == 0 and errors.count('is refused, since another one is there') == 1


def who_isnt_there(agent: Agent) -> Iterator[Check]:
    """Agents, images and ports that can't be had: one line, and status 1."""
    taken = socket.create_server((LOOPBACK, 0))
    silent = f'{LOOPBACK}:{taken.getsockname()[1]}'
    for what, words in {
            'an agent that isn\'t there': ['0', f'{LOOPBACK}:{free_port()}'],
            'an address that is none': ['0', 'nonsense'],
            'an address of GDB_PORT that isn\'t the loopback\'s': ['192.0.2.1:0', agent.address],
            'a port in use': [silent, agent.address],
            'an image that isn\'t there': ['0', agent.address, '--start', 'nothing'],
            'an image with a fault': ['0', agent.address, '--start', 'faulty'],
            'a process that isn\'t there': ['0', agent.address, '--attach', 'P99999'],
            'a redirect that the agent refuses': ['0', 'nobody', '--by', agent.address]}.items():
        ended = subprocess.run([sys.executable, HERE / 'bridge.py', *words], capture_output=True, text=True, timeout=SECONDS * 2)
        yield f'{what}: one line, and status 1', ended.returncode == 1 and ended.stderr.count('\n') == 1 and ended.stdout == ''
    taken.close()


def wrong_image(agent: Agent) -> Iterator[Check]:
    """An image that a gdb asks for, and the agent refuses."""
    with Bridge(agent.address) as bridge:
        gdb = Gdb(bridge.port)
        gdb.ask('!')
        yield 'where no process is, `?` has W', gdb.ask('?') == 'W00'
        yield 'and what asks for one an error', all_errors(gdb, 'g m0,4 vCont;c c D Z0,0,4 vRun;')
        yield 'an image that the agent refuses has an error', is_error(gdb.ask('vRun;' + b'nothing'.hex()))
        yield 'and one that it has is started behind that', gdb.ask('vRun;' + b'ends'.hex()).startswith('T05thread:1;')
        gdb.ask('Z0,20,4')
        yield 'a run to the end has W with the status', gdb.ask('c') == 'W2a' and gdb.ask('?') == 'W2a'
        yield 'and leaves no breakpoint', agent.channel().ask('Breakpoints', 'getIDs')[0] == []
        yield 'and it is started again', gdb.ask('vRun;').startswith('T05') and gdb.ask('vKill;1')[:1] in ('E', 'O')
        gdb.close()


def others_on_agent(agent: Agent) -> Iterator[Check]:
    """What other clients of the agent do to the process."""
    with Bridge(agent.address, '--start', 'loop') as bridge:
        gdb, channel = Gdb(bridge.port, 'multiprocess+'), agent.channel()
        process = process_of(gdb)
        gdb.ask('m0,40'), gdb.ask('g')
        channel.ask('Memory', 'set', process, 16, 1, 1, 0, 'Kg==')
        channel.ask('Registers', 'set', process + '.1.x9', 'KgAAAA==')
        yield 'what another client writes is read', gdb.ask('m10,1') == '2a' and gdb.ask('p9') == '2a000000'
        run_on(gdb, channel)
        channel.ask('RunControl', 'suspend', process + '.1')
        yield 'another client suspends what runs: T00', gdb.receive().startswith('T00')
        channel.ask('RunControl', 'terminate', process)
        yield 'another client ends what stands: X', gdb.ask('vCont;c').startswith('X09')
        gdb.close()
        gdb = Gdb(bridge.port, 'multiprocess+')
        process = process_of(gdb)
        run_on(gdb, channel)
        channel.ask('RunControl', 'terminate', process)
        yield 'another client ends what runs: W', gdb.receive().startswith('Wffffffff;')
        gdb.close()
        channel.close()


def detached_by_another(agent: Agent) -> Iterator[Check]:
    """Another client lets the process go, so that it can't be stopped."""
    with Bridge(agent.address, '--start', 'loop') as bridge:
        gdb, channel = Gdb(bridge.port, 'multiprocess+'), agent.channel()
        process = process_of(gdb)
        run_on(gdb, channel)
        channel.ask('Processes', 'detach', process)
        gdb.interrupt()
        yield 'another client lets go what runs: to stop it has an error', is_error(gdb.receive())
        gdb.close()
        gdb = Gdb(bridge.port)
        yield 'and the next gdb has a process of its own', gdb.ask('?').startswith('T05')
        gdb.close()
        channel.ask('Processes', 'terminate', process)
        channel.close()


def going_agent(program: str, images: dict[str, Path]) -> Iterator[Check]:
    """An agent that goes."""
    for running in (True, False):
        with Agent(program, images) as agent, Bridge(agent.address, '--start', 'loop') as bridge:
            gdb = Gdb(bridge.port, 'multiprocess+')
            if running:
                run_on(gdb, agent.channel())
            agent.process.kill()
            yield from is_told(gdb, bridge, running, 'an agent goes')


def going_value_add(program: str, agent: Agent) -> Iterator[Check]:
    """A value-add between, which works, and goes."""
    for running in (True, False):
        address = f'{LOOPBACK}:{free_port()}'
        with Started(program, 'value', address, agent.address, TURNS) as value:
            connected(int(address.split(':')[1])).close()
            with Bridge(agent.address, '--start', 'loop', '--by', address) as bridge:
                gdb = Gdb(bridge.port, 'multiprocess+')
                yield 'behind a value-add a step is a step', gdb.ask('s').endswith('.1;20:04000000;')
                if running:
                    run_on(gdb, agent.channel())
                value.process.kill()
                yield from is_told(gdb, bridge, running, 'a value-add goes')


def is_told(gdb: Gdb, bridge: Bridge, running: bool, what: str) -> Iterator[Check]:
    """The bridge ends with one line, and a gdb that waits gets an error."""
    answers = []
    try:
        answers.append(gdb.receive())
    except (EOFError, ConnectionError):
        pass
    gdb.close()
    status, errors = bridge.end()
    yield f'{what} {"in the middle of `c`" if running else "while nothing runs"}', (
        status == 1 and errors.count('\n') == 1 and len(answers) == running and all(map(is_error, answers)))


def strange_peers() -> Iterator[Check]:
    """Who listens at the address of the agent isn't one."""
    for what, bytes_ in {'says what is no message': b'HTTP/1.1 400 Bad Request\r\n\r\n\x03\x01', 'hangs up': b'',
                         'ends its stream': b'\x03\x02', 'says nothing': None}.items():
        with socket.create_server((LOOPBACK, 0)) as server:
            words = [sys.executable, HERE / 'bridge.py', '0', f'{LOOPBACK}:{server.getsockname()[1]}']
            bridge = subprocess.Popen(words, stdout=subprocess.PIPE, stderr=subprocess.PIPE, text=True)
            peer, _ = server.accept()
            if bytes_ is not None:
                peer.sendall(bytes_)
                peer.close()
            _, errors = bridge.communicate(timeout=SECONDS * 2)
            peer.close()
        yield f'a peer {what}: one line, and status 1', bridge.returncode == 1 and errors.count('\n') == 1


def flood(agent: Agent) -> Iterator[Check]:
    """A gdb that asks and never reads."""
    with Bridge(agent.address, '--start', 'loop') as bridge:
        raw = connected(bridge.port)
        raw.setblocking(False)
        until = time.monotonic() + 2
        while time.monotonic() < until:
            try:
                raw.send(framed(b'm0,4000') * 10)
            except BlockingIOError:
                time.sleep(0.05)
            except ConnectionError:
                break
        raw.close()
        gdb = Gdb(bridge.port)
        yield 'one that never reads goes, and the next one is served', gdb.ask('?').startswith('T05')
        gdb.close()


def tried(program: str, folder: Path) -> Iterator[Check]:
    """All that is tried."""
    images = {'loop': LOOP, 'ends': ENDS, 'faults': FAULTS, 'four': FOUR, 'faulty': b'\x7fELF and no more'}
    paths = {name: folder / name for name in images}
    for name, image in images.items():
        paths[name].write_bytes(image)
    with Agent(program, paths) as agent:
        with Bridge(agent.address, '--start', 'loop') as bridge:
            for part in (acknowledged, wrong_packets, random_packets):
                yield from part(bridge)
        with Bridge(agent.address, '--start', 'loop') as bridge:
            yield from interrupted(bridge)
        for part in (signals, going_gdb, attached, four_threads, second_gdb, who_isnt_there, wrong_image, others_on_agent,
                     detached_by_another, flood):
            yield from part(agent)
        yield from going_value_add(program, agent)
    yield from going_agent(program, paths)
    yield from strange_peers()


def main() -> int:
    program = program_of(sys.argv[1:])
    with tempfile.TemporaryDirectory() as folder:
        return 0 if checks(tried(program, Path(folder))) else 1


if __name__ == '__main__':
    sys.exit(main())
