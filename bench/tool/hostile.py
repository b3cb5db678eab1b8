"""Puts random and half-right bytes into `tcf agent`, `tcf value`, `tcf hub` and `tcf client` on loopback, beside good clients.

A stream is one connection with some bytes. N streams go into an agent, a tenth as many each into a value-add from below and from a peer
above that lies, and into a hub from below, and a hundredth as many into hubs from above, each into a hub of its own; N sessions are runs
of the client before a server that lies. Each line says whether what is wanted held, and the figures.
"""
import random
import resource
import select
import socket
import subprocess
import sys
import tempfile
import threading
import time
from pathlib import Path

from tool.measuring import check, processor
from tool.measuring import resident as kib
from tool.peers import (EOM, EOS, HELLO, LOOPBACK, TURNS, Agent, Channel, Hub, Relayed, Shared, ValueAdd, address, connected, free_port,
                        reset)

# an answer beside hostile peers may take so many seconds
BOUND = 2.0
# the end of a stream that has to come may take so many seconds
PATIENCE = 10.0

HELLO_OF_AGENT = (b'E\0Locator\0Hello\0["Locator","RunControl","Breakpoints","Memory","Registers","Processes","Trace"]\0'
                  + EOM)
COMMANDS = [b'Locator sync', b'Locator getPeers', b'Locator redirect', b'RunControl getContext', b'RunControl getChildren',
            b'RunControl getState', b'RunControl resume', b'RunControl suspend', b'RunControl terminate',
            b'Breakpoints set', b'Breakpoints add', b'Breakpoints change', b'Breakpoints remove', b'Breakpoints enable',
            b'Breakpoints getIDs', b'Breakpoints getProperties', b'Breakpoints getStatus', b'Memory get', b'Memory set',
            b'Registers get', b'Registers set', b'Registers getm', b'Registers setm', b'Processes getContext',
            b'Processes getChildren', b'Processes attach', b'Processes detach', b'Processes terminate',
            b'Processes start', b'Trace run', b'Nothing known', b'Locator nothing']
PARTS = [b'""', b'"P1"', b'"P1.1"', b'"P2.1"', b'"P1.1.x5"', b'"loop"', b'null', b'true', b'0', b'1', b'-1', b'4', b'65535',
         b'65536', b'4294967296', b'18446744073709551616', b'1e999', b'1.5', b'[]', b'["loop"]', b'[["P1.1.x1",0,4]]',
         b'{}', b'{"ID":"b","Enabled":true,"Location":"4"}', b'"kwIQAA=="', b'"not base64"', b'[[[[[', b'{"ID":', b'\xff\xfe',
         b'"\\ud800"', b'[' * 200, b'"' + b'x' * 5000 + b'"', b'']


# ---- streams

def spelled(message):
    return message.replace(b'\3', b'\3\0') + EOM


def command(dice, token):
    service, name = dice.choice(COMMANDS).split(b' ')
    parts = [dice.choice(PARTS) for _ in range(dice.randrange(7))]
    return spelled(b'\0'.join([b'C', token, service, name, *parts]) + b'\0')


def answer(dice, token):
    kind = dice.choice([b'R', b'R', b'R', b'P', b'N'])
    parts = [] if kind == b'N' else [dice.choice(PARTS) for _ in range(dice.randrange(5))]
    return spelled(b'\0'.join([kind, token, *parts]) + b'\0')


def event(dice):
    name = dice.choice([b'Locator\0Hello', b'RunControl\0contextAdded', b'RunControl\0contextSuspended',
                        b'Memory\0memoryChanged', b'Registers\0registerChanged', b'No\0such'])
    return spelled(b'\0'.join([b'E', name, *(dice.choice(PARTS) for _ in range(dice.randrange(5)))]) + b'\0')


def level(dice):
    return spelled(b'F\0' + dice.choice([b'0', b'-100', b'100', b'101', b'-0', b'01', b'', b'x', b'50', b'-50']) + b'\0')


def noise(dice):
    return dice.randbytes(dice.randrange(1, 300))


def bent(dice, stream):
    """The stream with a few bytes changed, taken out or put in, or one part of it twice."""
    stream = bytearray(stream)
    for _ in range(dice.randrange(1, 4)):
        at = dice.randrange(len(stream) + 1)
        how = dice.randrange(4)
        if how == 0:
            stream[at:at] = bytes([dice.choice([0, 1, 2, 3, 3, 4, 34, 255])])
        elif how == 1:
            del stream[at:at + dice.randrange(1, 6)]
        elif how == 2 and at < len(stream):
            stream[at] ^= 1 << dice.randrange(8)
        else:
            stream[at:at] = stream[at:at + dice.randrange(1, 60)]
    return bytes(stream)


def some_messages(dice):
    out = b''
    for token in range(1, dice.randrange(2, 12)):
        token = b'%d' % token if dice.random() < 0.9 else noise(dice).replace(b'\0', b'')
        out += dice.choice([command, command, command, answer])(dice, token) if dice.random() < 0.8 else \
            dice.choice([event, level])(dice)
    return out


def hostile(dice):
    """Bytes of a peer that is wrong in some way, or in none."""
    how = dice.randrange(12)
    if how == 0:
        return noise(dice)
    if how == 1:
        return HELLO + noise(dice)
    if how == 2:
        return some_messages(dice)
    if how == 3:
        return bent(dice, HELLO + some_messages(dice))
    if how == 4:
        return HELLO + some_messages(dice) + EOS + noise(dice)
    if how == 5:
        return HELLO + some_messages(dice) + b'\3' + bytes([dice.randrange(3, 256)])
    if how == 6:
        return HELLO * 2 + some_messages(dice)
    if how == 7:
        return HELLO + some_messages(dice)[:-1]
    if how == 8:
        return b''
    if how == 9 and dice.random() < 0.02:
        return HELLO + b'C\0' + b'1' * 1_050_000
    return HELLO + some_messages(dice)


def lies(dice):
    """Bytes of a peer above, or of a server, that is wrong in some way. Tokens are those that its other side may use."""
    out = dice.choice([HELLO_OF_AGENT, HELLO_OF_AGENT, HELLO_OF_AGENT, HELLO, b''])
    for _ in range(dice.randrange(8)):
        token = b'%d' % dice.randrange(1, 6)
        out += lie(dice, token)
    how = dice.randrange(6)
    if how == 0:
        return bent(dice, out + b'x')
    if how == 1:
        return out + EOS
    if how == 2:
        return out + noise(dice)
    if how == 3:
        return out + b'\3' + bytes([dice.randrange(3, 256)])
    return out


def lie(dice, token):
    how = dice.randrange(8)
    if how < 4:
        return answer(dice, token)
    if how < 6:
        return event(dice)
    return command(dice, token) if how == 6 else level(dice)


# ---- connections

def source(number):
    """An address of this machine to connect from: each has ports of its own."""
    return (f'127.0.{1 + number // 200 % 50}.{1 + number % 200}', 0)


def joined(port, number):
    s = socket.socket()
    s.bind(source(number))
    s.settimeout(PATIENCE)
    s.connect((LOOPBACK, port))
    return s


def sent(s, bytes_, dice):
    """Sends the bytes, sometimes in pieces, as far as the other side takes them."""
    try:
        if dice.random() < 0.2 and len(bytes_) < 2000:
            s.setsockopt(socket.IPPROTO_TCP, socket.TCP_NODELAY, 1)
            while bytes_:
                count = dice.randrange(1, 1 + min(len(bytes_), 40))
                s.sendall(bytes_[:count])
                bytes_ = bytes_[count:]
        else:
            s.sendall(bytes_)
    except OSError:
        pass


def read_to_end(s, limit=PATIENCE, last=None):
    """What came, and how it ended: `end`, `reset` or `nothing`, where it ends within the limit in no way; `last`, where
    these bytes came."""
    got, until = b'', time.monotonic() + limit
    try:
        while (left := until - time.monotonic()) > 0:
            s.settimeout(left)
            if not (piece := s.recv(65536)):
                return got, 'end'
            got += piece
            if last and last in got:
                return got, 'last'
    except TimeoutError:
        pass
    except OSError:
        return got, 'reset'
    return got, 'nothing'


class Good:
    """A good client, and the longest time that an answer took."""

    def __init__(self, channel):
        self.channel, self.longest, self.asked = channel, 0.0, 0
        channel.socket.settimeout(PATIENCE)

    def ask(self):
        begin = time.perf_counter()
        right = self.channel.ask('Locator', 'sync').split(b'\0')[0] == b'R'
        self.longest = max(self.longest, time.perf_counter() - begin)
        self.asked += 1
        return right

    def said(self):
        return f'{self.asked:,} answers to a good client beside, {self.longest * 1000:.1f} ms at most'


def told(what, holds, begin, more):
    return check(f'{what}: {more} ({time.perf_counter() - begin:.1f} s)', holds)


# ---- into an agent, and into a value-add from below

class Led(Relayed):
    """An agent that listens, behind a value-add."""

    def __init__(self, program):
        super().__init__(program)
        connected(self.agent_port).close()


def into_server(what, peer, streams, dice, first=lambda d: b''):
    """Streams into a server, one after another, each ended in one of four ways."""
    begin, fine, resets, ends = time.perf_counter(), True, 0, 0
    good = Good(peer.channel())
    before = None
    for number in range(streams):
        s = joined(peer.port, number)
        sent(s, first(dice) + hostile(dice), dice)
        how = dice.randrange(4)
        if how == 0:
            try:
                s.shutdown(socket.SHUT_WR)
            except OSError:
                pass
            _, end = read_to_end(s)
            fine &= end != 'nothing'
            resets += end == 'reset'
            ends += end == 'end'
        if how == 1:
            reset(s)
        else:
            s.close()
        fine &= good.ask()
        if number == streams // 10:
            before = kib(peer.process)
    fine &= peer.lives() and good.longest < BOUND
    after = kib(peer.process)
    good.channel.close()
    return told(f'{streams:,} streams into {what}', fine, begin,
                f'{good.said()}; of {ends + resets:,} that read to the end {resets:,} saw a reset; '
                f'{before:,} KiB after a tenth, {after:,} KiB at the end')


def into_agent(program, streams, dice):
    with Agent(program) as agent:
        return into_server('an agent', agent, streams, dice)


def into_value_below(program, streams, dice):
    with Led(program) as peer:
        redirect = spelled(b'C\0' + b'9\0Locator\0redirect\0"' + address(peer.agent_port).encode() + b'"\0')
        return into_server('a value-add from below', peer, streams, dice,
                           lambda d: HELLO + redirect if d.random() < 0.5 else b'')


# ---- into a value-add from above

class Liar:
    """A peer above that leads its first connection on to an agent, and lies on each other one."""

    def __init__(self, agent_port, dice):
        self.listener = socket.create_server((LOOPBACK, 0), backlog=1000)
        self.port = self.listener.getsockname()[1]
        self.agent_port, self.dice, self.number, self.open = agent_port, dice, 0, True
        self.silent = []
        threading.Thread(target=self.serve, daemon=True).start()

    def serve(self):
        while self.open:
            try:
                s, _ = self.listener.accept()
            except OSError:
                return
            self.number += 1
            if self.number == 1:
                threading.Thread(target=self.lead, args=(s,), daemon=True).start()
            else:
                self.lie_to(s)

    def lead(self, s):
        above = connected(self.agent_port)
        try:
            while self.open:
                for one, other in ((s, above), (above, s)):
                    if select.select([one], [], [], 0.0005)[0]:
                        if not (piece := one.recv(65536)):
                            return
                        other.sendall(piece)
        except OSError:
            pass
        finally:
            above.close()
            s.close()

    def lie_to(self, s):
        s.settimeout(PATIENCE)
        sent(s, lies(self.dice), self.dice)
        if self.dice.random() < 0.05:
            # says nothing more, and ends later
            self.silent.append(s)
            if len(self.silent) > 5:
                self.silent.pop(0).close()
        elif self.dice.random() < 0.2:
            reset(s)
        else:
            s.close()

    def close(self):
        self.open = False
        self.listener.close()


def into_value_above(program, streams, dice):
    begin, fine = time.perf_counter(), True
    seen = {'eos': 0, 'end': 0, 'reset': 0, 'nothing': 0, 'last': 0}
    with Agent(program) as agent:
        liar = Liar(agent.port, random.Random(dice.random()))
        value = ValueAdd(program, liar.port)
        try:
            channel = Channel(value.port)
            redirect = f'"{address(liar.port)}"'
            channel.ask('Locator', 'redirect', redirect)
            channel.event(b'Hello')
            good = Good(channel)
            for number in range(streams):
                s = joined(value.port, number)
                s.setsockopt(socket.IPPROTO_TCP, socket.TCP_NODELAY, 1)
                sent(s, HELLO + spelled(b'C\0' + b'1\0Locator\0redirect\0' + redirect.encode() + b'\0'), dice)
                for token in range(2, dice.randrange(2, 60)):
                    sent(s, spelled(b'C\0%d\0Locator\0sync\0' % token), dice)
                got, end = read_to_end(s, 0.3, b'R\0' + b'1\0{"Code":5')
                seen['eos' if got.endswith(EOS) and end == 'end' else end] += 1
                s.close()
                fine &= good.ask()
            fine &= value.process.poll() is None and good.longest < BOUND
            after = kib(value.process)
            channel.close()
        finally:
            liar.close()
            value.end()
    return told(f'{streams:,} clients of a value-add whose peer lies', fine, begin,
                f'{good.said()}; the client saw the end of the stream {seen["eos"]:,} times, another end {seen["end"]:,} '
                f'times, a reset {seen["reset"]:,} times, that its redirect failed {seen["last"]:,} times, and nothing of these '
                f'within 0.3 s {seen["nothing"]:,} times; {after:,} KiB')


# ---- into a hub

def into_hub_below(program, streams, dice):
    with Shared(program) as peer:
        return into_server('a hub from below', peer, streams, dice)


class Between:
    """A peer above a hub that leads it on to an agent, and then sends what it likes beside."""

    def __init__(self, agent_port):
        self.listener = socket.create_server((LOOPBACK, 0))
        self.port = self.listener.getsockname()[1]
        self.agent_port, self.line = agent_port, None
        threading.Thread(target=self.lead, daemon=True).start()

    def lead(self):
        line, _ = self.listener.accept()
        above = connected(self.agent_port)
        self.line = line
        try:
            while True:
                for one, other in ((line, above), (above, line)):
                    if select.select([one], [], [], 0.0005)[0]:
                        if not (piece := one.recv(65536)):
                            return
                        other.sendall(piece)
        except OSError:
            pass
        finally:
            above.close()
            line.close()
            self.listener.close()


def into_hub_above(program, streams, dice):
    """A hub for each stream: its debugger is answered, then the peer above lies, and the debugger is answered again or sees
    the end of its stream."""
    begin, fine = time.perf_counter(), True
    seen = {'answered': 0, 'end': 0, 'held': 0, 'other': 0}
    longest = 0.0
    with Agent(program) as agent:
        connected(agent.port).close()
        for number in range(streams):
            between = Between(agent.port)
            hub = Hub(program, between.port)
            try:
                good = Good(Channel(hub.port))
                fine &= good.ask()
                longest = max(longest, good.longest)
                sent(between.line, lies(dice), dice)
                good.channel.socket.settimeout(0.3)
                try:
                    good.ask()  # by the agent, or by a lie
                    seen['answered'] += 1
                except EOFError:
                    seen['end' if good.channel.came.endswith(EOS) else 'other'] += 1
                except TimeoutError:
                    seen['held'] += 1
                except OSError:
                    seen['other'] += 1
                good.channel.close()
                fine &= hub.process.poll() is None
            finally:
                hub.end()
    fine &= longest < BOUND and seen['other'] == 0
    return told(f'{streams:,} hubs whose peer lies', fine, begin,
                f'before that each debugger was answered, within {longest * 1000:.1f} ms; behind it {seen["answered"]:,} were '
                f'answered again, {seen["end"]:,} saw the end of the stream, {seen["held"]:,} nothing within 0.3 s, and '
                f'{seen["other"]:,} something else')


# ---- into a client

def into_client(program, sessions, dice):
    begin, fine, statuses, longest = time.perf_counter(), True, {}, 0.0
    script = tempfile.NamedTemporaryFile('w', suffix='.script')
    script.write('send Locator sync\nwait\nsend Processes start "" "loop" [] [] true\n'
                 'send Memory get "P1" 0 1 4 0\nwait\ncached state P1.1\ncached bytes P1 0 4\nsend Locator sync\nwait\n')
    script.flush()
    listener = socket.create_server((LOOPBACK, 0))
    listener.settimeout(PATIENCE)
    port = listener.getsockname()[1]
    for _ in range(sessions):
        client = subprocess.Popen([program, 'client', address(port), script.name, '40'], stdout=subprocess.PIPE)
        at = time.perf_counter()
        s, _ = listener.accept()
        s.settimeout(PATIENCE)
        sent(s, lies(dice), dice)
        stays = dice.random() < 0.1
        if not stays:
            s.close()
        try:
            log, _ = client.communicate(timeout=PATIENCE)
        except subprocess.TimeoutExpired:
            client.kill()
            client.communicate()
            log, fine = b'', False
        s.close()
        longest = max(longest, time.perf_counter() - at)
        statuses[client.returncode] = statuses.get(client.returncode, 0) + 1
        fine &= client.returncode in (0, 6, 9) and log.startswith(b'chain client\n')
    listener.close()
    script.close()
    return told(f'{sessions:,} sessions of a client whose server lies', fine, begin,
                'ended with ' + ', '.join(f'status {s} {n:,} times' for s, n in sorted(statuses.items()))
                + f'; {longest * 1000:.0f} ms at most')


# ---- memory, and descriptors

def many_connections(what, start, connections):
    begin, fine = time.perf_counter(), True
    early = min(1000, connections // 2)
    with start() as peer:
        good = Good(peer.channel())
        for number in range(connections):
            if number == early:
                before = kib(peer.process)
            s = joined(peer.port, number)
            s.sendall(HELLO + spelled(b'C\0' + b'1\0Locator\0sync\0'))
            s.shutdown(socket.SHUT_WR)
            got, end = read_to_end(s)
            fine &= end == 'end' and b'R\0' + b'1\0' in got
            s.close()
            if number % 100 == 0:
                fine &= good.ask()
        after = kib(peer.process)
        fine &= peer.lives() and after <= before + 256
    return told(f'{connections:,} connections to {what}, one after the other', fine, begin,
                f'{before:,} KiB resident after {early:,}, {after:,} KiB at the end')


def few_descriptors(what, words_of, port, limit=40, peers=60):
    """A server that may open so many files, and more peers than that."""
    begin = time.perf_counter()

    def limited():
        resource.setrlimit(resource.RLIMIT_NOFILE, (limit, limit))

    process = subprocess.Popen(words_of, stdout=subprocess.PIPE, preexec_fn=limited)
    try:
        served, waiting = [], []
        wait_for(port)
        for number in range(peers):
            try:
                s = joined(port, number)
            except ConnectionRefusedError:
                break
            s.settimeout(0.3)
            try:
                s.sendall(HELLO)
                (served if s.recv(65536) else waiting).append(s)
            except OSError:
                waiting.append(s)
        lives = process.poll() is None
        used = processor(process) if lives else 0
        time.sleep(2)
        used = (processor(process) - used) / 2 if lives else 0
        still = sum(answers(s) for s in served) if lives else 0
        for s in served[:20]:
            s.close()
        later = 0
        for s in waiting[:15]:
            s.settimeout(PATIENCE)
            try:
                later += bool(s.recv(65536)) and answers(s)
            except OSError:
                pass
        lives &= process.poll() is None
        fine = lives and still == len(served) > limit // 2 and later == len(waiting[:15]) > 0 and used < 0.2
        ended = '' if lives else f', but it ended with status {process.wait()} and the line {process.stdout.read()!r}'
        return told(f'{what} that may open {limit} files, and {peers} peers', fine, begin,
                    f'{len(served)} are served at once and {still} of them still are; {used * 100:.1f} % of a processor while '
                    f'{len(waiting)} wait; once 20 have gone, {later} of {len(waiting[:15])} are served{ended}')
    finally:
        process.kill()
        process.wait()


def wait_for(port):
    for _ in range(200):
        try:
            socket.create_connection((LOOPBACK, port)).close()
            time.sleep(0.1)
            return
        except OSError:
            time.sleep(0.02)
    sys.exit(f'nothing listens on port {port}')


def answers(s):
    """Whether a command is answered on a connection whose Hello was sent."""
    try:
        s.settimeout(PATIENCE)
        s.sendall(spelled(b'C\0' + b'1\0Locator\0sync\0'))
        got = b''
        while b'R\0' + b'1\0' not in got:
            if not (piece := s.recv(65536)):
                return False
            got += piece
        return True
    except OSError:
        return False


def descriptors(program):
    port, above = free_port(), free_port()
    fine = few_descriptors('an agent', [program, 'agent', address(port), TURNS], port)
    port = free_port()
    return fine & few_descriptors('a server of value-adds', [program, 'value', address(port), address(above), TURNS], port)


# ---- clients that never read

def never_read(program, clients=63, answers=60):
    """What an agent holds for clients that ask for much and read nothing."""
    begin = time.perf_counter()
    with Agent(program) as agent:
        channel = agent.channel()
        process = channel.start()
        good = Good(channel)
        before = kib(agent.process)
        silent = []
        for number in range(clients):
            s = joined(agent.port, number)
            sent(s, HELLO + b''.join(spelled(b'C\0%d\0Memory\0get\0"%s"\0' % (token, process.encode()) + b'0\0' + b'1\0'
                                             + b'65536\0' + b'0\0') for token in range(1, answers + 1)), random)
            silent.append(s)
            good.ask()
        held = kib(agent.process)
        for s in silent:
            s.close()
        for _ in range(20):
            good.ask()
            time.sleep(0.01)
        after = kib(agent.process)
        fine = agent.lives() and good.longest < BOUND
    owed = clients * answers * 87_400 / 1e6
    return told(f'{clients} clients that never read, owed {owed:,.0f} MB together', fine, begin,
                f'{good.said()}; {before:,} KiB before, {held:,} KiB with them, {after:,} KiB once they have gone')


# ---- a client that sends on while its channel is closed

def unread_input(program, clients, dice):
    """Clients that break the protocol with many bytes behind: each is to read the end of the agent's stream."""
    begin, seen, fine = time.perf_counter(), {'eos': 0, 'end': 0, 'reset': 0, 'nothing': 0}, True
    with Agent(program) as agent:
        good = Good(agent.channel())
        for number in range(clients):
            s = joined(agent.port, number)
            sent(s, HELLO + b'A\0' + EOM + dice.randbytes(dice.randrange(200_000)), dice)
            got, end = read_to_end(s)
            seen['eos' if got.endswith(EOS) and end == 'end' else end] += 1
            s.close()
            fine &= good.ask()
        fine &= agent.lives() and seen['eos'] == clients
    return told(f'{clients:,} clients that go on sending behind a fault', fine, begin,
                f'the client saw the end of the stream {seen["eos"]:,} times, another end {seen["end"]:,} times, a reset '
                f'{seen["reset"]:,} times; {good.said()}')


def stay_when_shut(program, clients=200):
    """Clients that break the protocol and neither read nor close."""
    begin = time.perf_counter()
    with Agent(program) as agent:
        folder = Path(f'/proc/{agent.process.pid}/fd')
        good = Good(agent.channel())
        before, most, staying = len(list(folder.iterdir())), 0, []
        for number in range(clients):
            s = joined(agent.port, number)
            sent(s, HELLO + b'A\0' + EOM + b'more', random)
            staying.append(s)
            good.ask()
            most = max(most, len(list(folder.iterdir())))
        time.sleep(3)
        after = len(list(folder.iterdir()))
        good.ask()
        fine = agent.lives() and good.longest < BOUND and most <= before + 66 and after == before
        for s in staying:
            s.close()
    return told(f'{clients} clients that break the protocol and stay', fine, begin,
                f'{good.said()}; the agent has {before} descriptors before, {most} at most, {after} after 3 s')


def arguments(words):
    for name, default in (('--streams', 2000), ('--connections', 3000), ('--sessions', 100), ('--seed', 1)):
        words.add_argument(name, type=int, default=default)


def measure(given):
    program, dice, few = given.program, random.Random(given.seed), max(10, given.streams // 10)
    fine = into_agent(program, given.streams, dice)
    fine &= into_value_below(program, few, dice)
    fine &= into_value_above(program, few, dice)
    fine &= into_hub_below(program, few, dice)
    fine &= into_hub_above(program, max(10, few // 10), dice)
    fine &= into_client(program, given.sessions, dice)
    fine &= unread_input(program, few, dice)
    fine &= stay_when_shut(program)
    fine &= many_connections('an agent', lambda: Agent(program), given.connections)
    fine &= many_connections('a value-add that leads to an agent', lambda: Led(program), given.connections)
    fine &= never_read(program)
    return fine & descriptors(program)
