"""The program's serving commands as processes on loopback, and clients of them in plain Python."""
import base64
import socket
import struct
import subprocess
import sys
import tempfile
import time
from pathlib import Path

from tool.measuring import processor, resident

LOOPBACK = '127.0.0.1'
EOM, EOS = b'\x03\x01', b'\x03\x02'
HELLO = b'E\0Locator\0Hello\0["Locator"]\0' + EOM
TURNS = '1000000000'

# addi x5, x5, 1; jal x0, -4: a program that counts for ever
IMAGE = bytes.fromhex('938212006ff0dfff')


def free_port():
    with socket.socket() as s:
        s.bind((LOOPBACK, 0))
        return s.getsockname()[1]


def connected(port, tries=200):
    for _ in range(tries):
        try:
            s = socket.create_connection((LOOPBACK, port), timeout=10)
            s.setsockopt(socket.IPPROTO_TCP, socket.TCP_NODELAY, 1)
            return s
        except OSError:
            time.sleep(0.02)
    sys.exit(f'nothing listens on port {port}')


class Agent:
    """`tcf agent` with one image, `loop`."""

    def __init__(self, program, port=None, code=IMAGE):
        self.port = port or free_port()
        self.folder = tempfile.TemporaryDirectory()
        image = Path(self.folder.name) / 'loop.bin'
        image.write_bytes(code)
        self.process = subprocess.Popen([program, 'agent', f'{LOOPBACK}:{self.port}', TURNS, f'loop={image}'],
                                        stdout=subprocess.DEVNULL)

    def memory(self):
        """KiB that are resident now."""
        return resident(self.process)

    def processor(self):
        return processor(self.process)

    def lives(self):
        return self.process.poll() is None

    def channel(self):
        return Channel(self.port)

    def __enter__(self):
        return self

    def __exit__(self, *what):
        self.process.kill()
        self.process.wait()
        self.folder.cleanup()


class Channel:
    """A client of the Target Communication Framework."""

    def __init__(self, port):
        self.socket = connected(port)
        self.came = b''
        self.token = 0
        self.socket.sendall(HELLO)
        self.message()

    def message(self):
        while EOM not in self.came:
            piece = self.socket.recv(65536)
            if not piece:
                raise EOFError
            self.came += piece
        message, self.came = self.came.split(EOM, 1)
        return message

    def command(self, service, name, *arguments):
        self.token += 1
        parts = [b'C', str(self.token).encode(), service.encode(), name.encode(), *(a.encode() for a in arguments)]
        return b'\0'.join(parts) + b'\0' + EOM

    def ask(self, *words):
        """The answer to one command; events before it are passed over."""
        self.socket.sendall(self.command(*words))
        return self.answer(self.token)

    def answer(self, token):
        while True:
            message = self.message()
            if message[:1] in b'RN' and message.split(b'\0')[1] == str(token).encode():
                return message

    def event(self, name):
        while True:
            message = self.message()
            if message[:1] == b'E' and message.split(b'\0')[2] == name:
                return message

    def start(self):
        """Starts the image, suspended, and answers its process's ID."""
        answer = self.ask('Processes', 'start', '""', '"loop"', '[]', '[]', 'true')
        return answer.split(b'"ID":"')[1].split(b'"')[0].decode()

    def resume(self, thread):
        self.ask('RunControl', 'resume', f'"{thread}"', '0', '1')

    def suspend(self, thread):
        self.ask('RunControl', 'suspend', f'"{thread}"')

    def executed(self, thread):
        """How many instructions of the loop the thread, which is suspended, has executed: every other one adds 1 to x5."""
        answer = self.ask('Registers', 'get', f'"{thread}.x5"')
        return 2 * int.from_bytes(base64.b64decode(answer.split(b'\0')[3].strip(b'"')), 'little')

    def close(self):
        self.socket.close()


class Gdb:
    """A client of gdb's remote protocol."""

    def __init__(self, port):
        self.socket = connected(port)
        self.came = b''
        self.socket.sendall(b'+')
        self.ask(b'QStartNoAckMode')
        self.socket.sendall(b'+')

    def packet(self):
        while True:
            start = self.came.find(b'$')
            end = self.came.find(b'#', start)
            if start >= 0 and 0 <= end <= len(self.came) - 3:
                body, self.came = self.came[start + 1:end], self.came[end + 3:]
                return body
            piece = self.socket.recv(65536)
            if not piece:
                raise EOFError
            self.came += piece

    @staticmethod
    def spelled(body):
        return b'$' + body + b'#%02x' % (sum(body) % 256)

    def ask(self, body):
        self.socket.sendall(self.spelled(body))
        return self.packet()

    def close(self):
        self.socket.close()


def rate(process, count, do):
    """How many a second, over a run of about a second after a short one; and the microseconds of this process's processor
    time for each."""
    do()
    begin, before, done = time.perf_counter(), processor(process), 0
    while time.perf_counter() - begin < 1:
        do()
        done += count
    return done / (time.perf_counter() - begin), (processor(process) - before) / done * 1_000_000


def asked(channel, many, *words):
    def do():
        first = channel.token + 1
        channel.socket.sendall(b''.join(channel.command(*words) for _ in range(many)))
        for token in range(first, first + many):
            channel.answer(token)
    return do


def stepped(channel, thread):
    def do():
        channel.ask('RunControl', 'resume', f'"{thread}"', '2', '1')
        channel.event(b'contextSuspended')
    return do


def reset(channel_socket):
    channel_socket.setsockopt(socket.SOL_SOCKET, socket.SO_LINGER, struct.pack('ii', 1, 0))
    channel_socket.close()


def served(peer):
    channel = peer.channel()
    answer = channel.ask('Locator', 'sync')
    channel.close()
    return answer.startswith(b'R')


def rest_of(s):
    got = b''
    try:
        while piece := s.recv(65536):
            got += piece
    except ConnectionError:
        pass
    return got


# ---- before an agent

def address(port):
    return f'{LOOPBACK}:{port}'


class ValueAdd:
    """`tcf value` before the peer at a port."""

    def __init__(self, program, peer, port=None):
        self.port = port or free_port()
        self.process = subprocess.Popen([program, 'value', address(self.port), address(peer), TURNS], stdout=subprocess.DEVNULL)

    def end(self):
        self.process.kill()
        self.process.wait()


class Relayed(Agent):
    """An agent behind a value-add: a channel is led through that to the agent. What is measured is the value-add."""

    def __init__(self, program):
        super().__init__(program)
        self.agent, self.agent_port = self.process, self.port
        self.relay = ValueAdd(program, self.agent_port)
        self.process, self.port = self.relay.process, self.relay.port

    def channel(self):
        channel = Channel(self.port)
        answer = channel.ask('Locator', 'redirect', f'"{address(self.agent_port)}"')
        if answer.split(b'\0')[2] != b'':
            raise EOFError
        channel.event(b'Hello')
        return channel

    def __exit__(self, *what):
        self.relay.end()
        self.process = self.agent
        super().__exit__(*what)


class Hub:
    """`tcf hub` before the peer at a port."""

    def __init__(self, program, peer, port=None):
        self.port = port or free_port()
        self.process = subprocess.Popen([program, 'hub', address(self.port), address(peer), TURNS], stdout=subprocess.DEVNULL)

    def end(self):
        self.process.kill()
        self.process.wait()


class Shared(Agent):
    """An agent behind a hub. What is measured is the hub."""

    def __init__(self, program):
        super().__init__(program)
        self.agent, self.agent_port = self.process, self.port
        connected(self.agent_port).close()
        self.hub = Hub(program, self.agent_port)
        self.process, self.port = self.hub.process, self.hub.port

    def __exit__(self, *what):
        self.hub.end()
        self.process = self.agent
        super().__exit__(*what)
