"""What the scripts of this folder share: a plain client of gdb's protocol, and the processes that they talk to."""
from __future__ import annotations

import shutil
import socket
import subprocess
import sys
import time
from pathlib import Path
from typing import Iterator

from agent import Channel
from packets import framed

HERE = Path(__file__).resolve().parent
TOP = HERE.parent
BUILT = TOP / 'crates' / 'tcf' / 'out' / 'tcf'
LOOPBACK = '127.0.0.1'
TURNS = '1000000000'
SECONDS = 10.0
COMPILER = 'riscv64-unknown-elf-gcc'
FLAGS = '-march=rv32im -mabi=ilp32 -Og -g -ffreestanding -nostdlib -Wl,--no-warn-rwx-segments'.split()


def lacking(*names: str) -> list[str]:
    """Which of these programs aren't installed."""
    return [name for name in names if not shutil.which(name)]


def program_of(words: list[str]) -> str:
    """The program `tcf` that the words of a script name, or the one that was built."""
    program = Path(words[0]) if words else BUILT
    if not program.is_file():
        sys.exit(f'there is no program {program}')
    return str(program.resolve())


def compiled(source: Path, folder: Path) -> Path:
    """The ELF file of a program in C, for the agent and for QEMU."""
    example = TOP / 'examples' / 'program'
    elf = folder / f'{source.stem}.elf'
    files = [str(example / 'start.S'), str(source), '-lgcc', '-o', str(elf)]
    subprocess.run([COMPILER, *FLAGS, '-T', str(example / 'plain.ld'), *files], check=True)
    return elf


def free_port() -> int:
    """A port of the loopback on which nobody listens."""
    with socket.socket() as taken:
        taken.bind((LOOPBACK, 0))
        return taken.getsockname()[1]


def connected(port: int) -> socket.socket:
    """A connection to a port on which somebody listens, or soon will."""
    until = time.monotonic() + SECONDS
    while True:
        try:
            return socket.create_connection((LOOPBACK, port), timeout=SECONDS)
        except OSError:
            if time.monotonic() > until:
                raise
            time.sleep(0.02)


class Started:
    """A process that was started, and is ended with the block that it serves."""

    def __init__(self, *words: str) -> None:
        self.process = subprocess.Popen(words, stdin=subprocess.DEVNULL, stdout=subprocess.PIPE, stderr=subprocess.PIPE, text=True)

    def __enter__(self):
        return self

    def __exit__(self, *_: object) -> None:
        if self.process.poll() is None:
            self.process.terminate()
        try:
            self.process.communicate(timeout=SECONDS)
        except subprocess.TimeoutExpired:
            self.process.kill()
            self.process.communicate()

    def end(self) -> tuple[int, str]:
        """Waits for its end: the status, and its lines on standard error."""
        _, errors = self.process.communicate(timeout=SECONDS)
        return self.process.returncode, errors


class Agent(Started):
    """`tcf agent` with some images."""

    def __init__(self, program: str, images: dict[str, Path]) -> None:
        self.address = f'{LOOPBACK}:{free_port()}'
        super().__init__(program, 'agent', self.address, TURNS, *(f'{name}={path}' for name, path in images.items()))
        connected(int(self.address.split(':')[1])).close()

    def channel(self) -> Channel:
        """A channel of the Target Communication Framework."""
        return Channel(self.address)


class Bridge(Started):
    """The bridge before an agent, on a free port."""

    def __init__(self, agent: str, *words: str) -> None:
        super().__init__(sys.executable, str(HERE / 'bridge.py'), '0', agent, *words)
        line = self.process.stdout.readline()
        self.port = int(line.split(f'{LOOPBACK}:')[1].split()[0]) if LOOPBACK in line else 0


class Qemu(Started):
    """`qemu-riscv32 -g` with a program."""

    def __init__(self, elf: Path) -> None:
        self.port = free_port()
        super().__init__('qemu-riscv32', '-g', str(self.port), str(elf))

    def __exit__(self, *_: object) -> None:
        """A signal that asks would wait for the program in it."""
        self.process.kill()
        super().__exit__()


class Gdb:
    """A client of gdb's protocol, with one packet under way at a time."""

    def __init__(self, port: int, features: str = '') -> None:
        self.socket = connected(port)
        self.socket.setsockopt(socket.IPPROTO_TCP, socket.TCP_NODELAY, 1)
        self.came = b''
        self.before = b'+'
        self.features = self.ask('qSupported' + (':' + features if features else ''))
        if self.ask('QStartNoAckMode') == 'OK':
            self.socket.sendall(b'+')
            self.before = b''

    def send(self, body: str) -> None:
        """Sends a packet, and before it, where packets are acknowledged, that the last one has come."""
        self.socket.sendall(self.before + framed(body.encode('latin-1')))

    def receive(self) -> str:
        """The next packet; what stands between packets is passed over."""
        while True:
            start = self.came.find(b'$')
            end = self.came.find(b'#', start)
            if 0 <= start < end <= len(self.came) - 3:
                body, self.came = self.came[start + 1:end], self.came[end + 3:]
                return body.decode('latin-1')
            piece = self.socket.recv(65536)
            if not piece:
                raise EOFError('the connection has ended')
            self.came += piece

    def ask(self, body: str) -> str:
        """The answer to a packet."""
        self.send(body)
        return self.receive()

    def interrupt(self) -> None:
        """Asks to stop what runs."""
        self.socket.sendall(b'\x03')

    def memory(self, address: int, size: int) -> bytes:
        """Bytes of memory, read in pieces that every server takes."""
        return b''.join(bytes.fromhex(self.ask(f'm{place:x},{min(1024, address + size - place):x}'))
                        for place in range(address, address + size, 1024))

    def close(self) -> None:
        """Closes the connection."""
        self.socket.close()


def checks(names: Iterator[tuple[str, bool]]) -> bool:
    """Prints a line for each check, and answers whether all hold."""
    counts = {True: 0, False: 0}
    for what, holds in names:
        print(f'{"yes" if holds else "NO "}  {what}', flush=True)
        counts[holds] += 1
    print(f'{counts[True]} hold, {counts[False]} do not')
    return not counts[False]
