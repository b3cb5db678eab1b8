"""The packets of gdb's remote serial protocol, over one connection.

A packet is `$`, its body, `#` and two hexadecimal digits, the sum of the body's bytes. In a body `}` stands before a byte
that was changed by 0x20, since it would be taken for something else. A byte 3 between packets asks to stop what runs.
"""
from __future__ import annotations

import socket

from agent import limit_waiting

INTERRUPT = b'\x03'
PIECE = 65536
LONGEST = 262_144
SECONDS_FOR_A_PACKET = 10.0
SPECIAL = b'#$}*'


class GdbGone(Exception):
    """The connection to gdb has ended."""


class Bad(Exception):
    """A packet that can't be taken; the text says why. A wrong one that gdb is to send again wants no other answer."""

    def __init__(self, why: str, comes_again: bool = False) -> None:
        super().__init__(why)
        self.comes_again = comes_again


def framed(body: bytes) -> bytes:
    """A body as a packet."""
    return b'$%b#%02x' % (body, sum(body) & 255)


def escaped(data: bytes) -> bytes:
    """Any bytes, as they stand in a body."""
    return b''.join(bytes((0x7d, byte ^ 0x20)) if byte in SPECIAL else bytes((byte,)) for byte in data)


def unescaped(body: bytes) -> bytes:
    """The bytes that stand in a body."""
    first, *rest = body.split(b'}')
    if not all(rest):
        raise Bad('an escape at the end')
    return first + b''.join(bytes((piece[0] ^ 0x20,)) + piece[1:] for piece in rest)


class Connection:
    """The packets of one gdb."""

    def __init__(self, connected: socket.socket) -> None:
        self.socket = connected
        limit_waiting(connected, SECONDS_FOR_A_PACKET)
        self.acknowledges = True
        self._came = b''
        self._last = b''
        self._drops = False

    def receive(self) -> list[bytes | Bad]:
        """What has come, in order: bodies of packets, INTERRUPT, and packets that can't be taken."""
        try:
            piece = self.socket.recv(PIECE)
        except OSError as fault:
            raise GdbGone(str(fault)) from None
        if not piece:
            raise GdbGone('gdb has closed the connection')
        self._came += piece
        found: list[bytes | Bad] = []
        while self._came:
            if not self._came.startswith(b'$'):
                self._take_what_is_between(found)
            elif (packet := self._packet()) is not None:
                found.append(packet)
            else:
                break
        return found

    def send(self, body: bytes) -> None:
        """Sends a packet."""
        self._last = framed(body)
        self._put(self._last)

    def close(self) -> None:
        """Closes the connection."""
        self.socket.close()

    def _put(self, data: bytes) -> None:
        try:
            self.socket.sendall(data)
        except OSError as fault:
            raise GdbGone(str(fault)) from None

    def _take_what_is_between(self, found: list[bytes | Bad]) -> None:
        """Takes the bytes before the next packet away."""
        between, begin, rest = self._came.partition(b'$')
        self._came = begin + rest
        found += [INTERRUPT] * between.count(INTERRUPT)
        if self.acknowledges and b'-' in between and self._last:
            self._put(self._last)

    def _packet(self) -> bytes | Bad | None:
        """The packet that has come first, which is taken away; None where it isn't complete."""
        end = self._came.find(b'#')
        if end < 0:
            self._drop_what_is_too_long()
            return None
        if len(self._came) < end + 3:
            return None
        body, digits, self._came = self._came[1:end], self._came[end + 1:end + 3], self._came[end + 3:]
        return self._checked(body, digits)

    def _drop_what_is_too_long(self) -> None:
        """Of a packet that has no end yet all but its beginning is dropped, once it is too long."""
        if len(self._came) > LONGEST:
            self._drops = True
            self._came = b'$'

    def _checked(self, body: bytes, digits: bytes) -> bytes | Bad:
        if self._drops or len(body) > LONGEST:
            self._drops = False
            self._acknowledge(b'+')
            return Bad(f'the packet has more than {LONGEST} bytes')
        try:
            is_right = int(digits, 16) == sum(body) & 255
        except ValueError:
            is_right = False
        self._acknowledge(b'+' if is_right else b'-')
        return body if is_right else Bad('the checksum is wrong', self.acknowledges)

    def _acknowledge(self, sign: bytes) -> None:
        if self.acknowledges:
            self._put(sign)
