"""A client of the Target Communication Framework: one channel to an agent, or to a value-add before it.

docs/PROTOCOL.md has the rules of the wire, docs/SERVICES.md the commands, and docs/FRONT_END.md what comes when.
"""
from __future__ import annotations

import json
import socket
import struct
from typing import Any, Callable, Sequence

ESCAPE, ESCAPED = b'\x03', b'\x03\x00'
END_OF_MESSAGE, END_OF_STREAM = b'\x03\x01', b'\x03\x02'
PIECE = 65536
SECONDS_FOR_AN_ANSWER = 10.0

Hearer = Callable[[bytes, bytes, list[bytes]], None]
Command = tuple[str, ...]


class AgentGone(Exception):
    """The channel has ended, or nobody answers on it."""


class Refused(Exception):
    """A command was answered with an error report, or isn't known."""

    def __init__(self, command: str, code: int, text: str) -> None:
        super().__init__(f'{command} is refused with code {code}, {text}')
        self.code, self.text = code, text


def split_address(address: str) -> tuple[str, int]:
    """The host and the port of a text as 127.0.0.1:7001 or [::1]:7001."""
    host, colon, port = address.rpartition(':')
    if not (colon and host and port.isascii() and port.isdigit() and int(port) < 65536):
        raise ValueError(f'`{address}` is no address; one is written 127.0.0.1:7001')
    return host.removeprefix('[').removesuffix(']'), int(port)


def value_of(part: bytes) -> Any:
    """What a part of a message says; an empty one is null. Plain texts and numbers, which are the most, are read at once."""
    if part[:1] == b'"' and b'\\' not in part:
        return part[1:-1].decode()
    if part.isdigit():
        return int(part)
    return json.loads(part) if part else None


def limit_waiting(connected: socket.socket, seconds: float) -> None:
    """No call on the socket waits for longer. The system sees to that, and so needn't be asked before each call."""
    limit = struct.pack('ll', int(seconds), 0)
    connected.settimeout(None)
    connected.setsockopt(socket.SOL_SOCKET, socket.SO_RCVTIMEO, limit)
    connected.setsockopt(socket.SOL_SOCKET, socket.SO_SNDTIMEO, limit)
    connected.setsockopt(socket.IPPROTO_TCP, socket.TCP_NODELAY, 1)


class Channel:
    """One channel. Answers are awaited, and each event that comes meanwhile is handed to `hearer`, in order."""

    def __init__(self, address: str) -> None:
        self.address = address
        self.hearer: Hearer = lambda service, name, parts: None
        self._came = b''
        self._commands = 0
        self._hellos = 0
        self._answers: dict[bytes, list[bytes] | None] = {}
        try:
            self.socket = socket.create_connection(split_address(address), timeout=SECONDS_FOR_AN_ANSWER)
        except OSError as fault:
            raise AgentGone(f'nobody can be reached at {address}: {fault}') from None
        limit_waiting(self.socket, SECONDS_FOR_AN_ANSWER)
        self._put(b'E\0Locator\0Hello\0["Locator"]\0' + END_OF_MESSAGE)
        self._wait_for_hello(1)

    def redirect(self, peer: str) -> None:
        """Has the value-add at the other side connect to its peer; from then on the channel leads there."""
        self.ask('Locator', 'redirect', peer)
        self._wait_for_hello(2)

    def ask(self, service: str, name: str, *arguments: Any, error_at: int = 0) -> list[Any]:
        """The results of a command, without its error report, which stands at `error_at`."""
        parts = self.ask_for_parts(service, name, *map(json.dumps, arguments), error_at=error_at)
        return [value_of(part) for part in parts]

    def ask_for_parts(self, service: str, name: str, *arguments: str, error_at: int = 0) -> list[bytes]:
        """The same, of arguments that are JSON already, and without reading the results."""
        token = self._token()
        self._put(self._command(token, service, name, *arguments))
        return self._results(token, f'{service} {name}', error_at)

    def ask_all(self, commands: Sequence[Command]) -> list[Refused | None]:
        """Sends several commands at once, whose arguments are JSON already, and answers how each was refused, if it was."""
        tokens = [self._token() for _ in commands]
        self._put(b''.join([self._command(token, *command) for token, command in zip(tokens, commands)]))
        return [self._refusal(token, command) for token, command in zip(tokens, commands)]

    def receive(self) -> None:
        """Takes what has come, and waits where nothing has."""
        try:
            piece = self.socket.recv(PIECE)
        except BlockingIOError:
            raise AgentGone(f'{self.address} has said nothing for {SECONDS_FOR_AN_ANSWER:.0f} seconds') from None
        except OSError as fault:
            raise AgentGone(f'{self.address} is gone: {fault}') from None
        if not piece:
            raise AgentGone(f'{self.address} has closed the connection')
        *messages, self._came = (self._came + piece).split(END_OF_MESSAGE)
        for message in messages:
            self._take(message.replace(ESCAPED, ESCAPE) if ESCAPE in message else message)
        if END_OF_STREAM in self._came:
            raise AgentGone(f'{self.address} has ended the channel')

    def close(self) -> None:
        """Ends the stream; the agent takes out what breakpoints the channel has left."""
        try:
            self.socket.sendall(END_OF_STREAM)
        except OSError:
            pass
        self.socket.close()

    def _token(self) -> bytes:
        self._commands += 1
        return b'%d' % self._commands

    @staticmethod
    def _command(token: bytes, *fields: str) -> bytes:
        text = '\0'.join(fields).encode()
        return b'C\0' + token + b'\0' + text.replace(ESCAPE, ESCAPED) + b'\0' + END_OF_MESSAGE

    def _refusal(self, token: bytes, command: Command) -> Refused | None:
        try:
            self._results(token, f'{command[0]} {command[1]}', 0)
        except Refused as refused:
            return refused
        return None

    def _put(self, messages: bytes) -> None:
        try:
            self.socket.sendall(messages)
        except OSError as fault:
            raise AgentGone(f'{self.address} takes nothing any more: {fault}') from None

    def _take(self, message: bytes) -> None:
        kind, *fields = message.split(b'\0')
        if kind == b'E' and len(fields) > 2:
            if fields[:2] == [b'Locator', b'Hello']:
                self._hellos += 1
            else:
                self.hearer(fields[0], fields[1], fields[2:-1])
        elif kind == b'R' and fields:
            self._answers[fields[0]] = fields[1:-1]
        elif kind == b'N' and fields:
            self._answers[fields[0]] = None
        elif kind not in (b'P', b'F'):
            raise AgentGone(f'{self.address} sends what is no message of the protocol')

    def _results(self, token: bytes, command: str, error_at: int) -> list[bytes]:
        while token not in self._answers:
            self.receive()
        parts = self._answers.pop(token)
        if parts is None:
            raise Refused(command, 0, 'not known')
        report = parts.pop(error_at) if len(parts) > error_at else b''
        if report and report != b'null':
            said = json.loads(report)
            raise Refused(command, said.get('Code', 1), said.get('Format', 'other'))
        return parts

    def _wait_for_hello(self, count: int) -> None:
        while self._hellos < count:
            self.receive()
