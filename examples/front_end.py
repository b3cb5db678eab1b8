#!/usr/bin/env python3
"""A small front end: starts an image, breaks into it, reads, steps, and ends it.

    examples/front_end.py ADDRESS IMAGE LOCATION        as 127.0.0.1:7001 sort 0x140

ADDRESS is that of `tcf agent`, IMAGE the name of one of its images, and LOCATION where a breakpoint is set.
It prints each event as it comes. It wants Python 3 and nothing else; docs/FRONT_END.md says what goes over the wire.
"""
import base64
import json
import socket
import sys

ESCAPE, END_OF_MESSAGE, END_OF_STREAM = b'\x03', b'\x03\x01', b'\x03\x02'


class Refused(Exception):
    """The answer is an error report, or that the command isn't known."""


class Channel:
    """One connection to an agent, with one command under way at a time."""

    def __init__(self, address):
        host, port = address.rsplit(':', 1)
        self.socket = socket.create_connection((host.strip('[]'), int(port)), timeout=10)
        self.came = b''
        self.commands = 0
        self.send('E', 'Locator', 'Hello', '["Locator"]')
        self.wait_for('Locator', 'Hello')

    def send(self, *fields):
        message = b''.join(field.encode() + b'\0' for field in fields)
        self.socket.sendall(message.replace(ESCAPE, ESCAPE + b'\0') + END_OF_MESSAGE)

    def message(self):
        """The fields of the next message. An escape is followed by 1 only where a message ends."""
        while END_OF_MESSAGE not in self.came:
            piece = self.socket.recv(65536)
            if not piece:
                raise EOFError('the agent closed the channel')
            self.came += piece
        message, self.came = self.came.split(END_OF_MESSAGE, 1)
        return message.replace(ESCAPE + b'\0', ESCAPE).decode().split('\0')[:-1]

    def event(self, service, name, *parts):
        print('event', service, name, *map(json.dumps, values(parts)))

    def wait_for(self, service, name):
        """The arguments of the next such event."""
        while True:
            kind, *fields = self.message()
            if kind == 'E':
                self.event(*fields)
                if fields[:2] == [service, name]:
                    return values(fields[2:])

    def command(self, service, name, *arguments, error_at=0):
        """The results of a command. What it causes at once is told before them."""
        self.commands += 1
        token = str(self.commands)
        self.send('C', token, service, name, *map(json.dumps, arguments))
        while True:
            kind, *fields = self.message()
            if kind == 'E':
                self.event(*fields)
            elif kind == 'N' and fields == [token]:
                raise Refused(f'{service} {name} is not known')
            elif kind == 'R' and fields[0] == token:
                results = values(fields[1:])
                if results and results[error_at]:
                    raise Refused(f'{service} {name}: {results[error_at]}')
                return results

    def close(self):
        self.socket.sendall(END_OF_STREAM)
        self.socket.close()


def values(parts):
    """Each part is JSON; an empty one is null."""
    return [json.loads(part) if part else None for part in parts]


def resume(agent, thread, mode, count):
    """Lets a thread run until it stops, which is always told behind the answer. Of one that ends instead nothing more comes."""
    agent.command('RunControl', 'resume', thread, mode, count)
    _, pc, reason, _ = agent.wait_for('RunControl', 'contextSuspended')
    print(f'{thread} stands at {pc:#x}: {reason}')


def main(address, image, location):
    agent = Channel(address)
    _, process = agent.command('Processes', 'start', '', image, [], [], True)
    _, [thread] = agent.command('RunControl', 'getChildren', process['ID'])
    agent.command('Breakpoints', 'add', {'ID': 'here', 'Enabled': True, 'Location': location})
    resume(agent, thread, 0, 1)
    names = ['x10', 'x11', 'pc']
    _, text = agent.command('Registers', 'getm', [[f'{thread}.{name}', 0, 4] for name in names])
    data = base64.b64decode(text)
    for place, name in enumerate(names):
        print(name, int.from_bytes(data[4 * place:4 * place + 4], 'little'))
    resume(agent, thread, 2, 1)
    text, _, _ = agent.command('Memory', 'get', process['ID'], 576, 4, 16, 0, error_at=1)
    print('memory at 576:', base64.b64decode(text).hex(' ', 4))
    agent.command('Processes', 'terminate', process['ID'])
    agent.close()


if __name__ == '__main__':
    if len(sys.argv) != 4:
        sys.exit(__doc__)
    try:
        main(*sys.argv[1:])
    except (Refused, EOFError, OSError) as wrong:
        sys.exit(f'{type(wrong).__name__}: {wrong}')
