#!/usr/bin/env python3
"""Lets gdb debug through a TCF agent.

    gdb/bridge.py GDB_PORT AGENT [--start NAME | --attach ID] [--by VALUE_ADD]

It listens for gdb on a port of the loopback, GDB_PORT, which may be written 3333 or 127.0.0.1:3333 (0 is any free one), and is
a client of the agent at the address AGENT. gdb connects by `target remote :3333`, or by `target extended-remote :3333`.
docs/GDB.md has a session. It wants Python 3 and nothing else.

It serves one gdb after the other until it is ended, by SIGINT or SIGTERM with status 0. Where the agent goes, isn't there or
refuses what was asked, one line on standard error says so, and the status is 1.
"""
from __future__ import annotations

import argparse
import select
import signal
import socket
import sys
from functools import partial
from typing import Callable

from agent import AgentGone, Channel, Refused, split_address
from packets import Connection, GdbGone
from process import Process
from session import Session, Subject, error, say

LOOPBACK = '127.0.0.1'
Beginning = Callable[[], Process]


class Bridge:
    """The loop between one gdb at a time and the agent."""

    def __init__(self, listener: socket.socket, subject: Subject, begin: Beginning | None) -> None:
        self.listener, self.subject, self.begin = listener, subject, begin
        self.session: Session | None = None
        self.gate, self.agent = listener.fileno(), subject.channel.socket.fileno()
        # they are told in this order, and what the agent has sent before what a gdb has
        self.poll = select.poll()
        self.poll.register(self.gate, select.POLLIN)
        self.poll.register(self.agent, select.POLLIN)

    def serve(self) -> None:
        """Serves until the agent goes."""
        try:
            while True:
                self.turn()
        except AgentGone as gone:
            self.tell_that_agent_is_gone(gone)
            raise

    def turn(self) -> None:
        """Takes what has come. What the agent has told comes first, so that what is kept of the process is true."""
        has_sent = comes_new = False
        for descriptor, _ in self.poll.poll(0 if self.session and self.session.has_news else None):
            if descriptor == self.agent:
                self.subject.channel.receive()
            elif descriptor == self.gate:
                comes_new = True
            else:
                has_sent = True
        if self.session:
            self.go_on(self.session, has_sent)
        if comes_new:
            self.welcome()

    def go_on(self, session: Session, has_sent: bool) -> None:
        """Does what a gdb asks, and tells it what has stopped."""
        try:
            if has_sent:
                session.take()
            session.look()
        except GdbGone as gone:
            self.end_session(session)
            if self.subject.process:
                say(f'{gone}; {self.subject.process.identifier} stands, and its breakpoints are taken out')
        else:
            if session.is_over:
                self.end_session(session)

    def welcome(self) -> None:
        """A gdb connects. While another one is there it is refused; where no process can be started it is told of none."""
        connected, (host, port, *_) = self.listener.accept()
        connection = Connection(connected)
        if self.session:
            say(f'a gdb at {host}:{port} is refused, since another one is there')
            connection.close()
            return
        if self.subject.process and self.subject.process.has_ended:
            self.subject.drop()
        try:
            if not self.subject.process and self.begin:
                self.begin()
        except Refused as refused:
            say(str(refused))
        self.session = Session(connection, self.subject)
        self.poll.register(connected, select.POLLIN)

    def end_session(self, session: Session) -> None:
        """The gdb has gone, or has ended what it did."""
        self.session = None
        self.poll.unregister(session.connection.socket)
        session.connection.close()
        session.leave()

    def tell_that_agent_is_gone(self, gone: AgentGone) -> None:
        """A gdb that waits for an answer hears why there is none."""
        if self.session and self.session.owes_answer:
            try:
                self.session.connection.send(error(gone))
            except GdbGone:
                pass

    def leave(self) -> None:
        """Ends a process that was started here, and lets go on one that was attached."""
        process = self.subject.process
        if process and not process.has_ended and self.subject.is_own:
            process.terminate()
        elif process and not process.has_ended:
            process.detach()
        self.subject.channel.close()


def listen(text: str) -> socket.socket:
    """Listens on a port of the loopback, which stands alone or behind its address."""
    host, port = split_address(text if ':' in text else f'{LOOPBACK}:{text}')
    family = socket.AF_INET6 if ':' in host else socket.AF_INET
    if not (host.startswith('127.') or host in ('::1', 'localhost')):
        raise ValueError(f'`{text}` is no address of the loopback')
    try:
        return socket.create_server((host, port), family=family)
    except OSError as fault:
        raise ValueError(f'gdb can\'t be listened for on {text}: {fault}') from None


def prepared(agent: str, by: str | None) -> Subject:
    """A channel to the agent, and no process yet."""
    channel = Channel(by or agent)
    if by:
        channel.redirect(agent)
    return Subject(channel)


def beginning(subject: Subject, start: str | None, attach: str | None) -> Beginning | None:
    """What brings the process that a gdb debugs."""
    if start:
        return partial(subject.start, start)
    return partial(subject.attach, attach) if attach else None


def told(subject: Subject, listener: socket.socket) -> str:
    """The line that says that all is ready."""
    process = subject.process
    host, port, *_ = listener.getsockname()
    what = f'{process.identifier} ({process.name})' if process else 'no process yet'
    return f'bridge: listening on {host}:{port} for gdb; the agent is {subject.channel.address}, with {what}'


def stop_by_signal(*_: object) -> None:
    """SIGINT and SIGTERM end the bridge."""
    sys.exit(0)


def main() -> int:
    parser = argparse.ArgumentParser(description='Lets gdb debug through a TCF agent. docs/GDB.md has a session.')
    parser.add_argument('gdb_port', metavar='GDB_PORT', help='a port of the loopback on which gdb is listened for')
    parser.add_argument('agent', metavar='AGENT', help='the address of the agent, as 127.0.0.1:7001')
    process = parser.add_mutually_exclusive_group()
    process.add_argument('--start', metavar='NAME', help='the image from which a process is started for each gdb')
    process.add_argument('--attach', metavar='ID', help='the process to which each gdb is attached, as P1')
    parser.add_argument('--by', metavar='VALUE_ADD', help='the address of a value-add, which is redirected to AGENT first')
    given = parser.parse_args()
    signal.signal(signal.SIGINT, stop_by_signal)
    signal.signal(signal.SIGTERM, stop_by_signal)
    bridge = None
    try:
        listener = listen(given.gdb_port)
        split_address(given.agent)
        subject = prepared(given.agent, given.by)
        bridge = Bridge(listener, subject, beginning(subject, given.start, given.attach))
        if bridge.begin:
            bridge.begin()
        print(told(bridge.subject, listener), flush=True)
        bridge.serve()
    except (AgentGone, Refused, ValueError) as wrong:
        say(str(wrong))
        return 1
    finally:
        try:
            if bridge:
                bridge.leave()
        except (AgentGone, Refused):
            pass
    return 0


if __name__ == '__main__':
    sys.exit(main())
