"""What an answer costs where 1,024 commands are pending and are answered in order, in reverse, or shuffled.

The peer is in this module and on the loopback. It lets 1,024 commands come, then puts all their answers at once, 40 times over.
What is measured is the whole processor time for each answer: of `tcf client`, which is asked itself (its time is for sending the
command and its lines in the log too), and then of a `tcf value` that stands between such a client and the peer (its time is for taking
the command and sending it on too).
"""
import os
import random
import socket
import subprocess
import sys
import tempfile
import time

from tool.measuring import check, head, in_turn, programs, ratio, row
from tool.peers import LOOPBACK, free_port

ROUNDS, PENDING = 40, 1024
END = b"\x03\x01"
HELLO = b'E\0Locator\0Hello\0["Locator"]\0' + END
TURNS = "1000000"
COMMANDS = ("send Locator sync\n" * PENDING + "wait\n") * ROUNDS + "close\n"


def tokens_of(line, rest):
    """Takes messages until so many commands came; answers their tokens, and what came behind them."""
    tokens = []
    while len(tokens) < PENDING:
        message, end, behind = rest.partition(END)
        if not end:
            piece = line.recv(1 << 16)
            if not piece:
                sys.exit("bench: the stream ended early")
            rest += piece
            continue
        rest = behind
        fields = message.split(b"\0")
        if fields[0] == b"C":
            tokens.append(fields[1])
    return tokens, rest


def in_order(order, tokens, draw):
    if order == "reverse":
        return tokens[::-1]
    return draw.sample(tokens, len(tokens)) if order == "shuffled" else tokens


def answer_all(listener, order):
    """The peer: takes a connection, and answers all commands of each round in this order."""
    draw = random.Random(7)
    line, _ = listener.accept()
    with line:
        line.settimeout(20)
        line.sendall(HELLO)
        rest = b""
        for _ in range(ROUNDS):
            tokens, rest = tokens_of(line, rest)
            line.sendall(b"".join(b"R\0" + it + b"\0\0" + END for it in in_order(order, tokens, draw)))
        while line.recv(1 << 16):
            pass


def used_by(process):
    """Waits for a process; answers its status, and its processor time for one answer in microseconds."""
    _, status, used = os.wait4(process.pid, 0)
    process.returncode = status
    return status, 1e6 * (used.ru_utime + used.ru_stime) / (ROUNDS * PENDING)


def started_client(program, port, commands):
    with tempfile.NamedTemporaryFile("w", suffix=".script", delete=False) as script:
        script.write(commands)
    process = subprocess.Popen([program, "client", f"{LOOPBACK}:{port}", script.name, TURNS], stdout=subprocess.DEVNULL)
    return process, script.name


def ended(client, script):
    status, used = used_by(client)
    os.unlink(script)
    if status:
        sys.exit(f"bench: the client ended with status {status >> 8}")
    return used


def of_client(program, order):
    with socket.create_server((LOOPBACK, 0)) as listener:
        client = started_client(program, listener.getsockname()[1], COMMANDS)
        answer_all(listener, order)
        return ended(*client)


def of_value_add(program, order):
    with socket.create_server((LOOPBACK, 0)) as listener:
        peer = f"{LOOPBACK}:{listener.getsockname()[1]}"
        port = free_port()
        relay = subprocess.Popen([program, "value", f"{LOOPBACK}:{port}", peer, TURNS], stdout=subprocess.DEVNULL)
        time.sleep(0.2)
        client = started_client(program, port, f'send Locator redirect "{peer}"\nwait\n' + COMMANDS)
        answer_all(listener, order)
        ended(*client)
        relay.kill()
        return used_by(relay)[1]


ORDERS = ("in order", "reverse", "shuffled")
AIM = 1.3


def measure(given):
    fine = True
    head("microseconds for each answer", "in order", "in reverse", "shuffled", "reverse by in order", "shuffled by in order")
    for program, which in zip(programs(given), ("", ", before")):
        for name, measured in (("`tcf client`", of_client), ("`tcf value`", of_value_add)):
            first, back, mixed = in_turn([lambda order=order: measured(program, order) for order in ORDERS], given.turns)
            row(name + which, f"{first:.2f}", f"{back:.2f}", f"{mixed:.2f}", ratio(back, first), ratio(mixed, first))
            if program == given.program:
                fine &= check("at most 1.3 times one in order", max(back, mixed) <= AIM * first)
    return fine
