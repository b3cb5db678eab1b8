"""Measures one request at a time, by clients in C, so that what is measured is the agent and the system and not a client in Python.

requests.c asks `tcf agent`, and gdb_requests.c gdbserver, where that is installed, for 4 bytes of memory in the same way.
"""
import re
import shutil
import subprocess
import sys
import tempfile

from tool.measuring import compiled, head, processor, programs, ratio, row
from tool.peers import LOOPBACK, Agent, connected, free_port

EACH = re.compile(r'(\d+) requests in .*, ([\d.]+) microseconds each')


def arguments(words):
    words.add_argument('--count', type=int, default=60_000)


def asked(client, port, count, *more):
    """Microseconds for each request, by the clock."""
    ran = subprocess.run([client, LOOPBACK, str(port), str(count), *more], stdout=subprocess.PIPE, text=True)
    found = EACH.match(ran.stdout)
    if ran.returncode or not found:
        sys.exit('bench: a request was refused')
    return float(found[2])


def of_agent(program, client, count, *more):
    """Microseconds for each request to an agent: by the clock, and of its processor time."""
    with Agent(program) as agent:
        connected(agent.port).close()
        before = processor(agent.process)
        each = asked(client, agent.port, count, *more)
        return each, (processor(agent.process) - before) / count * 1e6


def of_gdbserver(client, count):
    port = free_port()
    server = subprocess.Popen(['gdbserver', '--once', f'{LOOPBACK}:{port}', '/bin/sleep', '600'], stdout=subprocess.DEVNULL,
                              stderr=subprocess.PIPE, text=True)
    try:
        for line in server.stderr:
            if line.startswith('Listening'):
                break
        before = processor(server)
        each = asked(client, port, count)
        return each, (processor(server) - before) / count * 1e6
    finally:
        server.kill()
        server.wait()


def measure(given):
    with tempfile.TemporaryDirectory() as folder:
        ours, theirs = compiled('requests.c', folder), compiled('gdb_requests.c', folder)
        head('microseconds for a request', 'by the clock', 'of processor time', 'by the first row')
        kinds = [('memory reads of 4 bytes' + which, lambda program=program: of_agent(program, ours, given.count, 'loop'))
                 for program, which in zip(programs(given), ('', ', before'))]
        kinds.append(('`Locator sync`', lambda: of_agent(given.program, ours, given.count)))
        if shutil.which('gdbserver'):
            kinds.append(('memory reads of gdbserver', lambda: of_gdbserver(theirs, given.count)))
        found = [[] for _ in kinds]
        for _ in range(given.turns):
            for (_, measured), figures in zip(kinds, found):
                figures.append(measured())
        middle = [[sorted(column)[len(column) // 2] for column in zip(*figures)] for figures in found]
        for (what, _), (clock, own) in zip(kinds, middle):
            row(what, f'{clock:.2f}', f'{own:.2f}', ratio(own, middle[0][1]))
