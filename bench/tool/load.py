"""Measures `tcf load 7`, which draws and plays 20,000 steps, beside `tcf show` of all messages that its hops carried."""
import tempfile
from pathlib import Path

from tool.measuring import Ran, head, holds, in_turn, programs, ratio, row
from tool.schedules import carried, loaded

NUMBER = 7


def measure(given):
    with tempfile.TemporaryDirectory() as folder:
        schedule, stream = Path(folder) / 'load.schedule', Path(folder) / 'stream'
        schedule.write_bytes(loaded(NUMBER))
        log = Ran([given.program, 'chain', schedule]).text
        stream.write_bytes(carried(log))
        messages = Ran([given.program, 'show', stream]).text.count(b'\n')

        def load(program):
            ran = Ran([program, 'load', NUMBER])
            holds('another history', ran.text.splitlines()[-1] == log.splitlines()[-1])
            return ran.seconds
        one, shown, *before = in_turn([lambda: load(given.program), lambda: Ran([given.program, 'show', stream]).seconds,
                                       *(lambda program=program: load(program) for program in programs(given)[1:])], given.turns)
        head('`load 7`', 'time', f'`show` of its {messages:,} messages', 'ratio', *(['before', 'ratio'] if given.before else []))
        row('20,000 steps', f'{one:.3f} s', f'{shown:.3f} s', ratio(one, shown), *(f'{time:.3f} s | {ratio(one, time)}' for time in before))
