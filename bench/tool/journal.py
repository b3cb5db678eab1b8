"""Measures journals: `tcf journal` beside `tcf chain` of the same schedule, `tcf check` beside playing what it checks, and `tcf check` of
long journals, which are made here.
"""
import tempfile
from pathlib import Path

from tool.measuring import MIB, Ran, check, compared, head, head_of, holds, in_turn, ratio, row
from tool.schedules import gets, loaded, opened, ticks

NUMBER = 7
SIZES = (1, 4, 16)
HELLO = 'hello 1 ["Locator","RunControl","Breakpoints","Memory","Registers","Processes","Trace"]\n'
WRITING, CHECKING, MEMORY = 1.2, 2, 60


class Folder:
    """Files for the runs."""

    def __init__(self, path):
        self.path = Path(path)

    def file(self, name, text):
        path = self.path / name
        path.write_bytes(text if isinstance(text, bytes) else text.encode())
        return path


def checked(program, journal):
    """The run that checks a journal, which breaks no rule."""
    ran = Ran([program, 'check', journal])
    holds('the journal breaks a rule', ran.text == b'ok\n')
    return ran


# ---- beside playing

def big_readings():
    """Readings of 65,536 bytes, so that the lines are as long as they come."""
    return (opened(1) + 'send A Memory get "P1" 0 1 65536 0\nrounds 1\n' * 180).encode()


PLAYED = (('20,000 drawn steps', lambda: loaded(NUMBER), 'ABC'), ('100,000 readings of 4 bytes', lambda: gets(100_000), 'A'),
          ('180 readings of 65,536 bytes', big_readings, 'A'))


def beside_playing(given, folder):
    """The journal of each chain: what writing it takes beside the logs, and what checking it takes beside playing."""
    head('', '`chain`', '`journal`', 'ratio', '`check`', 'ratio to `chain`', 'bytes of the journal')
    fine = True
    for what, made, chains in PLAYED:
        schedule = folder.file('schedule', made())
        for chain in chains:
            journal = folder.file('journal', Ran([given.program, 'journal', schedule, chain]).text)
            words = ([given.program, 'chain', schedule], [given.program, 'journal', schedule, chain])
            played, written, asked = in_turn([lambda: Ran(words[0]).seconds, lambda: Ran(words[1]).seconds,
                                              lambda: checked(given.program, journal).seconds], given.turns)
            row(f'{what}, chain {chain}', f'{played:.3f} s', f'{written:.3f} s', ratio(written, played), f'{asked:.3f} s',
                ratio(asked, played), f'{journal.stat().st_size:,}')
            fine &= check('at most 1.2 times as long to write', written <= WRITING * played)
            fine &= check('at most twice as long to check', asked <= CHECKING * played)
    return fine


# ---- long journals

def of_ticks(program, folder, size):
    """A journal of nearly nothing but ticks of one thread, up to so many bytes."""
    short = Ran([program, 'journal', folder.file('schedule', ticks(7)), 'A']).text.decode()
    before, line, behind = short.partition('ticked P1.1\n')
    behind = behind[behind.index('log\n'):]
    return before + line * ((size - len(before) - len(behind)) // len(line)) + behind


def of_channels(_program, _folder, size):
    """A journal of channels that open and close."""
    lines, length, number = [], 4, 0
    while True:
        two = f'opened {number}\nclosed {number}\n'
        if length + len(two) > size:
            return ''.join(lines) + 'log\n'
        lines.append(two)
        length, number = length + len(two), number + 1


def of_results(_program, _folder, size):
    """A journal of commands, each of which was executed, sent and answered."""
    inputs, log, number, length = ['opened 0\n'], [HELLO], 0, 13 + len(HELLO)
    while True:
        number += 1
        parts = ('known 0 Locator sync\n', f'sent {number} Locator sync\n', f'result {number} {number + 1}\n')
        length += sum(map(len, parts))
        if length > size:
            return ''.join(inputs) + 'log\n' + ''.join(log)
        inputs.append(parts[0])
        log += parts[1:]


LONG = (('ticks', of_ticks), ('channels that open and close', of_channels), ('commands and answers', of_results))


def long_ones(given, folder):
    head('`check` of a journal of', 'bytes', 'time', 'ns a byte', 'to the row above', 'memory', 'bytes of memory a byte')
    fine = True
    for what, made in LONG:
        earlier = None
        for size in SIZES:
            journal, most = folder.file('journal', made(given.program, folder, size * MIB)), 0

            def seconds():
                nonlocal most
                ran = checked(given.program, journal)
                most = max(most, ran.memory)
                return ran.seconds
            (middle,) = in_turn([seconds], given.turns)
            bytes_ = journal.stat().st_size
            each = middle / bytes_
            row(what, f'{bytes_:,}', f'{middle:.3f} s', f'{each * 1e9:.1f}', ratio(each, earlier), f'{most / MIB:.0f} MiB',
                f'{most / bytes_:.1f}')
            earlier = each
        fine &= check(f'at most {MEMORY} bytes of memory a byte', most <= MEMORY * bytes_)
    return fine


def measure(given):
    with tempfile.TemporaryDirectory() as path:
        folder = Folder(path)
        fine = beside_playing(given, folder)
        fine &= long_ones(given, folder)
        if given.before:
            schedule = folder.file('schedule', loaded(NUMBER))
            journal = folder.file('journal', Ran([given.program, 'journal', schedule, 'A']).text)
            head_of(given, 'of 20,000 drawn steps', 'now')
            compared(given, '`journal`', lambda program: Ran([program, 'journal', schedule, 'A']).seconds, '{:.3f} s')
            compared(given, '`check`', lambda program: checked(program, journal).seconds, '{:.3f} s')
    return fine
