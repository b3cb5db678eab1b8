"""Starts processes from ELF files that are right, wrong in one way, or mutated, and measures such a start.

What has to come of each file is said by a reader of ELF files in this module, which goes by the System V ABI and docs/TARGET.md, "ELF
files", and never by the program. Files that are wrong in one way, and many mutations of a good one, are images of agents on loopback.
Each file is started, and its pc and all its memory are compared; behind it a `Locator sync` and a start of the good file have to be
answered as ever. At last starts from an ELF file of 64 KiB are measured beside starts from raw bytes.
"""
import base64
import collections
import json
import random
import shutil
import statistics
import struct
import subprocess
import tempfile
import time
from pathlib import Path

from tool.measuring import busy, check, head, played, ratio, row
from tool.pages import GCC
from tool.peers import LOOPBACK, TURNS, Agent, free_port

MEMORY = 65_536
MAGIC = b'\x7fELF'


# ---- the reader

# a field's place, its bytes, and the numbers that are taken: class, data, version; type, machine, version; sizes and a count
FIXED = ((4, 1, (1,)), (5, 1, (1,)), (6, 1, (1,)), (16, 2, (2,)), (18, 2, (243,)), (20, 4, (1,)), (40, 2, (52,)), (42, 2, (32,)),
         (44, 2, range(65)))


def number(file, place, size=4):
    return int.from_bytes(file[place:place + size], 'little')


def segments(file):
    """The program headers of type 1 with bytes in memory: address, bytes in memory, offset, bytes in the file."""
    table, count = number(file, 28), number(file, 44, 2)
    headers = [struct.unpack_from('<6I', file, table + 32 * index) for index in range(count)]
    return [(address, size, offset, stored) for kind, offset, address, _, stored, size in headers if kind == 1 and size]


def verdict(file):
    """The first fault of an ELF file, or None."""
    if len(file) < 52:
        return 'Short'
    if any(number(file, place, size) not in taken for place, size, taken in FIXED):
        return 'Header'
    if number(file, 44, 2) and number(file, 28) + 32 * number(file, 44, 2) > len(file):
        return 'Short'
    for address, size, offset, stored in segments(file):
        if stored > size or (stored and offset + stored > len(file)) or address + size > MEMORY:
            return 'Segment'
    end = 0
    for address, size, _, _ in sorted(segments(file)):
        if address < end:
            return 'Overlap'
        end = address + size
    return 'Entry' if number(file, 24) % 4 or number(file, 24) >= MEMORY else None


def memory(file):
    """The memory of an ELF file without a fault."""
    whole = bytearray(MEMORY)
    for address, _, offset, stored in segments(file):
        whole[address:address + stored] = file[offset:offset + stored]
    return bytes(whole)


def wanted(image):
    """What has to come of a start: 0 or the code of an error report, the pc, and all memory as a get tells it."""
    is_elf = image.startswith(MAGIC)
    if code := bool(verdict(image)) if is_elf else 15 * (len(image) > MEMORY):
        return code, None, None
    bytes_ = memory(image) if is_elf else image.ljust(MEMORY, b'\0')
    return 0, number(image, 24) if is_elf else 0, b'"' + base64.b64encode(bytes_) + b'"'


# ---- files

def built(headers, rest, entry=0x200):
    """A file of 52 bytes, of program headers (type, offset, address, bytes in the file, bytes in memory), and of the rest."""
    head = struct.pack('<HHIIIIIHHHHHH', 2, 243, 1, entry, 52, 0, 0, 52, 32, len(headers), 40, 0, 0)
    rows = [struct.pack('<8I', kind, offset, address, address, *sizes, 7, 4) for kind, offset, address, *sizes in headers]
    return MAGIC + bytes([1, 1, 1]) + bytes(9) + head + b''.join(rows) + rest


# Code, and data on both sides of 0x4000 with zeros behind it. A header of another type fills the table up.
BODY = bytes.fromhex('13000000 93801000 130111006ff09fff') + b'some data'
AT = 52 + 3 * 32
SIZE = AT + len(BODY)
CODE, DATA, NOTE = (1, AT, 0x1fc, 16, 16), (1, AT + 16, 0x3ffd, 9, 300), (0x70000003, 60, 0x1fc, 20, 20)
TOP = 2**32


def with_segments(*others, entry=0x200):
    return built([CODE, *others, *[NOTE] * (2 - len(others))], BODY, entry)


GOOD = with_segments(DATA)


def with_number(file, place, size, value):
    return file[:place] + (value % 256 ** size).to_bytes(size, 'little') + file[place + size:]


EDGES = (0, 1, 2, 3, 4, 31, 32, 33, 51, 52, 53, 62, 63, 64, 65, 127, 242, 243, 244, 255, 256, 65_532, 65_535, 65_536, 65_537, TOP // 2,
         TOP - 32, TOP - 4, TOP - 1)


def wrong_fields():
    return [with_number(GOOD, place, size, value) for place, size, taken in FIXED for value in EDGES
            if value < 256 ** size and value not in taken]


def at_edges():
    """Files with segments, tables and entries that are wrong, many by one byte, and with some that are right by one."""
    ends = [(1, AT, 0x20b, 4, 4), (1, AT, 0x20c, 4, 4), (1, AT, 0x1f0, 8, 13), (1, AT, 0x1f0, 8, 12), CODE, (1, 0, 0, 0, MEMORY),
            (1, AT, MEMORY - 6, 6, 6), (1, AT, MEMORY - 6, 7, 7), (1, AT, MEMORY - 6, 1, 7), (1, AT, MEMORY, 0, 1),
            (1, SIZE - 4, 0x800, 4, 4), (1, SIZE - 4, 0x800, 5, 5), (1, SIZE + 9, 0x800, 0, 9), (1, SIZE + 9, 0x800, 1, 9), (1, AT, 0x800, 9, 8)]
    wraps = [(1, AT, TOP - 4, 4, 8), (1, AT, TOP - 4, 4, 4), (1, TOP - 4, 0x800, 8, 8), (1, TOP - 4, 0x800, 4, 4), (1, AT, 1, TOP - 1, TOP - 1),
             (1, AT, 0x800, 4, TOP - 0x800), (1, TOP - 1, TOP - 1, TOP - 1, 0)]
    files = [with_segments(*before, segment) for segment in ends + wraps for before in ((), (DATA,))]
    files += [with_segments((1, AT, 0x8000, 8, 9), (1, AT, 0x7ff8, 8, size)) for size in (8, 9)]
    files += [built([CODE] + [NOTE] * (count - 1), bytes(SIZE)) for count in (64, 65)]
    files += [with_number(built([], b''), 28, 4, TOP - 1), GOOD + bytes(MEMORY)]
    files += [with_number(GOOD, 28, 4, place) for place in (SIZE - 96, SIZE - 95, TOP - 96, TOP - 44, TOP - 32, TOP - 1)]
    return [GOOD, *files] + [with_segments(DATA, entry=entry) for entry in (1, 2, 3, 0x1fe, 0x1ff, *EDGES[-8:])]


def linked():
    """What gcc links from 0 on, and where nobody tells it the addresses."""
    with tempfile.TemporaryDirectory() as folder:
        for more in (['-Ttext=0'], []):
            words = ['-march=rv32i', '-mabi=ilp32', '-nostdlib', *more, '-x', 'c', '-', '-o', f'{folder}/main.elf']
            subprocess.run([GCC, *words], input=b'int n = 9; void _start(void) { for (;;) n++; }', check=True)
            yield Path(folder, 'main.elf').read_bytes()


# ---- starts

class Images(Agent):
    """An agent with these images, which are named by their places."""

    def __init__(self, program, images):
        self.port, self.folder, words = free_port(), tempfile.TemporaryDirectory(), []
        for place, image in enumerate(images):
            path = Path(self.folder.name, str(place))
            path.write_bytes(image)
            words.append(f'{place}={path}')
        self.process = subprocess.Popen([program, 'agent', f'{LOOPBACK}:{self.port}', TURNS, *words], stdout=subprocess.DEVNULL)


def start(channel, name):
    return channel.command('Processes', 'start', '""', f'"{name}"', '[]', '[]', 'true')


def asked(channel, steps):
    """Commands that start each image, end the process that has to be there, and read its memory before; and a sync."""
    process, commands = 0, []
    for name, (code, _, bytes_) in steps:
        commands.append(start(channel, name))
        process += code == 0
        if bytes_ is not None:
            commands.append(channel.command('Memory', 'get', f'"P{process}"', '0', '1', str(MEMORY), '0'))
        if code == 0:
            commands.append(channel.command('RunControl', 'terminate', f'"P{process}"'))
        commands.append(channel.command('Locator', 'sync'))
    return b''.join(commands)


def came(channel):
    """What came of one start, in the form of `wanted`, up to the answer of its sync."""
    pc, answers = None, []
    while not answers or len(answers[-1]) > 3:
        message = channel.message().split(b'\0')
        if message[0] == b'E' and message[2] == b'contextSuspended':
            pc = int(message[4])
        elif message[0] == b'R':
            answers.append(message)
    code = json.loads(answers[0][2])['Code'] if answers[0][2] else 0
    return code, pc, answers[1][2] if len(answers) == 4 else None


def differing(program, images):
    """Those of the images of which something else comes than has to, or of the good file that is started behind each."""
    wants, good = [wanted(image) for image in images], (*wanted(GOOD)[:2], None)
    with Images(program, [*images, GOOD]) as agent:
        channel = agent.channel()
        channel.socket.sendall(asked(channel, [step for place, want in enumerate(wants) for step in ((place, want), (len(images), good))]))
        return [image for image, want in zip(images, wants) if [came(channel), came(channel)] != [want, good]]


def told(what, images, wrong):
    """How many have which fault, and how many start; and the first that isn't as it has to be."""
    kinds = collections.Counter(verdict(image) or 'started' if image.startswith(MAGIC) else 'no ELF file' for image in images)
    what += ': ' + ', '.join(f'{name} {count:,}' for name, count in kinds.most_common())
    return check(what + (f'\n     but {len(wrong)}, the first is {wrong[0].hex()}' if wrong else ''), not wrong)


# ---- mutated

FIELDS = ([(place, 1) for place in (4, 5, 6, 7)] + [(16, 2), (18, 2), (20, 4), (24, 4), (28, 4)] + [(place, 2) for place in range(40, 52, 2)]
          + [(place, 4) for place in range(52, AT, 4)] * 2)


def other_number(dice, file, place, size):
    """A number for a field that is near its own, near the file's size or another field, or at an edge."""
    old, another = number(file, place, size), number(file, *dice.choice(FIELDS))
    return dice.choice((dice.choice(EDGES), old + dice.choice((-256, -4, -1, 1, 4, 256)), old ^ 1 << dice.randrange(8 * size),
                        len(file) + dice.randrange(-1, 2), another + dice.randrange(-16, 17), MEMORY - another + dice.randrange(-1, 2)))


def mutated(dice):
    """The good file with one to three changes: a number in a field; bytes changed, taken out or put in; a cut or a tail."""
    file = GOOD
    for _ in range(dice.choice((1, 1, 2, 3))):
        how, at, some = dice.randrange(12), dice.randrange(len(file) + 1), dice.randbytes(dice.randrange(1, 9))
        if how < 8:
            place, size = dice.choice(FIELDS)
            file = with_number(file, place, size, other_number(dice, file, place, size))
        else:
            file = (file[:at] + some + file[at + len(some):], file[:at] + file[at + len(some):], file[:at] + some + file[at:],
                    file[:at] if dice.randrange(2) else file + bytes(dice.randrange(999)))[how - 8]
    return file


def mutations(program, count, batch, seed):
    dice, begin, wrong = random.Random(seed), busy() + time.process_time(), []
    images = [mutated(dice) for _ in range(count)]
    for first in range(0, count, batch):
        wrong += differing(program, images[first:first + batch])
    return told(f'{count:,} mutations, {busy() + time.process_time() - begin:.0f} s of processor time', images, wrong)


# ---- measured

def long_images():
    """An ELF file of 65,536 bytes, nearly all of them one segment, and as many bytes that are no ELF file."""
    code = BODY[:16].ljust(MEMORY - 84, b'\x13')
    return built([(1, 84, 0, len(code), len(code))], code, entry=0), code.ljust(MEMORY, b'\x13')


def over_a_socket(program, pairs):
    """The medians of a start and its end, in microseconds, of the two images in turn."""
    with Images(program, long_images()) as agent:
        channel, times = agent.channel(), ([], [])
        for turn in range(2 * pairs):
            begin = time.perf_counter()
            channel.socket.sendall(start(channel, turn % 2))
            channel.answer(channel.token)
            channel.ask('RunControl', 'terminate', f'"P{turn + 1}"')
            times[turn % 2].append((time.perf_counter() - begin) * 1e6)
    return [statistics.median(found) for found in times]


def in_schedules(program, pairs, turns):
    """The same of processor time, by schedules with so many starts of one image, without what they take that have none."""
    pair = 'send A Processes start "" "i" [] [] true\nsend A RunControl terminate "P%d"\nrounds 1\n'
    rows, times = ''.join(pair % process for process in range(1, pairs + 1)), ([], [])
    for _ in range(turns):
        for image, found in zip(long_images(), times):
            lines = f'image i {image.hex()}\nchain A 0\nopen A\nrounds 1\n'
            found.append((played(program, lines + rows).seconds - played(program, lines).seconds) / pairs * 1e6)
    return [statistics.median(found) for found in times]


def measured(what, elf, raw):
    row(what, f'{elf:.1f}', f'{raw:.1f}', ratio(elf, raw))
    return check('at most twice as long', elf <= 2 * raw)


def arguments(words):
    for name, default in (('--mutations', 100_000), ('--seed', 1), ('--batch', 250), ('--pairs', 2_000)):
        words.add_argument(name, type=int, default=default)


def measure(given):
    program = given.program
    others = [with_number(GOOD, place, 1, 0) for place in range(4)] + [bytes(MEMORY), bytes(MEMORY + 1)]
    groups = [('another number in a fixed field', wrong_fields()), ('cut at each byte', [GOOD[:size] for size in range(SIZE)]),
              ('segments, tables and entries at edges', at_edges()), ('other first bytes', others)]
    if shutil.which(GCC):
        groups.append(('linked by gcc', list(linked())))
    else:
        print(f'     no {GCC}, so what it links is left out')
    fine = all([told(what, images, differing(program, images)) for what, images in groups])
    fine &= mutations(program, given.mutations, given.batch, given.seed)
    head('microseconds for a start and its end', 'an ELF file', 'raw bytes', 'ratio')
    fine &= measured('over a socket', *over_a_socket(program, given.pairs))
    return fine & measured('of processor time, in schedules', *in_schedules(program, given.pairs, given.turns))
