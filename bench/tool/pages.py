"""Measures memory in pages that processes share, and breakpoints that are found by their address.

An earlier program need not know multiplication. Where gcc for RISC-V is installed, SHA-256 of 4,096 bytes (programs/sha256.c) is
executed too.
"""
import pathlib
import shutil
import subprocess
import tempfile

from tool.measuring import HERE, TOP, alone, check, compared, head_of, played
from tool.peers import IMAGE, Agent
from tool.schedules import opened, repeated

LONG = 32 * 1024
PROCESSES = 64
TICKS = 500_000
HITS = 20_000
STARTS = 2_000
GETS = 200

# The loop of `opened` stands at 0, 4 and 8: addi x1, x1, 0; .. ; jal back. No thread gets to 4,096 and what is behind.
ELSEWHERE = 4_096


class LongImage(Agent):
    """An agent whose image `loop` has 32 KiB."""

    def __init__(self, program):
        super().__init__(program, code=IMAGE.ljust(LONG, b"\x13"))


def written(channel):
    """Starts a process, and puts a byte into three of its pages."""
    process = channel.start()
    for address in (0, 4_096, 40_000):
        channel.ask("Memory", "set", f'"{process}"', str(address), "1", "1", "0", '"AQ=="')


def memories(program):
    """KiB that 63 processes more take, each with three pages written."""
    with LongImage(program) as agent:
        channel = agent.channel()
        written(channel)
        one = agent.memory()
        for _ in range(PROCESSES - 1):
            written(channel)
        return agent.memory() - one


def points(addresses):
    """The lines that set an enabled breakpoint at each of these."""
    add = 'send A Breakpoints add {"ID":"b%d","Location":"%d","Enabled":true}\nrounds 1\n'
    return "".join(add % row for row in enumerate(addresses))


RESUME = 'send A RunControl resume "P1.1" 0 1\nrounds 1\n'


def ticks_beside(count):
    """The processor seconds of ticks beside so many enabled breakpoints, without setting them."""
    lines = opened(1) + points(range(ELSEWHERE, ELSEWHERE + 4 * count, 4)) + RESUME
    return lambda program: played(program, lines + repeated(TICKS, "tick P1.1")).seconds - played(program, lines).seconds


def hitting(count):
    """Ticks of which every second one comes to a place with so many breakpoints."""
    lines = opened(1) + points([4] * count)
    return lines + (RESUME + "times 4 tick P1.1\n") * (HITS // 10)


def tracing():
    """Instructions by Trace, without their ticks."""
    return opened(1) + 'times 100 send A Trace run "P1.1" 64\nrounds 1\n' * (TICKS // 6_400)


def starting():
    start = 'send A Processes start "" "loop" [] [] true\nrounds 1\n'
    lines = opened(1)
    for number in range(2, STARTS + 2):
        lines += start + 'send A RunControl terminate "P%d"\nrounds 1\n' % number
    return lines


def reading():
    return opened(1) + 'send A Memory get "P1" 0 1 65536 0\nrounds 1\n' * GETS


GCC = "riscv64-unknown-elf-gcc"
# More than there are: with -march=rv32i it takes 462,062 instructions.
SHA_TICKS = 470_000


def sha256(march):
    """The image of programs/sha256.c, for these instructions."""
    with tempfile.TemporaryDirectory() as folder:
        elf, image = f"{folder}/sha.elf", pathlib.Path(folder) / "sha.bin"
        sources = [f"{TOP}/examples/program/start.S", f"{HERE}/programs/sha256.c", "-lgcc"]
        flags = [f"-march={march}", "-mabi=ilp32", "-O2", "-ffreestanding", "-nostdlib", "-T", f"{HERE}/programs/program.ld",
                 "-Wl,--no-warn-rwx-segments"]
        subprocess.run([GCC, *flags, *sources, "-o", elf], check=True)
        subprocess.run([GCC.replace("gcc", "objcopy"), "-O", "binary", elf, image], check=True)
        return image.read_bytes()


def hashing(march, traced):
    """SHA-256, by Trace or by ticks."""
    lines = f"image sha {sha256(march).hex()}\nchain A 0\nopen A\nrounds 1\n"
    lines += 'send A Processes start "" "sha" [] [] true\nrounds 1\n'
    if traced:
        return lines + 'times 50 send A Trace run "P1.1" 64\nrounds 1\n' * (SHA_TICKS // 3_200)
    return lines + RESUME + repeated(SHA_TICKS, "tick P1.1") + "rounds 1\n"


def hashed(march, traced):
    def measure(program):
        return played(program, hashing(march, traced), rest=b'"P1" 1760392434').seconds
    return measure


def seconds(schedule):
    return lambda program: played(program, schedule).seconds


MEASURES = (
    (f"{TICKS:,} ticks, no breakpoint", ticks_beside(0)),
    ("the same with 256 enabled breakpoints elsewhere", ticks_beside(256)),
    (f"{HITS // 10:,} hits of 1 breakpoint, and as many resumes", seconds(hitting(1))),
    ("the same of 16 breakpoints", seconds(hitting(16))),
    (f"{TICKS:,} instructions by `Trace run`", seconds(tracing())),
    (f"{STARTS:,} starts, and as many ends", seconds(starting())),
    (f"{GETS} readings of 65,536 bytes", seconds(reading())),
)
WAYS = (("`Trace run`", True), ("ticks", False))


def measure(given):
    head_of(given, "", "now")
    most = compared(given, "KiB that 63 processes of an image of 32 KiB take, three pages of each written", memories, "{:,.0f}")
    figures = [compared(given, what, measured, "{:.3f} s") for what, measured in MEASURES]
    if shutil.which(GCC):
        for march, figure in (("rv32i", compared), ("rv32im", alone)):
            for way, traced in WAYS:
                figure(given, f"SHA-256 of 4,096 bytes by {way}, {march}", hashed(march, traced), "{:.3f} s")
    fine = check("below 3 MiB", most < 3 * 1024)
    return fine & check("ticks beside 256 breakpoints take at most 1.2 times as long", figures[1] <= 1.2 * figures[0])
