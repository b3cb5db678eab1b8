"""Measures what several threads in a process cost: ticks, memory, and what is looked up in a cache."""
from tool.measuring import Ran, beside, check, compared, head, head_of, played, row
from tool.peers import Agent
from tool.schedules import bound, opened, repeated

PROCESSES = 64
THREADS = 8
TICKS = 500_000
READINGS = 100_000

# addi x17, x0, 1000; (4) addi x10, x0, 20; ecall; bne x10, x0, -8; jal x0, 0: makes threads until there are 8.
# (20) addi x1, x1, 1; addi x2, x2, 1; jal x0, -8: where each of them begins.
CROWD = bytes.fromhex("9308803e1305400173000000e31c05fe6f00000093801000130111006ff09fff")
START = 'send A Processes start "" "crowd" [] [] true\nrounds 1\n'
# The instructions that make all seven, and the one that is answered with 0.
MAKING = 1 + 3 * THREADS


class Crowd(Agent):
    """An agent whose image `loop` makes seven threads more."""

    def __init__(self, program):
        super().__init__(program, code=CROWD)


def crowded(channel):
    process = channel.start()
    channel.ask("Trace", "run", f'"{process}.1"', str(MAKING))


def memories(program):
    """KiB that 63 processes more take, of 8 threads each."""
    with Crowd(program) as agent:
        channel = agent.channel()
        crowded(channel)
        one = agent.memory()
        for _ in range(PROCESSES - 1):
            crowded(channel)
        return agent.memory() - one


def without(lines, steps):
    """The processor seconds of these steps, without the lines before them."""
    return lambda program: played(program, lines + steps).seconds - played(program, lines).seconds


def alone():
    """Ticks of the one thread of a process, of a loop of three instructions."""
    return without(opened(1) + 'send A RunControl resume "P1.1" 0 1\nrounds 1\n', repeated(TICKS, "tick P1.1"))


def started(adds, processes):
    """The header of a chain with so many value-adds and so many processes of 8 threads, of which the first is suspended."""
    made = "".join(f'send A Trace run "P{number}.1" {MAKING}\nrounds 1\n' for number in range(1, processes + 1))
    return f"image crowd {CROWD.hex()}\n" + bound(adds) + START * processes + made


def among_eight():
    """Ticks of the last of 8 threads, of the same loop. The others that were made run too, but for the first."""
    return without(started(0, 1), repeated(TICKS, f"tick P1.{THREADS}"))


def readings(processes):
    """Readings of 4 bytes that a value-add answers which knows so many processes of 8 threads, all suspended."""
    lines = started(1, processes)
    for process in range(1, processes + 1):
        lines += "".join(f'send A RunControl suspend "P{process}.{thread}"\n' for thread in range(2, THREADS + 1)) + "rounds 1\n"
    get = f'send A Memory get "P{processes}" 0 1 4 0\n'
    lines += get + "rounds 1\n"
    asked = ("times 100 " + get + "rounds 1\n") * (READINGS // 100)

    def measure(program):
        whole = played(program, lines + asked, rest=b"\nhistory %d\n" % inputs(processes))
        return whole.seconds - played(program, lines).seconds
    return measure


def inputs(processes):
    """A channel, starts, traces, suspends and the one reading that comes to the agent."""
    return 1 + processes * (2 + THREADS - 1) + 1


def measure(given):
    head("", "KiB")
    fine = check("63 processes of 8 threads take less than 4 MiB", memories_told(given) < 4_096)
    head("seconds of processor time", "of the first", "of the second", "ratio", "aim")
    fine &= beside(given, f"{TICKS:,} ticks of the last of 8 threads, and of a thread alone", among_eight(), alone(), aim=1.2)
    fine &= beside(given, f"{READINGS:,} readings from a cache of 512 threads, and of 64", readings(PROCESSES), readings(8), aim=1.1)
    if given.before:
        head_of(given, "seconds", "now")
        compared(given, "`load 7`", lambda program: Ran([program, "load", 7]).seconds)
    return fine


def memories_told(given):
    found = memories(given.program)
    row(f"{PROCESSES - 1} processes of {THREADS} threads more", f"{found:,}")
    return found
