"""Measures what counts of hits cost: ticks beside a breakpoint that isn't hit, and ticks that hit one that is ignored.

An earlier program need not count hits: ticks that hit nothing are compared with it.
"""
from tool.measuring import MIB, compared, head, head_of, holds, in_turn, played, ratio, row
from tool.pages import RESUME
from tool.schedules import bound, opened, repeated
from tool.threads import without

IDLE = 500_000
HITS = 20_000
# So many in a round, and so many rounds until all that is told has come.
ROUND = 2_000
SESSION = 490 * 2_030

# The breakpoint that is hit stands on the first of the three instructions of the loop, the other one behind them.
HIT, ELSEWHERE = 0, 400
IGNORED = 'send A Breakpoints add {"ID":"b","Location":"%d","Enabled":true,"IgnoreCount":1000000}\nrounds 1\n'


def header(chains, place):
    return opened(chains) + IGNORED % place + RESUME


def hitting(chains, place):
    """Ticks beside an ignored breakpoint at this place, of which each third one stands at the first instruction."""
    ticks = ("times %d tick P1.1\nrounds 8\n" % ROUND) * (3 * HITS // ROUND)
    return without(header(chains, place), ticks)


def idle(lines):
    return without(lines + RESUME, repeated(IDLE, "tick P1.1"))


def session(program):
    """A run of a session whose one instruction, a jump to itself, hits a breakpoint each time. In the end two clients have the right
    count, and a value-add answers it without the target."""
    start = "image loop 6f000000\nchain B 0\n" + bound(1) + 'open B\nrounds 1\nsend A Processes start "" "loop" [] [] true\n'
    ticks = ("times 2030 tick P1.1\nrounds 8\n") * (SESSION // 2_030)
    ask = 'rounds 8\ncached A status b\ncached B status b\nsend A Breakpoints getStatus "b"\nrounds 1\n'
    count = b'{"Instances":[{"Address":0,"HitCount":%d,' % SESSION
    position = b"%d" % (5 + SESSION)
    ran = played(program, start + IGNORED % HIT + RESUME + ticks + ask, rest=b"result 5 %s - %s" % (position, count))
    holds("another count in a client", ran.text.count(b"cached status b " + count) == 2)
    holds("the target was asked", ran.text.rstrip().endswith(b"history %s" % position))
    return ran


def measure(given):
    head("", "a tick that hits nothing", "one that hits an ignored breakpoint", "ratio")
    for chains in (1, 64):
        none, hit = hitting(chains, ELSEWHERE), hitting(chains, HIT)
        far, near = in_turn([lambda: none(given.program), lambda: hit(given.program)], given.turns)
        plain = far / (3 * HITS)
        each = (near - far) / HITS + plain
        row(f"{chains} chains", f"{plain * 1e6:.2f} us", f"{each * 1e6:.2f} us", ratio(each, plain))
    ran = session(given.program)
    head("a session", "time", "memory")
    row(f"{SESSION:,} hits", f"{ran.seconds:.1f} s", f"{ran.memory / MIB:.0f} MiB")
    if given.before:
        head_of(given, "ticks that hit nothing", "now")
        point = 'send A Breakpoints add {"ID":"b","Location":"%d","Enabled":true}\nrounds 1\n' % ELSEWHERE
        for what, lines in (("no breakpoint", opened(1)), ("a breakpoint elsewhere", opened(1) + point)):
            compared(given, f"{IDLE:,} ticks, {what}", idle(lines), "{:.3f} s")
