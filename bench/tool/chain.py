"""Measures `tcf chain` on long schedules."""
from tool.measuring import head, in_turn, played, programs, ratio, row
from tool.schedules import (SIZE, asks, asks_beside, asks_in_turn, comments, forgets, gets, hears, learns, one_line, pending, pieces,
                            through, ticks)

BAD_TEXT = 2
NEWLINE = b'\n'
ANSWERED = (('the agent answers each of 100,000 readings', 0, 0), ('the same through a value-add, of a thread that runs', 1, 1),
            ('through a value-add, of a suspended thread: the value-add answers', 1, 0))
BESIDE = ((36, 1, 0), (1_008, 28, 0), (2_816, 64, 256))
IN_TURN = (('the agent answers 100,000 readings of 64 ranges', 0, 64), ('a value-add those of 1 range', 1, 1),
           ('of 64 ranges, all known', 1, 64), ('of 65 ranges, none known: the agent', 1, 65))


def group(given, rows):
    """Plays named schedules, each beside the earlier program, and says how much longer each takes than the one before it."""
    earlier = None
    for what, schedule, *inputs in rows:
        ran = {}

        def seconds(program):
            status = BAD_TEXT if what.startswith('one line') else 0
            rest = b'\nhistory %d\n' % inputs[0] if inputs else b''
            ran[program] = played(program, schedule, rest=rest or b'\n', status=status)
            return ran[program].seconds
        middle = in_turn([lambda program=program: seconds(program) for program in programs(given)], given.turns)
        one = ran[given.program]
        row(what, f'{len(schedule):,}', f'{middle[0]:.3f} s', f'{one.memory / 1e6:.0f} MB', f'{one.text.count(NEWLINE):,}',
            ratio(middle[0], earlier), *([f'{middle[1]:.3f} s', ratio(*middle)] if given.before else []))
        earlier = middle[0]


def measure(given):
    head('schedule', 'bytes', 'time', 'memory', 'lines of output', 'to the row above', *(['before', 'ratio'] if given.before else []))
    sizes = (SIZE // 4, SIZE // 2, SIZE)
    group(given, [('comments', comments(size)) for size in sizes])
    group(given, [('one line, which is refused', one_line(size)) for size in sizes])
    group(given, [(f'{count:,} readings of 4 bytes, 100 in a round', gets(count)) for count in (100_000, 200_000, 400_000)])
    group(given, [(f'10,000 resumes and suspends, heard by {count} chains', hears(count, 10_000)) for count in (1, 64)])
    for way in ('up', 'down'):
        group(given, [(f'half a MiB {way} in pieces of {piece:,}', pieces(way, piece)) for piece in (65_536, 100, 1)])
    group(given, [(f'100,000 answers, {count} processes known', learns(count, 100_000)) for count in (1, 64)])
    group(given, [(f'10,000 resumes and suspends, {count} processes known', forgets(count, 10_000)) for count in (1, 64)])
    group(given, [(f'100,000 commands through {adds} value-adds', through(adds, 100_000)) for adds in (0, 1, 4, 16)])
    group(given, [(f'102,400 commands, {some:,} pending at once', pending(some, 102_400)) for some in (1, 100, 1_024)])
    group(given, [(what, *asks(adds, runs, 100_000)) for what, adds, runs in ANSWERED])
    group(given, [(f'a value-add answers that knows {facts:,} facts', *asks_beside(processes, points, 100_000))
                  for facts, processes, points in BESIDE])
    group(given, [(what, *asks_in_turn(adds, ranges, 100_000)) for what, adds, ranges in IN_TURN])
    group(given, [(f'{count:,} steps, nearly all ticks', ticks(count)) for count in (250_000, 500_000, 1_000_000)])
