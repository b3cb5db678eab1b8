"""Debuggers that come to a `tcf hub`, ask once and go, one after the other: what the hub has resident after some, and at the end."""
from tool.measuring import check, head, processor, programs, resident, row
from tool.peers import Shared

EARLY = 1_000
MORE_KIB = 256
SYNC = ('Locator', 'sync')


def arguments(words):
    words.add_argument('--count', type=int, default=100_000)


def come_and_go(program, count):
    """KiB that a hub has resident after some debuggers and after all, and microseconds of its processor time for each."""
    with Shared(program) as peer:
        begin = processor(peer.process)
        for number in range(count):
            if number == min(EARLY, count // 2):
                early = resident(peer.process)
            channel = peer.channel()
            if not channel.ask(*SYNC).startswith(b'R'):
                return None
            channel.close()
        return early, resident(peer.process), (processor(peer.process) - begin) / count * 1e6


def measure(given):
    fine = True
    head('debuggers that come and go', f'KiB after {min(EARLY, given.count // 2):,}', 'at the end', 'microseconds for each')
    for program, which in zip(programs(given), ('', ', before')):
        found = come_and_go(program, given.count)
        if not found:
            return check('each debugger is answered', False)
        early, end, each = found
        row(f'{given.count:,}{which}', f'{early:,}', f'{end:,}', f'{each:.0f}')
        fine &= check('the memory stays as it was', end <= early + MORE_KIB) or program == given.before
    return fine
