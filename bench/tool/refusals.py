"""Refuses each allocation of `tcf chain` in turn, one a run, on the schedules of data/.

The allocator is refusals.c, which is built with cc and preloaded. Each run has to end with status 7, with a front of the schedule's
output, or to put all of that output and to end as the run does to which nothing is refused. Of a schedule with more than N allocations
every K-th one is refused, with the least K by which N are enough. With --all-later each run is refused all later allocations, too.
"""
import os
import subprocess
import tempfile
import time
from concurrent.futures import ThreadPoolExecutor
from pathlib import Path

from tool.measuring import HERE, check, compiled

DATA = HERE / 'data'
SCHEDULES = ['exception.schedule', 'held.schedule', 'session.schedule']


def run(program, library, schedule, at, all_later=False, told=None):
    env = {'LD_PRELOAD': str(library), 'REFUSALS_AT': str(at)}
    if all_later:
        env['REFUSALS_ALL'] = '1'
    if told:
        env['REFUSALS_TOLD'] = str(told)
    return subprocess.run([program, 'chain', str(schedule)], stdin=subprocess.DEVNULL, stdout=subprocess.PIPE,
                          stderr=subprocess.PIPE, env=env, timeout=120)


def refused(program, library, schedule, most, all_later, folder):
    begin = time.perf_counter()
    whole = subprocess.run([program, 'chain', str(schedule)], stdin=subprocess.DEVNULL, stdout=subprocess.PIPE)
    told = Path(folder) / 'told'
    counted = run(program, library, schedule, 0, told=told)
    count = int(told.read_text())
    step = max(1, -(-count // most))
    numbers = range(1, count + 1, step)

    def one(at):
        ran = run(program, library, schedule, at, all_later)
        if ran.returncode == 7 and whole.stdout.startswith(ran.stdout) and not ran.stderr:
            return 'refused'
        if ran.returncode == whole.returncode and ran.stdout == whole.stdout and not ran.stderr:
            return 'unbroken'
        return f'allocation {at}: status {ran.returncode}, {len(ran.stdout)} bytes of output'

    with ThreadPoolExecutor(max(1, (os.cpu_count() or 1) // 2)) as pool:
        ends = list(pool.map(one, numbers))
    wrong = [end for end in ends if end not in ('refused', 'unbroken')]
    fine = counted.stdout == whole.stdout and whole.returncode == 0 and not wrong
    fine &= count > 0
    how = 'refused with all later ones' if all_later else 'refused'
    return check(f'{Path(schedule).name}: {count:,} allocations, {"each" if step == 1 else f"one in {step}"} {how} in a run of its '
                 f'own: status 7 {ends.count("refused"):,} times, the unbroken output {ends.count("unbroken"):,} times, else '
                 f'{len(wrong):,} times ({time.perf_counter() - begin:.1f} s)' + ''.join(f'\n     {end}' for end in wrong[:5]), fine)


def arguments(words):
    words.add_argument('schedules', nargs='*', metavar='SCHEDULE')
    words.add_argument('--most', type=int, default=20_000)
    words.add_argument('--all-later', action='store_true')


def measure(given):
    with tempfile.TemporaryDirectory() as folder:
        library = compiled('refusals.c', folder, '-shared', '-fPIC', '-ldl')
        schedules = given.schedules or [DATA / name for name in SCHEDULES]
        return all([refused(given.program, library, schedule, given.most, given.all_later, folder) for schedule in schedules])
