"""What all measures share: processor time, runs that alternate, memory, and rows of a table."""
import os
import resource
import statistics
import subprocess
import sys
import tempfile
from pathlib import Path

HERE = Path(__file__).resolve().parent
TOP = HERE.parent.parent
MIB = 1_048_576


def built():
    """Builds the program, which proves it, and gives its path."""
    crate = TOP / 'crates' / 'tcf'
    subprocess.run(['rt', 'run'], cwd=crate, stdout=subprocess.DEVNULL, check=True)
    return crate / 'out' / 'tcf'


def compiled(source, folder, *more):
    """A C program or library beside this file, in the folder."""
    made = Path(folder) / Path(source).stem
    subprocess.run(['cc', '-O2', '-Wall', '-o', str(made), str(HERE / source), *more], check=True)
    return str(made)


# ---- processor time and memory

def busy():
    """The processor seconds of all processes that were started and have ended."""
    used = resource.getrusage(resource.RUSAGE_CHILDREN)
    return used.ru_utime + used.ru_stime


def processor(process):
    """The processor seconds that a process took so far."""
    fields = Path(f'/proc/{process.pid}/stat').read_text().rsplit(')', 1)[1].split()
    return (int(fields[11]) + int(fields[12])) / os.sysconf('SC_CLK_TCK')


def resident(process):
    """KiB that a process has resident now."""
    for line in Path(f'/proc/{process.pid}/status').read_text().splitlines():
        if line.startswith('VmRSS'):
            return int(line.split()[1])


class Ran:
    """A run that has ended: its processor seconds, its greatest resident memory in bytes, and its output."""

    def __init__(self, words, status=0):
        with tempfile.TemporaryFile() as output:
            process = subprocess.Popen([str(word) for word in words], stdin=subprocess.DEVNULL, stdout=output)
            _, ended, used = os.wait4(process.pid, 0)
            process.returncode = os.waitstatus_to_exitcode(ended)
            output.seek(0)
            self.text = output.read()
        if process.returncode != status:
            sys.exit(f'bench: {" ".join(map(str, words))} ended with status {process.returncode}, and not {status}')
        self.seconds, self.memory = used.ru_utime + used.ru_stime, used.ru_maxrss * 1024


def holds(what, is_so):
    """Ends the measure where the program did something else than was to be measured."""
    if not is_so:
        sys.exit(f'bench: {what}')


def played(program, schedule, rest=None, status=0):
    """A run that plays a schedule. Nothing of it is refused, or this comes in its output."""
    with tempfile.NamedTemporaryFile(suffix='.schedule') as file:
        file.write(schedule if isinstance(schedule, bytes) else schedule.encode())
        file.flush()
        ran = Ran([program, 'chain', file.name], status)
    holds('something of the schedule was refused', rest in ran.text if rest else b'"Code"' not in ran.text)
    return ran


# ---- runs that alternate

def programs(given):
    """The program that is measured, and the one that it is compared with, if there is one."""
    return [given.program, given.before] if given.before else [given.program]


def in_turn(measures, turns):
    """The figures in the middle of some measures that take turns."""
    found = [[] for _ in measures]
    for _ in range(turns):
        for measure, figures in zip(measures, found):
            figures.append(measure())
    return [statistics.median(figures) for figures in found]


# ---- rows

def machine_load():
    """How many processes wanted a processor in the last minute."""
    return f'{os.getloadavg()[0]:.1f}'


def head(first, *columns):
    print(f'\n| {first} | ' + ' | '.join((*columns, 'load')) + ' |\n|' + '---|' * (len(columns) + 2), flush=True)


def row(what, *cells):
    """A row as the page has it, with the machine's load behind it."""
    print(f'| {what} | ' + ' | '.join((*map(str, cells), machine_load())) + ' |', flush=True)


def head_of(given, first, unit):
    """The head of a table of `compared` rows."""
    head(first, unit, *(['before', 'ratio'] if given.before else []))


def compared(given, what, measure, form='{:.3f}'):
    """A row with what is measured of the program, beside that of the earlier one; answers the former."""
    middle = in_turn([lambda program=program: measure(program) for program in programs(given)], given.turns)
    row(what, *(form.format(figure) for figure in middle), *([ratio(*middle)] if given.before else []))
    return middle[0]


def alone(given, what, measure, form='{:.3f}'):
    """Such a row of what an earlier program need not be able to do; answers the figure."""
    (middle,) = in_turn([lambda: measure(given.program)], given.turns)
    row(what, form.format(middle), *(['-', '-'] if given.before else []))
    return middle


def ratio(now, before):
    return f'{now / before:.2f}' if before else '-'


def beside(given, what, measure, other, form='{:.3f}', aim=None):
    """A row with what is measured of the program, and something else of it in turn; answers whether the aim is met."""
    one, two = in_turn([lambda: measure(given.program), lambda: other(given.program)], given.turns)
    row(what, form.format(one), form.format(two), ratio(one, two), aim if aim else '-')
    return aim is None or one <= aim * two


def check(what, is_so):
    print(f'{"yes" if is_so else "NO "}  {what}', flush=True)
    return is_so
