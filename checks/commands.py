#!/usr/bin/env python3
"""Runs the commands that the pages show, and compares what they print with what the pages show behind them.

    checks/commands.py                      README.md, docs/TUTORIAL.md, FRONT_END.md, SERVING.md, JOURNALS.md and GDB.md
    checks/commands.py --fast PAGE ..       these pages, without what is slow
    checks/commands.py --program PATH       with this built `tcf`, where none lies in crates/tcf/out/tcf

All runs in a copy of the repository, with free ports in place of those on which the pages listen. It ends with status 1
where something differs. It wants Python 3 and bash.

A fenced block of the language `console` is a terminal. A line that begins with `$ ` is a command for bash; one that ends in
a backslash goes on in the next line. The lines behind a command are what it prints on standard output. A line `...` alone stands
for any lines. A command ends with status 0, unless the next one is `echo $?`. A page is one shell, which begins at the top
of the copy. A command that ends in ` &` runs in the background: the script waits until it listens on the first 127.0.0.1:PORT of
its words, compares nothing of what it prints, and ends it with the page, or when another one is started on that port.
A block with `out/tcf` is left out where there is no built program, and so is one with a port on which then nothing was started.

Comments above a block:

    <!-- not run: REASON -->    the block isn't run
    <!-- slow: REASON -->       it is left out with --fast
    <!-- needs: NAME .. -->     it is left out where one of these programs isn't installed
    <!-- from: FOLDER -->       it begins in that folder of the copy
    <!-- file: PATH -->         the block, of any language, shows that file, and is compared with it
"""
import argparse
import difflib
import os
import re
import select
import shlex
import shutil
import signal
import socket
import subprocess
import sys
import tempfile
import time
from pathlib import Path

TOP = Path(__file__).resolve().parent.parent
PAGES = ['README.md', 'docs/TUTORIAL.md', 'docs/FRONT_END.md', 'docs/SERVING.md', 'docs/JOURNALS.md', 'docs/GDB.md']
BUILT = 'crates/tcf/out/tcf'
SECONDS = 1200
COMMENT = re.compile(r'<!-- (not run|slow|needs|from|file): (.*) -->$')
FENCE = re.compile(r'( *)(```+)(\w*)$')
ADDRESS = re.compile(r'127\.0\.0\.1:(\d+)')
LOOPBACK = '127.0.0.1'
MARK = 'the command has ended with status'


class Block:
    def __init__(self, page, line, language, notes):
        self.page, self.line, self.language, self.notes, self.lines = page, line, language, notes, []

    def commands(self):
        """Each command: the number of its line, its text, and the lines that are shown behind it."""
        found, shown, goes_on = [], [], False
        for number, line in enumerate(self.lines, self.line + 1):
            if goes_on:
                found[-1][1] += '\n' + line
            elif line.startswith('$ '):
                shown = []
                found.append([number, line[2:], shown])
            elif not found:
                sys.exit(f'{self.page}:{number}: a terminal begins with a command')
            else:
                shown.append(line)
            goes_on = (goes_on or line.startswith('$ ')) and line.endswith('\\')
        return found


    def listening(self):
        """The ports on which it starts something."""
        return {port for _, command, _ in self.commands() if command.endswith(' &') for port in ADDRESS.findall(command)[:1]}

    def wanted(self):
        """The other ports that its commands name."""
        return {port for _, command, _ in self.commands() for port in ADDRESS.findall(command)} - self.listening()


def blocks_of(page):
    """The fenced blocks of a page, each with the comments above it."""
    blocks, notes, block, fence = [], {}, None, None
    for number, line in enumerate((TOP / page).read_text().split('\n'), 1):
        begins = FENCE.match(line)
        comment = COMMENT.match(line.strip())
        if block:
            if line == fence[1] + fence[2]:
                blocks.append(block)
                block = None
            else:
                block.lines.append(line.removeprefix(fence[1]).rstrip())
        elif begins:
            fence = begins
            block, notes = Block(page, number, begins[3], notes), {}
        elif comment:
            notes[comment[1]] = comment[2]
        elif line.strip():
            notes = {}
    return blocks


def lines_of(text):
    """The lines of a text, without blanks and empty lines at their ends."""
    return [line.rstrip() for line in text.rstrip().split('\n')] if text.strip() else []


def is_shown(shown, printed):
    """The lines are these, where `...` stands for any lines."""
    if '...' not in shown:
        return shown == printed
    first = shown.index('...')
    if shown[:first] != printed[:first]:
        return False
    rest = shown[first + 1:]
    return any(is_shown(rest, printed[at:]) for at in range(first, len(printed) + 1))


def differing(shown, printed):
    return ''.join(f'    {line}\n' for line in difflib.unified_diff(shown, printed, 'shown', 'printed', n=1, lineterm=''))


def listens(port):
    """Something listens on this port of the loopback."""
    wanted = ('0100007F:%04X' % port, '00000000:%04X' % port)
    rows = [row.split() for row in Path('/proc/net/tcp').read_text().splitlines()[1:]]
    return any(row[1] in wanted and row[3] == '0A' for row in rows)


class Ports:
    """A free port in place of each one on which a page listens."""

    def __init__(self, pages):
        named = {port for page in pages for block in blocks_of(page) if block.language == 'console'
                 for port in block.listening()}
        taken = [socket.create_server((LOOPBACK, 0)) for _ in named]
        self.rows = [(port, str(free.getsockname()[1])) for port, free in zip(sorted(named), taken)]
        for free in taken:
            free.close()

    def moved(self, text):
        for port, free in self.rows:
            text = re.sub(rf'{LOOPBACK}([:/]){port}\b', rf'{LOOPBACK}\g<1>{free}', text)
        return text

    def moved_back(self, text):
        for port, free in self.rows:
            text = re.sub(rf'{LOOPBACK}([:/]){free}\b', rf'{LOOPBACK}\g<1>{port}', text)
        return text

    def move_files(self, folder):
        for path in folder.rglob('*'):
            if path.is_file() and LOOPBACK.encode() in path.read_bytes():
                path.write_text(self.moved(path.read_text()))


class Stuck(Exception):
    """A command that didn't end in time, so that nothing behind it can be run."""


class Shell:
    """The one shell of a page."""

    def __init__(self, top, errors):
        self.errors = errors
        self.process = subprocess.Popen(['bash'], cwd=top, stdin=subprocess.PIPE, stdout=subprocess.PIPE,
                                        stderr=open(errors, 'w'), start_new_session=True)
        self.status, self.listeners, self.jobs = 0, {}, []

    def run(self, command, to=''):
        """What it prints, and its status."""
        line = f"(exit {self.status}); eval {shlex.quote(command)} </dev/null{to}; printf '\\n{MARK} %d %d\\n' $? $!\n"
        self.process.stdin.write(line.encode())
        self.process.stdin.flush()
        text, until = b'', time.monotonic() + SECONDS
        while not (end := re.search(rb'\n%s (\d+) ?(\d*)\n$' % MARK.encode(), text)):
            if not select.select([self.process.stdout], [], [], max(0, until - time.monotonic()))[0]:
                raise Stuck(f'no end within {SECONDS} seconds')
            piece = os.read(self.process.stdout.fileno(), 65536)
            if not piece:
                raise Stuck('the shell has ended')
            text += piece
        self.status, self.last = int(end[1]), end[2].decode()
        return text[:end.start()].decode(errors='replace'), self.status

    def is_alive(self, process):
        return self.run(f'kill -0 {process} 2>/dev/null && echo yes')[0].strip() == 'yes'

    def stop(self, port):
        """Ends the listener that this page started on a port."""
        process = self.listeners.pop(port)
        self.jobs.remove(int(process))
        self.run(f'{{ kill -- -{process}; wait {process}; }} 2>/dev/null; true')
        until = time.monotonic() + 10
        while listens(port) and time.monotonic() < until:
            time.sleep(0.02)

    def start(self, command):
        """A listener in the background; answers what is wrong, if anything."""
        address = ADDRESS.search(command)
        port = int(address[1]) if address else None
        if port in self.listeners:
            self.stop(port)
        if port and listens(port):
            return f'    {address[0]} is in use\n'
        log = f'{self.errors}.background'
        self.run('set -m')
        self.run(command, f' >{shlex.quote(log)} 2>&1')
        process = self.last
        self.jobs.append(int(process))
        self.run('set +m')
        if port:
            self.listeners[port] = process
            until = time.monotonic() + SECONDS
            while not listens(port):
                if time.monotonic() > until or not self.is_alive(process):
                    self.stop(port)
                    return f'    nothing listens on {address[0]}\n' + Path(log).read_text()
                time.sleep(0.05)
        return None

    def end(self):
        """Ends the shell, and all that it started."""
        for group in [*self.jobs, self.process.pid]:
            try:
                os.killpg(group, signal.SIGTERM)
            except ProcessLookupError:
                pass
        self.process.wait()


class Pages:
    def __init__(self, top, program, fast, ports):
        self.top, self.program, self.fast, self.ports = top, program, fast, ports
        self.same = self.left_out = self.differ = 0

    def say(self, place, what, text=''):
        print(f'{place}: {what} {text}'.rstrip(), flush=True)

    def differs(self, place, text, detail):
        self.differ += 1
        self.say(place, 'DIFFERS', text)
        print(detail.rstrip('\n'), flush=True)

    def file(self, page, block):
        path = TOP / block.notes['file']
        place = f'{page}:{block.line}'
        held = lines_of(path.read_text()) if path.is_file() else ['(there is no such file)']
        if is_shown(block.lines, held):
            self.same += 1
            self.say(place, 'same', block.notes['file'])
        else:
            self.differs(place, block.notes['file'], differing(block.lines, held))

    def reason(self, shell, block):
        """Why a block is left out, if it is."""
        if 'not run' in block.notes:
            return block.notes['not run']
        if self.fast and 'slow' in block.notes:
            return 'slow: ' + block.notes['slow']
        lacking = [name for name in block.notes.get('needs', '').split() if not shutil.which(name)]
        if lacking:
            return 'not installed: ' + ' '.join(lacking)
        if not self.program and any('out/tcf' in line for line in block.lines if line.startswith('$ ')):
            return f'no built program; it would lie at {BUILT}, or --program names it'
        for port, free in self.ports.rows:
            if port in block.wanted() and int(free) not in shell.listeners:
                return f'nothing was started on port {port}'
        return None

    def command(self, shell, place, command, shown, may_fail):
        told = '$ ' + command.split('\n')[0]
        command = self.ports.moved(command)
        if command.endswith(' &'):
            wrong = self.ports.moved_back(shell.start(command) or '')
        else:
            text, status = shell.run(command)
            printed = lines_of(self.ports.moved_back(text))
            wrong = None
            if not is_shown(shown, printed):
                wrong = differing(shown, printed)
            elif status and not may_fail:
                wrong = f'    status {status}\n'
        if wrong:
            errors = Path(shell.errors).read_text().splitlines()[-8:]
            self.differs(place, told, wrong + ''.join(f'    (standard error) {line}\n' for line in errors))
        else:
            self.same += 1
            self.say(place, 'same', told)

    def block(self, shell, page, block):
        if 'from' in block.notes:
            shell.run(f'cd {shlex.quote(str(self.top / block.notes["from"]))}')
        commands = block.commands()
        reason = self.reason(shell, block)
        if reason:
            self.left_out += len(commands)
            self.say(f'{page}:{block.line}', 'left out:', reason)
            for _, command, _ in commands:
                if re.fullmatch(r'cd [\w./]+', command):
                    shell.run(command)
            return
        for place, (number, command, shown) in enumerate(commands):
            self.line = number
            is_told = place + 1 < len(commands) and commands[place + 1][1] == 'echo $?'
            self.command(shell, f'{page}:{number}', command, shown, is_told)

    def page(self, page, errors):
        shell = Shell(self.top, errors)
        try:
            for block in blocks_of(page):
                if 'file' in block.notes:
                    self.file(page, block)
                elif block.language == 'console':
                    self.block(shell, page, block)
        except Stuck as stuck:
            self.differs(f'{page}:{self.line}', str(stuck), '    what follows on this page was not run')
        finally:
            shell.end()


def main():
    parser = argparse.ArgumentParser(description='Runs the commands that the pages show, and compares what they print.')
    parser.add_argument('pages', nargs='*', default=PAGES, metavar='PAGE')
    parser.add_argument('--program', type=Path, help=f'a built tcf; if left out, {BUILT} where it lies there')
    parser.add_argument('--fast', action='store_true', help='leaves out what is marked as slow')
    given = parser.parse_args()
    for page in given.pages:
        if not (TOP / page).is_file():
            parser.error(f'there is no page {page} in {TOP}')
    program = given.program or (TOP / BUILT if (TOP / BUILT).is_file() else None)
    signal.signal(signal.SIGTERM, lambda *_: sys.exit(1))
    with tempfile.TemporaryDirectory() as folder:
        top = Path(folder) / 'tcf'
        shutil.copytree(TOP, top, symlinks=True, ignore=shutil.ignore_patterns('.git', 'out'))
        if program:
            (top / BUILT).parent.mkdir()
            shutil.copy(program, top / BUILT)
        ports = Ports(given.pages)
        for part in ('crates/tcf/data', 'examples'):
            ports.move_files(top / part)
        pages = Pages(top, program, given.fast, ports)
        for page in given.pages:
            pages.page(page, str(Path(folder) / 'errors'))
    print(f'{pages.same} same, {pages.left_out} left out, {pages.differ} differ')
    return 1 if pages.differ else 0


if __name__ == '__main__':
    sys.exit(main())
