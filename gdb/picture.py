#!/usr/bin/env python3
"""Draws docs/pictures/gdb.svg: gdb's text interface on the program of the tutorial, through the bridge.

    gdb/picture.py [PROGRAM]

PROGRAM is the built `tcf`; if left out, crates/tcf/out/tcf. gdb runs in a terminal of tmux, whose cells are then drawn.
It wants Debian's tmux, gdb-multiarch and gcc-riscv64-unknown-elf.
"""
from __future__ import annotations

import re
import subprocess
import sys
import tempfile
import time
from pathlib import Path
from xml.sax.saxutils import escape

from client import COMPILER, TOP, Agent, Bridge, compiled, lacking, program_of

PICTURE = TOP / 'docs' / 'pictures' / 'gdb.svg'
SOURCE = TOP / 'examples' / 'program' / 'main.c'
COLUMNS, ROWS = 92, 34
WIDTH, HEIGHT, SIZE = 8.4, 17, 14
PAPER, INK = '#1e1e1e', '#d4d4d4'
PALETTE = ['#000000', '#e06c75', '#98c379', '#e5c07b', '#61afef', '#c678dd', '#56b6c2', '#d4d4d4',
           '#5c6370', '#e06c75', '#98c379', '#e5c07b', '#61afef', '#c678dd', '#56b6c2', '#ffffff']
COMMANDS = ['break sort', 'continue', 'next', 'next', 'backtrace', 'print *list@count', 'info threads']
GDB = ['set pagination off', 'set confirm off', 'set filename-display basename', 'set tui active-border-mode normal']
SECONDS = 0.6


class Terminal:
    """A terminal of tmux, with a server of its own, in which a program runs."""

    def __init__(self, folder: Path, words: list[str]) -> None:
        self.words = ['tmux', '-S', str(folder / 'terminal'), '-f', '/dev/null']
        self.do('new-session', '-d', '-x', str(COLUMNS), '-y', str(ROWS), *words)

    def do(self, *words: str) -> str:
        """A command of tmux, and what it prints."""
        return subprocess.run([*self.words, *words], check=True, stdout=subprocess.PIPE, text=True).stdout

    def type(self, line: str) -> None:
        """Types a line, and gives the program time for it."""
        self.do('send-keys', line, 'Enter')
        time.sleep(SECONDS)

    def lines(self) -> list[str]:
        """The lines that it shows, with their colours as sequences of escapes."""
        return self.do('capture-pane', '-e', '-p').split('\n')[:ROWS]

    def end(self) -> None:
        """Ends the server, and what runs in it."""
        self.do('kill-server')


class Style:
    """How a cell looks."""

    def __init__(self) -> None:
        self.reset()

    def reset(self) -> None:
        """As a cell looks at first."""
        self.ink, self.paper, self.is_bold, self.is_reversed = INK, PAPER, False, False

    def take(self, codes: list[int]) -> None:
        """Takes the codes of a sequence."""
        while codes:
            code = codes.pop(0)
            if code in (38, 48) and len(codes) > 1 and codes.pop(0) == 5:
                colour = PALETTE[codes.pop(0) % 16]
                self.ink, self.paper = (colour, self.paper) if code == 38 else (self.ink, colour)
            elif code == 0:
                self.reset()
            elif code in (1, 22):
                self.is_bold = code == 1
            elif code in (7, 27):
                self.is_reversed = code == 7
            elif 30 <= code <= 37 or 90 <= code <= 97:
                self.ink = PALETTE[code % 10 + (8 if code >= 90 else 0)]
            elif 40 <= code <= 47:
                self.paper = PALETTE[code % 10]
            elif code in (39, 49):
                self.ink, self.paper = (INK, self.paper) if code == 39 else (self.ink, PAPER)

    def colours(self) -> tuple[str, str]:
        """The colours of its sign and of what is behind."""
        return (self.paper, self.ink) if self.is_reversed else (self.ink, self.paper)


def drawn_line(line: str, row: int, style: Style) -> str:
    """The elements of a line."""
    elements, column = [], 0
    for piece in re.split(r'(\x1b\[[\d;]*m|\x0e|\x0f)', line):
        if piece.startswith('\x1b'):
            style.take([int(code or 0) for code in piece[2:-1].split(';')])
        elif piece.strip() or (piece and style.colours()[1] != PAPER):
            elements.append(drawn(piece, column, row, style))
        column += 0 if piece.startswith(('\x1b', '\x0e', '\x0f')) else len(piece)
    return ''.join(elements)


def drawn(text: str, column: int, row: int, style: Style) -> str:
    """A piece of one style."""
    ink, paper = style.colours()
    left, top, width = column * WIDTH + 8, row * HEIGHT + 8, len(text) * WIDTH
    behind = '' if paper == PAPER else f'<rect x="{left:.1f}" y="{top}" width="{width:.1f}" height="{HEIGHT}" fill="{paper}"/>'
    weight = ' font-weight="bold"' if style.is_bold else ''
    return (f'{behind}<text x="{left:.1f}" y="{top + 13}" fill="{ink}"{weight} textLength="{width:.1f}" '
            f'xml:space="preserve">{escape(text)}</text>\n')


def svg(lines: list[str]) -> str:
    """The picture of a terminal."""
    width, height, style = COLUMNS * WIDTH + 16, ROWS * HEIGHT + 16, Style()
    body = ''.join(drawn_line(line, row, style) for row, line in enumerate(lines))
    return (f'<svg xmlns="http://www.w3.org/2000/svg" width="{width:.0f}" height="{height}" viewBox="0 0 {width:.0f} {height}">\n'
            f'<title>gdb on the sort of the tutorial, through the bridge</title>\n'
            f'<rect width="100%" height="100%" rx="6" fill="{PAPER}"/>\n'
            f'<g font-family="DejaVu Sans Mono, Menlo, Consolas, monospace" font-size="{SIZE}">\n{body}</g>\n</svg>\n')


def main() -> int:
    program = program_of(sys.argv[1:])
    if wanting := lacking('tmux', 'gdb-multiarch', COMPILER):
        sys.exit(f'not installed: {", ".join(wanting)}')
    with tempfile.TemporaryDirectory() as name:
        folder = Path(name)
        elf = compiled(SOURCE, folder)
        with Agent(program, {'sort': elf}) as agent, Bridge(agent.address, '--start', 'sort') as bridge:
            words = ['gdb-multiarch', '-q', '-nx', *(word for line in GDB for word in ('-ex', line)), '-tui', str(elf)]
            terminal = Terminal(folder, words)
            try:
                time.sleep(2)
                for line in [f'target remote :{bridge.port}', *COMMANDS]:
                    terminal.type(line)
                terminal.do('send-keys', 'C-l')
                time.sleep(SECONDS)
                lines = terminal.lines()
            finally:
                terminal.end()
    PICTURE.write_text(svg(lines))
    print('\n'.join(re.sub(r'\x1b\[[\d;]*m|\x0e|\x0f', '', line) for line in lines))
    return 0


if __name__ == '__main__':
    sys.exit(main())
