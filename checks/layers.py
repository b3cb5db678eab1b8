#!/usr/bin/env python3
"""Draws docs/pictures/layers.svg from the groups of crates.txt: each heading is a layer, the lowest one at the bottom.

    checks/layers.py            says whether the picture is the one that crates.txt makes; status 1 where it isn't
    checks/layers.py --write    draws it anew
"""
import sys
from pathlib import Path

TOP = Path(__file__).resolve().parent.parent
PICTURE = TOP / 'docs' / 'pictures' / 'layers.svg'
LEFT, BOX, GAP, ROW, MARGIN = 250, 124, 10, 64, 20
COLOURS = ['#f1f1f1', '#eaf3ea', '#eef4fb', '#fdf3e6', '#f6eefb', '#eef4fb', '#eaf3ea', '#f1f1f1']
MOST_LETTERS = 26


def layers():
    """The headings of crates.txt, each with its crates."""
    found = []
    for line in (TOP / 'crates.txt').read_text().splitlines():
        if line.startswith('# '):
            found.append((line[2:], []))
        elif ':' in line and not line.startswith('#'):
            found[-1][1].append(line.split(':')[0].split()[0])
    return found


def broken(heading):
    """A heading in lines that fit beside its layer."""
    lines = ['']
    for word in heading.split():
        if len(lines[-1]) + len(word) > MOST_LETTERS:
            lines.append('')
        lines[-1] += (' ' if lines[-1] else '') + word
    return lines


def drawn(found):
    """The picture of these layers."""
    width = LEFT + max(len(crates) for _, crates in found) * (BOX + GAP) + 20
    height = MARGIN + len(found) * ROW + 10
    out = [
        f'<svg xmlns="http://www.w3.org/2000/svg" viewBox="0 0 {width} {height}" width="{width}" height="{height}"'
        ' font-family="Helvetica, Arial, sans-serif" font-size="13" fill="#222">',
        '  <title>The layers of crates: each stands on crates of its own layer and of those below</title>',
        f'  <rect width="{width}" height="{height}" fill="#fff"/>',
    ]
    for place, (heading, crates) in enumerate(reversed(found)):
        y = MARGIN + place * ROW
        colour = COLOURS[place % len(COLOURS)]
        out.append(f'  <rect x="10" y="{y}" width="{width - 20}" height="{ROW - 8}" rx="6" fill="{colour}"/>')
        lines = broken(heading)
        for row, text in enumerate(lines):
            out.append(f'  <text x="20" y="{y + 32 - 8 * (len(lines) - 1) + 17 * row}" font-weight="bold">{text}</text>')
        for column, crate in enumerate(crates):
            x = LEFT + column * (BOX + GAP)
            out.append(f'  <rect x="{x}" y="{y + 10}" width="{BOX}" height="{ROW - 28}" rx="5" fill="#fff" stroke="#444"/>')
            out.append(f'  <text x="{x + BOX // 2}" y="{y + 33}" text-anchor="middle">{crate}</text>')
    return '\n'.join([*out, '</svg>']) + '\n'


def main():
    picture = drawn(layers())
    if '--write' in sys.argv:
        PICTURE.write_text(picture)
    is_right = PICTURE.read_text() == picture
    print('the picture of the layers is right' if is_right else 'the picture of the layers isn\'t the one of crates.txt: '
          'checks/layers.py --write draws it')
    return 0 if is_right else 1


if __name__ == '__main__':
    sys.exit(main())
