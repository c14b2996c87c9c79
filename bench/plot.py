#!/usr/bin/env python3
"""Draws docs/time.svg from the tables of bench/README.md: user time beside the size of the text, for rtlsyn and Yosys,
and how much faster more workers are.

A table is drawn where it has the columns Bytes, User time and "Yosys: user time", or the columns Workers and Speed-up.
Tables under one heading make one picture of each kind.

  bench/plot.py          writes docs/time.svg
  bench/plot.py --check  prints whether docs/time.svg is what would be written
"""
import math
import os
import re
import sys

TOP = os.path.dirname(os.path.dirname(os.path.abspath(__file__)))
TIME = ['Bytes', 'User time', 'Yosys: user time']
SPEED_UP = ['Workers', 'Speed-up']
COLOURS = {'rtlsyn': '#0b6e4f', 'Yosys 0.23': '#b5502b'}
WIDE, HIGH, LEFT, TOP_EDGE, RIGHT, LOW = 400, 320, 60, 40, 30, 45


def number(text):
    """The number that a field of a table begins with."""
    return float(re.match(r'[\d,.]+', text)[0].replace(',', ''))


def rows_of(section, columns):
    """The numbers in these columns of the section's tables that have them all."""
    head = []
    for line in section.splitlines():
        fields = [field.strip() for field in line.strip('|').split(' | ')]
        if not line.startswith('|'):
            head = []
        elif not head:
            head = [field.strip('| ') for field in fields]
        elif not line.startswith('|---') and set(columns) <= set(head):
            yield [number(fields[head.index(name)].strip()) for name in columns]


def pictures():
    """What draws each picture, its title, and its rows in order of size."""
    with open(f'{TOP}/bench/README.md', encoding='utf-8') as file:
        for section in re.split(r'(?m)^## ', file.read())[1:]:
            for draw, columns in (time_panel, TIME), (speed_up_panel, SPEED_UP):
                rows = sorted(rows_of(section, columns))
                if rows:
                    yield draw, section.splitlines()[0], rows


def scale(values):
    """The powers of ten around the values."""
    return math.floor(math.log10(min(values))), math.ceil(math.log10(max(values)))


def place(value, low, high, length):
    return (math.log10(value) - low) / (high - low) * length


def unit(power, words):
    """A power of ten in words, as 100 KB or 0.1 s."""
    if words == 's':
        return f'{10 ** power:g} s'
    return f'{10 ** (power % 3)} {["bytes", "KB", "MB", "GB"][power // 3]}'


def speed_up_panel(title, rows, left):
    """A dot for each number of workers, and the line on which twice the workers are twice as fast."""
    wide, high = WIDE - LEFT - RIGHT, HIGH - TOP_EDGE - LOW
    most = math.ceil(max(max(row) for row in rows))
    x_of = lambda workers: left + LEFT + workers / most * wide
    y_of = lambda factor: TOP_EDGE + high - factor / most * high
    yield f'<text x="{left + LEFT}" y="22" font-weight="bold">{title}: speed-up beside workers</text>'
    for mark in sorted({0, 1, *range(0, most + 1, max(1, most // 8))}):
        x, y = x_of(mark), y_of(mark)
        yield f'<line x1="{x:.1f}" y1="{TOP_EDGE}" x2="{x:.1f}" y2="{TOP_EDGE + high}" stroke="#ddd"/>'
        yield f'<text x="{x:.1f}" y="{TOP_EDGE + high + 18}" text-anchor="middle">{mark}</text>'
        yield f'<line x1="{left + LEFT}" y1="{y:.1f}" x2="{left + LEFT + wide}" y2="{y:.1f}" stroke="#ddd"/>'
        yield f'<text x="{left + LEFT - 6}" y="{y + 4:.1f}" text-anchor="end">{mark}</text>'
    yield (f'<line x1="{x_of(0):.1f}" y1="{y_of(0):.1f}" x2="{x_of(most):.1f}" y2="{y_of(most):.1f}" '
           'stroke="#999" stroke-dasharray="4"/>')
    colour = COLOURS['rtlsyn']
    yield from (f'<circle cx="{x_of(row[0]):.1f}" cy="{y_of(row[1]):.1f}" r="3.5" fill="{colour}"/>' for row in rows)


def time_panel(title, rows, left):
    """Axes with their powers of ten, and dots for each program."""
    x_low, x_high = scale([row[0] for row in rows])
    y_low, y_high = scale([time for row in rows for time in row[1:]])
    wide, high = WIDE - LEFT - RIGHT, HIGH - TOP_EDGE - LOW
    x_of = lambda size: left + LEFT + place(size, x_low, x_high, wide)
    y_of = lambda time: TOP_EDGE + high - place(time, y_low, y_high, high)
    yield f'<text x="{left + LEFT}" y="22" font-weight="bold">{title}</text>'
    for power in range(x_low, x_high + 1):
        x = x_of(10 ** power)
        yield f'<line x1="{x:.1f}" y1="{TOP_EDGE}" x2="{x:.1f}" y2="{TOP_EDGE + high}" stroke="#ddd"/>'
        yield f'<text x="{x:.1f}" y="{TOP_EDGE + high + 18}" text-anchor="middle">{unit(power, "bytes")}</text>'
    for power in range(y_low, y_high + 1):
        y = y_of(10 ** power)
        yield f'<line x1="{left + LEFT}" y1="{y:.1f}" x2="{left + LEFT + wide}" y2="{y:.1f}" stroke="#ddd"/>'
        yield f'<text x="{left + LEFT - 6}" y="{y + 4:.1f}" text-anchor="end">{unit(power, "s")}</text>'
    for column, colour in enumerate(COLOURS.values(), start=1):
        dots = [(x_of(row[0]), y_of(row[column])) for row in rows]
        yield from (f'<circle cx="{x:.1f}" cy="{y:.1f}" r="3.5" fill="{colour}"/>' for x, y in dots)


def drawing():
    found = list(pictures())
    wide = WIDE * len(found)
    parts = [line for at, (draw, title, rows) in enumerate(found) for line in draw(title, rows, WIDE * at)]
    for at, (name, colour) in enumerate(COLOURS.items()):
        x = WIDE - 190 + 70 * at
        parts += [f'<circle cx="{x}" cy="18" r="3.5" fill="{colour}"/>', f'<text x="{x + 8}" y="22">{name}</text>']
    head = f'<svg xmlns="http://www.w3.org/2000/svg" viewBox="0 0 {wide} {HIGH}" width="{wide}" height="{HIGH}"'
    style = f'font-family="sans-serif" font-size="12"><rect width="{wide}" height="{HIGH}" fill="white"/>'
    return '\n'.join([f'{head} {style}', *parts, '</svg>', ''])


def main(words):
    path = f'{TOP}/docs/time.svg'
    if words == ['--check']:
        with open(path, encoding='utf-8') as file:
            same = file.read() == drawing()
        said = 'has the figures of bench/README.md' if same else 'is old: bench/plot.py'
        print(f'plot: docs/time.svg {said}')
        return 0 if same else 1
    with open(path, 'w', encoding='utf-8') as file:
        file.write(drawing())
    return 0


sys.exit(main(sys.argv[1:]))
