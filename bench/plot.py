#!/usr/bin/env python3
"""Draws the bench's table: the ratios as bars, and the time of a call against the message's length and depth.

    plot.py RESULTS SVG
"""
import math
import re
import sys

LIBRARY, PLAIN, AXIS, GRID, TEXT = '#1f5fa8', '#c0702a', '#444444', '#dddddd', '#222222'
FONT = 'font-family="sans-serif" font-size="11"'


def read(path):
    """The rows of the table, as (name, call, octets, library ns, plain ns, ratio)."""
    rows = []
    with open(path) as lines:
        for line in lines:
            words = line.split()
            if len(words) == 7 and re.fullmatch(r'\d+\.\d+', words[6]):
                rows.append((words[0], words[1], int(words[2]), float(words[4]), float(words[5]), float(words[6])))
    return rows


def text(x, y, words, anchor='start', color=TEXT, more=''):
    words = words.replace('&', '&amp;').replace('<', '&lt;')
    return f'<text x="{x:.1f}" y="{y:.1f}" text-anchor="{anchor}" fill="{color}" {FONT} {more}>{words}</text>'


def line(x1, y1, x2, y2, color, more=''):
    return f'<line x1="{x1:.1f}" y1="{y1:.1f}" x2="{x2:.1f}" y2="{y2:.1f}" stroke="{color}" {more}/>'


def bars(rows, left, top, width):
    """Ratio bars on a scale of powers of two with 1 in its middle. Returns the pieces and the height used."""
    height = 15
    most = max(1.0, max(abs(math.log2(row[5])) for row in rows))
    most = math.ceil(most)
    start = left + 245
    middle = start + (width - 300) / 2
    unit = (width - 300) / 2 / most
    bottom = top + 24 + height * len(rows)
    title = 'Time of the library by that of plain C (left of 1: the library is ahead)'
    pieces = [text(left, top, title, more='font-weight="bold"')]
    for step in range(-most, most + 1):
        x = middle + step * unit
        pieces.append(line(x, top + 18, x, bottom, AXIS if step == 0 else GRID))
        label = f'{2 ** step}' if step >= 0 else f'1/{2 ** -step}'
        pieces.append(text(x, top + 15, label, 'middle'))
    for at, (name, call, _, _, _, ratio) in enumerate(rows):
        y = top + 22 + at * height
        x = middle + math.log2(ratio) * unit
        label = name if name.startswith(('tib', 'decimals')) else f'{name} {call}'
        pieces.append(text(start - 8, y + 10, label, 'end'))
        color = LIBRARY if ratio <= 1 else PLAIN
        pieces.append(f'<rect x="{min(x, middle):.1f}" y="{y + 1}" width="{abs(x - middle):.1f}" '
                      f'height="{height - 4}" fill="{color}"/>')
        pieces.append(text(x + 4 if ratio > 1 else x - 4, y + 10, f'{ratio:.2f}', 'start' if ratio > 1 else 'end'))
    return pieces, bottom - top + 20


def ticks(low, high, log):
    if log:
        step = 1 if math.log10(high / low) > 1.5 else 0.5
        first = math.floor(math.log10(low) / step)
        return [10 ** (step * k) for k in range(first, math.ceil(math.log10(high) / step) + 1)]
    return list(range(int(low), int(high) + 1))


def nanoseconds(value):
    for size, unit in ((1e6, 'ms'), (1e3, 'us')):
        if value >= size:
            return f'{value / size:.3g} {unit}'
    return f'{value:.3g} ns'


def curve(rows, prefix, title, left, top, width, height, log):
    """Time against the number behind the prefix in the rows' names; both calls, both sides."""
    points = {}
    for name, call, _, library, plain, _ in rows:
        if name.startswith(prefix):
            points.setdefault(call, []).append((int(name[len(prefix):]), library, plain))
    every = [point for series in points.values() for point in series]
    xs = sorted({point[0] for point in every})
    values = [value for point in every for value in point[1:]]
    y_ticks = ticks(min(values), max(values), True) if log else [max(values) * 1.1 * k / 4 for k in range(5)]
    low, high = y_ticks[0], y_ticks[-1]

    def at_x(value):
        part = math.log(value / xs[0]) / math.log(xs[-1] / xs[0]) if log else (value - xs[0]) / (xs[-1] - xs[0])
        return left + 60 + part * (width - 150)

    def at_y(value):
        part = math.log(value / low) / math.log(high / low) if log else (value - low) / (high - low)
        return top + height - 30 - part * (height - 60)

    pieces = [text(left, top, title, more='font-weight="bold"')]
    for value in y_ticks:
        pieces.append(line(left + 60, at_y(value), left + width - 90, at_y(value), GRID))
        pieces.append(text(left + 55, at_y(value) + 4, nanoseconds(value), 'end'))
    for value in xs:
        pieces.append(line(at_x(value), top + height - 30, at_x(value), top + height - 26, AXIS))
        label = f'{value // 1024}K' if value >= 1024 else str(value)
        pieces.append(text(at_x(value), top + height - 14, label, 'middle'))
    ends = []
    for call, series in points.items():
        dash = '' if call == 'check' else 'stroke-dasharray="5 3"'
        for side, color in ((1, LIBRARY), (2, PLAIN)):
            path = ' '.join(f'{at_x(point[0]):.1f},{at_y(point[side]):.1f}' for point in series)
            pieces.append(f'<polyline points="{path}" fill="none" stroke="{color}" stroke-width="1.6" {dash}/>')
            pieces += [f'<circle cx="{at_x(p[0]):.1f}" cy="{at_y(p[side]):.1f}" r="2.2" fill="{color}"/>' for p in series]
            ends.append((at_y(series[-1][side]), color, ('library ', 'plain ')[side - 1] + call))
    # The labels stand at the ends of their curves, moved apart where these lie close together.
    below = 0
    for y, color, label in sorted(ends):
        below = max(y, below + 13)
        pieces.append(text(left + width - 84, below + 4, label, color=color))
    return pieces


def main():
    rows = read(sys.argv[1])
    single = [row for row in rows if not re.match(r'(length|depth)-', row[0])]
    width = 900
    pieces, used = bars(single, 20, 30, width - 40)
    top = 30 + used + 20
    pieces += curve(rows, 'length-', 'Time of a call against the length of the message (octets; both scales logarithmic)',
                    20, top, width - 40, 300, True)
    pieces += curve(rows, 'depth-', 'Time of a call against the depth of a message of 16 KiB, its fields in the innermost',
                    20, top + 330, width - 40, 260, False)
    height = top + 330 + 280
    with open(sys.argv[2], 'w') as out:
        out.write(f'<svg xmlns="http://www.w3.org/2000/svg" width="{width}" height="{height:.0f}" '
                  f'viewBox="0 0 {width} {height:.0f}">\n<rect width="100%" height="100%" fill="white"/>\n')
        out.write('\n'.join(pieces) + '\n</svg>\n')


if __name__ == '__main__':
    main()
