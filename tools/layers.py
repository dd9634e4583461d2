#!/usr/bin/env python3
"""Draws docs/layers.svg from crates.txt: python3 tools/layers.py, at the project's root. With --check it writes nothing and fails where the
picture is not current, or where the crate table of docs/ARCHITECTURE.md does not have exactly one row for each crate.

A chapter is the crates whose names begin with the same word, as `tib` and `tib_msg`. A chapter stands above every chapter that it uses, and
in a chapter a crate stands above every crate of that chapter that it uses. Chapters that use each other share a layer."""
import re
import sys

PICTURE, PAGE = 'docs/layers.svg', 'docs/ARCHITECTURE.md'
ROW = re.compile(r'^\| \[(\w+)\]\(\.\./crates/(\w+)\) \|', re.M)
WIDTH, GAP, BOX, TITLE, LETTER = 860, 10, 26, 18, 7.3
COLOURS = ('#dbe9f6', '#dff0d8', '#fbe8c8', '#f3dcea', '#e3dff5', '#d8efec', '#f6e0d5', '#e9ebc9')


def read_crates():
    """The crates that each crate uses, in the order of crates.txt; what is no crate of the list is left out. `staticlib` may follow a name."""
    lines = [line.replace(' staticlib:', ':').split(':') for line in open('crates.txt', encoding='utf-8') if ':' in line and not line.startswith('#')]
    names = {name for name, _ in lines}
    return {name: [used for used in uses.split() if used in names] for name, uses in lines}


def depths(uses):
    """How many steps lie below each name: 0 where it uses nothing. The graph has no cycle."""
    found = {}

    def depth(name):
        if name not in found:
            found[name] = 1 + max(map(depth, uses[name]), default=-1)
        return found[name]

    return {name: depth(name) for name in uses}


def reached(uses):
    """Every name that each name uses, directly or through others."""
    found = {name: set(used) for name, used in uses.items()}
    for middle in uses:
        for name in uses:
            if middle in found[name]:
                found[name] |= found[middle]
    return found


class Chapter:
    """The crates of one prefix, in lines from the bottom to the top, and the names of the chapters that it uses."""

    def __init__(self, prefix, crates, uses):
        self.prefix, self.crates = prefix, crates
        depth = depths({crate: [used for used in uses[crate] if used in crates] for crate in crates})
        self.lines = [[crate for crate in crates if depth[crate] == d] for d in range(max(depth.values()) + 1)]
        self.name = prefix if len(crates) > 1 else crates[0]
        self.used = []

    def heading(self):
        """The name, where it is not that of the only crate, and what the chapter uses."""
        return self.name if len(self.crates) > 1 else '', 'uses ' + ', '.join(self.used) if self.used else ''

    def natural_width(self):
        widest = max(sum(box_width(crate) + GAP for crate in line) for line in self.lines) + GAP
        return min(WIDTH, max(widest, LETTER * len(' '.join(self.heading())) + 2 * GAP))

    def wrapped(self, width):
        """The lines, divided so that each fits into a panel of a width."""
        found = []
        for line in self.lines:
            found.append([])
            for crate in line:
                if found[-1] and sum(box_width(c) + GAP for c in found[-1] + [crate]) + GAP > width:
                    found.append([])
                found[-1].append(crate)
        return found


def box_width(crate):
    return LETTER * len(crate) + 14


def read_layers():
    """The layers from the bottom to the top, each a list of chapters."""
    uses = read_crates()
    prefix = {crate: crate.split('_')[0] for crate in uses}
    chapters = {p: Chapter(p, [c for c in uses if prefix[c] == p], uses) for p in dict.fromkeys(prefix.values())}
    direct = {p: {prefix[used] for c in chapter.crates for used in uses[c]} - {p} for p, chapter in chapters.items()}
    far = reached(direct)
    below = {p: [q for q in far[p] if p not in far[q]] for p in chapters}
    level = depths(below)
    for p, chapter in chapters.items():
        implied = {r for q in direct[p] for r in far[q] if q not in far[r]}
        chapter.used = [chapters[q].name for q in chapters if q in direct[p] and q not in implied]
    return [[chapters[p] for p in chapters if level[p] == d] for d in range(max(level.values()) + 1)]


def rows(layer):
    """The chapters of a layer, divided so that each row fits, with the widths that fill the row."""
    found = []
    for chapter in layer:
        width = chapter.natural_width()
        if not found or sum(w + GAP for _, w in found[-1]) + width > WIDTH:
            found.append([])
        found[-1].append((chapter, width))
    for row in found:
        spare = (WIDTH - sum(w for _, w in row) - GAP * (len(row) - 1)) / len(row)
        yield [(chapter, w + spare) for chapter, w in row]


def text(x, y, kind, words):
    return f'<text x="{x:.1f}" y="{y:.1f}" class="{kind}">{words}</text>'


def panel(chapter, x, y, width, height, colour):
    yield f'<rect x="{x:.1f}" y="{y}" width="{width:.1f}" height="{height}" rx="6" fill="{colour}" stroke="#8c959f"/>'
    yield text(x + GAP, y + TITLE, 'heading', '<tspan font-weight="bold">{}</tspan> {}'.format(*chapter.heading()))
    lines = chapter.wrapped(width)
    for i, line in enumerate(reversed(lines)):
        left = x + (width + GAP - sum(box_width(crate) + GAP for crate in line)) / 2
        top = y + height - (len(lines) - i) * (BOX + GAP)
        for crate in line:
            w = box_width(crate)
            yield f'<rect x="{left:.1f}" y="{top}" width="{w:.1f}" height="{BOX}" rx="4" fill="#ffffff" stroke="#57606a"/>'
            yield text(left + w / 2, top + 17, 'crate', crate)
            left += w + GAP


def draw():
    body, y = [], GAP
    order = list(dict.fromkeys(chapter.prefix for layer in read_layers() for chapter in layer))
    for layer in reversed(read_layers()):
        for row in rows(layer):
            height = TITLE + GAP + max(len(chapter.wrapped(width)) for chapter, width in row) * (BOX + GAP)
            x = GAP
            for chapter, width in row:
                body += panel(chapter, x, y, width, height, COLOURS[order.index(chapter.prefix) % len(COLOURS)])
                x += width + GAP
            y += height + GAP
    size = f'width="{WIDTH + 2 * GAP}" height="{y}"'
    return '\n'.join([f'<svg xmlns="http://www.w3.org/2000/svg" {size} viewBox="0 0 {WIDTH + 2 * GAP} {y}">',
                      '<style>text { fill: #1f2328; font-size: 12px } .crate { font-family: monospace; text-anchor: middle }',
                      '.heading { font-family: sans-serif }</style>',
                      '<rect width="100%" height="100%" rx="8" fill="#f6f8fa" stroke="#d0d7de"/>', *body, '</svg>', ''])


def faults():
    """What is not current in the picture and in the crate table."""
    try:
        current = open(PICTURE, encoding='utf-8').read() == draw()
    except FileNotFoundError:
        current = False
    if not current:
        yield f'{PICTURE} is not current: run python3 tools/layers.py'
    crates, listed = list(read_crates()), ROW.findall(open(PAGE, encoding='utf-8').read())
    for name, folder in listed:
        if name != folder:
            yield f'{PAGE}: the row of {name} leads to {folder}'
    listed = [name for name, _ in listed]
    yield from (f'{PAGE}: no row for the crate {name}' for name in crates if name not in listed)
    yield from (f'{PAGE}: a row for {name}, which crates.txt does not have' for name in listed if name not in crates)
    yield from (f'{PAGE}: more than one row for {name}' for name in sorted(set(listed)) if listed.count(name) > 1)


def main():
    if sys.argv[1:] == ['--check']:
        found = list(faults())
        print('\n'.join(found) if found else 'layers: picture and crate table are current')
        sys.exit(1 if found else 0)
    with open(PICTURE, 'w', encoding='utf-8') as file:
        file.write(draw())


main()
