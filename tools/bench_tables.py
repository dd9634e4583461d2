#!/usr/bin/env python3
"""Prints the tables of the bench in docs/PERFORMANCE.md from bench/results.txt and bench/counts.txt: python3 tools/bench_tables.py"""

CURVES = ('length', 'depth')


def rows(path):
    """The lines of a bench table as words, by row and call."""
    found = {}
    for line in open(path, encoding='utf-8'):
        words = line.split()
        if len(words) >= 7 and words[2].isdigit() and words[3].isdigit():
            found[words[0], words[1]] = words[4:7]
    return found


def main():
    times, counts = rows('bench/results.txt'), rows('bench/counts.txt')
    print('| row | call | library (ns) | plain (ns) | ratio | library (instructions) | plain (instructions) | ratio |')
    print('|---|---|---|---|---|---|---|---|')
    for (row, call), words in times.items():
        if row.split('-')[0] not in CURVES:
            print(f'| {row} | {call} | {" | ".join(words)} | {" | ".join(counts.get((row, call), ["", "", ""]))} |')
    for curve in CURVES:
        points = [row for row, call in times if row.split('-')[0] == curve and call == 'check']
        print(f'\n| {curve} | check | shorten |\n|---|---|---|')
        for row in points:
            print(f'| {row.split("-")[1]} | {times[row, "check"][2]} | {times[row, "shorten"][2]} |')


main()
