#!/usr/bin/env python3
"""Counts the instructions of one call of each row, for the library and for plain.c, with valgrind's callgrind.

    counts.py BENCH [ROW ...]

BENCH is the built bench. A ROW is part of a row's name; without any, all rows but the points of the curves are counted. A row's
count is that of a run of many calls less that of a run of none, so making the inputs is not in it. Runs differ by some
instructions, since copying depends on where the stack stands. A repeated string instruction, as in a long memcpy, is counted
once for each octet.
"""
import os
import re
import subprocess
import sys
import tempfile

REALS = 16384  # of a row of decimals, as in bench.c: one call for each


def instructions(bench, row, side, calls):
    with tempfile.TemporaryDirectory() as folder:
        out = os.path.join(folder, 'out')
        # Names are bound at the start of the program, so that the first call does not pay for it.
        done = subprocess.run(['valgrind', '--tool=callgrind', '--callgrind-out-file=' + out,
                               bench, '--count', row, side, str(calls)],
                              capture_output=True, text=True, env=dict(os.environ, LD_BIND_NOW='1'))
        if done.returncode != 0:
            sys.exit(done.stderr)
        with open(out) as lines:
            found = re.search(r'^summary: (\d+)', lines.read(), re.M)
        return int(found.group(1))


def per_call(bench, row, side, calls):
    return (instructions(bench, row, side, calls) - instructions(bench, row, side, 0)) / calls


def main():
    bench, wanted = sys.argv[1], sys.argv[2:]
    listed = subprocess.run([bench, '--list'], capture_output=True, text=True, check=True).stdout
    print('Instructions of one call, counted by callgrind. Ratio: library by plain, below 1 the library is ahead.')
    print('Per field and per octet: of the library, then of plain.\n')
    print(f"{'row':28} {'call':8} {'octets':>7} {'fields':>7} {'library':>10} {'plain':>10} {'ratio':>7}"
          f" {'per field':>19} {'per octet':>17}")
    for line in listed.splitlines():
        name, call, octets, fields = line.split()
        curve = re.match(r'(length|depth)-', name)
        if not (any(word in name for word in wanted) if wanted else not curve):
            continue
        octets, fields = int(octets), int(fields)
        calls = REALS if call == 'decimals' else 100 if octets < 2000 else 4
        counts = [per_call(bench, f'{name}:{call}', side, calls) for side in ('library', 'plain')]
        field = ' '.join(f'{count / fields:9.1f}' if fields else f"{'-':>9}" for count in counts)
        octet = ' '.join(f'{count / octets:8.3f}' if octets else f"{'-':>8}" for count in counts)
        print(f'{name:28} {call:8} {octets:7} {fields:7} {counts[0]:10.0f} {counts[1]:10.0f}'
              f' {counts[0] / counts[1]:7.3f} {field} {octet}', flush=True)


if __name__ == '__main__':
    main()
