#!/usr/bin/env python3
"""Times two archives of the library against each other, on the rows of the bench.

    compare.py [--no-revision] BEFORE.a AFTER.a [ROW ...]

Run it at the project's root. A ROW is part of a row's name; without any, all rows but the points of the curves are printed. The bench is
linked with both archives, BEFORE in the place of plain.c. It compares their answers to the rows, and no others, because a request may
change answers. It compares the check's result `shortest` only if both archives set it. Where the linker places a function changes its
time, so the bench is linked eight times, with the archives in either order behind a block of another length. The ratio, AFTER by
BEFORE, is the geometric mean of the eight; the least and the greatest are beside it.

With --no-revision BEFORE is an archive from before the calls took a revision. It is called through functions that leave the revision out,
which costs it about a dozen instructions a call. The rows whose table has records of length 6, which it would refuse, are left out.

If BEFORE has no reader of QForm, it is lent that of AFTER, and the rows of QForm are left out. The same holds for decimals and for the writer.
"""
import math
import pathlib
import re
import subprocess
import sys
import tempfile

CALLS = ('check', 'shorten', 'tibmsg_check', 'tibrv_check', 'qform_check', 'qform_field', 'decimals', 'start', 'put_uint', 'put_int',
         'put_octets', 'open', 'close', 'finish')
PLACEMENTS = 8
WITHOUT_REVISION = '''
#include "plain.h"
uint64_t old_check(const uint8_t *, size_t, uint64_t, const uint8_t *, size_t, uint64_t *, uint64_t *, uint64_t *, uint64_t *);
uint64_t old_shorten(const uint8_t *, size_t, uint64_t, const uint8_t *, size_t, uint8_t *, size_t, uint64_t *, uint64_t *);

uint64_t plain_check(const uint8_t *table, size_t table_len, uint64_t revision, uint64_t number, const uint8_t *message,
                     size_t message_len, uint64_t *place, uint64_t *fields, uint64_t *depth, uint64_t *shortest)
{
    (void)revision;
    return old_check(table, table_len, number, message, message_len, place, fields, depth, shortest);
}

uint64_t plain_shorten(const uint8_t *table, size_t table_len, uint64_t revision, uint64_t number, const uint8_t *message,
                       size_t message_len, uint8_t *out, size_t out_len, uint64_t *place, uint64_t *length)
{
    (void)revision;
    return old_shorten(table, table_len, number, message, message_len, out, out_len, place, length);
}
'''

WITHOUT_QFORM = '''
#include "crudvim.h"
#include "plain.h"

uint64_t plain_qform_check(const uint8_t *dictionary, size_t dictionary_len, const uint8_t *message, size_t message_len,
                           uint64_t *place, uint64_t *fields, uint64_t *depth)
{
    return crudvim_qform_check(dictionary, dictionary_len, message, message_len, place, fields, depth);
}

uint64_t plain_qform_field(const uint8_t *dictionary, size_t dictionary_len, const uint8_t *message, size_t message_len, uint64_t k,
                           uint64_t *place, uint64_t *fid, uint64_t *type, uint64_t *data_start, uint64_t *data_length)
{
    return crudvim_qform_field(dictionary, dictionary_len, message, message_len, k, place, fid, type, data_start, data_length);
}
'''

WITHOUT_DECIMALS = '''
#include "crudvim.h"
#include "plain.h"

uint64_t plain_decimals(uint64_t real_bits, uint64_t hinted, uint64_t hint, uint64_t *place, int64_t *whole)
{
    return crudvim_decimals(real_bits, hinted, hint, place, whole);
}
'''

WITHOUT_WRITER = '''
#include "crudvim.h"
#include "plain.h"

uint64_t plain_start(const uint8_t *table, size_t table_len, uint64_t revision, uint64_t number, const uint8_t *buffer,
                     size_t buffer_len, uint64_t *state, size_t state_len, uint64_t *place)
{
    return crudvim_start(table, table_len, revision, number, buffer, buffer_len, state, state_len, place);
}

uint64_t plain_put_uint(const uint8_t *table, size_t table_len, uint64_t *state, size_t state_len, uint64_t tag, uint64_t value,
                        uint8_t *buffer, size_t buffer_len, uint64_t *place)
{
    return crudvim_put_uint(table, table_len, state, state_len, tag, value, buffer, buffer_len, place);
}

uint64_t plain_put_int(const uint8_t *table, size_t table_len, uint64_t *state, size_t state_len, uint64_t tag, int64_t value,
                       uint8_t *buffer, size_t buffer_len, uint64_t *place)
{
    return crudvim_put_int(table, table_len, state, state_len, tag, value, buffer, buffer_len, place);
}

uint64_t plain_put_octets(const uint8_t *table, size_t table_len, uint64_t *state, size_t state_len, uint64_t tag,
                          const uint8_t *octets, size_t octets_len, uint8_t *buffer, size_t buffer_len, uint64_t *place)
{
    return crudvim_put_octets(table, table_len, state, state_len, tag, octets, octets_len, buffer, buffer_len, place);
}

uint64_t plain_open(const uint8_t *table, size_t table_len, uint64_t *state, size_t state_len, uint64_t tag, uint64_t *place)
{
    return crudvim_open(table, table_len, state, state_len, tag, place);
}

uint64_t plain_close(const uint8_t *table, size_t table_len, uint64_t *state, size_t state_len, uint8_t *buffer, size_t buffer_len,
                     uint64_t *place)
{
    return crudvim_close(table, table_len, state, state_len, buffer, buffer_len, place);
}

uint64_t plain_finish(const uint64_t *state, size_t state_len, uint64_t *place, uint64_t *start)
{
    return crudvim_finish(state, state_len, place, start);
}
'''


def run(*words, **more):
    return subprocess.run([str(word) for word in words], check=True, capture_output=True, text=True, **more).stdout


def in_place_of_plain(archive, folder, old):
    """A copy of the archive that defines the functions of plain.h and no others. Those in `old` have the prefix old_ instead."""
    copy = folder / 'before.a'
    names = {call: f'old_{call}' if call in old else f'plain_{call}' for call in CALLS}
    run('objcopy', *(f'--redefine-sym=crudvim_{call}={name}' for call, name in names.items()), archive, copy)
    run('objcopy', *(f'--keep-global-symbol={name}' for name in names.values()), copy)
    return copy


def ratios(objects, before, after, folder, word, k):
    """Of one placement: the ratio of each row and call. The word says which rows the bench times."""
    block, bench = folder / 'block.s', folder / 'bench'
    block.write_text(f'.text\n.globl block\nblock: .space {16 + 48 * k}, 0x90\n.section .note.GNU-stack\n')
    archives = [after, before] if k % 2 else [before, after]
    run('gcc', *objects, block, *archives, '-o', bench)
    found = {}
    for line in run(bench, word).splitlines():
        words = line.split()
        if len(words) == 7 and re.fullmatch(r'\d+\.\d+', words[6]):
            found[words[0], words[1]] = float(words[6])
    return found


def main():
    no_revision = sys.argv[1:2] == ['--no-revision']
    before, after, *wanted = sys.argv[1 + no_revision:]
    with tempfile.TemporaryDirectory() as name:
        folder = pathlib.Path(name)
        objects = [folder / 'bench.o']
        run('gcc', '-std=c11', '-O3', '-c', 'bench/bench.c', '-o', objects[0])
        names = run('nm', before).split()
        no_qform, no_decimals, no_writer = (f'crudvim_{name}' not in names for name in ('qform_check', 'decimals', 'start'))
        for missing, source in ((no_revision, WITHOUT_REVISION), (no_qform, WITHOUT_QFORM), (no_decimals, WITHOUT_DECIMALS),
                                (no_writer, WITHOUT_WRITER)):
            if missing:
                objects.append(folder / f'without_{len(objects)}.o')
                run('gcc', '-std=c11', '-O3', '-Ibench', '-Iinclude', '-x', 'c', '-c', '-', '-o', objects[-1], input=source)
        copy = in_place_of_plain(before, folder, ('check', 'shorten') if no_revision else ())
        word = '--time-unmarked' if no_revision else '--time'
        runs = [ratios(objects, copy, after, folder, word, k) for k in range(PLACEMENTS)]
    print(f"{'row':28} {'call':8} {'ratio':>7} {'least':>7} {'greatest':>8}")
    for row, call in runs[0]:
        lent = (no_qform, 'qform-'), (no_decimals, 'decimals-'), (no_writer, 'w-')
        if any(missing and row.startswith(prefix) for missing, prefix in lent):
            continue
        if any(word in row for word in wanted) if wanted else not re.match(r'(length|depth)-', row):
            values = [found[row, call] for found in runs]
            mean = math.exp(sum(map(math.log, values)) / len(values))
            print(f'{row:28} {call:8} {mean:7.3f} {min(values):7.3f} {max(values):8.3f}')


if __name__ == '__main__':
    main()
