#!/usr/bin/env python3
"""Compares the prototypes of include/crudvim.h with the functions of crates/crudvim/src: the same functions, each with parameters of the same names
and types in the same order. A result `len` there is `length` in the header. Run at the project's root: python3 tests/install/prototypes.py"""
import pathlib
import re
import sys

PROTOTYPE = re.compile(r'^(\w+) (crudvim_\w+)\(([^)]*)\)', re.M)
FUNCTION = re.compile(r'^pub extern "C" fn (crudvim_\w+)\(([^)]*)\) -> (\w+)', re.M)
TYPES = {'u64': 'uint64_t ', 'i64': 'int64_t ', '&mut u64': 'uint64_t *', '&mut i64': 'int64_t *'}
SLICES = {'&[u8]': 'const uint8_t *', '&mut [u8]': 'uint8_t *', '&[u64]': 'const uint64_t *', '&mut [u64]': 'uint64_t *'}


def in_c(parameter):
    """A parameter as C has it: octets, and the words of a state, come with their length."""
    name, kind = (part.strip() for part in parameter.split(':'))
    if (name, kind) == ('len', '&mut u64'):
        name = 'length'
    if kind in SLICES:
        return [SLICES[kind] + name, f'size_t {name}_len']
    return [TYPES.get(kind, kind + '? ') + name]


def wanted(source):
    """The prototypes of the functions in the source, by name."""
    for name, parameters, result in FUNCTION.findall(source):
        each = [in_c(p) for p in parameters.split(',') if p.strip()]
        yield name, TYPES[result] + name + '(' + ', '.join(sum(each, [])) + ')'


def declared(header):
    """The prototypes of the header, by name. Functions that the header itself defines are left out: they are `static inline`."""
    for result, name, parameters in PROTOTYPE.findall(header):
        yield name, f'{result} {name}({" ".join(parameters.split())})'


def main():
    header = dict(declared(open('include/crudvim.h', encoding='utf-8').read()))
    source = dict(wanted('\n'.join(path.read_text(encoding='utf-8') for path in sorted(pathlib.Path('crates/crudvim/src').glob('*.rt')))))
    found = [f'only in one: {name}' for name in sorted(header.keys() ^ source.keys())]
    found += [f'header: {header[name]}\nsource: {source[name]}' for name in header if name in source and header[name] != source[name]]
    if found or not header:
        sys.exit('\n'.join(found or ['no prototypes']))
    print(f'{len(header)} prototypes as in the source')


main()
