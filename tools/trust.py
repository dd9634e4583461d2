#!/usr/bin/env python3
"""Checks what a reader has to believe, and prints what the demands rest on: python3 tools/trust.py, at the project's root.

A definition that no entry and no demand uses stands in a folder `internal` under specs/. The check fails where a definition outside such a
folder, or the contract of an entry, cites one that is inside. The table is the one of docs/TRUST.md: the files that the statement of a demand cites,
each with its lines without imports and blank lines."""
import pathlib
import re
import sys

IMPORT = re.compile(r'use Rattle\.(\w+)\.specs\.((?:internal\.)?[A-Z]\w*)(?: as (\w+))?(?:\.\{(.*?)\})?')
FUNCTION = re.compile(r'^pub (?:extern "C" )?fn (\w+)\(.*?^\{', re.M | re.S)
ENTRIES = {
    'table_index': 'load',
    'message_frame': 'frame_read frame_write',
    'writer_state': 'start finish',
    'writer_put': 'put_uint put_int put_octets',
    'writer_nesting': 'open_field close_field',
    'message_calls': 'check shorten lookup lookup_last check_loaded shorten_loaded lookup_loaded lookup_last_loaded',
    'text_message': 'message refusal',
    'text_show': 'show',
    'tib_msg': 'check field',
    'tib_rv': 'check field',
    'tib_dictionary_index': 'load',
    'tib_qform': 'check check_loaded field field_loaded',
    'tib_real': 'real fractions',
    'tib_decimals': 'decimals',
}
DEMANDS = {'1': 'message_calls/Demand1', '2': 'writer_laws/Demand2', '3': 'message_calls/Demand3'}


def imports(path):
    """The definition files that a file imports, as crate/File, each with the names by which the file calls its definitions."""
    found = {}
    for crate, module, alias, names in IMPORT.findall(path.read_text(encoding='utf-8')):
        called = [alias] if alias else [name.split(' as ')[-1].strip() for name in names.split(',') if name]
        found.setdefault(f'{crate}/{module.replace(".", "/")}', []).extend(called)
    return found


def spec(name):
    crate, module = name.split('/', 1)
    return pathlib.Path('crates', crate, 'specs', f'{module}.antt')


def cited_inside():
    """Definitions outside `internal`, and contracts of entries, that cite something inside."""
    for path in sorted(pathlib.Path('crates').glob('*/specs/*.antt')):
        for name in imports(path):
            if '/internal/' in name and path.name != 'internal.antt':
                yield f'{path} imports {name}'
    for crate, functions in ENTRIES.items():
        path = pathlib.Path('crates', crate, 'src/lib.rt')
        contracts = {m.group(1): set(re.findall(r'[\w-]+', m.group(0))) for m in FUNCTION.finditer(path.read_text(encoding='utf-8'))}
        for function in functions.split():
            for name, called in imports(path).items():
                if '/internal/' in name and contracts[function] & set(called):
                    yield f'the contract of {crate}::{function} cites {name}'


def rests_on(name, seen):
    """The files that a definition file cites, itself included, in the order in which they are met."""
    if name not in seen and spec(name).exists():
        seen.append(name)
        for cited in imports(spec(name)):
            rests_on(cited, seen)
    return seen


def lines(name):
    text = spec(name).read_text(encoding='utf-8').splitlines()
    return sum(1 for line in text if line.strip() and not line.startswith('use '))


def main():
    faults = list(cited_inside())
    print('\n'.join(faults) if faults else 'trust: no entry and no demand rests on an internal definition')
    rest = {demand: rests_on(name, []) for demand, name in DEMANDS.items()}
    print('| file | ' + ' | '.join(f'demand {demand}' for demand in rest) + ' |\n|---|' + '---|' * len(rest))
    for name in dict.fromkeys(name for names in rest.values() for name in names):
        print(f'| {name} | ' + ' | '.join(str(lines(name)) if name in names else '' for names in rest.values()) + ' |')
    print('| together | ' + ' | '.join(f'{len(names)} files, {sum(map(lines, names))} lines' for names in rest.values()) + ' |')
    sys.exit(1 if faults else 0)


main()
