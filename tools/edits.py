#!/usr/bin/env python3
"""The must-fail edits: `python3 tools/edits.py`, at the project's root, prints them as a table. An .edit holds one part or more, each a
wrong function or a wrong definition:

    # NAME: what is wrong.
    # refused: FUNCTION        (module::function; for a definition the file of the law that it makes false, proofs/Law.antt)
    file: src/lib.rt
    old: ..
    new: ..
"""
import pathlib
import re
from typing import NamedTuple

NAME = re.compile(r'^# (\w+): (.+)$')
REFUSED = re.compile(r'^# refused: (\S+)$')


class Part(NamedTuple):
    name: str
    what: str
    refused: str
    changes: str


class Edit(NamedTuple):
    crate: str
    label: str
    parts: list


def parts(text):
    """The parts of an edit's text; a ValueError says what is wrong with its form."""
    found = []
    for block in re.split(r'\n\s*\n', text.strip()):
        lines = block.splitlines()
        named = NAME.match(lines[0])
        refused = REFUSED.match(lines[1]) if len(lines) > 1 else None
        if not named or not refused or len(lines) < 3 or not lines[2].startswith('file: '):
            raise ValueError(f'a part begins with "# NAME: what is wrong.", "# refused: ..", "file: ..", not with {lines[:3]}')
        found.append(Part(named.group(1), named.group(2), refused.group(1), lines[2][6:]))
    functions = [part.refused for part in found]
    if len(set(functions)) < len(functions):
        raise ValueError('two parts are refused at the same function')
    if len(found) > 1 and any(part.changes.startswith('specs/') for part in found):
        raise ValueError('an edit of a definition has to stand alone')
    return found


def edits():
    """All edits of the repository, by crate and label."""
    for path in sorted(pathlib.Path('crates').glob('*/must-fail/*.edit')):
        try:
            yield Edit(path.parts[1], path.stem, parts(path.read_text(encoding='utf-8')))
        except ValueError as fault:
            raise SystemExit(f'{path}: {fault}')


def main():
    print('| edit | part | what is wrong | changes | refused at |\n|---|---|---|---|---|')
    for edit in edits():
        for part in edit.parts:
            print(f'| {edit.crate}/{edit.label} | `{part.name}` | {part.what} | {part.changes} | {part.refused} |')


if __name__ == '__main__':
    main()
