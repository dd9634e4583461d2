#!/usr/bin/env python3
"""Compares a manual page with the header that it was made from: the page has every prototype, a part for every function, and every sentence of every
comment but those before a line of the preprocessor.

    python3 tests/install/page.py HEADER PAGE"""
import re
import sys

COMMENT = re.compile(r'/\*(.*?)\*/\s*(\S+)', re.S)
PROTOTYPE = re.compile(r'^(?:static inline )?(\w[\w *]*?)(crudvim_\w+)\(([^)]*)\)', re.M)


def spaced(text):
    return ' '.join(text.split())


def plain(page):
    """The text of a page: no macros, no fonts, every sign as it is printed."""
    text = re.sub(r"^[.'](?!B ).*$", '', page, flags=re.M)
    for written, printed in (('\\-', '-'), ('\\(ha', '^'), ('\\(ti', '~'), ('\\(aq', "'"), ('\\&', ''), ('\\e', '\\')):
        text = text.replace(written, printed)
    return spaced(re.sub(r'\\f[BIPR]', '', text))


def sentences(header):
    for comment, after in COMMENT.findall(header):
        if after != '#if':
            text = re.sub(r'^ \*', '', comment, flags=re.M)
            text = re.sub(r'---- .* ----|^ *crudvim - ', '', text, flags=re.M)
            yield from (spaced(s) for s in re.split(r'(?<=[.:])\s+|\n\s*\n|\n(?=   \S)|(?<=\S)  +(?=\S)', text) if s.strip() not in ('', '-'))


def missing(header, page):
    """What the page lacks."""
    text = plain(page).replace('()', '')
    for result, name, parameters in PROTOTYPE.findall(header):
        if spaced(f'{result}{name}({parameters});') not in text:
            yield f'prototype of {name}'
        if f'\n\\fB{name}\\fP()\n.RS' not in page:
            yield f'part for {name}'
    for sentence in sentences(header):
        if sentence not in text:
            yield f'sentence: {sentence}'


def main():
    header, page = (open(path, encoding='utf-8').read() for path in sys.argv[1:3])
    found = list(missing(header, page))
    if found or not PROTOTYPE.findall(header):
        sys.exit('\n'.join(['the manual page lacks:'] + found))


main()
