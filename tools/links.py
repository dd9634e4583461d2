#!/usr/bin/env python3
"""Checks the links of the pages: every target exists; a link whose text is code, as [`name`](file), has that name in the file; and a link to a
heading of a page, as page.md#heading, has that heading. Run at the project's root: python3 tools/links.py"""
import os
import re
import sys

LINK = re.compile(r'\[([^\]]+)\]\(([^)\s]+)\)')
HEADING = re.compile(r'^#+ (.+)$', re.M)


def pages():
    yield from ('README.md', 'CONTRIBUTING.md', 'CHANGELOG.md')
    for folder, _, files in os.walk('docs'):
        for name in sorted(files):
            if name.endswith('.md'):
                yield os.path.join(folder, name)


def read(path):
    return open(path, encoding='utf-8').read()


def anchors(path):
    """The anchors of a page's headings: lower case, hyphens for spaces, other signs left out."""
    return {re.sub(r'[^\w -]', '', heading.lower()).replace(' ', '-') for heading in HEADING.findall(read(path))}


def fault(page, label, target):
    """None where a link leads to what it says, else what is wrong."""
    file, _, anchor = target.partition('#')
    path = os.path.normpath(os.path.join(os.path.dirname(page), file)) if file else page
    if not os.path.exists(path):
        return f'{target} does not exist'
    if anchor and anchor not in anchors(path):
        return f'{path} has no heading {anchor}'
    if label.startswith('`') and os.path.isfile(path) and not re.search(r'(?<![\w-])' + re.escape(label.strip('`')) + r'(?![\w-])', read(path)):
        return f'{target} has no {label.strip("`")}'


def main():
    found = []
    for page in pages():
        links = [link for link in LINK.findall(read(page)) if not link[1].startswith(('http:', 'https:'))]
        found += [f'{page}: {what}' for what in (fault(page, *link) for link in links) if what]
    print('\n'.join(found) if found else 'links: all lead somewhere')
    sys.exit(1 if found else 0)


main()
