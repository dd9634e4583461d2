#!/usr/bin/env python3
"""Writes the manual page of the C library from the comments of its header: crudvim.3, and for each function a page that refers to it.

    python3 tools/man.py HEADER FOLDER

A header is read as follows. The first comment has a line `name - what it is` and a description. A comment whose first line is `---- Title ----`
begins a group, and the group "Return value" becomes the section of that name. Any other comment belongs to the function after it; one before a line
of the preprocessor is left out. In a comment, an empty line ends a paragraph. A line that is indented by two columns is an item: a tag, two columns
or more, and a text. `-` is the tag of a bullet."""
import re
import sys
import textwrap

COMMENT = re.compile(r'/\*(.*?)\*/', re.S)
GROUP = re.compile(r'---- (.*) ----$')
ITEM = re.compile(r'  (\S.*?)  +(\S.*)$')
FUNCTION = re.compile(r'(?:static inline )?((?:const )?\w+ \*?)(crudvim_\w+)\(([^)]*)\)')
DEFINE = re.compile(r'^#define (CRUDVIM_\w+) (\d+)u$', re.M)
CASE = re.compile(r'case (CRUDVIM_\w+): return "(.*)";')
VERSION = re.compile(r'^#define CRUDVIM_VERSION_(?:MAJOR|MINOR|PATCH) (\d+)$', re.M)
WIDTH = 70  # columns of a prototype; a page has 80, less the margins
RETURN_VALUE = 'Return value'


class Group:
    def __init__(self, title, lines):
        self.title = title
        self.lines = lines
        self.functions = []


class Function:
    def __init__(self, match, lines):
        self.type = match[1]
        self.name = match[2]
        self.parameters = [' '.join(p.split()) for p in match[3].split(',')]
        self.lines = lines


def comment_lines(text):
    """The lines of a comment without the stars in front."""
    lines = [re.sub(r'^ \* ?', '', line).rstrip() for line in text.strip().split('\n')]
    return lines[:-1] if lines[-1] == '' else lines


def function_of(lines, code):
    declared = FUNCTION.match(code)
    if declared is None:
        sys.exit(f'man.py: no function after the comment: {lines[0]}')
    return Function(declared, lines)


def read_header(header):
    """The first comment's lines, and the groups."""
    pieces = COMMENT.split(header)[1:]
    comments = [(comment_lines(text), code) for text, code in zip(pieces[::2], pieces[1::2])]
    groups = []
    for lines, code in comments[1:]:
        title = GROUP.match(lines[0])
        if title:
            groups.append(Group(title[1], lines[1:]))
        elif not code.lstrip().startswith('#'):
            groups[-1].functions.append(function_of(lines, code.lstrip()))
    return comments[0][0], groups


def check_complete(header, groups):
    """Every function at the start of a line has a comment of its own."""
    declared = [m[2] for m in re.finditer('^' + FUNCTION.pattern, header, re.M)]
    described = [f.name for g in groups for f in g.functions]
    if declared != described:
        sys.exit(f'man.py: no comment of its own: {sorted(set(declared) - set(described))}')


def escape(text):
    """Text with the signs that roff reads, and hyphens that are minus signs, written out."""
    text = text.replace('\\', '\\e').replace('^', '\\(ha').replace('~', '\\(ti').replace("'", '\\(aq')
    return re.sub(r'(?<![A-Za-z])-|-(?![A-Za-z])', r'\\-', text)


def marked(text, functions=()):
    """Escaped text with functions and macros in bold, and names of parameters in italics."""
    text = escape(text)
    text = re.sub(r'\b(CRUDVIM_[A-Z_]+)\b', r'\\fB\1\\fP', text)
    text = re.sub(r'\b(crudvim_\w+)\b', lambda m: f'\\fB{m[1]}\\fP()' if m[1] in functions else m[1], text)
    text = re.sub(r'\*[a-z_]+\b', r'\\fI\g<0>\\fP', text)
    text = re.sub(r'(?<![\w*\\])(out|hinted|[a-z]+_len)\b', r'\\fI\1\\fP', text)
    return '\\&' + text if text.startswith(('.', "'")) else text


def blocks(lines):
    """The paragraphs and items of a comment, as (tag, text); the tag of a paragraph is None."""
    found = []
    fresh = True
    for line in lines:
        item = ITEM.match(line)
        if not line:
            fresh = True
        elif item and not line.startswith('   '):
            found.append([item[1], item[2]])
            fresh = False
        elif fresh:
            found.append([None, line])
            fresh = False
        else:
            found[-1][1] += ' ' + line.strip()
    return found


def item_lines(tag, text, first, functions):
    spacing = [] if first else ['.PD 0']
    if tag == '-':
        return spacing + ['.IP \\(bu 3', marked(text, functions), '.PD']
    return spacing + ['.TP 6', '\\fB' + escape(tag) + '\\fP', marked(text, functions), '.PD']


def body(lines, functions):
    """The roff lines of a comment."""
    out = []
    before = None
    for tag, text in blocks(lines):
        out += ['.PP', marked(text, functions)] if tag is None else item_lines(tag, text, before is None, functions)
        before = tag
    return out


def prototype(function):
    """A prototype in lines that fit the page: types in bold, names in italics."""
    head = function.type + function.name + '('
    parameters = [p + (',' if i + 1 < len(function.parameters) else ');') for i, p in enumerate(function.parameters)]
    lines = textwrap.wrap(' '.join(p.replace(' ', '\0') for p in parameters), WIDTH - len(head), break_long_words=False)
    lines = [re.sub(r'(\w+)(?=[,)])', r'\\fI\1\\fB', line.replace('\0', ' ')) for line in lines]
    return ['\\fB' + (head if i == 0 else ' ' * len(head)) + line + '\\fP' for i, line in enumerate(lines)]


def described(function, functions):
    return ['.PP', f'\\fB{function.name}\\fP()', '.RS 4'] + body(function.lines, functions)[1:] + ['.RE']


def synopsis(groups):
    out = ['.SH SYNOPSIS', '.nf', '.B #include <crudvim.h>']
    for group in groups:
        for function in group.functions:
            out += ['.PP'] + prototype(function)
    return out + ['.fi']


def refusal_table(header):
    """The refusal numbers, their names, and what crudvim_refusal_text says of them."""
    texts = dict(CASE.findall(header))
    names = DEFINE.findall(header)
    if [name for name, _ in names] != list(texts):
        sys.exit('man.py: the refusal numbers and their texts differ')
    rows = [f'{number}\t{name}\tT{{\n{escape(texts[name])}\nT}}' for name, number in names]
    return ['.PP', '.TS', 'nokeep;', 'rB lB lx.'] + rows + ['.TE']


def name_section(first, functions):
    """The NAME section: the functions, and what the first line of the header says."""
    name, what = first.split(' - ', 1)
    return ['.SH NAME', ', '.join([name] + functions) + ' \\- ' + escape(what)]


def page(header):
    lines, groups = read_header(header)
    check_complete(header, groups)
    functions = [f.name for g in groups for f in g.functions]
    version = '.'.join(VERSION.findall(header))
    out = ["'\\\" t", f'.TH CRUDVIM 3 "" "Crudvim {version}" "Library Functions Manual"', '.nh', '.ad l']
    out += name_section(lines[0], functions)
    out += ['.SH LIBRARY', 'Crudvim (libcrudvim, \\-lcrudvim)']
    out += synopsis(groups) + ['.SH DESCRIPTION'] + body(lines[1:], functions)
    returned = []
    for group in groups:
        if group.title == RETURN_VALUE:
            returned = ['.SH RETURN VALUE'] + body(group.lines, functions) + refusal_table(header)
        else:
            out += ['.SS ' + escape(group.title)] + body(group.lines, functions)
        for function in group.functions:
            (returned if group.title == RETURN_VALUE else out).extend(described(function, functions))
    out += returned
    out += ['.SH SEE ALSO', '.BR pkg\\-config (1)', '.PP', 'C\\-LIBRARY.md in the folder share/doc/crudvim']
    return '\n'.join(out) + '\n', functions


def write(path, text):
    with open(path, 'w', encoding='utf-8') as file:
        file.write(text)


def main():
    if len(sys.argv) != 3:
        sys.exit('usage: man.py HEADER FOLDER')
    text, functions = page(open(sys.argv[1], encoding='utf-8').read())
    write(f'{sys.argv[2]}/crudvim.3', text)
    for name in functions:
        write(f'{sys.argv[2]}/{name}.3', '.so man3/crudvim.3\n')


main()
