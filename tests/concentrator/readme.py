#!/usr/bin/env python3
"""Writes the C programs of README.md to a folder, as readme1.c, readme2.c and so on, and beside each what it has to print, as readme1.txt: the text
in backquotes after "It prints", in the first paragraph after the program. Run at the project's root:

    python3 tests/concentrator/readme.py FOLDER"""
import re
import sys

PROGRAM = re.compile(r'^```c\n(.*?)^```\n\nIt prints `([^`]+)`', re.M | re.S)


def write(path, text):
    with open(path, 'w', encoding='utf-8') as file:
        file.write(text)


def main():
    page = open('README.md', encoding='utf-8').read()
    programs = PROGRAM.findall(page)
    if len(programs) != page.count('\n```c\n') or not programs:
        sys.exit('README.md: a C program without the words "It prints" after it, or no C program')
    for number, (program, printed) in enumerate(programs, 1):
        write(f'{sys.argv[1]}/readme{number}.c', program)
        write(f'{sys.argv[1]}/readme{number}.txt', printed + '\n')


main()
