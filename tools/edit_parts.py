#!/usr/bin/env python3
"""Checks each must-fail edit and judges it part by part: python3 tools/edit_parts.py [--goals] [CRATE ..], at the project's root. With --goals it also
prints the goal or the law that refuses each part.

`rt ci` only says that the prover refused an edit as a whole. The prover checks every function of the crate against its callees' contracts and
reports each one that fails, so each part has to be refused by an error of its own. These do not count: a function that is not proved only because
another one is not; and an error which says that an answer no longer fits the code, since it says nothing about a value. The checks run in a copy of
the crates, which begins with what earlier checks of them kept."""
import concurrent.futures
import os
import pathlib
import re
import shutil
import subprocess
import sys
import tempfile

from edits import edits

HEAD = re.compile(r'^(?:\./)?(\S+?):\d+:\d+: error: (.*)$')
UNFIT = re.compile(r'that can be named from here|has no field|has no `|is not in scope|was not admitted|which was rejected')


def errors_by_file(text):
    """The errors of a check, each with its lines joined, by the file of the crate that they are in."""
    found, last = {}, None
    for line in text.splitlines():
        if head := HEAD.match(line):
            last = [head.group(2)]
            found.setdefault(head.group(1), []).append(last)
        elif last and line.startswith('  '):
            last.append(line.strip())
        else:
            last = None
    return {file: [' '.join(lines) for lines in errors] for file, errors in found.items()}


def own_errors(refused, errors):
    """The errors in the file of a law, or in the files of a function's proof."""
    if refused.startswith('proofs/'):
        return errors.get(refused, [])
    *modules, name = refused.split('::')
    folders = ['/'.join(['proofs', *modules, n, '']) for n in (name, '+' + name)]
    return [error for file, each in errors.items() if file.startswith(tuple(folders)) for error in each]


def judged(crate, refused, text, errors):
    """What is wrong with a part, or None where it is refused as it has to be; and the goal or the law that refuses it."""
    own = own_errors(refused, errors)
    function = rf'^fn {crate}::{re.escape(refused)}: '
    if not refused.startswith('proofs/'):
        # A goal of the function is open that the search closes for the right function.
        if open_goals := re.search(function + r'no proof: expected answers.*did not prove (.*)', text, re.M):
            return None, open_goals.group(1)
        if not re.search(function + r'not proved', text, re.M):
            return 'is still proved', None
    if not own:
        return 'has no error of its own', None
    fitting = [error for error in own if not UNFIT.search(error)]
    if not fitting:
        return f'only made its answers unfit: {own[0][:160]}', None
    return None, fitting[0].split(': ')[0]


def applied(text, folder):
    """The texts of the files that an edit changes."""
    texts, path, old = {}, None, None
    for line in text.splitlines():
        if line.startswith('file: '):
            path = line[len('file: '):].strip()
        elif line.startswith('old: '):
            old = line[len('old: '):]
        elif line.startswith('new:'):
            was = texts.get(path) or (folder / path).read_text(encoding='utf-8')
            if was.count(old) != 1:
                raise ValueError(f'{path} has {was.count(old)} times: {old}')
            texts[path] = was.replace(old, line[len('new:'):].removeprefix(' '))
    return texts


def check(folder):
    return subprocess.run(['rt', 'check'], cwd=folder, stdin=subprocess.DEVNULL, stdout=subprocess.PIPE, stderr=subprocess.STDOUT, text=True).stdout


def checked(folder, text):
    """What the check says of a crate with an edit, or with a part of one."""
    changed = applied(text, folder)
    was = {path: (folder / path).read_text(encoding='utf-8') for path in changed}
    try:
        for path, new in changed.items():
            (folder / path).write_text(new, encoding='utf-8')
        return check(folder)
    finally:
        for path, old in was.items():
            (folder / path).write_text(old, encoding='utf-8')


def judge(copy, crate, own, goals):
    """Checks a crate with each of its edits, and prints and counts what is wrong. A part that shows no error of its own beside the others is checked
    alone."""
    folder = copy / 'crates' / crate
    tried, faults = 0, 0
    for edit in own:
        text = pathlib.Path('crates', crate, 'must-fail', f'{edit.label}.edit').read_text(encoding='utf-8')
        said = checked(folder, text)
        errors = errors_by_file(said)
        for part, block in zip(edit.parts, re.split(r'\n\s*\n', text.strip())):
            tried += 1
            why, goal = judged(crate, part.refused, said, errors)
            if why and len(edit.parts) > 1:
                alone = checked(folder, block)
                why, goal = judged(crate, part.refused, alone, errors_by_file(alone))
            if why:
                faults += 1
            if why or goals:
                print(f'{crate}/{edit.label}: {part.name}: {part.refused} {why or "is refused at " + goal}', flush=True)
    return tried, faults


def work(waiting, by_crate, goals):
    """Judges crates as long as some wait, in a copy of its own: a check builds the crates below from their sources."""
    results = []
    with tempfile.TemporaryDirectory(prefix='crudvim-') as room:
        copy = pathlib.Path(room)
        shutil.copytree('crates', copy / 'crates', ignore=shutil.ignore_patterns('out'))
        shutil.copy('crates.txt', copy)
        while waiting:
            crate = waiting.pop(0)
            said = check(copy / 'crates' / crate)
            if not re.search(r'^logic=proved', said, re.M):
                print(f'{crate} is not proved: {said[-300:]}', flush=True)
                results.append((0, 1))
                continue
            results.append(judge(copy, crate, by_crate[crate], goals))
    return results


def main():
    goals = '--goals' in sys.argv[1:]
    wanted = [word for word in sys.argv[1:] if word != '--goals']
    by_crate = {}
    for edit in edits():
        if not wanted or edit.crate in wanted:
            by_crate.setdefault(edit.crate, []).append(edit)
    listed = [line.split(':')[0].split()[0] for line in open('crates.txt', encoding='utf-8') if ':' in line and not line.startswith('#')]
    waiting = [crate for crate in listed if crate in by_crate]
    with concurrent.futures.ThreadPoolExecutor(os.cpu_count()) as pool:
        results = sum(pool.map(lambda _: work(waiting, by_crate, goals), range(os.cpu_count())), [])
    faults = sum(n for _, n in results)
    tried = sum(n for n, _ in results)
    print(f'must-fail edits: {tried} wrong functions and definitions, {faults} not refused by an error of their own')
    sys.exit(1 if faults or not tried else 0)


if __name__ == '__main__':
    main()
