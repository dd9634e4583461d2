#!/usr/bin/env python3
"""Brings the names of this repository's definitions, fields and lemmas to today's spelling: words joined by underscores.

usage: python3 tools/respell.py        at the top of the repository, once, right after the kit's port.py

lastNumber, octets-append  ->  last_number, octets_append

Types, modules and names that begin with a capital stay, and so do names of the library, of Rust functions and of generated goals. A lemma whose new
name is that of a definition ends in `_lem`. What falls together otherwise is left as it is, and reported. Files are rewritten in place, must-fail edits
too.
"""
import collections
import os
import re

TOKEN = re.compile(r"--[^\n]*|\"(?:[^\"\\]|\\.)*\"|[^\s(){}.;,@\"«»\[\]\\:]+")
DECLARED = re.compile(r"^( *)(?:unfoldable |abbrev |instance )*(?:pub )?([^\s(){}:;,.]+)(?: [^\s(){}:;,.]+)* +:(?=\s)", re.M)
IMPORT = re.compile(r"\buse ([A-Za-z][^\s{};]*?)\.\{([^}]*)\}")
PROOFS = ("Proof.antt", "Answers.antt", "Invariants.antt")
WORDS = ("pub", "unfoldable", "abbrev", "instance", "record", "data", "where", "module", "_")
# A record's field, or a name bound in a proof, beside a definition of the same name: the two are told apart by their place.
APART = ("bufferLimit", "byHalf", "in-range", "messageLimit", "data-length", "data-place", "name-length", "wellFormed")


def new_spelling(name):
    return re.sub(r"(?<=[a-z0-9])([A-Z])", lambda m: "_" + m[1].lower(), name).replace("-", "_")


def files(suffixes):
    for folder, dirs, names in os.walk("crates"):
        dirs[:] = sorted(d for d in dirs if d != "out")
        for n in sorted(names):
            if n.endswith(suffixes):
                yield os.path.join(folder, n)


def read(path):
    with open(path, encoding="utf-8", newline="") as f:
        return f.read()


def write(path, text):
    if text != read(path):
        with open(path, "w", encoding="utf-8", newline="") as f:
            f.write(text)


def tokens(text):
    """The words of a file that stand alone: no field, and no part of a module's path."""
    text = re.sub(r"^((?:pub )?use )[^\s{}]*", r"\1", text, flags=re.M)
    return {m[0] for m in TOKEN.finditer(text) if m[0][:2] != "--" and m[0][:1] != '"' and text[m.start() - 1 : m.start()] != "."}


def in_record(text, start, indent):
    """Whether an indented declaration is a record's field, and not a lemma of a section."""
    for line in reversed(text[:start].split("\n")[:-1]):
        if line.strip() and not line.strip().startswith("--") and len(line) - len(line.lstrip()) < indent:
            return not line.lstrip().startswith(("module", "pub module"))
    return False


def declared():
    """Every name that specs/ and proofs/ declare; those of lemmas by file; those that come from the library."""
    names, lemmas, library = set(), collections.defaultdict(set), set()
    for path in files((".antt", ".rt")):
        text = read(path)
        for m in IMPORT.finditer(text):
            crate = m[1].split(".")
            if crate[0] != "Rattle" or not os.path.isdir("crates/" + crate[1]):
                library |= {w.split(" as ")[0].strip() for w in m[2].split(",")}
        if path.endswith(".antt") and not path.endswith(PROOFS):
            for m in DECLARED.finditer(text):
                found = [w for w in m[0].strip().rsplit(":", 1)[0].split() if w not in WORDS]
                names |= set(found)
                if "/proofs/" in path and "unfoldable" not in m[0] and "abbrev" not in m[0] and not (m[1] and in_record(text, m.start(), len(m[1]))):
                    lemmas[path] |= set(found)
    return names, lemmas, library


def module(path):
    crate, rest = re.match(r"crates/(\w+)/proofs/(.*)\.antt$", path).groups()
    return f"Rattle.{crate}.proofs." + rest.replace("/", ".")


def main():
    names, lemmas, library = declared()
    turned = {}
    for n in sorted(names):
        if n[:1].isalpha() and n[0].islower() and new_spelling(n) != n and n not in library:
            turned[n] = new_spelling(n)
    definitions = {new_spelling(n) for n in turned if re.search("[a-z][A-Z]", n) and "-" not in n} | {n for n in names | library if "_" in n and n == n.lower() and "-" not in n and n not in set().union(*lemmas.values())}
    ends = {}
    for path, here in lemmas.items():
        for n in here:
            if new_spelling(n) in definitions and not re.search("[a-z][A-Z]", n):
                ends.setdefault(n, set()).add(module(path))
    special = {}
    for path in files((".antt",)):
        text = read(path)
        mine = {n for n, modules in ends.items() if module(path) in modules} if "/proofs/" in path and not path.endswith(PROOFS) else set()
        for m in IMPORT.finditer(text):
            mine |= {w.split(" as ")[0].strip() for w in m[2].split(",") if m[1] in ends.get(w.split(" as ")[0].strip(), ())}
        special[path] = mine
    where = {p: tokens(read(p)) - special[p] for p in special}
    by_new = collections.defaultdict(list)
    for n, new in turned.items():
        by_new[new].append(n)
    for new, olds in sorted(by_new.items()):
        for path, words in where.items():
            used = [o for o in olds if o in words]
            for o in used if new in words else used[1:]:
                if o in turned and o not in APART:
                    print(f"left: {o}: {new} stands in {path}")
                    turned.pop(o)
    for path in files((".antt",)):
        text = read(path)

        def turn(m):
            w = m[0]
            if w[:2] == "--":
                return re.sub(r"`([^`\s]+)`|\b[a-z][a-z0-9]*(?:[A-Z][a-z0-9]*)+\b", lambda k: "`" + turned.get(k[1], k[1]) + "`" if k[1] else turned.get(k[0], k[0]), w)
            if w[:1] == '"' or re.search(r"(?:\btie|\bgoal)\.$", text[: m.start()][-6:]):
                return w
            if w in special[path] and text[m.start() - 1 : m.start()] != ".":
                return new_spelling(w) + "_lem"
            return turned.get(w, w)

        write(path, TOKEN.sub(turn, text))
    for path in files((".rt", ".edit")):
        lines = []
        for line in read(path).split("\n"):
            word = r"(?<![\w'-])[a-z][\w']*(?:-[\w']+)*" if not line.lstrip().startswith(("//", "#")) else r"\b[a-z][a-z0-9]*(?:[A-Z][a-z0-9]*)+\b"
            lines.append(re.sub(word, lambda m: turned.get(m[0], m[0]), line))
        write(path, "\n".join(lines))
    print(f"{len(turned)} names turned")
    for n, modules in sorted(ends.items()):
        print(f"lemma: {n} of {', '.join(sorted(modules))} ends in _lem")


if __name__ == "__main__":
    main()
