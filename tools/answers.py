#!/usr/bin/env python3
"""Turns the proofs of a crate from the older form, Proof.antt with `tie.spec`, to Invariants.antt and Answers.antt.

usage: python3 tools/answers.py NAMES.json CRATE [FUNCTION ..]      at the top of the repository

NAMES.json is what `rt check --generated DIR --old-names` writes into DIR for the crate CRATE. An answer `search rules` goes, since the
check tries that itself. What could not be turned is printed, and `rt check` says what is left to do by hand.
"""
import json
import os
import re
import sys

WORD = r"[^\s(){}.;,@\"«»\[\]\\:]+"


def plain(name):
    return re.sub(r"[-_]+", "-", name)


def blocks(text):
    """The comment at the top, the use lines, and the declarations: lists of lines, each with the comments above it."""
    head, uses, rest, pending, current = [], [], [], [], None
    for line in text.rstrip("\n").split("\n"):
        if line.startswith("use "):
            if pending and not uses:
                head += pending
                pending = []
            uses.append(line)
            current = None
        elif not line.strip():
            if current is not None:
                current.append("")
            elif pending and not uses and not rest:
                head += pending
                pending = []
        elif line.startswith("--"):
            pending.append(line)
            current = None
        elif line[0] == " ":
            current.append(line)
        else:
            name = re.match(r"(?:unfoldable |abbrev |pub |record |data )*(" + WORD + ")", line)[1]
            if current is not None and line.startswith("unfolding ") or current is not None and name == current_name:
                current.append(line)
            else:
                current, current_name = [*pending, line], name
                pending = []
                rest.append((name, current))
    return head, uses, [(n, "\n".join(b).rstrip()) for n, b in rest]


def references(callee):
    """The names of a function's parameters that are references, in their order."""
    crate, *rest = callee.split("::")
    name = rest[-1]
    for folder, dirs, names in os.walk(os.path.join("crates", crate, "src")):
        for n in sorted(names):
            text = open(os.path.join(folder, n), encoding="utf-8").read()
            if len(rest) > 1 and rest[-2] + ".rt" != n:
                continue
            m = re.search(r"\bfn " + name + r"\(([^)]*)\)", text)
            if m:
                MUTABLE[callee] = [a.split(":")[0].strip() for a in m[1].split(",") if re.match(r"\s*&(?:'\w+ )?mut ", a.partition(":")[2])]
                return [a.split(":")[0].strip().removeprefix("mut ") for a in m[1].split(",") if re.match(r"\s*&", a.partition(":")[2])]
    return []


def ensured(function):
    """The names of the clauses that a function ensures, if there are several."""
    crate, *rest = function.split("::")
    for folder, dirs, names in os.walk(os.path.join("crates", crate, "src")):
        for n in sorted(names):
            text = open(os.path.join(folder, n), encoding="utf-8").read()
            if len(rest) > 1 and rest[-2] + ".rt" != n:
                continue
            m = re.search(r"\bfn " + rest[-1] + r"\b.*?\n\{", text, re.S)
            if m:
                found = re.findall(r"^    ensures (\w+) \{", m[0], re.M)
                return found if len(found) > 1 else None
    return None


def parts(text):
    """The parts of a tuple, one nested at its front taken apart, or None if the text is no tuple."""
    text = text.strip()
    if not text.startswith("(") or balanced(text, 0) != len(text):
        return None
    inner, out, deep, start = text[1:-1], [], 0, 0
    for i, ch in enumerate(inner):
        deep += (ch in "([{") - (ch in ")]}")
        if ch == "," and deep == 0:
            out.append(inner[start:i].strip())
            start = i + 1
    if inner[start:].strip():
        out.append(inner[start:].strip())
    return out if len(out) > 1 else None


def as_record(term, fields):
    """A term whose last part is a tuple, with a record by these fields for the tuple."""
    if not fields or len(fields) < 2:
        return term
    deep, at = 0, 0
    for m in re.finditer(r"[(\[{)\]}]|(?<=\s)in(?=\s)", term):
        if m[0] == "in":
            if deep == 0:
                at = m.end()
        else:
            deep += 1 if m[0] in "([{" else -1
    found = parts(term[at:])
    while found and len(found) < len(fields):
        first = parts(found[0])
        last = parts(found[-1])
        if first:
            found = first + found[1:]
        elif last:
            found = found[:-1] + last
        else:
            break
    if not found and not re.match(r"\s*(?:record|search|rw|omega|grind|simp|cc|elim|λ)\b", term[at:]):
        way = [".1" * k + (".0" if k < len(fields) - 1 else "") for k in range(len(fields))]
        return term[:at] + "\n    let all = " + term[at:].strip() + " in record { " + "; ".join(f"{f} = all{w}" for f, w in zip(fields, way)) + " }"
    if not found or len(found) != len(fields):
        return term
    return term[:at] + " record { " + "; ".join(f"{f} = {x}" for f, x in zip(fields, found)) + " }"


def changed_by(callee):
    """The names of a function's parameters that are `&mut`, in their order."""
    return [n for n in references(callee) if n in MUTABLE.get(callee, ())]


MUTABLE = {}


class Function:
    def __init__(self, names):
        self.needs = names["needs"]
        self.params = names["params"]
        self.asked = {new: names["asked"].get(old) for old, new in names["needs"]}
        self.places = {}
        self.tree = []
        self.at = {}
        self.steps = {}
        self.clauses = {}
        self.callees = {}
        for place, new, clauses in zip(names["places"], names["places_by_name"], names["clauses"]):
            old, parent, step, callee, fields = place
            self.at[plain(old)] = len(self.tree)
            self.tree.append((self.at.get(plain(parent)) if parent else None, plain(step[0]) if step and step[0] else None, step[1] if step else None, dict(fields or [])))
            self.places[plain(old)] = new
            if step and step[0]:
                self.steps[plain(step[0])] = step[1]
                if callee:
                    self.callees[plain(step[0])] = callee
                if clauses:
                    self.clauses[plain(step[0])] = clauses
        self.asked_at = {new: self.at.get(plain(where[0])) for (old, new), where in zip(names["needs"], names["asked_at"])}
        self.known = {}
        for typed in names["typed"]:
            for variable, step in typed:
                self.known[plain(step)] = variable
        self.arms = {}
        for arm in names["arms"]:
            for field, step, path in arm[2] if arm else []:
                if path:
                    self.arms[plain(step), tuple(path)] = f"{arm[0]}.{field}"
        self.pre = (names["pre"] or {}).get("fields")
        self.loops = [(loop[0], loop[1], changed) for loop, changed in zip(names["loops"], names["changed"])]
        self.settled = names["settled"]
        self.args = {a[0].split(".")[-1]: a[1].split(".")[-1] for a in names["args"] if ".args" in a[0]}

    def need(self, tie):
        """The new name of the goal that an older file calls tie.Need-.."""
        t = plain(tie)
        forms = [t, re.sub(r"^overflow-", "", t), re.sub(r"^slice-bounds-", "part-", t), re.sub(r"^nonzero-", "", t)]
        for f in forms:
            for old, new in self.needs:
                if plain(old) == f:
                    return new
        for old, new in self.needs:
            if plain(new) == t:
                return new
        return None


def balanced(text, at):
    deep, i = 0, at
    while i < len(text):
        if text[i] in "([{":
            deep += 1
        elif text[i] in ")]}":
            deep -= 1
            if deep == 0:
                return i + 1
        i += 1
    return i


def declared_name(block):
    line = next(l for l in block.split("\n") if not l.startswith("--"))
    return re.match(r"(?:unfoldable |abbrev |pub |record |data )*(" + WORD + ")", line)[1]


class Turn:
    def __init__(self, fn, path, say):
        self.fn, self.path, self.say = fn, path, say
        self.aliases, self.shown = {}, {}
        self.helpers, self.goal, self.first = {}, None, "c"
        self.inside, self.own_place, self.depth_of = {}, None, {}

    def depth(self, place):
        """How many places lie above one."""
        n = 0
        while place is not None and self.fn.tree[place][0] is not None:
            place, n = self.fn.tree[place][0], n + 1
        return n

    def take_aliases(self, block):
        """A section without its names for the records of earlier places, which today's flat records do not need."""
        m = re.search(r"^module _ \((" + WORD + r") : tie\.([A-Z][\w'-]*)", block, re.M)
        self.inside = {}
        if not m:
            return block
        while True:
            k = re.search(r"^  (?:abbrev )?(" + WORD + r") : tie\.([A-Z][\w'-]*)[^\n]*\n  \1 = (" + WORD + r")((?:\.before)*)\n(?:\n|$)", block + "\n", re.M)
            if not k or plain(k[2]) not in self.fn.at:
                return block
            block = block[: k.start()] + block[k.end() :]
            self.aliases[k[1]] = self.fn.at[plain(k[2])]
            self.inside[k[1]] = (m[1], self.fn.at[plain(k[2])])

    def clause(self, fields, rest):
        m = re.match(r"\.(\d+)(?![\d\w])", rest)
        if m and fields and all(fields) and int(m[1]) < len(fields):
            return "." + fields[int(m[1])] + rest[m.end():]
        return rest

    def of_step(self, text, variable, step, ensures):
        """A term in which a variable stands for a step, or for what it ensures: the clauses and arguments get their names."""
        names = (self.fn.clauses.get(step) or {}).get("fields") or []
        params = self.fn.params.get(self.fn.callees.get(step)) or []

        def named(fields):
            return lambda m: m[1] + (fields[int(m[2])] if int(m[2]) < len(fields) else m[2])

        def changed(m):
            at = m[2].count(".1")
            return m[1] + "." + params[at] if at < len(params) and m[3] else m[0]

        v = r"(?<![.\w₀'-])(" + re.escape(variable)
        if ensures:
            return re.sub(v + r"\.)(\d+)(?!\w)", named(names), text) if len(names) > 1 else text
        text = re.sub(v + r"\.ensures\.)(\d+)(?!\w)", named(names), text)
        text = re.sub(v + r"\.new)((?:\.1)*)(\.0)?(?![\w])", lambda m: changed(m) if m[2] or m[3] else m[0], text)
        if len(names) == 1:
            text = re.sub(v + r"\.ensures)(?![.\w-])", lambda m: m[1] + "." + names[0], text)
        return text

    def arm(self, step, rest):
        """What an arm calls a path below a step, and how long the path is."""
        path, at, best = [], 0, None
        for m in re.finditer(r"\.([\w-]+)", rest):
            if m.start() != at:
                break
            path.append(m[1])
            at = m.end()
            if (step, tuple(path)) in self.fn.arms:
                best = (self.fn.arms[step, tuple(path)], at)
        return best

    def up(self, place, times):
        while times and place is not None:
            place = self.fn.tree[place][0]
            times -= 1
        return place

    def step_at(self, place, step):
        """The place that has a step, at or above a place."""
        at = place
        while at is not None:
            if self.fn.tree[at][1] == step:
                return at
            at = self.fn.tree[at][0]
        for at, of in enumerate(self.fn.tree):
            if of[1] == step:
                return at
        return None

    def body(self, text, contexts):
        """A term with the flat names of today's contexts. `contexts` gives the variables that stand for one, and the place of each."""
        contexts = dict(contexts)
        text = text.replace(".type-inv", ".type_inv")
        # a name of the file's own for the record of an earlier place
        self.shown = {n: v for n, (v, place) in self.inside.items()}
        contexts.update({n: place for n, (v, place) in self.inside.items()})
        while True:
            m = re.search(r"(?<![\w'.‡-])\(?(" + "|".join(re.escape(n) for n in self.aliases) + r") (" + WORD + r")((?:\.before)*)(\)|(?=\s))", text) if self.aliases else None
            if not m or (m[0][0] == "(") != (m[4] == ")"):
                break
            new = f"{m[2]}‡{m[1]}"
            text = text[: m.start()] + new + text[m.end() :]
            contexts[new] = self.aliases[m[1]]
            self.shown[new] = self.shown.get(m[2], m[2])
        while True:
            known = "|".join(re.escape(c) for c in contexts)
            found = {m[1]: self.up(contexts[m[2]], m[3].count(".before")) for m in re.finditer(r"\blet (" + WORD + r") = (" + known + r")((?:\.before)*) in", text) if m[1] not in contexts}
            if not found:
                break
            contexts.update(found)
        variables = "|".join(re.escape(c) for c in sorted(contexts, key=len, reverse=True))
        for m in re.finditer(r"\blet (" + WORD + r") = (?:" + variables + r")(?:\.before)*\.(" + WORD + r")(\.ensures)? in", text):
            step = plain(m[2])
            if step in self.fn.steps:
                text = self.of_step(text, m[1], step, bool(m[3]))
        for m in list(re.finditer(r"\blet (" + WORD + r") = (" + variables + r")(?:\.before)*\.(" + WORD + r")((?:\.\w+)*) in", text)):
            step, start = plain(m[3]), m[4]

            def part(k):
                found = self.arm(step, start + k[1])
                return f"{m[2]}.«{found[0]}»" + (start + k[1])[found[1] :] if found else k[0]

            if any(s == step for s, _ in self.fn.arms) and step not in self.fn.callees:
                text = re.sub(r"(?<![.\w₀'-])" + re.escape(m[1]) + r"((?:\.[\w-]+)+)", part, text)
                if len(re.findall(r"(?<![.\w₀'-])" + re.escape(m[1]) + r"(?![\w'-])", text)) == 1:
                    text = re.sub(r"[ \n]*" + re.escape(m[0]), "", text)
        out, i = [], 0
        path = re.compile(r"(?<![.\w₀'-])(" + variables + r")((?:\.before)*)(?:\.(" + WORD + r"))?(?![\w'₀-])")
        while True:
            m = path.search(text, i)
            if not m:
                out.append(text[i:])
                break
            out.append(text[i : m.start()])
            name, field = m[1], m[3]
            here = self.up(contexts[name], m[2].count(".before"))
            depth = self.depth_of.get(self.shown.get(name, name))
            i = m.end()
            name = self.shown.get(name, name)
            if text[i - 1] == "." or text[i : i + 2] == ".«":
                k = re.match(r"\.«([^»]*)»", text[i:])
                out.append(f"{name}.{k[1]}")
                i += k.end()
                continue
            if field is None:
                before = re.search(r"(" + WORD + r") \(?$", text[: m.start()])
                place = self.helpers.get(before[1]) if before else None
                alias = text[: m.start()].endswith(" = ") and re.match(r"\s+in\b", text[i:])
                if place and not self.goal and place == self.own_place:
                    out.append(name)
                elif place == "Start" and not self.goal and depth is not None:
                    out.append(name + ".before" * (depth + 1))
                elif place and self.goal:
                    out.append(f"(goal.at.{self.goal} {self.first}).{place}")
                else:
                    out.append(name if alias or not m[2] else name + m[2])
                    if m[2] and not alias:
                        self.say(f"{self.path}: {name}{m[2]} is passed to {before[1] if before else '?'}")
                continue
            rest = text[i:]
            step = plain(field)
            if field in ("args", "ranges", "type_inv", "lifetimes", "well_formed"):
                out.append(f"{name}.{field}")
                k = re.match(r"\.(" + WORD + ")", rest)
                if k and k[1] in self.fn.args:
                    out.append("." + self.fn.args[k[1]])
                    i += k.end()
            elif field in ("requires", "pre"):
                out.append(f"{name}.requires")
                pre, at = self.fn.pre or [], 0
                while len(pre) > 1 and (k := re.match(r"\.(\d+)(?![\d\w])", text[i:])):
                    i += k.end()
                    if k[1] == "1" and at < len(pre) - 2:
                        at += 1
                        continue
                    out.append("." + pre[at + int(k[1])] if at + int(k[1]) < len(pre) else k[0])
                    at = -1
                    break
                if at > 0:
                    out.append(".1" * at)
            elif (arm := self.arm(step, rest)) is not None:
                out.append(f"{name}.{arm[0]}")
                i += arm[1]
            elif step in self.fn.known and rest.startswith(".given"):
                out.append(f"{name}.type_inv.{self.fn.known[step]}")
                i += len(".given")
            elif (at := self.step_at(here, step)) is not None:
                _, _, new, fields = self.fn.tree[at]
                out.append(f"{name}.{new}")
                k = re.match(r"\.(\w+)(?![\w-])", rest)
                if k and (k[1] in fields or k[1] in ("left", "taken")):
                    out.append("." + fields.get(k[1], {"left": "false", "taken": "true"}.get(k[1])))
                    i += k.end()
                    continue
                k = re.match(r"\.ensures\.(\d+)(?![\d\w])", rest)
                names = (self.fn.clauses.get(step) or {}).get("fields")
                if names and len(names) == 1 and re.match(r"\.ensures(?![.\w-])", rest):
                    out.append(".ensures." + names[0])
                    i += len(".ensures")
                elif k and names and int(k[1]) < len(names) and names[int(k[1])]:
                    out.append(".ensures." + names[int(k[1])])
                    i += k.end()
                k = re.match(r"\.new((?:\.1)*)(\.0)?(?![\d\w])", rest)
                callee = self.fn.callees.get(step)
                params = self.fn.params.get(callee) or []
                if k and (k[1] or k[2]) and params:
                    at = k[1].count(".1")
                    if at < len(params) and k[2]:
                        out.append(".new." + params[at])
                        i += k.end()
                k = re.match(r"\.auto\.(\d+)(?![\d\w])", rest)
                given = (references(callee) and changed_by(callee)) if k and callee else []
                if k and int(k[1]) < len(given):
                    out.append(".auto." + given[int(k[1])])
                    i += k.end()
            else:
                out.append(f"{name}.{field}")
                self.say(f"{self.path}: no step for {name}{m[2]}.{field}")
        text = "".join(out)
        for old, new in self.fn.args.items():
            text = re.sub(r"(?<=\.)" + re.escape(old) + r"(?![\w'-])", new, text)
        one = r"(?:\([^()]*(?:\([^()]*\)[^()]*)*\)|[^\s()]+)"
        return re.sub(r"\b(?:ltb|leb|eqb)-(?:true|false) " + one + " " + one + r" ((?:" + variables + r")\.[^\s(),;.]+\.(?:true|false))-raw\b", r"\1", text)


def invariant_vars(fn, loop):
    for names, variables, changed in fn.loops:
        if plain(names[0]) == plain(loop):
            first = [("l.initial." if ch else "l.") + v for v, ch in zip(variables, changed)]
            return names[1], first + ["l." + v for v, ch in zip(variables, changed) if ch]
    return None, None


def substitute(text, names):
    return re.sub(r"(?<![\w'.-])(" + "|".join(re.escape(n) for n in sorted(names, key=len, reverse=True)) + r")(?![\w'₀-])", lambda m: names[m[1]], text)


def turn(path, module, function, fn, say):
    text = open(path, encoding="utf-8").read()
    head, uses, decls = blocks(text)
    uses = [u for u in uses if not re.search(r"\.(Statement\.\{statement\}|Tie as tie)$", u)]
    invariants, answers, aliases = [], [], {}
    places = set()
    for name, block in decls:
        m = re.search(r"^(?:abbrev |pub |unfoldable )*" + re.escape(name) + r" : tie\.Need-(\S+)", block, re.M)
        if m:
            aliases[name] = fn.need(m[1])
            if aliases[name] is None:
                say(f"{path}: no goal for {name} : tie.Need-{m[1]} (settled {fn.settled})")
    here = Turn(fn, path, say)
    # what the invariants name goes with them
    shared, text = [], "\n".join(b for _, b in decls if " : tie.invariant-" in b or " : tie.decreases-" in b)
    for name, block in reversed(decls):
        if "tie." not in block and re.search(r"(?<![\w'.-])" + re.escape(declared_name(block)) + r"(?![\w'-])", text):
            shared.insert(0, (name, block))
            text += block
    decls = [d for d in decls if d not in shared]
    shared = [(n, re.sub(r"^  (?!pub )(?=\S+(?: \S+)* :)", "  pub ", b, flags=re.M) if "record " in b.split(" : ")[0] else b) for n, b in shared]
    for _, block in shared:
        invariants.append(re.sub(r"^(abbrev |unfoldable )?(?:pub )?(record |data )?", lambda m: (m[1] or "") + "pub " + (m[2] or ""), block, count=1, flags=re.M) if not block.startswith("--") else re.sub(r"^(?!--)(abbrev |unfoldable )?(?:pub )?(record |data )?", lambda m: (m[1] or "") + "pub " + (m[2] or ""), block, count=1, flags=re.M))
    for name, block in decls:
        if re.search(r"_?-?spec$", name) and "tie.spec" in block:
            continue
        m = re.search(r"^((?:abbrev |pub |unfoldable )*)" + re.escape(name) + r" : tie\.(invariant|decreases)-(\S+)", block, re.M)
        if m:
            loop, new_vars = invariant_vars(fn, m[3])
            if not loop:
                say(f"{path}: no loop {m[3]}")
                continue
            lines = block.split("\n")
            sig = next(k for k, l in enumerate(lines) if " : tie." in l)
            body = "\n".join(lines[sig + 1 :])
            eq = body.index(" =") if " =" in body else -1
            binders = body[:eq].split()[1:]
            if len(binders) != len(new_vars):
                say(f"{path}: {name} has {len(binders)} variables, and the loop {len(new_vars)}: {new_vars}")
                continue
            term = substitute(body[eq + 2 :], dict(zip(binders, new_vars)))
            term = re.sub(r"\bl\.([\w.]+)\.now\b", r"l.\1", term)
            goal = f"{m[2]}-{loop}"
            invariants.append("\n".join([*lines[:sig], f"abbrev pub {goal} : goal.{goal}", f"{goal} l ={term}"]))
            continue
        m = re.search(r"^(?:abbrev |pub |unfoldable )*" + re.escape(name) + r" : tie\.Need-(\S+)[^\n]*", block, re.M)
        if m:
            goal = aliases[name]
            if goal is None:
                answers.append("-- LEFT\n" + block)
                continue
            lines = block.split("\n")
            sig = next(k for k, l in enumerate(lines) if " : tie.Need" in l)
            rest = "\n".join(lines[sig + 1 :])
            if not re.match(r"(?:unfolding [^\n]*\n)*" + re.escape(name) + r"(?: \S+)*? =", rest):
                # the signature goes on over more lines
                k = re.search(r"^(?:unfolding |" + re.escape(name) + r" )", rest, re.M)
                rest = rest[k.start():] if k else rest
            k = re.search(r"^" + re.escape(name) + r"((?: \S+)*?) =", rest, re.M)
            if not k:
                say(f"{path}: no equation for {name}")
                continue
            binders = [b for b in k[1].split() if b != "κs"]
            term = rest[k.end():]
            if re.fullmatch(r"\s*search rules\s*", term):
                continue
            here.goal, here.first = goal, (binders[:1] or ["c"])[0]
            term = here.body(term, {here.first: fn.asked_at.get(goal)})
            here.goal = None
            term = as_record(term, fn.asked.get(goal) or (ensured(function) if goal.startswith("returns") else None))
            answers.append("\n".join([*lines[:sig], f"pub {goal} : goal.{goal}"]) + "\n" + rest[: k.start()] + f"{goal} " + " ".join(binders) + " =" + term)
            continue
        # a declaration of the file's own
        def place(m):
            new = fn.places.get(plain(m[1]))
            if new is None:
                say(f"{path}: no place tie.{m[1]}")
                return m[0]
            places.add(new)
            return new

        typed = {m[1]: fn.at.get(plain(m[2])) for m in re.finditer(r"\(?\b(" + WORD + r") : tie\.([A-Z][\w'-]*)", block)}
        k = re.match(r"(?:--[^\n]*\n)*(?:abbrev )?(" + WORD + r") : tie\.([A-Z][\w'-]*)[^\n→]* → tie\.([A-Z][\w'-]*)[^\n]*\n\1 (" + WORD + r") = \4((?:\.before)*)$", block)
        if k and plain(k[3]) in fn.at:
            here.aliases[name] = fn.at[plain(k[3])]
            continue
        block = here.take_aliases(block)
        k = re.search(r": tie\.([A-Z][\w'-]*)", block)
        if k and plain(k[1]) in fn.places:
            here.helpers[name] = fn.places[plain(k[1])]
            here.own_place = fn.places[plain(k[1])]
            if name == "module":
                for inner in re.finditer(r"^  (?:abbrev |unfoldable )*(?:pub )?(" + WORD + r")(?: [^\n:]+)? :\s", block, re.M):
                    here.helpers[inner[1]] = fn.places[plain(k[1])]
            typed.setdefault("c", fn.at[plain(k[1])])
            e = re.search(r"^" + re.escape(name) + r"((?: \S+)*?) =", block, re.M)
            if e and e[1].split():
                typed.setdefault(e[1].split()[0], fn.at[plain(k[1])])
        block = re.sub(r"tie\.([A-Z][\w'-]*)((?: (?:invariant|decreases)-[^\s)]+)*)", place, block)
        if typed:
            here.depth_of = {n: here.depth(place) for n, place in typed.items() if place is not None}
            block = here.body(block, typed)
        here.inside, here.own_place, here.depth_of = {}, None, {}
        answers.append(block)
    folder = os.path.dirname(path)
    renamed = {n: g for n, g in aliases.items() if g and n != g}
    if renamed:
        answers = [substitute(a, {n: g for n, g in renamed.items()}) if False else a for a in answers]
    if invariants:
        text = "\n\n".join(invariants)
        used = [u for u in (only(u, text) for u in uses) if u]
        write(os.path.join(folder, "Invariants.antt"), "\n".join([*head, *used, f"use {module}.Given as goal", "", text]))
    if answers:
        text = "\n\n".join(answers)
        used = [u for u in (only(u, text) for u in uses) if u]
        extra = [f"use {module}.Goals as goal"]
        mine = [declared_name(b) for _, b in shared if re.search(r"(?<![\w'.-])" + re.escape(declared_name(b)) + r"(?![\w'-])", text)]
        if mine:
            extra.append(f"use {module}.Invariants.{{{', '.join(mine)}}}")
        if places:
            extra.append(f"use {module}.Goals.{{{', '.join(sorted(places))}}}")
        write(os.path.join(folder, "Answers.antt"), "\n".join([*head, *used, *extra, "", text]))
    os.remove(path)


def only(use, text):
    """A use line with those names that the text has."""
    m = re.match(r"use ([^\s{]*)\.\{([^}]*)\}$", use)
    if not m:
        k = re.search(r" as (\S+)$", use)
        return use if not k or re.search(r"(?<![\w'])" + re.escape(k[1]) + r"\.", text) else None
    keep = []
    for n in m[2].split(", "):
        last = n.split(" as ")[-1].strip()
        if "◌" in last:
            parts = [p for p in re.split("◌", last) if p]
            ok = all(p in text for p in parts)
        else:
            ok = re.search(r"(?<![\w'₀-])" + re.escape(last) + r"(?![\w'₀])", text)
        if ok:
            keep.append(n)
    return f"use {m[1]}.{{{', '.join(keep)}}}" if keep else None


def write(path, text):
    with open(path, "w", encoding="utf-8") as f:
        f.write(text.rstrip("\n") + "\n")


def main():
    names = json.load(open(sys.argv[1]))
    crate = sys.argv[2]
    wanted = set(sys.argv[3:])
    said = []
    for key, of in names.items():
        if not key.endswith(".Lts") and ".Lts" not in key:
            continue
        library, rest = key.split(".", 1)
        where = rest.rsplit(".Lts", 1)[0]
        if wanted and where not in wanted:
            continue
        path = os.path.join("crates", crate, "proofs", *where.split("."), "Proof.antt")
        if not os.path.exists(path):
            continue
        if "+" in where:
            said.append(f"{path}: a cycle, by hand")
            continue
        module = library.replace("Rattle-", "Rattle.", 1)
        module = module[: -len("-proofs")] + ".proofs." + where
        turn(path, module, "::".join([crate, *where.split(".")]), Function(of), said.append)
    print("\n".join(said))


if __name__ == "__main__":
    main()
