"""The places of each point of the design pass, by number: python3 design_counts.py POINT, at the top of the repository."""
import collections, difflib, glob, re, sys

ITEM = re.compile(r'^( *)(?:#\[[^\n]*\]\n *)*(pub(?:\(crate\))? )?(?:extern "C" )?fn (\w+)(?:<[^(]*>)?\((.*?)\)(?: -> ([^\n{]+?))?\s*\n?'
                  r'((?: *(?:requires|ensures|where)[^\n]*\n)*) *\{', re.S | re.M)
Fn = collections.namedtuple('Fn', 'crate name params result clauses body line path')


def functions():
    for path in sorted(glob.glob('crates/*/src/**/*.rt', recursive=True)):
        text = open(path, encoding='utf-8').read()
        for m in ITEM.finditer(text):
            end, depth = m.end(), 1
            while depth:
                depth += {'{': 1, '}': -1}.get(text[end], 0)
                end += 1
            params = [' '.join(p.split()) for p in re.split(r',(?![^\[(<]*[\])>])', m.group(4)) if p.strip()]
            yield Fn(path.split('/')[1], m.group(3), params, m.group(5) or '', m.group(6) or '', re.sub(r'//[^\n]*', '', text[m.end():end - 1]),
                     text[:m.start()].count('\n') + 1, path)


def lines(pattern):
    for path in sorted(glob.glob('crates/*/src/**/*.rt', recursive=True)):
        for n, line in enumerate(open(path, encoding='utf-8'), 1):
            if re.search(pattern, line) and not line.lstrip().startswith('//'):
                yield path, n, line.strip()


def show(title, rows):
    rows = list(rows)
    print(f'== {title}: {len(rows)}')
    for row in rows:
        print('  ', *row)


def named(test):
    return [(f.crate + '::' + f.name, f.path.split('/src/')[1], f.line) for f in functions() if test(f)]


def one():
    show('enums', lines(r'^ *(pub(\(crate\))? )?enum '))
    show('records with a refusal beside values', lines(r'^    pub refusal: u64,'))
    show('functions that make such a record or variant',
         named(lambda f: re.fullmatch(r'refuse[d]?|refused_\w+|rejected|\w+_refused|not_tagged|not_found', f.name)))
    show("functions that return a refusal's number, 0 for none", named(lambda f: re.fullmatch(r'\w+_fault|\w+_refusal|close_early', f.name)))
    show('functions that return octets, or a base plus a refusal',
         named(lambda f: f.result == 'u64' and re.search(r'\b(FAULT|CUT|BAD|PAST_THE_END|INTO|REFUSED)\b', re.sub(r'reading::\w+', '', f.body))))
    show('constants of refusals', lines(r'^(pub )?const (FAULT|CUT|BAD|PAST_THE_END|INTO|REFUSED|NO_CELL|TOO_LARGE)\b|^pub const (?!MESSAGE_LIMIT|DEPTH_LIMIT|LAST_NUMBER|STATE_WORDS|FAULT|INTO|REFUSED)[A-Z_]+: u64'))
    show('uses of those of reading', ((f.crate + '::' + f.name, w) for f in functions()
                                      for w in re.findall(r'reading::(?!MESSAGE_LIMIT|DEPTH_LIMIT|LAST_NUMBER)([A-Z_]+)\b', f.body)))
    show('kinds as numbers', named(lambda f: any(re.fullmatch(r'(code|kind|wanted): u64', p) for p in f.params) and f.crate != 'crudvim'))
    show('revisions as numbers', named(lambda f: 'revision: u64' in f.params))
    show('flags beside a value', lines(r'^ *(pub )?\w*hinted: bool|\b(hinted|present): bool'))


def two():
    word = re.compile(r"b?'[^']*'|b?\"[^\"]*\"|[A-Za-z_]\w*|\d[\w.]*|[^\s\w]")
    kept = {'if', 'else', 'while', 'loop', 'for', 'match', 'return', 'let', 'mut', 'break', 'continue', 'as'}
    shapes = [(f, [w if w in kept or not re.match(r"[A-Za-z_0-9'\"]", w) else '_' for w in word.findall(f.body)]) for f in functions()]
    shapes = [s for s in shapes if len(s[1]) >= 25]
    rows = []
    for i, (f, a) in enumerate(shapes):
        for g, b in shapes[i + 1:]:
            if 0.8 <= len(a) / len(b) <= 1.25:
                m = difflib.SequenceMatcher(None, a, b, autojunk=False)
                if m.quick_ratio() >= 0.88 and m.ratio() >= 0.88:
                    rows.append((f'{m.ratio():.2f}', len(a), f'{f.crate}::{f.name} ~ {g.crate}::{g.name}'))
    show('pairs of functions of one shape, names and numbers aside', sorted(rows, key=lambda r: (-float(r[0]), -r[1])))


def three():
    show('loops', ((f.crate + '::' + f.name, m.group(1), m.group(2).strip()) for f in functions()
                   for m in re.finditer(r"^ *(?:'\w+: )?(while|loop|for)\b([^\n]*)", f.body, re.M)))
    show('loops that count by one', ((f.crate + '::' + f.name, m.group(1)) for f in functions()
                                     for m in re.finditer(r'^ *while (\w+ < [^\n]*) \{', f.body, re.M)
                                     if re.search(r'\b%s \+= 1;' % m.group(1).split()[0], f.body)))


def four():
    for name in ('wide', 'smaller', 'larger', 'below_zero'):
        show(f'calls of numbers::{name}', ((p, n) for p, n, l in lines(r'numbers::%s\(' % name) for _ in re.findall(r'numbers::%s\(' % name, l)))
    show('functions of that kind elsewhere', named(lambda f: re.fullmatch(r'wide|capped|less|over|larger|when|sum|above|equal|same|same_levels|begins|digit|octet|size|starts_with', f.name)))
    show('casts', ((p, n) for p, n, l in lines(r' as (u8|u16|u32|u64|usize|i64|f64)\b') for _ in re.findall(r' as (u8|u16|u32|u64|usize|i64|f64)\b', l)))
    show('types that derive no more than Clone and Copy', lines(r'^#\[derive\(Clone, Copy\)\]'))


def five():
    facts = collections.defaultdict(list)
    for f in functions():
        for kind, body in re.findall(r'(requires|ensures)(?: \w+)? \{ (.*) \}', f.clauses):
            for fact in body.split(' × '):
                facts[kind, fact.strip('() ') if fact.count('(') != fact.count(')') or re.fullmatch(r'\([^()]*\)', fact) else fact].append(f.crate + '::' + f.name)
    show('facts in three clauses or more', sorted(((len(v), *k, v) for k, v in facts.items() if len(v) >= 3), key=lambda r: -r[0]))
    import itertools
    sets = collections.defaultdict(list)
    for f in functions():
        params = [re.sub(r'^mut ', '', p) for p in f.params]
        for k in (3, 4, 5):
            for some in itertools.combinations(params, k):
                sets[some].append(f.crate + '::' + f.name)
    often = {k: v for k, v in sets.items() if len(v) >= 6}
    show('three parameters or more that six functions or more share',
         sorted(((len(v), '; '.join(k)) for k, v in often.items() if not any(set(k) < set(j) and len(often[j]) == len(v) for j in often)), key=lambda r: -r[0]))


def six():
    show('arrays in records', lines(r'^    pub(\(crate\))? \w+: \[|^    \w+: \[\w+; \w+\],'))
    show('a count as a parameter beside words', named(lambda f: any(p.startswith('count: ') for p in f.params)))
    show('arrays as parameters', named(lambda f: any(re.search(r'\[\w+; \w+\]', p) for p in f.params)))


def seven():
    show('a parameter that says which step to run', named(lambda f: any(re.search(r'Occurrence|^what: u8|^is: bool|^which: ', p) for p in f.params)))
    show('a step chosen by the number of a kind', ((f.crate + '::' + f.name,) for f in functions()
                                                   if any(re.fullmatch(r'(code|kind|wanted): (u64|Meaning)', p) for p in f.params) and re.search(r'if (code|kind|wanted) |match kind', f.body)))


def eight():
    names = sorted(glob.glob('crates/*/proofs/**/*.antt', recursive=True))
    for title, test in (('Answers.antt of functions', lambda n: n.endswith('/Answers.antt') and n.count('/') > 3),
                        ('Invariants.antt', lambda n: n.endswith('/Invariants.antt')),
                        ('files of lemmas', lambda n: not n.endswith(('/Invariants.antt', '/Lib.antt')) and not (n.endswith('/Answers.antt') and n.count('/') > 3))):
        some = [n for n in names if test(n)]
        per = collections.Counter(n.split('/')[1] for n in some)
        print(f'== {title}: {len(some)} files, {sum(len(open(n, encoding="utf-8").readlines()) for n in some)} lines')
        print('  ', ', '.join(f'{c} {k}' for c, k in per.items()))


(one, two, three, four, five, six, seven, eight)[int(sys.argv[1]) - 1]()
