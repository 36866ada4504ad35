#!/usr/bin/env python3
"""Lists, point by point, the places in src/ that may take a newer form, and counts them.

Use: tools/places.py [FOLDER] [POINT..]      (FOLDER: a checkout, by default this one; POINT: 1 to 8)
It goes by text, so a line that it prints is a place to look at, and not yet a fault.
"""
import difflib
import itertools
import pathlib
import re
import sys
from collections import Counter, defaultdict

arguments = sys.argv[1:]
root = pathlib.Path(arguments.pop(0)) if arguments and not arguments[0].isdigit() else pathlib.Path(__file__).parent.parent
wanted = {int(a) for a in arguments} or set(range(1, 9))
COMMENT = re.compile(r'//.*')
SIGNATURE = re.compile(r'\bfn\s+(\w+)\s*(?:<.*?>)?\s*\((.*?)\)\s*(?:->\s*([^{]*?))?(?=\s*(?:requires|ensures|where|\{|;))', re.S)


def sources():
    for path in sorted(root.glob('crates/*/src/**/*.rt')):
        yield path.relative_to(root), COMMENT.sub('', path.read_text())


def line_of(text, offset):
    return text.count('\n', 0, offset) + 1


def matches(pattern, flags=0, tests=True):
    found = []
    for path, text in sources():
        if tests or path.name != 'tests.rt':
            found += [f'{path}:{line_of(text, m.start())}: {" ".join(m.group().split())}' for m in re.finditer(pattern, text, flags)]
    return found


def functions():
    """Each function with a body: where it stands, its name, its clauses and its body."""
    for path, text in sources():
        for m in re.finditer(r'\bfn\s+(\w+)', text):
            place, depth, body, clauses = m.end(), 0, None, text[m.end():m.end()]
            # the body is the block that stands alone after the clauses: the first block that no `requires`, `ensures` or `where` opens
            while place < len(text) and text[place] not in ';{':
                place += 1
            start = m.end()
            while place < len(text) and text[place] == '{':
                end, depth = place, 0
                while True:
                    depth += {'{': 1, '}': -1}.get(text[end], 0)
                    end += 1
                    if depth == 0:
                        break
                before = text[start:place]
                if re.search(r'\b(requires|ensures)\b\*?\s*\w*\s*$', before) or re.search(r'\bghost \w+:\s*$', before):
                    clauses += text[place:end] + '\n'
                    start = place = end
                    while place < len(text) and text[place] not in ';{':
                        place += 1
                    continue
                body = text[place:end]
                break
            yield f'{path}:{line_of(text, m.start())}', m.group(1), clauses, body


def shape(body):
    words = re.findall(r"'[a-z_]+\b|\w+|[^\s\w]", body)
    kept = {'let', 'mut', 'for', 'in', 'if', 'else', 'match', 'return', 'while', 'loop', 'Some', 'None', 'Ok', 'Err', 'self', 'Self', 'as'}
    return [w if w in kept or not re.match(r'\w', w) else 'x' for w in words]


def twins(least=24, alike=0.8):
    bodies = [(place, name, shape(body)) for place, name, _, body in functions() if body and 'tests.rt' not in place]
    bodies = [b for b in bodies if len(b[2]) >= least]
    found = []
    for (a, m, s), (b, n, t) in itertools.combinations(bodies, 2):
        if min(len(s), len(t)) / max(len(s), len(t)) > 0.7:
            ratio = difflib.SequenceMatcher(None, s, t, autojunk=False).ratio()
            if ratio >= alike:
                found.append(f'{a} {m} and {b} {n}: {ratio:.2f}')
    return found


def repeated_phrases(least=3):
    """Runs of words, three and more, that stand in the clauses of three and more functions, and in no longer run of as many."""
    where = defaultdict(set)
    for place, name, clauses, _ in functions():
        for clause in clauses.splitlines():
            words = re.findall(r"[\w.']+|[^\s\w]", clause)
            for size in range(least, 13):
                for run in zip(*(words[i:] for i in range(size))):
                    if sum(bool(re.match(r'\w', w)) for w in run) >= least and re.match(r'\w', run[0]) and re.match(r'\w', run[-1]):
                        where[run].add(f'{place} {name}')
    runs = {run: at for run, at in where.items() if len(at) >= 3}

    def within(run, longer):
        return any(longer[i:i + len(run)] == run for i in range(len(longer) - len(run) + 1))

    longest = [run for run in runs if not any(len(o) > len(run) and len(runs[o]) >= len(runs[run]) and within(run, o) for o in runs)]
    return [f'{len(runs[run])} functions: {" ".join(run)}' for run in sorted(longest, key=lambda run: -len(runs[run]))]


def travelling():
    """Groups of two and more parameters, named and typed alike, in three and more signatures of a crate."""
    groups = Counter()
    for path, text in sources():
        if path.name == 'tests.rt':
            continue
        for m in SIGNATURE.finditer(text):
            names = [p.strip() for p in re.split(r',(?![^<(\[]*[>)\]])', m.group(2)) if ':' in p]
            for pair in itertools.combinations([' '.join(n.split()) for n in names], 2):
                groups[(path.parts[1], pair)] += 1
    return [f'{n} signatures of {crate}: {a}, {b}' for (crate, (a, b)), n in groups.most_common() if n >= 3]


def answers():
    found = []
    for path in sorted(root.glob('crates/*/proofs/**/*.antt')):
        text = path.read_text()
        n = len(re.findall(r'^(?:pub |abbrev pub |unfoldable pub )?[\w+\'-]+ :', text, re.M))
        found.append(f'{path.relative_to(root)}: {n} {"answers" if path.name == "Answers.antt" else "invariants" if path.name == "Invariants.antt" else "lemmas"}')
    return found


POINTS = {
    1: [
        ('enums (of the shape of Option or Result?)', lambda: matches(r'\benum \w+')),
        ('flags: fields of the type bool', lambda: matches(r'^\s+(?:pub(?:\(crate\))? )?\w+: bool,', re.M, tests=False)),
        ('kinds, refusals and symbols as numbers', lambda: matches(r'fn (?:kind|number|code)\(.*?\) -> (?:u8|char|u32)|struct \w+\((?:pub )?u8\)')),
        ('0 for none', lambda: matches(r'else \{\s*0\s*\}|unwrap_or\(0\)|return 0;|return \(first, second\);', tests=False)),
        ('arms that pass on or give none', lambda: matches(r'None => None|Err\(\w+\) => (?:return )?Err|Ok\(\w+\) => (?:Ok|Some)|Err\(\w+\) => None|else \{\s*None\s*\}|else \{\s*Err')),
    ],
    2: [('functions of one shape', twins)],
    3: [
        ('loops over a range', lambda: matches(r'\bfor [^{}]* in [^{]*\.\.[^{]*(?=\{)')),
        ('while and loop', lambda: matches(r'\b(?:while|loop)\b[^{]*(?=\{)')),
        ('other loops outside tests (has the library a method?)', lambda: matches(r'\bfor [^{}]* in (?![^{]*\.\.)[^{]*(?=\{)', tests=False)),
    ],
    4: [
        ('traits that have a derive, by hand', lambda: matches(r'impl[^{]*\b(?:PartialEq|Eq|PartialOrd|Ord|Clone|Copy|Hash|Default|Debug) for')),
        ('casts', lambda: matches(r'[\w)\]]+ as (?:u|i)\w+')),
        ('functions that convert or name', lambda: matches(r"fn \w+\([^)]*\)\s*->\s*(?:&'static str|u8)\b|fn (?:to|from|as|into)_\w+")),
    ],
    5: [
        ('repeated in the clauses of three functions and more', repeated_phrases),
        ('parameters that travel together', travelling),
    ],
    6: [
        ('arrays and the counts beside them', lambda: matches(r'\w+: \[[^\]]*\],\s*(?:pub )?\w+: (?:usize|u\d+),', tests=False)),
        ('slices of a larger array', lambda: matches(r'(?:&mut |&)\w+(?:\.\w+)?\[0?\.\.[^\]]*\]')),
        ('tables and arrays of constants', lambda: matches(r'const \w+: \[')),
    ],
    7: [
        ('types that are only a test', lambda: matches(r'\btrait (?!Question)\w+|impl Test for \w+')),
        ('macros, pointers to functions, dyn', lambda: matches(r'macro_rules! \w+|\bdyn \w+|: fn\(')),
    ],
    8: [('answers, invariants and lemmas', answers)],
}

for point, lists in POINTS.items():
    if point in wanted:
        for title, find in lists:
            found = find()
            count = sum(int(line.split(': ')[1].split()[0]) for line in found) if point == 8 else len(found)
            print(f'{point}. {title}: {count}')
            for line in found:
                print(f'     {line}')
