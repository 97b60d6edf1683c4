#!/usr/bin/env python3
"""Counts the places of docs/DESIGN-PASS.md in crates/*/src, point by point, and lists them with -v.

usage: python3 tools/places.py [-v] [ROOT]      ROOT: the top of a checkout; this one's if none is named

Comments are not looked at. What a pattern finds is a place to be judged, not yet one to be changed.
"""
import collections, glob, os, re, sys

VERBOSE = '-v' in sys.argv
args = [a for a in sys.argv[1:] if a != '-v']
ROOT = args[0] if args else os.path.join(os.path.dirname(os.path.abspath(__file__)), '..')
FILES = sorted(f for f in glob.glob(ROOT + '/crates/*/src/**/*.rt', recursive=True))


def code(path):
    """The lines of a file without comments."""
    return [re.sub(r'(^|\s)//.*', '', line.rstrip('\n')) for line in open(path)]


SOURCE = {f: code(f) for f in FILES}
NAME = {f: os.path.relpath(f, ROOT + '/crates') for f in FILES}


def lines(pattern):
    p = re.compile(pattern)
    return [(NAME[f], i + 1, l.strip()) for f in FILES for i, l in enumerate(SOURCE[f]) if p.search(l)]


def blocks(head):
    """Items that begin with a line that matches, up to the line that closes them: (file, line, text)."""
    p = re.compile(head)
    for f in FILES:
        for i, l in enumerate(SOURCE[f]):
            if p.search(l):
                indent = len(l) - len(l.lstrip())
                j = i
                while j + 1 < len(SOURCE[f]) and SOURCE[f][j].rstrip() != ' ' * indent + '}':
                    j += 1
                yield NAME[f], i + 1, '\n'.join(SOURCE[f][i:j + 1])


STRUCT = r'^\s*(pub(\(crate\))? )?struct\b.*\{$'
ENUM = r'^\s*(pub(\(crate\))? )?enum\b'
FN = r'^\s*(pub(\(crate\))? )?(const )?fn\b'


def signature(text):
    return re.split(r'\{\n|\{$', text, maxsplit=1)[0]


def repeats(size=6):
    """Runs of lines of one shape, the names and numbers left out, that stand in two places: one place for each pair of such runs."""
    shape = lambda l: re.sub(r'\w+', 'w', l.strip())
    seen = collections.defaultdict(list)
    for f in FILES:
        body = [(i, shape(l)) for i, l in enumerate(SOURCE[f]) if l.strip() and not re.match(r'\s*(ghost |pub )?(use|mod)\b', l)]
        for k in range(len(body) - size + 1):
            window = tuple(s for _, s in body[k:k + size])
            if sum(len(s) > 3 for s in window) == size:
                seen[window].append((f, body[k][0]))
    pairs = {}
    for places in seen.values():
        for a in range(len(places)):
            for b in range(a + 1, len(places)):
                (f, i), (g, j) = places[a], places[b]
                pairs.setdefault((f, g, j - i), []).append((i, j))
    found = []
    for (f, g, _), hits in pairs.items():
        hits.sort()
        last = None
        for i, j in hits:
            if last is None or i > last + 8:
                found.append((NAME[f], i + 1, '= %s:%d' % (NAME[g], j + 1)))
            last = i
    return found


def facts():
    """Clauses `requires` of one text in three functions or more: one place a function."""
    count = collections.defaultdict(list)
    for f in FILES:
        for i, l in enumerate(SOURCE[f]):
            m = re.match(r'\s*requires(?: \w+)? (\{.*\})', l)
            if m:
                count[re.sub(r'\.(now|old)\b', '', m.group(1))].append((NAME[f], i + 1, m.group(1)))
    return [p for places in count.values() if len(places) >= 3 for p in places]


def together():
    """Three parameters or more, of the same names and types, in three functions or more of a crate: one place a function."""
    groups = collections.defaultdict(list)
    for f, i, text in blocks(FN):
        flat = re.sub(r'\s+', ' ', signature(text).split('requires')[0].split('ensures')[0])
        params = re.findall(r"(\w+): (&?(?:'\w+ )?(?:mut )?[\w\[\]<>:; ']+)", flat)
        names = tuple(sorted('%s: %s' % (n, t.strip()) for n, t in params))
        for a in range(len(names)):
            for b in range(a + 1, len(names)):
                for c in range(b + 1, len(names)):
                    groups[(f.split('/')[0], names[a], names[b], names[c])].append((f, i, flat.strip()[:90]))
    hit = {}
    for key, places in groups.items():
        if len(places) >= 3:
            for p in places:
                hit[p[:2]] = p
    return sorted(hit.values())


def lengths():
    """Structs that hold an array and a number of its entries, or several arrays of one length; and local arrays used as stacks."""
    found = []
    for f, i, text in blocks(STRUCT):
        arrays = re.findall(r'\w+: \[[\w\[\]; ]+; (\w+)\]', text)
        counted = re.search(r'\b(count|length|len|top|errors|n): usize', text)
        if (arrays and counted) or len(arrays) != len(set(arrays)):
            found.append((f, i, text.split('\n')[0].strip()))
    return found + lines(r'let mut (stack|order)\b')


POINTS = [
    ('1a enums', lambda: lines(ENUM)),
    ('1b refusals by number', lambda: lines(r'Refused\(|\b(refusal|no) != 0|\*refusal =|^\s*return 1?\d;$')),
    ('1c numbers that mean none', lambda: lines(r'[!=]= *(\w+::)*(NONE|NO_LEAF|NO_NAME|GAP|DROPPED)\b|\b(return|=>|:|\{) (NONE|NO_LEAF|NO_NAME|GAP)\b')),
    ('1d a flag beside a value', lambda: [p for p in blocks(STRUCT) if ': bool,' in p[2]]),
    ('1e kinds by number', lambda: lines(r'pub const [A-Z_]+: u32 = \d+;|\bkind: u(8|16|32)\b')),
    ('2 runs of six lines of one shape', repeats),
    ('3 loops by hand', lambda: lines(r'\b(while|loop)\b')),
    ('4 written equality, copies, conversions', lambda: lines(r'fn (same|equal|least|copy|convert|to_|as_|print_)\w*\b')),
    ('5a facts in three contracts or more', facts),
    ('5b parameters that travel together', together),
    ('6 arrays with a length or beside one another', lengths),
    ('7 flags that choose a step', lambda: [(f, i, signature(t).split('\n')[0].strip()) for f, i, t in blocks(FN) if re.search(r'\w+: bool\b', re.split(r'requires|ensures', signature(t))[0])]),
]

for title, find in POINTS:
    places = find()
    print('%4d  %s' % (len(places), title))
    if VERBOSE:
        for f, i, text in places:
            print('        %s:%s  %s' % (f, i, text.split('\n')[0].strip()[:110]))
answers = [p for p in glob.glob(ROOT + '/crates/*/proofs/**/*.antt', recursive=True)]
print('%4d  8 files of proofs, %d lines' % (len(answers), sum(1 for p in answers for _ in open(p))))
