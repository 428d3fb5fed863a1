#!/usr/bin/env python3
"""Counts the places in crates/*/src that today's Rattle has a plainer form for: tools/count_forms.py [-l] [FOLDER].

A line for each kind: how many places, and what counts. With -l each place too. FOLDER is a checkout, by default this one.
docs/DESIGN-PASS.md has the counts before and after, and says of the places that are left why."""
import collections
import pathlib
import re
import sys

args = [a for a in sys.argv[1:] if a != '-l']
LIST = '-l' in sys.argv[1:]
ROOT = pathlib.Path(args[0]) if args else pathlib.Path(__file__).resolve().parent.parent

# Parameters that travel together, as docs/DESIGN-PASS.md counts them.
GROUPS = [('text', 'at'), ('output', 'at'), ('page', 'at'), ('buffer', 'at'), ('out', 'at'), ('work', 'run'),
          ('froms', 'tos'), ('marks', 'owners'), ('edges', 'marks'), ('chart', 'claim', 'cells'), ('modes', 'states'),
          ('states', 'count'), ('case', 'want', 'one'), ('pairs', 'many'), ('mode', 'care', 'value', 'next')]
CODES = (r'NO_\w+|NOT_\w+|NONE|SOME|QUEUE_END|QUEUED|AT_SOURCE|BY_EDGE|TOO_LONG|OTHER_VERSION|MALFORMED|BROKEN|SMALL_OUTPUT|'
         r'OUT_OF_RANGE|MISMATCH|RIGHT_\w+|CUT_SHORT|REFUSED|PASSED|FAULTY|GAP|OVERLAP|COUNTS_DIFFER|TOO_MANY_EDGES|LASSO|EMPTY|'
         r'TWO_RULES|ONE_RULE|INVALID|NAME_TOO_LONG')
BY_HAND = (r'same|digit|letter|alphanumeric|within|smaller|least|least_of|most_of|lower|magnitude|cell|number_of|place_of|'
           r'end_of|get|put|byte|wide|more|below|clear|copy|fill|repeated|complement|intersection|union|separates')
KINDS = [
    ('1 own enums', r'^(?:pub(?:\(crate\))? )?enum (\w+)'),
    ('1 refusals by number', r'\b(?:Refused|Fault|Err|refused|told)\(\s*(?:\d+|[A-Z][A-Z_]+|Built::[A-Z_]+|Charted::[A-Z_]+)\s*[,)]|\brefusal [!=]= \d{1,2}\b|\bk [!=]= 0\b'),
    ('1 constants that code a kind or an absence', r'\bconst (?:' + CODES + r')\s*:'),
    ('1 answers of u32 that are a refusal, 0 for none', r'-> u32\b(?=[^{]*ensures \{[^}]*(?:[Rr]efusal|Checked|EmptySays|LassoSays))'),
    ('2 functions told apart by a number in their name', r'\bfn (\w+\d\w*|\w+_number)\b'),
    ('3 while and loop', r'\b(?:while|loop)\b(?= [^{}]*\{)'),
    ('4 what std has, by hand', r'\bfn (?:' + BY_HAND + r')\b'),
    ('4 derives beside Clone, Copy and Drop', r'derive\([^)]*\b(?:Debug|PartialEq|Eq|PartialOrd|Ord|Hash|Default)\b'),
    ('4 impls of From, TryFrom, Display and the like', r'^impl(?:<[^>]*>)? [\w:<>, ]+ for '),
    ('7 closures and function parameters', r'(?:[(,=] ?|\bmove )\|[\w&, :]*\|(?!\|)|impl Fn|: Fn\w*\('),
]


def code(path):
    """A file without comments, clauses kept."""
    return re.sub(r'//[^\n]*', '', path.read_text(encoding='utf-8'))


def show(name, places):
    print(f'{len(places):5} {name}')
    if LIST:
        for place in places:
            print(f'        {place}')


sources = {p: code(p) for p in sorted(ROOT.glob('crates/*/src/**/*.rt'))}
for name, pattern in KINDS:
    places = []
    for path, text in sources.items():
        for m in re.finditer(pattern, text, re.MULTILINE):
            line = text.count('\n', 0, m.start()) + 1
            places.append(f'{path.relative_to(ROOT)}:{line}: {text.splitlines()[line - 1].strip()}')
    show(name, places)

functions = []
for path, text in sources.items():
    for m in re.finditer(r'\bfn (\w+)(?:<[^>]*>)?\(([^)]*)\)', text):
        names = [p.split(':')[0].replace('mut ', '').strip() for p in m.group(2).split(',') if ':' in p or 'self' in p]
        functions.append((path.relative_to(ROOT), m.group(1), names))
crates = collections.defaultdict(set)
for path, name, _ in functions:
    if name not in ('main', 'new', 'from', 'fmt', 'open'):
        crates[name].add(path.parts[1])
show('2 names of functions that stand in two crates or more', [f'{n}: {", ".join(sorted(c))}' for n, c in sorted(crates.items()) if len(c) > 1])
for group in GROUPS:
    show('5 functions with the parameters ' + ', '.join(group),
         [f'{p}: {n}' for p, n, names in functions if all(g in names for g in group)])
show('5 functions with six parameters or more', [f'{p}: {n}' for p, n, names in functions if len(names) >= 6])
answers = sorted(ROOT.glob('crates/*/proofs/**/Answers.antt'))
lines = [line for p in answers for line in p.read_text(encoding='utf-8').splitlines()]
print(f'{len(answers):5} 8 files of answers, {len(lines)} lines, {sum(len(line) > 400 for line in lines)} of them over 400 characters')
