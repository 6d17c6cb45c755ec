#!/usr/bin/env python3
"""Lists the places of src/ that the design pass looks at, point by point: `tools/design_count.py [COMMIT]`.

Without a commit it reads the working tree. Each line is a place to look at, not a verdict; docs/DESIGN-PASS.md
says of each what became of it. With `--counts` only the number of each list is printed.
"""
import collections, re, subprocess, sys

args = [a for a in sys.argv[1:] if not a.startswith('--')]
commit = args[0] if args else None

def run(*words):
    return subprocess.run(words, capture_output=True, text=True, check=True).stdout

def files():
    out = run('git', 'ls-tree', '-r', '--name-only', commit) if commit else run('git', 'ls-files')
    for path in out.split('\n'):
        if re.fullmatch(r'crates/\w+/src/.*\.rt', path):
            text = run('git', 'show', f'{commit}:{path}') if commit else open(path).read()
            yield path[len('crates/'):], text

tree = list(files())

def lines(pattern):
    for path, text in tree:
        for number, line in enumerate(text.split('\n'), 1):
            if re.search(pattern, line) and not line.lstrip().startswith('//'):
                yield f'{path}:{number}: {line.strip()}'

def functions():
    """Each function: its place, its name and the names and types of its parameters."""
    head = re.compile(r'\bfn (\w+)(?:<[^(]*?>)?\((.*?)\)(?=\s*(?:->|where|requires|ensures|\{|;))', re.S)
    for path, text in tree:
        for m in head.finditer(text):
            number = text.count('\n', 0, m.start()) + 1
            params = [p.strip() for p in re.split(r',(?![^<\[(]*[>\])])', m.group(2)) if p.strip()]
            yield f'{path}:{number}', m.group(1), params

def name_of(param):
    return re.sub(r'^mut ', '', param).split(':')[0].strip()

def together():
    """Three or more parameters, by name, that stand together in three or more functions."""
    found = collections.defaultdict(list)
    for place, name, params in functions():
        names = [name_of(p) for p in params if 'self' not in p and name_of(p) not in ('heap', 'out', 'rt')]
        if len(names) >= 3:
            found[' '.join(sorted(names))].append(f'{place} {name}')
    for names, places in sorted(found.items()):
        if len(places) >= 3:
            yield f'({names}) in {len(places)}: ' + ', '.join(places)

def facts():
    """A clause of the same words in three or more functions of a crate."""
    found = collections.defaultdict(set)
    clause = re.compile(r'(?:requires|ensures)\s*\w*\s*\{ (.*) \}')
    for path, text in tree:
        for number, line in enumerate(text.split('\n'), 1):
            m = clause.search(line)
            if m:
                found[(path.split('/')[0], m.group(1))].add(f'{path}:{number}')
    for (crate, words), places in sorted(found.items()):
        if len(places) >= 3:
            yield f'{crate}: {words} in {len(places)}: ' + ', '.join(sorted(places))

def twins():
    """Functions whose bodies are the same but for names, numbers and literals."""
    bodies = collections.defaultdict(list)
    for path, text in tree:
        for m in re.finditer(r'^( *)(?:pub(?:\(crate\))? )?fn (\w+).*?^\1\{\n(.*?)^\1\}', text, re.S | re.M):
            shape = re.sub(r'b?"[^"]*"|b?\'[^\']*\'|\b\d[\d_x]*\b', '0', m.group(3))
            shape = re.sub(r'\b(?!match|for|while|loop|if|else|return|Some|None|Ok|Err|let|mut|in\b)[A-Za-z_]\w*', 'x', shape)
            shape = re.sub(r'\s+', ' ', shape)
            if len(shape) > 24:
                number = text.count('\n', 0, m.start()) + 1
                bodies[shape].append(f'{path}:{number} {m.group(2)}')
    for shape, places in sorted(bodies.items(), key=lambda x: x[1]):
        if len(places) >= 2:
            yield f'{len(places)}: ' + ', '.join(places)

points = [
    ('1a enums', lambda: lines(r'\benum [A-Z]')),
    ('1b arms and branches that hand a None or an Err on', lambda: lines(r'(None|Err\([a-z_]\w*\)) => (None|Err\(|return (None|Err))|None => Err\(|else \{ None \}')),
    ('1c numbers for kinds or refusals', lambda: lines(r'\bfn \w*number\w*\(|=> \d+,$')),
    ('2 functions of one shape', twins),
    ('3a loops that count by hand', lambda: lines(r'\bfor \w+ in [\w.()]+\.\.|while \w+ < |\bfor \w+ in [\w.()]+\.\.=')),
    ('3b other loops', lambda: lines(r'^\s*(for|while|loop)\b(?!.*\.\.)(?!.*while \w+ < )')),
    ('4 traits and words written by hand for equality, order, copying, conversion, printing',
     lambda: lines(r'\bimpl\b.*\b(Ordered|From|TryFrom|Display|PartialEq|PartialOrd|Ord|Clone)\b.* for |\bfn (same|is|number|place|word_of|word_at|verb_in|is_before|put_\w+|put)\b')),
    ('5a parameters that travel together', together),
    ('5b clauses of the same words in three or more functions', facts),
    ('6 buffers with a length, arrays of fixed size, vectors by reference, parallel vectors',
     lambda: lines(r'\[[\w ]+; *[A-Z0-9][\w]*\]|\b(count|used|from): usize,|&Vec<|\b(dues|chosen|ranks|closed): Vec')),
    ('7 flags that choose a step, function pointers', lambda: lines(r'\w+: bool[,)]|: fn\(|dyn ')),
]

for title, find in points:
    found = list(find())
    print(f'{title}: {len(found)}')
    if '--counts' not in sys.argv:
        for place in found:
            print('    ' + place)
