#!/usr/bin/env python3
"""Counts, in the .rt files below crates/*/src, the places where a form of today's language may be plainer.

    python3 tools/places.py [FOLDER] [POINT]

FOLDER is the top of a checkout (this one, if none is given). With a POINT (1 to 8) each place is printed too.
What is found is a place to look at, not a verdict: docs/DESIGN-PASS.md says what became of each."""
import os, re, sys
from collections import defaultdict

top = sys.argv[1] if len(sys.argv) > 1 else '.'
point = sys.argv[2] if len(sys.argv) > 2 else ''


def sources():
    for folder, _, files in sorted(os.walk(os.path.join(top, 'crates'))):
        if '/out' in folder or '/src' not in folder:
            continue
        for name in sorted(files):
            if name.endswith('.rt'):
                path = os.path.join(folder, name)
                yield os.path.relpath(path, top), open(path).read().split('\n')


def functions(lines):
    """Each function as (line number, name, head, body)."""
    i = 0
    while i < len(lines):
        found = re.match(r'\s*(?:pub(?:\(crate\))? )?(?:const )?fn (\w+)', lines[i])
        if not found:
            i += 1
            continue
        indent = len(lines[i]) - len(lines[i].lstrip())
        head, j = [], i
        while j < len(lines) and not re.match(r'^\s{%d}\{$' % indent, lines[j]):
            head.append(lines[j])
            if lines[j].rstrip().endswith(('{', ';')):
                break
            j += 1
        body = []
        j += 1
        while j < len(lines) and not re.match(r'^\s{%d}\}' % indent, lines[j]):
            body.append(lines[j])
            j += 1
        if not head[-1].rstrip().endswith(';'):
            yield i + 1, found.group(1), head, body
        i += 1


def shape(body):
    text = re.sub(r'//.*', '', '\n'.join(body))
    text = re.sub(r"b?'[^']*'|\"[^\"]*\"|\b\d\w*|\b[A-Za-z_]\w*", 'x', text)
    return re.sub(r'\s+', '', text)


found = defaultdict(list)
shapes = defaultdict(list)
clauses = defaultdict(set)
pairs = defaultdict(set)
for path, lines in sources():
    for n, line in enumerate(lines, 1):
        code = line.split('//')[0]
        here = '%s:%d: %s' % (path, n, line.strip())
        if re.match(r'\s*(pub )?const [A-Z_]+: u(8|16) = \d+;', code) or re.search(r'fn \w+\(&mut self.*-> bool', code) \
                or re.search(r'kind: u(8|16)\b', code) or re.search(r'number: u8', code) or re.match(r'\s+(pub )?\w+: bool,', code):
            found['1'].append(here)
        if re.search(r'\bwhile\b', code) or re.search(r'for \w+ in (0\.\.|\(0)', code) or re.search(r'\bloop \{', code) or '.enumerate()' in code:
            found['3'].append(here)
        if re.match(r'impl.* (PartialEq|Eq|PartialOrd|Ord|Clone|Copy) for', code) or re.search(r'fn (is|code|of|number|refusal|layer_name|which_image|kind_of|print_\w+)\b', code) \
                or re.search(r'fn new\(\) -> \w+$', code.rstrip()) or re.search(r' as (usize|u16|u8|u32|u64)\b', code):
            found['4'].append(here)
        if re.search(r'let mut \w+ = \[\d\w*; ?\w+\]', code) or re.match(r"\s+(pub )?\w+: (&'a (mut )?\[|\[).*,$", code):
            found['6'].append(here)
        if re.search(r'\bmatch (end|step|kind|method|\*call|\(\*?self, step\)|\(self, step\)|&entry\.step|stage)\b', code) or 'fn(' in code or 'dyn ' in code:
            found['7'].append(here)
    for n, name, head, body in functions(lines):
        if len(''.join(body).strip()) > 40:
            shapes[shape(body)].append('%s:%d: fn %s' % (path, n, name))
        for line in head:
            clause = re.match(r'\s*(ensures|requires) (\w+ )?\{ (.*)', line)
            if clause:
                clauses[clause.group(3)].add('%s:%d: fn %s' % (path, n, name))
        given = sorted(set(re.findall(r'(\w+): ([^,()]+)', ' '.join(head).split('->')[0])))
        for a in range(len(given)):
            for b in range(a + 1, len(given)):
                pairs[given[a] + given[b]].add('%s:%d: fn %s' % (path, n, name))

twins = [v for v in shapes.values() if len(v) > 1]
found['2'] = ['  '.join(v) for v in twins]
found['5'] = ['clause { %s in %d functions' % (k, len(v)) for k, v in clauses.items() if len(v) >= 3]
found['5'] += ['parameters %s in %d functions' % (k, len(v)) for k, v in pairs.items() if len(v) >= 3]
answers = [os.path.join(d, f) for d, _, fs in os.walk(os.path.join(top, 'crates')) if '/out' not in d for f in fs if f == 'Answers.antt']
found['8'] = ['%s: %d answers' % (os.path.relpath(p, top), len(re.findall(r'^pub \S+ : goal\.', open(p).read(), re.M))) for p in sorted(answers)]
proof_lines = sum(len(open(os.path.join(d, f)).read().split('\n')) for d, _, fs in os.walk(os.path.join(top, 'crates')) if '/proofs' in d and '/out' not in d for f in fs if f.endswith('.antt'))
names = {
    '1': 'numbers for kinds or refusals, flags, and bool answers of a call that changes',
    '2': 'groups of functions of one shape (names, types and numbers apart)',
    '3': 'loops by while, or that count an index',
    '4': 'equality, conversion, making and printing by hand',
    '5': 'clauses that stand in three functions or more, and pairs of parameters that go together in as many',
    '6': 'arrays and slices that are fields, and buffers that are made in place',
    '7': 'switches on which step to run, tables of functions',
    '8': 'files of answers',
}
for key in sorted(names):
    print('%s. %s: %d' % (key, names[key], len(found[key])))
    if key == '2':
        print('   functions in those groups: %d' % sum(len(v) for v in twins))
    if key == '8':
        print('   answers: %d; lines of proofs: %d' % (sum(int(re.search(r': (\d+) answers', x).group(1)) for x in found['8']), proof_lines))
    if point == key:
        for place in found[key]:
            print('   ' + place)
