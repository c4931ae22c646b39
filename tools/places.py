#!/usr/bin/env python3
"""places.py [FOLDER] [-v]: counts, in crates/*/src of a checkout, the places that docs/DESIGN-PASS.md speaks of, point by point.
With -v it lists each. It reads text alone: what it finds is looked at by hand, and the page says what became of each."""
import re, sys, pathlib, collections
verbose = '-v' in sys.argv
args = [a for a in sys.argv[1:] if a != '-v']
top = pathlib.Path(args[0] if args else '.')
files = sorted(top.glob('crates/*/src/*.rt'))
text = {f: f.read_text() for f in files}
place = lambda f, s, at: '%s:%d' % (f.relative_to(top / 'crates').as_posix().replace('/src/', '/'), s.count('\n', 0, at) + 1)
def block(s, at):
    """The text from the brace at or behind `at` to the one that closes it."""
    i = s.index('{', at); depth = 0; j = i
    while True:
        depth += {'{': 1, '}': -1}.get(s[j], 0)
        if depth == 0: return s[i:j + 1]
        j += 1
def functions():
    for f, s in text.items():
        for m in re.finditer(r'^ *(?:pub )?(?:extern "C" )?fn (\w+)', s, re.M):
            at = m.end(); depth = 0
            while s[at] != '(': at += 1
            start = at
            while True:
                depth += {'(': 1, ')': -1}.get(s[at], 0)
                if depth == 0: break
                at += 1
            params = s[start + 1:at]
            j = at; head_end = None
            k = re.compile(r'(requires|ensures)[^{\n]*').search(s, at)
            clauses = ''
            # clauses stand on lines of their own, each in braces; the body's brace stands at the beginning of a line or ends the signature's
            while True:
                c = re.compile(r'\s*(requires|ensures)\b[^{]*').match(s, j + (0 if s[j] != ')' else 1)) if j != at else re.compile(r'[^{\n]*\n\s*(requires|ensures)\b[^{]*').match(s, at + 1)
                if not c: break
                b = block(s, c.end() - 1 if s[c.end() - 1] == '{' else c.end())
                clauses += b; j = s.index(b, c.end() - 1) + len(b)
            body_at = s.index('{', j if j != at else at)
            yield f, m.group(1), s, m.start(), params, clauses, block(s, body_at)
fns = list(functions())
found = collections.OrderedDict()
def add(point, f, s, at, what): found.setdefault(point, []).append('%s %s' % (place(f, s, at), what))
# 1
for f, s in text.items():
    for m in re.finditer(r'^(?:pub )?enum (\w+)', s, re.M):
        variants = re.findall(r'^    (\w+)(\(.*\))?( = \d+)?,', block(s, m.end()), re.M)
        names = [v[0] for v in variants]
        if 'Refused' in names or 'Fine' in names: add('1a own enums of the shape of Result', f, s, m.start(), m.group(1))
        elif len(variants) == 2 and sum(1 for v in variants if v[1]) == 1: add('1b own enums of the shape of Option', f, s, m.start(), m.group(1))
    for m in re.finditer(r'Refused\(\d+', s): add('1c refusals by a bare number', f, s, m.start(), m.group(0))
    for m in re.finditer(r'Refused\(number, place\) =>', s): add('1d arms that only pass a refusal on or take it apart', f, s, m.start(), '')
    for m in re.finditer(r'^ *(?:pub )?struct (\w+)', s, re.M):
        b = block(s, m.end()) if s[m.end():m.end() + 2].strip().startswith('{') or '{' in s[m.end():m.end() + 4] else ''
        if re.search(r'\b(verdict|answer|read):', b): add('1e a flag with a value beside it', f, s, m.start(), m.group(1))
for f, name, s, at, params, clauses, body in fns:
    above = s[:at].rstrip().split('\n\n')[-1]
    above = ' '.join(l for l in above.split('\n') if l.strip().startswith('//'))
    head = s[at:s.index(body, at)]
    if re.search(r'-> (usize|u16|u8|u32)\b', head) and re.search(r'(; |, )[^.;]*\b(if|where|beyond)\b[^.;]*\b(none|nothing|all are|do|is none|they are|beyond|so)\b|0 for none|as i \+ 1|if their|65,535 for one', above):
        add('1f an answer that is a number for "none" or for a kind', f, s, at, name)
# 2
def shape(s):
    names = {}
    def sub(m):
        w = m.group(0)
        if w in ('let', 'mut', 'for', 'in', 'if', 'else', 'while', 'return', 'match', 'fn', 'as', 'usize', 'u16', 'u8', 'u32', 'bool', 'true', 'false'): return w
        return 'N%d' % names.setdefault(w, len(names))
    return re.sub(r'\s+', ' ', re.sub(r"[A-Za-z_]\w*|\b\d+\b|b?'.'|b?\"[^\"]*\"", sub, s))
groups = collections.defaultdict(list)
for f, name, s, at, params, clauses, body in fns:
    if len(body) > 40 and 'main' not in f.parts[-3]: groups[shape(params + body)].append((f, s, at, name))
for g in groups.values():
    if len(g) > 1:
        for f, s, at, name in g: add('2 functions that have the shape of another', f, s, at, name + ' (as %s)' % ', '.join(x[3] for x in g if x[2] != at or x[0] != f))
# 3
for f, s in text.items():
    for m in re.finditer(r'^ *while (.*) \{$', s, re.M):
        b = block(s, m.start(1) + len(m.group(1)))
        ws = set(re.findall(r'[A-Za-z_]\w*(?:\.\w+)?', m.group(1)))
        counted = [w for w in ws if re.search(r'(?<![\w.])%s (\+=|-=) \d+;|(?<![\w.])%s = %s [+-] \d+;' % ((re.escape(w),) * 3), b)]
        add('3a loops that count an index by hand' if counted else '3b other `while` loops', f, s, m.start(), m.group(1))
# 4
for f, name, s, at, params, clauses, body in fns:
    if re.fullmatch(r'\{\s*\w+ as \w+\s*\}', body): add('4a conversions by hand', f, s, at, name)
    if re.fullmatch(r'\{\s*if (.{1,40}) \{ *(return )?\s*.{1,30};?\s*\}( else \{)?\s*.{1,40}\s*\}?\s*\}', body, re.S) and re.search(r'\bif \w+ (<|<=) \w+', body): add('4b minimum, difference and the like by hand', f, s, at, name)
for f, s in text.items():
    for m in re.finditer(r'rules::wide\(', s): add('4c calls of such a conversion', f, s, m.start(), '')
# 5
groups = {'rows, events, start, cells, marks': ('rows', 'events', 'start', 'cells', 'marks'), 'mask, rows, events, cells': ('mask', 'rows', 'events', 'cells'), 'n, m, to, cells': ('n', 'm', 'to', 'cells')}
for f, name, s, at, params, clauses, body in fns:
    ps = set(re.findall(r'(\w+):', params))
    for label, g in groups.items():
        if ps >= set(g): add('5a signatures with the parameters ' + label, f, s, at, name); break
facts = collections.defaultdict(list)
for f, name, s, at, params, clauses, body in fns:
    for c in re.findall(r'requires[^{]*\{(.*?)\}\n', s[at:s.index(body, at)], re.S):
        c = re.sub(r'\s+', ' ', c).strip()
        c = c.split(' in ')[-1] if c.startswith('let') else c
        for part in re.split(r' × ', c): facts[(f.parts[-3], re.sub(r'^\((.*)\)$', r'\1', part.strip()))].append((f, s, at, name))
for (crate, fact), l in facts.items():
    if len(l) >= 3: add('5b facts that three or more `requires` of a crate say', l[0][0], l[0][1], l[0][2], '%s (%d): %s' % (crate, len(l), fact[:90]))
# 6
for f, name, s, at, params, clauses, body in fns:
    ps = re.findall(r'(\w+): &(?:mut )?\[', params)
    if ps and re.search(r'\b(count|at|from|to|n): usize', params) and len(ps) >= 1: add('6 slices that are passed with a place or a length beside them', f, s, at, name)
# 7
for f, name, s, at, params, clauses, body in fns:
    if re.search(r'\b\w+: bool\b', params): add('7a a `bool` that says which step is run', f, s, at, name)
    for m in re.finditer(r'match (form|way)\b', body): add('7b a `match` on a form or a way', f, s, at, name)
for p in found:
    print('%4d  %s' % (len(found[p]), p))
    if verbose:
        for x in found[p]: print('          ', x)
answers = [len(re.findall(r'^pub \S+ : goal\.', g.read_text(), re.M)) for g in top.glob('crates/*/proofs/**/Answers.antt')]
print('%4d  8 answers, in %d files' % (sum(answers), len(answers)))
lines = lambda pattern: sum(len(g.read_text().splitlines()) for g in top.glob(pattern))
print('lines of code %d, of definitions %d, of proof %d' % (lines('crates/*/src/*.rt'), lines('crates/*/specs/*.antt'), lines('crates/*/proofs/**/*.antt')))
