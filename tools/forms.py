#!/usr/bin/env python3
"""Counts places in the code that have a plainer form in today's Rattle, for docs/DESIGN-PASS.md.

usage: tools/forms.py [-v] [FOLDER]    FOLDER holds crates/, here where none is named; -v names each place

What is counted is a candidate: some stay, for a reason that stands beside them."""
import collections, glob, os, re, sys

verbose = '-v' in sys.argv
folder = ([a for a in sys.argv[1:] if a != '-v'] or ['.'])[0]
files = sorted(glob.glob(os.path.join(folder, 'crates', '*', 'src', '**', '*.rt'), recursive=True))


def name_of(path):
    return os.path.relpath(path, os.path.join(folder, 'crates'))


texts = {}
for path in files:
    # Tables of numbers are no code to be read, and comments are none either.
    lines = [re.sub(r'//.*', '', line) for line in open(path)]
    texts[path] = ''.join(l if not re.match(r'\s*(\d+ => )?0x[0-9A-Fa-f]+,', l) else '\n' for l in lines)


def places(pattern):
    return [(p, t[:m.start()].count('\n') + 1, m) for p, t in texts.items() for m in re.finditer(pattern, t, re.M)]


def functions():
    for p, t in texts.items():
        for m in re.finditer(r'^( *)(?:pub(?:\(crate\))? )?fn (\w+)(.*?)^\1\}', t, re.M | re.S):
            yield p, t[:m.start()].count('\n') + 1, m.group(2), m.group(0)


def show(title, found):
    print('%5d  %s' % (len(found), title))
    if verbose:
        for place in found:
            print('         ' + place)


def at(p, line, what=''):
    return '%s:%d %s' % (name_of(p), line, what)


# 1: own enums of the shape of Option or Result, flags with a value beside them, numbers for kinds.
shaped = []
for p, line, m in places(r'^(?:pub )?enum (\w+)(?:<[^>]*>)? \{\n([\s\S]*?)^\}'):
    cases = re.findall(r'^    (\w+)(\(| \{|,)', m.group(2), re.M)
    empty = [c for c, f in cases if f == ',']
    wrong = [c for c, _ in cases if re.match(r'Refused|Failed|Malformed|Unexpected|Ends', c)]
    if wrong or (len(cases) == 2 and len(empty) == 1):
        shaped.append(at(p, line, m.group(1)))
show('1a enums of the shape of Option or Result', shaped)
show('1b flags in structs', [at(p, n, m.group(1)) for p, n, m in places(r'^    (?:pub )?(\w+): bool,')
                             if not re.search(r'\($', texts[p][:m.start()].rstrip().split('\n')[-1])
                             and 'fn ' not in texts[p][max(0, m.start() - 400):m.start()].split('}')[-1]])
show('1c numbers for kinds', [at(p, n, m.group(0).strip()) for p, n, m in
                              places(r'\b(?:tag|kind|letter|of) == \d+|^ +(?:\d+|b\'.\') => ')])

# 2: functions that differ in names, types and numbers alone.
groups = collections.defaultdict(list)
for p, line, name, text in functions():
    body = text[text.index('{\n'):] if '{\n' in text else ''
    body = re.sub(r'^ *(requires|ensures).*$', '', text.split('\n', 1)[1] if '\n' in text else '', flags=re.M)
    if body.count('\n') < 4:
        continue
    key = re.sub(r'\b[A-Z]\w*::\w+|\b[A-Z]\w*\b|\b[ui](8|16|32|64|size)\b|\b\w+(?=\()|\b\d\w*\b|"[^"]*"', '_', body)
    groups[re.sub(r'\s+', ' ', key)].append(at(p, line, name))
twins = [', '.join(v) for v in groups.values() if len(v) > 1]
show('2  groups of functions that differ in names, types and numbers alone', twins)

# 3: loops that count an index.
show('3  loops that count by hand', [at(p, n, m.group(0).strip()) for p, n, m in places(r'^ +(?:\'\w+: )?while .*\{$')])

# 4: equality, conversion and bytes by hand.
show('4a bytes of numbers by division', [at(p, n) for p, n, m in places(r'/ 256 % 256\) as u8|^ +\(\w+ % 256\) as u8')])
show('4b numbers by multiplying bytes', [at(p, n) for p, n, m in places(r'as u\d+\) \* 256 \+')])
show('4c tests by functions in place of operators', [at(p, n) for p, n, m in places(r'\b(?:both|either)\(')])
show('4d comparisons and defaults by hand', [at(p, n, m.group(1)) for p, n, m in
                                             places(r'^(?:pub )?fn ((?:is_no|no|same)_\w+)\(')])

# 5: the same fact of a value in three functions' clauses or more, and parameters that go together.
facts = collections.defaultdict(list)
for p, line, name, text in functions():
    for clause in re.findall(r'^ *requires(?: \w+)? \{ (.*) \}$', text, re.M):
        for fact in re.split(r' × ', clause):
            fact = fact.strip('()')
            facts[re.sub(r'^\(|\)$', '', fact)].append(at(p, line, name))
show('5a facts that three functions or more require', ['%s: %d' % (f, len(w)) for f, w in facts.items() if len(w) > 2])
groups = collections.defaultdict(list)
for p, line, name, text in functions():
    head = re.search(r'\((.*?)\)', text.replace('\n', ' '))
    params = [re.sub(r'\s+', ' ', q.strip()) for q in (head.group(1) if head else '').split(',') if ':' in q]
    for i in range(len(params) - 2):
        groups[', '.join(params[i:i + 3])].append(at(p, line, name))
show('5b runs of three parameters that three functions or more take',
     ['%s: %d' % (g, len(w)) for g, w in groups.items() if len(w) > 2])

# 6: a buffer with its length beside it.
show('6  buffers with a place or a length beside them', [at(p, n, m.group(1)) for p, n, m in
     places(r'\b(\w+): &mut \[u8\],\s+(?:at|filled|len): usize')])

# 7: a switch of which each arm is a call.
switches = []
for p, line, m in places(r'^( +)match (\w+(?:\.\w+)*) \{\n([\s\S]*?)^\1\}'):
    arms = re.findall(r'^' + m.group(1) + r'    \S.* => (.*)$', m.group(3), re.M)
    if len(arms) > 3 and all(re.match(r'[\w:]+\(', a) for a in arms):
        switches.append(at(p, line, m.group(2)))
show('7  switches of which each arm is a call', switches)

# 8: proofs.
proofs = glob.glob(os.path.join(folder, 'crates', '*', 'proofs', '**', '*.antt'), recursive=True)
show('8a proofs that walk the code (Proof.antt)', [name_of(p) for p in sorted(proofs) if p.endswith('/Proof.antt')])
print('%5d  8b lines of proofs' % sum(open(p).read().count('\n') for p in proofs))
