#!/usr/bin/env python3
"""Counts the places of docs/DESIGN-PASS.md in the .rt files of crates/*/src: `docs/count-places.py [POINT]` lists them, the number last.
It reads text and not types, so it counts forms; what a place is, the page says."""
import glob, re, sys, collections, os

os.chdir(os.path.join(os.path.dirname(os.path.abspath(__file__)), '..'))
FILES = sorted(glob.glob('crates/*/src/**/*.rt', recursive=True))

def code(path):
    "The lines of a file, comments blanked."
    return [re.sub(r'//.*', '', line.rstrip('\n')) for line in open(path)]

def lines(pattern, skip=None):
    found = []
    for path in FILES:
        for n, line in enumerate(code(path), 1):
            if re.search(pattern, line) and not (skip and re.search(skip, line)):
                found.append((f'{path[7:]}:{n}', line.strip()))
    return found

def functions():
    "Each function: place, name, parameters, contract, body."
    for path in FILES:
        text = '\n'.join(code(path))
        for m in re.finditer(r'\bfn (\w+)', text):
            at = text.find('(', m.end())
            generic = text[m.end():at]
            depth, i = 0, at
            while True:
                depth += {'(': 1, ')': -1}.get(text[i], 0)
                i += 1
                if depth == 0:
                    break
            parameters = text[at + 1:i - 1]
            # the body: the first '{' at the line's start after the signature, or at its end where there is no contract
            j, depth, clauses = i, 0, []
            while text[j] not in ';{':
                j += 1
            if text[j] == ';':
                continue
            while re.search(r'\b(requires|ensures)\b[^{}]*$', text[i:j]) :
                k, depth = j, 0
                while True:
                    depth += {'{': 1, '}': -1}.get(text[k], 0)
                    k += 1
                    if depth == 0:
                        break
                clauses.append((re.search(r'\b(requires|ensures)\b[^{}]*$', text[i:j]).group(1), ' '.join(text[j + 1:k - 1].split())))
                i, j = k, k
                while text[j] != '{':
                    j += 1
            k, depth = j, 0
            while True:
                depth += {'{': 1, '}': -1}.get(text[k], 0)
                k += 1
                if depth == 0:
                    break
            line = text.count('\n', 0, m.start()) + 1
            yield f'{path[7:]}:{line}', m.group(1), ' '.join(parameters.split()), clauses, text[j:k]

def shape(body):
    "A body with names and numbers blanked: keywords, types and punctuation are left."
    words = re.findall(r"[A-Za-z_]\w*|\d\w*|b?'[^']*'|\"[^\"]*\"|\S", body)
    keep = {'if', 'else', 'match', 'while', 'for', 'in', 'return', 'let', 'mut', 'loop', 'as'}
    return ' '.join(w if w in keep else ('N' if re.match(r"\d|b?'", w) else ('I' if re.match(r'[A-Za-z_]', w) else w)) for w in words)

def point1():
    "own enums of the shape of Option or Result (their variant of nothing or of a refusal), a refusal beside a value, numbers for refusals"
    a = lines(r'^\s*(Refused\(u8\)|Nothing|Other|Bad\(usize\)|Stop\(usize\)|Stopped \{|Refused),?\s*\{?$')
    b = lines(r'^\s*pub (refusal|number): u8,')
    c = lines(r'^\s*pub const [A-Z0-9_]+: u8 =')
    d = [(p, f'{n}({q})') for p, n, q, _, body in functions() if n in ('place_fault', 'bad_byte', 'list_entry', 'pointed', 'numbers', 'stopped_by')]
    return a + b + c + d

def point2():
    "functions whose bodies are one text once names and numbers are left out, of twelve words or more; each group is one line"
    groups = collections.defaultdict(list)
    for place, name, _, _, body in functions():
        s = shape(body)
        if len(s.split()) >= 12:
            groups[s].append(f'{place} {name}')
    return [(f'{len(g)}', ', '.join(g)) for s, g in sorted(groups.items(), key=lambda x: x[1]) if len(g) > 1]

def point3():
    "loops that count an index by hand: while, and for over a range whose index is used to index"
    found = lines(r'^\s*while ')
    for path in FILES:
        text = code(path)
        for n, line in enumerate(text):
            m = re.search(r'^\s*for (\w+) in .*\.\.', line)
            if m:
                found.append((f'{path[7:]}:{n + 1}', line.strip()))
    return found

def point4():
    "functions that only cast, functions `of` and `code` that are tables, fields compared one by one, numbers printed at a place by hand"
    casts = [(p, n) for p, n, _, _, body in functions() if re.fullmatch(r'\{\s*[\w.()]+( % \w+)?\)? as \w+( [+-] \w+)?\s*\}', body)]
    tables = [(p, n) for p, n, _, _, body in functions() if n in ('code', 'of') and 'match' in body]
    compared = lines(r'==\s*\(?\w+\.(start|len|count|size|kind)\b')
    printing = [(p, n) for p, n, q, _, _ in functions() if re.search(r'at: usize', q) and re.search(r'out: &mut Output', q)]
    return casts + tables + compared + printing

def point5():
    "a requires that stands in three or more functions of a crate, and parameters of which three or more travel together in three or more functions"
    found = []
    facts = collections.defaultdict(list)
    lists = collections.defaultdict(set)
    for place, name, parameters, clauses, _ in functions():
        crate = place.split('/')[0]
        for kind, text in clauses:
            if kind == 'requires':
                for part in re.split(r' × ', text):
                    facts[crate, part.strip('() ')].append(name)
        names = [p.strip() for p in re.findall(r'(?:^|, )(?:mut )?(\w+: [^,]+)', parameters)]
        for i in range(len(names) - 2):
            lists[crate, ', '.join(names[i:i + 3])].add(name)
    found += [(crate, f'{fact} [{len(names)}]') for (crate, fact), names in sorted(facts.items()) if len(names) > 2]
    found += [(crate, f'({group}) [{len(names)}]') for (crate, group), names in sorted(lists.items()) if len(names) > 2]
    return found

def point6():
    "buffers with a length or a place beside them: a lent slice with a place, a room and a count"
    return [(p, f'{n}({q})') for p, n, q, _, _ in functions() if re.search(r'&mut \[\w+\], (at|from|n|count|end): usize', q)]

def point7():
    "switches on which step to run: an enum of requests or forms, and matches on it"
    return lines(r'^\s*pub enum (Asked|Form|Request)\b') + lines(r'^\s*match .*(asked|form)\b') + lines(r'\bfn\(')

def point8():
    "files of proofs of functions, and lines in them"
    found = []
    for path in sorted(glob.glob('crates/*/proofs/**/*.antt', recursive=True)):
        if os.path.basename(path) in ('Proof.antt', 'Answers.antt', 'Invariants.antt'):
            found.append((path[7:], f'{sum(1 for _ in open(path))} lines'))
    return found

points = [point1, point2, point3, point4, point5, point6, point7, point8]
asked = [int(a) for a in sys.argv[1:]] or range(1, 9)
for n in asked:
    found = points[n - 1]()
    if sys.argv[1:]:
        for place, what in found:
            print(f'{place}  {what}')
    extra = ''
    if n == 2:
        extra = f', {sum(int(p) for p, _ in found)} functions'
    if n == 8:
        extra = f', {sum(int(w.split()[0]) for _, w in found)} lines of them, {sum(1 for p in glob.glob("crates/*/proofs/**/*.antt", recursive=True) for _ in open(p))} of all proofs'
    print(f'point {n}: {len(found)}{extra}    ({points[n - 1].__doc__})')
