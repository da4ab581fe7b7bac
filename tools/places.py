#!/usr/bin/env python3
"""Lists places in crates/*/src that today's Rattle lets be written otherwise, a line each: tools/places.py POINT, POINT 1 to 8; or all: the counts alone.

1  enums with one variant that carries a value beside bare ones, or with a variant that refuses; bool fields beside other fields; numbers for kinds
2  functions of the same shape: their tokens are equal but for names and numbers (14 tokens of a body or more)
3  loops by `while`
4  functions that compare, convert or print by hand, by their names; and pairs of a type's names that a derive or From would give
5  parts of a `requires` that stand in three functions of a crate or more; pairs of parameters in three signatures or more
6  a buffer and a place or a length beside it: parameters and fields; parallel arrays
7  chains of three tests or more of one value against constants that choose what to do
8  proof files, and their lines
"""
import glob, os, re, sys
from collections import defaultdict

def files():
    return sorted(glob.glob('crates/*/src/*.rt'))

def code(path):
    return [re.sub(r'//.*', '', line) for line in open(path).read().split('\n')]

def functions():
    """Each function: path, line, name, signature, clauses, body."""
    for path in files():
        lines = code(path)
        n = 0
        while n < len(lines):
            m = re.match(r'\s*(?:pub(?:\(crate\))? )?(?:unsafe )?(?:extern "C" )?fn (\w+)', lines[n])
            if not m:
                n += 1
                continue
            start, head = n, []
            while n < len(lines) and not re.match(r'\s*\{\s*$', lines[n]) and not lines[n].rstrip().endswith('{') and not lines[n].rstrip().endswith(';'):
                head.append(lines[n]); n += 1
            if n >= len(lines):
                break
            if lines[n].rstrip().endswith(';'):
                head.append(lines[n]); n += 1
                yield path, start + 1, m.group(1), '\n'.join(head), ''
                continue
            head.append(lines[n].rsplit('{', 1)[0])
            depth, body = lines[n].rsplit('{', 1)[1].count('{') + 1, []
            n += 1
            while n < len(lines) and depth > 0:
                depth += lines[n].count('{') - lines[n].count('}')
                body.append(lines[n]); n += 1
            yield path, start + 1, m.group(1), '\n'.join(head), '\n'.join(body[:-1])

def types(kind):
    for path in files():
        text = '\n'.join(code(path))
        for m in re.finditer(r'^(?:pub(?:\(crate\))? )?' + kind + r' (\w+)[^\n{;(]*\{(.*?)^\}', text, re.M | re.S):
            yield path, text[:m.start()].count('\n') + 1, m.group(1), m.group(2)

REFUSALS = 'OutOfRange|Nothing|NoEvent|NoRole|NoMembers|NoneAnnounced|Broken|Other|WrongLength|NoItem'

def point1():
    for path, line, name, body in types('enum'):
        variants = [v for v in re.split(r',\s*\n', re.sub(r'\s*\n\s*(?=\w+:)', ' ', body)) if v.strip()]
        carry = [v for v in variants if '(' in v or '{' in v]
        refuses = [v for v in variants if re.fullmatch(r'\s*(?:' + REFUSALS + r')\s*', v)]
        if (len(carry) == 1 and len(variants) <= 4) or refuses:
            yield path, line, f'enum {name}'
    for path, line, name, body in types('struct'):
        fields = re.findall(r'(\w+): ([^,\n]+),', body)
        for f, t in fields:
            if t.strip() == 'bool' and len(fields) > 1:
                yield path, line, f'flag {name}.{f}'
            if t.strip() in ('u8', 'u32') and f in ('mode', 'flags', 'operation', 'kind', 'status', 'first', 'msb', 'lsb'):
                yield path, line, f'number {name}.{f}'
    for path in files():
        for n, l in enumerate(code(path)):
            if re.match(r'\s*(?:pub )?const \w+: u8 =', l):
                yield path, n + 1, f'code {l.strip()}'

KEEP = set('fn let mut if else match return while for in as pub self Self true false u8 u16 u32 u64 i32 usize bool loop break mut ref'.split())

def shape(body):
    out = []
    for t in re.findall(r"b?'(?:\\.|[^'])'|b?\"(?:\\.|[^\"])*\"|0x[0-9A-Fa-f_]+|\d[\d_]*(?:u8|u16|u32|u64|usize)?|\w+|[^\s\w]", body):
        if re.match(r"\d|b?['\"]", t):
            out.append('N')
        elif re.match(r'\w', t) and t not in KEEP:
            out.append('I')
        else:
            out.append(t)
    return ' '.join(out)

def point2():
    same = defaultdict(list)
    for path, line, name, head, body in functions():
        s = shape(re.sub(r'\s(requires|ensures)\b.*', '', head, flags=re.S).split('(', 1)[-1] + body)
        if len(shape(body).split()) >= 14:
            same[s].append((path, line, name))
    for group in same.values():
        if len(group) > 1:
            yield group[0][0], group[0][1], ', '.join(f'{os.path.dirname(os.path.dirname(p))[7:]}::{n}' for p, _, n in group)

def point3():
    for path in files():
        for n, l in enumerate(code(path)):
            if re.match(r'\s*while\b', l):
                yield path, n + 1, l.strip()

def point4():
    for path, line, name, head, body in functions():
        if re.match(r'(same_|eq$|equal|cmp|order|from_|into_|as_|to_|copy|print_|is_word|two$|four$|signed$)', name) or name.endswith(('_code', '_of_bytes')):
            yield path, line, f'fn {name}'

def conjuncts(text):
    depth, part, out = 0, '', []
    for c in text:
        depth += c in '(['
        depth -= c in ')]'
        if c == '×' and depth == 0:
            out.append(part); part = ''
        else:
            part += c
    out.append(part)
    return [re.sub(r'^\((.*)\)$', r'\1', p.strip()) for p in out]

def point5():
    facts, pairs = defaultdict(list), defaultdict(list)
    for path, line, name, head, body in functions():
        crate = path.split('/')[1]
        for m in re.finditer(r'requires(?: \w+)? \{(.*)\}', head):
            for c in conjuncts(m.group(1)):
                facts[crate, c].append(name)
        params = re.findall(r'(\w+): ([^,()\n]+)', re.sub(r'\s(requires|ensures)\b.*', '', head, flags=re.S))
        for a in range(len(params)):
            for b in range(a + 1, len(params)):
                pairs[crate, params[a], params[b]].append(name)
    for (crate, fact), names in sorted(facts.items()):
        if len(names) >= 3:
            yield f'crates/{crate}', 0, f'{fact}: {len(names)} functions'
    for (crate, a, b), names in sorted(pairs.items()):
        if len(names) >= 3:
            yield f'crates/{crate}', 0, f'({": ".join(a)}, {": ".join(b)}): {len(names)} functions'

def point6():
    for path, line, name, head, body in functions():
        sig = re.sub(r'\s(requires|ensures)\b.*', '', head, flags=re.S)
        if re.search(r'&(mut )?\[\w+(; \d+)?\]', sig) and re.search(r'\b(at|from|start|end|count|n|begin|first|k): (usize|u8|u16)', sig):
            yield path, line, f'fn {name}'
    for path, line, name, body in types('struct'):
        fields = re.findall(r'(\w+): ([^,\n]+),', body)
        arrays = [t for f, t in fields if t.startswith('[')]
        sizes = [f for f, t in fields if t.strip() == 'usize']
        if (arrays and sizes) or len([a for a in arrays if a.split(';')[-1] in [b.split(';')[-1] for b in arrays if b is not a]]) > 1:
            yield path, line, f'struct {name}'

def point7():
    for path, line, name, head, body in functions():
        tests = re.findall(r'\bif (\w+(?:\.\w+)*) == (?:0x[0-9A-F]+|\d+|[A-Z]\w*)', body)
        for v in sorted(set(tests)):
            if tests.count(v) >= 3:
                yield path, line, f'fn {name}: {tests.count(v)} tests of {v}'

def point8():
    for crate in sorted(glob.glob('crates/*')):
        found = glob.glob(crate + '/proofs/**/*.antt', recursive=True)
        if found:
            yield crate, 0, f'{len(found)} files, {sum(open(f).read().count(chr(10)) for f in found)} lines'

POINTS = {str(n): f for n, f in enumerate([point1, point2, point3, point4, point5, point6, point7, point8], 1)}

if __name__ == '__main__':
    if len(sys.argv) != 2 or sys.argv[1] not in [*POINTS, 'all']:
        sys.exit(__doc__)
    if sys.argv[1] == 'all':
        for n, f in POINTS.items():
            print(n, len(list(f())))
    else:
        for path, line, text in POINTS[sys.argv[1]]():
            print(f'{path}:{line}: {text}' if line else f'{path}: {text}')
