#!/usr/bin/env python3
"""Lists places in src/ that a plainer form of Rattle may replace, by eight points.

    python3 tools/places.py [ROOT] [POINT]

A pattern finds more than what is worth a change: docs/DESIGN-PASS.md says of each point which places count.
"""
import collections
import pathlib
import re
import sys

FN = re.compile(r'^\s*(?:pub(?:\([a-z]+\))? )?fn (\w+)')
CLAUSE = re.compile(r'^\s*(?:requires|ensures)\b')
KEYWORDS = set('fn let mut if else match for in while return impl pub self true false as const struct enum trait ref'
               ' move loop break continue use where type'.split())


def sources(root):
    for path in sorted(pathlib.Path(root).glob('crates/*/src/**/*.rt')):
        lines = []
        for line in path.read_text().split('\n'):
            lines.append('' if line.lstrip().startswith('//') else re.sub(r'\s//.*$', '', line))
        yield path.relative_to(root), lines


def functions(lines):
    """(name, first line, header, body) of each function that has a body."""
    i = 0
    while i < len(lines):
        found = FN.match(lines[i])
        if not found:
            i += 1
            continue
        start, header, depth, j = i, [], 0, i
        while j < len(lines):
            line = lines[j]
            if CLAUSE.match(line):
                # a clause may run over some lines; its braces balance
                need = line.count('{') - line.count('}')
                header.append(line)
                while need > 0 and j + 1 < len(lines):
                    j += 1
                    header.append(lines[j])
                    need += lines[j].count('{') - lines[j].count('}')
                if header[-1].rstrip().endswith(';'):
                    j += 1
                    break
                j += 1
                continue
            if line.strip() == '{' or line.rstrip().endswith('{'):
                header.append(line)
                break
            header.append(line)
            if line.rstrip().endswith(';'):
                j = None
                break
            j += 1
        if j is None or j >= len(lines):
            i = i + 1
            continue
        depth, body = 0, []
        while j < len(lines):
            line = lines[j]
            body.append((j + 1, line))
            depth += line.count('{') - line.count('}')
            if depth <= 0:
                break
            j += 1
        yield found.group(1), start + 1, header, body
        i = j + 1


def point1(root):
    """own enums with a payload and at most three variants; a bool beside another value; numbers for kinds"""
    for path, lines in sources(root):
        text = '\n'.join(lines)
        for m in re.finditer(r'enum (\w+)(?:<[^>]*>)? \{(.*?)\n\}', text, re.S):
            variants = [v.strip() for v in re.split(r',\s*\n', m.group(2)) if v.strip()]
            if len(variants) <= 3 and any('(' in v or '{' in v for v in variants):
                yield path, text[:m.start()].count('\n') + 1, 'enum ' + m.group(1)
        for n, line in enumerate(lines, 1):
            if re.search(r'\(bool, |, bool\)|<bool, ', line) and not CLAUSE.match(line):
                yield path, n, 'bool beside a value: ' + line.strip()
        for name, first, header, body in functions(lines):
            head = ' '.join(header)
            arms = sum(1 for _, l in body if re.search(r'=> \d+,', l))
            back = sum(1 for _, l in body if re.search(r'^\s*\d+ => Some\(', l))
            if arms >= 2 and re.search(r'-> (u8|u16|usize)', head):
                yield path, first, f'kind to number: {name}'
            if back >= 2:
                yield path, first, f'number to kind: {name}'
            tail = [l.strip() for _, l in body]
            if re.search(r'-> (usize|u8)', head) and any(re.fullmatch(r'[A-Z_]+', t) for t in tail[-3:]):
                yield path, first, f'a number for none: {name}'
            if '-> bool' in head and re.search(r'&mut ', head):
                yield path, first, f'a bool that tells whether it was done: {name}'


def normal(body):
    text = ' '.join(l for _, l in body)
    text = re.sub(r'b?"[^"]*"|b?\'[^\']\'', ' s ', text)
    out = []
    for t in re.findall(r'[A-Za-z_]\w*|\d+|[^\s\w]', text):
        if t.isdigit():
            out.append('0')
        elif t in KEYWORDS:
            out.append(t)
        elif re.match(r'[A-Za-z_]', t):
            out.append('x')
        else:
            out.append(t)
    return ' '.join(out)


def point2(root):
    """functions whose bodies are the same but for names, numbers and texts; types with the same fields"""
    same = collections.defaultdict(list)
    for path, lines in sources(root):
        for name, first, header, body in functions(lines):
            key = normal(body)
            if len(key.split()) >= 24:
                same[key].append((path, first, name))
    for group in same.values():
        if len(group) > 1:
            names = ', '.join(f'{g[2]}' for g in group)
            for path, first, name in group:
                yield path, first, f'{name}: one body with {names}'
    fields = collections.defaultdict(list)
    for path, lines in sources(root):
        text = '\n'.join(lines)
        for m in re.finditer(r'struct (\w+)(?:<[^>]*>)? \{(.*?)\n\}', text, re.S):
            names = tuple(re.findall(r'^\s*(?:pub(?:\([a-z]+\))? )?(\w+):', m.group(2), re.M))
            fields[names].append((path, text[:m.start()].count('\n') + 1, m.group(1)))
    for names, group in fields.items():
        if len(group) > 1 and len(names) > 1:
            for path, first, name in group:
                yield path, first, f'struct {name}: fields {", ".join(names)}'


def point3(root):
    """loops that count by hand, loops over an index of one slice or table, counters"""
    for path, lines in sources(root):
        for n, line in enumerate(lines, 1):
            if CLAUSE.match(line):
                continue
            if re.search(r'\bwhile \w+ < ', line):
                yield path, n, line.strip()
            elif re.search(r'\bfor \w+ in [^{]*\.\.', line):
                yield path, n, line.strip()
            elif re.search(r'\+= 1;|wrapping_add\(1\)', line):
                yield path, n, line.strip()


def point4(root):
    """equality, conversion and printing by hand"""
    for path, lines in sources(root):
        for name, first, header, body in functions(lines):
            head = ' '.join(header)
            text = '\n'.join(l for _, l in body)
            if len(re.findall(r'\((\w+::\w+), \1\) => true', text)) >= 2:
                yield path, first, f'equality: {name}'
            if re.fullmatch(r'of|code|number|layer|name|numbered|done|amount|step_if|decode|at|are_equal', name):
                yield path, first, f'conversion: {name}'
            if re.fullmatch(r'print_\w+', name):
                yield path, first, f'printing: {name}'
        for n, line in enumerate(lines, 1):
            if re.search(r'matches!\(\w+(\.\w+)?, \w+::\w+\)', line):
                yield path, n, 'equality: ' + line.strip()


def point5(root):
    """a fact in the contracts of three functions or more; parameters that travel together through three or more"""
    facts = collections.defaultdict(list)
    params = collections.defaultdict(list)
    for path, lines in sources(root):
        crate = path.parts[1]
        for name, first, header, body in functions(lines):
            for line in header:
                m = re.match(r'\s*requires (?:\w+ )?\{(.*)\}\s*$', line)
                if m:
                    for part in re.split(r'[×()]', m.group(1)):
                        part = ' '.join(part.split())
                        if len(part) > 4:
                            key = re.sub(r'\.(old|now|new)\b', '', part)
                            facts[crate, key].append((path, first, name))
            head = ' '.join(' '.join(h for h in header if not CLAUSE.match(h)).split())
            m = re.search(r'fn \w+(?:<[^(]*>)?\((.*?)\)(?: ->|\s*\{?$)', head)
            if m:
                names = [p.strip() for p in m.group(1).split(',') if ':' in p]
                for a in range(len(names)):
                    for b in range(a + 1, len(names)):
                        params[crate, names[a], names[b]].append((path, first, name))
    for (crate, key), places in sorted(facts.items()):
        if len(places) >= 3:
            for path, first, name in places:
                yield path, first, f'fact "{key}": {name}'
    groups = collections.defaultdict(set)
    for (crate, a, b), places in params.items():
        if len(places) >= 3:
            for place in places:
                groups[place].update([a, b])
    for (path, first, name), names in sorted(groups.items()):
        yield path, first, f'travel together ({", ".join(sorted(names))}): {name}'


def point6(root):
    """tables with a count beside them, memory with a place in it"""
    for path, lines in sources(root):
        text = '\n'.join(lines)
        for m in re.finditer(r'struct (\w+)(?:<[^>]*>)? \{(.*?)\n\}', text, re.S):
            tables = re.findall(r'(\w+): \[[^\]]*; \w+\]', m.group(2))
            counts = re.findall(r'(\w*count|len|at): usize', m.group(2))
            if tables and counts:
                for t in tables:
                    yield path, text[:m.start()].count('\n') + 1, f'struct {m.group(1)}: table {t}'
        for name, first, header, body in functions(lines):
            head = ' '.join(h for h in header if not CLAUSE.match(h))
            if re.search(r'&(mut )?\[\w+\], (at|from|n|\w+: usize)', head) or re.search(r'&mut \[u8\], (at|from): usize', head) \
                    or (re.search(r'calls: &\[', head) and re.search(r'\bi: usize|from: usize', head)):
                yield path, first, f'memory with a place or a size beside it: {name}'


def point7(root):
    """a match on which step to run; function pointers, dyn, traits of one function"""
    for path, lines in sources(root):
        for name, first, header, body in functions(lines):
            text = '\n'.join(l for _, l in body)
            arms = re.findall(r'=> [\w.&*:]+\(', text)
            if re.search(r'match \w+ \{', text) and len(arms) >= 3:
                yield path, first, f'match on a step: {name}'
        for n, line in enumerate(lines, 1):
            if re.search(r'\bdyn \w|: fn\(', line):
                yield path, n, line.strip()
        text = '\n'.join(lines)
        for m in re.finditer(r'trait (\w+)[^{]*\{(.*?)\n\}', text, re.S):
            if len(re.findall(r'\bfn ', m.group(2))) == 1:
                yield path, text[:m.start()].count('\n') + 1, f'trait of one function: {m.group(1)}'


def point8(root):
    """proof files by lines, for the crates"""
    for crate in sorted(pathlib.Path(root).glob('crates/*/proofs')):
        files = sorted(crate.rglob('*.antt'))
        total = sum(len(f.read_text().split('\n')) - 1 for f in files)
        if files:
            yield crate.relative_to(root), total, f'{len(files)} files'


POINTS = {'1': point1, '2': point2, '3': point3, '4': point4, '5': point5, '6': point6, '7': point7, '8': point8}


def main():
    args = sys.argv[1:]
    root = args.pop(0) if args and args[0] not in POINTS else '.'
    for number in args or POINTS:
        found = sorted(set(POINTS[number](root)), key=lambda p: (str(p[0]), p[1], p[2]))
        print(f'point {number}: {len(found)} ({POINTS[number].__doc__})')
        for path, line, what in found:
            print(f'  {path}:{line}: {what}')


main()
