#!/usr/bin/env python3
"""Lists the places in crates/*/src that the design pass looks at, one point after the other.

    python3 tools/design_places.py [ROOT] [POINT]

Without ROOT it reads the repository that it lies in. Each line is `point crate/file:line: text`; at the end stand the counts.
It only finds places: whether one is to be changed is judged by reading it (docs/DESIGN-PASS.md).
"""
import collections
import pathlib
import re
import sys

ROOT = pathlib.Path(sys.argv[1]) if len(sys.argv) > 1 else pathlib.Path(__file__).resolve().parent.parent
ONLY = sys.argv[2] if len(sys.argv) > 2 else None

# Tests are left out: they show values.
TESTS = {'host_tests', 'trace_listing_tests'}

PATTERNS = {
    '1': [r'^(pub(\(crate\))? )?enum \w+', r'\bnumber: u8\b', r'fn \w+.*&mut .*-> bool'],
    '3': [r'\bwhile\b', r'\bfor .* in\b', r'\bloop \{', r'\+= 1;$', r'\+ 1;$'],
    '4': [r'\bas (u8|u16|u32|usize|char)\b', r'fn (number|of|is|literal|next_of|refusal_of|class_of)\(', r'fn \w+_kind\(',
          r'impl.* (PartialEq|Eq|PartialOrd|Ord|Clone|Display)(<.*>)? for '],
    '6': [r'^\s*(pub(\(crate\))? )?(len|pos|at|start|limit|place|size): usize,', r'Vec<Node>', r'\w\[[^\];]*\]', r'\[\w+; [A-Z0-9_]+\]'],
    '7': [r'\bdyn\b', r'\bfn\([^)]*\) ->', r'^\s*match (\w+\.)*(run|mode|phase)\b', r'match (Word|Head)::of', r'match \(run,', r'\|\w+\| '],
}


def sources():
    for path in sorted(ROOT.glob('crates/*/src/**/*.rt')):
        crate = path.relative_to(ROOT / 'crates').parts[0]
        if crate not in TESTS:
            yield crate, path, path.read_text().split('\n')


def by_pattern(point):
    found = []
    for _, path, lines in sources():
        for number, line in enumerate(lines, 1):
            text = line.strip()
            if text.startswith('//') or text.startswith('ghost use') or re.match(r'(requires|ensures|ghost)\b', text) or re.match(r'\w+: \{', text):
                continue
            if any(re.search(p, line) for p in PATTERNS[point]):
                found.append((path, number, text))
    return found


def functions():
    """Each function: its file, line, name, parameters, clauses and body."""
    for crate, path, lines in sources():
        n = 0
        while n < len(lines):
            if re.match(r'\s*(pub(\(crate\))? )?(const )?fn \w+', lines[n]):
                start = n
                head = []
                indent = re.match(r'\s*', lines[n]).group(0)
                while n < len(lines) and lines[n].rstrip() not in (indent + '{', indent + '{}') and not lines[n].rstrip().endswith(' {') and not lines[n].rstrip().endswith(';'):
                    head.append(lines[n])
                    n += 1
                if n >= len(lines):
                    break
                head.append(lines[n])
                body = []
                if not lines[n].rstrip().endswith((';', '{}')):
                    n += 1
                    while n < len(lines) and lines[n].rstrip() != indent + '}':
                        body.append(lines[n].strip())
                        n += 1
                clauses = [l.strip() for l in head if re.match(r'\s*(requires|ensures)\b', l)]
                signature = ' '.join(l.strip() for l in head if not re.match(r'\s*(requires|ensures)\b', l))
                yield crate, path, start + 1, signature, clauses, body
            n += 1


def alike():
    """Functions of three lines and more whose bodies are one text once names and numbers are left out."""
    groups = collections.defaultdict(list)
    for _, path, number, signature, _, body in functions():
        if len(body) < 3:
            continue
        text = '\n'.join(re.sub(r'\b(?!let|if|else|match|return|while|for|in|loop|Ok|Err|Some|None|self)\w+\b', 'x', l) for l in body if not l.startswith('//'))
        groups[text].append((path, number, signature))
    return [g for g in groups.values() if len(g) > 1]


def facts():
    """Clauses that stand in three or more functions of a crate, and pairs of parameters that do."""
    clauses = collections.defaultdict(list)
    pairs = collections.defaultdict(list)
    for crate, path, number, signature, cs, _ in functions():
        for c in cs:
            clauses[(crate, re.sub(r'^(requires|ensures) \w+ ', r'\1 ', c))].append((path, number))
        inside = re.search(r'\((.*)\)', signature)
        names = re.findall(r'(\w+): ', inside.group(1)) if inside else []
        for a in range(len(names)):
            for b in range(a + 1, len(names)):
                pairs[(crate, names[a] + ', ' + names[b])].append((path, number))
    return ({k: v for k, v in clauses.items() if len(v) > 2}, {k: v for k, v in pairs.items() if len(v) > 2})


def answers():
    count = lemmas = lines = 0
    for path in ROOT.glob('crates/*/proofs/**/*.antt'):
        text = path.read_text()
        lines += text.count('\n')
        for m in re.finditer(r'^(?:pub )?([^\s:]+) : (.*)', text, re.M):
            if 'goal.' in m.group(2):
                count += 1
            else:
                lemmas += 1
    return count, lemmas, lines


def show(path):
    return str(path.relative_to(ROOT / 'crates')).replace('/src/', '/')


counts = {}
for point in '1', '2', '3', '4', '5', '6', '7', '8':
    if ONLY and point != ONLY:
        continue
    if point == '2':
        groups = alike()
        counts['2'] = sum(len(g) for g in groups)
        for g in groups:
            print('2 ' + ' ~ '.join('%s:%d %s' % (show(p), n, re.search(r'fn (\w+)', s).group(1)) for p, n, s in g))
    elif point == '5':
        clauses, pairs = facts()
        counts['5'] = sum(len(v) for v in clauses.values()) + sum(len(v) for v in pairs.values())
        for kind in clauses, pairs:
            for (crate, text), where in sorted(kind.items()):
                print('5 %s: %d times: %s' % (crate, len(where), text))
    elif point == '8':
        counts['8'] = '%d answers, %d lemmas, %d lines of proofs/' % answers()
    else:
        found = by_pattern(point)
        counts[point] = len(found)
        for path, number, text in found:
            print('%s %s:%d: %s' % (point, show(path), number, text))
for point in sorted(counts):
    print('count %s: %s' % (point, counts[point]))
