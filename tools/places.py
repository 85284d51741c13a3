#!/usr/bin/env python3
"""The places of docs/DESIGN-PASS.md in crates/*/src: for each point what is found, a line each, and how many.

tools/places.py [POINT]: all points, or the places of one."""
import collections
import glob
import os
import re
import sys

ROOT = os.path.dirname(os.path.dirname(os.path.abspath(__file__)))
START = re.compile(r'^( *)(?:pub )?(?:const )?(?:extern "C" )?fn (\w+)', re.M)


def sources():
    for path in sorted(glob.glob(os.path.join(ROOT, 'crates/*/src/**/*.rt'), recursive=True)):
        with open(path, encoding='utf-8') as file:
            yield os.path.relpath(path, os.path.join(ROOT, 'crates')), file.read()


def functions():
    """Each function: its path, name, head (parameters and clauses) and body."""
    for path, text in sources():
        lines = text.split('\n')
        for at, line in enumerate(lines):
            if m := START.match(line):
                opens = next((k for k in range(at, len(lines)) if re.search(r'(?:^ *| )\{$', lines[k])), None)
                ends = next((k for k in range(at + 1, len(lines)) if lines[k] == m[1] + '}'), None)
                if opens is not None and ends is not None and opens < ends:
                    yield path, m[2], '\n'.join(lines[at:opens + 1]), '\n'.join(lines[opens + 1:ends])


def plain(text):
    return re.sub(r'//[^\n]*', '', text)


def enums():
    """Own enums with the shape of Option or Result: one case with a value beside a bare one, or a case that holds a refusal."""
    for path, text in sources():
        for m in re.finditer(r'enum (\w+)(?:<[^>]*>)? \{\n(.*?)\n\}', plain(text), re.S):
            cases = [c.strip() for c in re.findall(r'^    (\w+(?:\([^\n]*\))?)(?: = \d+)?,', m[2], re.M)]
            valued = [c for c in cases if '(' in c]
            if any(re.search(r'\bRefusal\b', c) for c in valued) or (len(cases) == 2 and len(valued) == 1):
                yield '%s: enum %s' % (path, m[1])


def shape(body):
    """A body with its names and numbers taken out, but for how often each one stands."""
    seen = {}
    words = re.findall(r'[A-Za-z_]\w*|\d\w*|"[^"]*"|[^\s\w]', plain(body))
    keep = {'let', 'mut', 'if', 'else', 'match', 'for', 'in', 'while', 'loop', 'return', 'as', 'self', 'Ok', 'Err', 'Some', 'None'}
    out = []
    for w in words:
        if re.match(r'[\w"]', w) and w not in keep:
            w = '#%d' % seen.setdefault(w, len(seen))
        out.append(w)
    return ' '.join(out)


def twins():
    """Functions of four lines or more whose bodies differ in names, types and numbers alone."""
    alike = collections.defaultdict(list)
    for path, name, head, body in functions():
        if len([l for l in plain(body).split('\n') if l.strip()]) >= 4:
            alike[shape(body)].append('%s %s' % (path, name))
    for group in alike.values():
        if len(group) > 1:
            yield ' ~ '.join(group)


def loops():
    """Loops whose body counts a number up or down by one."""
    for path, text in sources():
        for m in re.finditer(r'^( *)(while [^\n]*|loop) \{\n(.*?)^\1\}', plain(text), re.M | re.S):
            if re.search(r'\b\w+ [-+]= 1;', m[3]):
                yield '%s:%d: %s' % (path, text[:m.start()].count('\n') + 1, m[2])


def conversions():
    """Functions that map cases one by one to numbers or cases, or numbers to cases."""
    for path, name, head, body in functions():
        m = re.fullmatch(r'\s*match [\w.]+ \{\n(.*)\n\s*\}\s*', plain(body), re.S)
        if m:
            arms = [a.strip() for a in m[1].split('\n') if a.strip()]
            if len(arms) > 2 and all(re.fullmatch(r'[\w:| ()]+ => [\w:()]+,', a) for a in arms):
                yield '%s %s' % (path, name)


def together():
    """Three parameters or more that stand together in the heads of three functions or more; a requires that stands in three or more."""
    groups, asked = collections.Counter(), collections.Counter()
    for path, name, head, body in functions():
        given = [(n, re.sub(r'\s+', ' ', t)) for n, t in re.findall(r'(\w+): ((?:&(?:mut )?)?(?:\[[^\]]*\]|[\w:<>]+))', head.split('->')[0].split('ensures')[0].split('requires')[0])]
        for i in range(len(given) - 2):
            groups[tuple(given[i:i + 3])] += 1
        for r in re.findall(r'requires\*? (?:\w+ )?\{ (.*?) \}\n', head + '\n'):
            asked[re.sub(r'\s+', ' ', r)] += 1
    for group, n in groups.most_common():
        if n > 2:
            yield '%d functions: %s' % (n, ', '.join('%s: %s' % g for g in group))
    for clause, n in asked.most_common():
        if n > 2:
            yield '%d functions require %s' % (n, clause)


def counted():
    """Arrays with a count beside them."""
    for path, name, head, body in functions():
        if re.search(r'\[\w+; \w+\],\s*\w+: usize', head):
            yield '%s %s' % (path, name)


def tables():
    """Function pointers, and numbers that choose what to run."""
    for path, text in sources():
        for m in re.finditer(r'\bfn\(|dyn ', plain(text)):
            yield '%s:%d' % (path, text[:m.start()].count('\n') + 1)
    for path, name, head, body in functions():
        if len(re.findall(r'^\s*\d+ => ', plain(body), re.M)) > 2 and re.search(r'=> [\w:]+\(', body):
            yield '%s %s' % (path, name)


POINTS = {'1': enums, '2': twins, '3': loops, '4': conversions, '5': together, '6': counted, '7': tables}


def main():
    for point in sys.argv[1:] or POINTS:
        places = list(POINTS[point]())
        for place in places:
            print('%s  %s' % (point, place))
        print('%s  %d places' % (point, len(places)))


main()
