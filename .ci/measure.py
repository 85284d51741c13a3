#!/usr/bin/env python3
"""What the gate judges, crate by crate, from the log of a whole run that kept nothing of an earlier one: writes docs/GATE.md's table, and says what changed
against the one before. `rt ci` tells no time for a crate, and works on several side by side: the whole alone has one.

    time rt ci --anew | tee LOG
    measure.py LOG M:SS          M:SS is how long the run took

A check that the log has twice counts as it was last; a crate that is not in crates.txt does not count.
"""
import pathlib
import re
import sys

import complete

ROOT = pathlib.Path(__file__).resolve().parent.parent
PAGE = ROOT / 'docs/GATE.md'
MARKS = re.compile(r'(?s)(<!-- table -->\n)(.*?)(<!-- end -->)')
ROW = re.compile(r'(?m)^\| `crates/(\w+)` \| (\d+) \| (\d+) \|$')
WHOLE = '; every proof and must-fail edit was done in this run'


def measured(log):
    """Crate to its functions and its must-fail edits."""
    rows, functions, edits = {}, 0, {}
    for line in log.splitlines():
        if found := re.match(r'logic=proved functions=(\d+)', line):
            functions = int(found[1])
        elif found := re.fullmatch(r'rt: (\w+) proved', line):
            rows[found[1]] = functions
        elif found := re.match(r'rt: must-fail (\w+)/\w+\.edit: refused', line):
            edits[found[1]] = edits.get(found[1], 0) + 1
    return {name: (rows[name], edits.get(name, 0)) for name in rows if name in complete.dependencies(ROOT)}


def table(rows, took, verdict):
    lines = ['| Crate | Functions | Must-fail edits |', '|---|---|---|']
    lines += ['| `crates/%s` | %d | %d |' % (name, *rows[name]) for name in rows]
    functions, edits = (sum(row[part] for row in rows.values()) for part in (0, 1))
    lines += ['', '%d crates, %d functions, %d must-fail edits. The whole took %s minutes and said `%s`.' % (len(rows), functions, edits, took, verdict)]
    return '\n'.join(lines)


def main(log, took):
    text = PAGE.read_text()
    before = {name: tuple(map(int, rest)) for name, *rest in ROW.findall(MARKS.search(text)[2])}
    rows = measured(log)
    verdict = log.strip().splitlines()[-1]
    if not rows or not re.fullmatch(r'\d+ passed, 0 failed', verdict) or not any(line.startswith('rt: ok') and line.endswith(WHOLE) for line in log.splitlines()):
        sys.exit('not the log of a whole green run from nothing: %s' % verdict)
    PAGE.write_text(MARKS.sub(lambda m: m[1] + table(rows, took, verdict) + '\n' + m[3], text))
    for name in sorted(set(before) | set(rows)):
        if before.get(name) != rows.get(name):
            print('%s: %s before, %s now' % (name, before.get(name, 'not there'), rows.get(name, 'not there')))


if len(sys.argv) != 3:
    sys.exit(__doc__)
main(pathlib.Path(sys.argv[1]).read_text(), sys.argv[2])
