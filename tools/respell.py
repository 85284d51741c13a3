#!/usr/bin/env python3
"""Brings the names that this repository's definitions and lemmas had under an older Rattle to today's spelling: a word is in snake case, a dash joins two
names, a plain word is added with `_`, a lemma that would have its function's name gets `_lem`. tools/respelled.tsv has a row for each name; the rows that
end in `port` are names that port.py turned itself in the sources, and that stand yet in the edits, the scripts and the pages.

    python3 tools/respell.py        at the top, once, behind the kit's own port.py

In definitions and proofs every whole word turns; behind a dot a name with a dash turns only where a module's name stands before it, since the steps of a
function have such names too. In the code, in the edits, in the checks' scripts and in the pages the names in camel case turn, and in a page's code spans
those with a dash. Code, strings that a program prints, inputs and outputs have no such names.
"""
import pathlib
import re

TOP = pathlib.Path(__file__).resolve().parent.parent
TABLE = [line.split('\t') for line in (TOP / 'tools/respelled.tsv').read_text().splitlines()]
SOURCE = {row[0]: row[1] for row in TABLE if row[2:] != ['port']}
ROWS = {row[0]: row[1] for row in TABLE}
CAMEL = {old: new for old, new in ROWS.items() if re.search('[a-z0-9][A-Z]', old) and '-' not in old}
WORD = re.compile(r'''[^\s(){}.;,@"«»\[\]`:/|*…]+''')
ALIAS = re.compile(r' as ([^\s;]+)')
SPAN = re.compile(r'`[^`\n]+`')
FENCE = re.compile(r'(?m)^    .*$')


def turned(text, rows, modules=None):
    """The text with each whole word turned that has a row."""
    def one(found):
        word, at = found.group(0), found.start()
        if word not in rows:
            return word
        if modules is not None and word not in CAMEL and text[at - 1:at] == '.':
            head = re.search(r'''[^\s(){};,@"«»\[\]]+$''', text[:at - 1])
            head = head.group(0) if head else ''
            if head.split('.')[0] != 'Rattle' and head not in modules:
                return word
        return rows[word]
    return WORD.sub(one, text)


def lines(text, rows):
    """The same of an antt file, whose comments turn too."""
    return turned(text, rows, set(ALIAS.findall(text)))


def page(text):
    """The same of a page: camel case everywhere, names with a dash in code spans and in blocks."""
    dashed = {old: new for old, new in ROWS.items() if '-' in old}
    for part in (SPAN, FENCE):
        text = part.sub(lambda found: turned(found.group(0), dashed), text)
    return turned(text, CAMEL)


def files():
    for path in sorted(TOP.rglob('*')):
        below = path.relative_to(TOP).parts
        if path.is_symlink() or not path.is_file() or '.git' in below or 'out' in below:
            continue
        yield path, below


def main():
    count = 0
    for path, below in files():
        if path.suffix == '.antt':
            change = lambda text: lines(text, SOURCE)
        elif path.suffix in ('.rt', '.edit') or path.suffix == '.py' and path.name != 'respell.py':
            change = lambda text: turned(text, CAMEL)
        elif path.suffix == '.md' and below[0] != 'licences':
            change = page
        else:
            continue
        before = path.read_text()
        after = change(before)
        if after != before:
            path.write_text(after)
            count += 1
    print('%d files turned' % count)


if __name__ == '__main__':
    main()
