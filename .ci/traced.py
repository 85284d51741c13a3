"""Whether docs/TRACE.md has evidence for each sentence: a row has as many cells as its table has titles, and its contract or theorem (in the tables of forms: where it is met)
names a thing that is there, or a page. "the same" is that of the row above. Rows that have nothing to show are listed here, each with its reason; one that has evidence by now is a fault too.
"""
import pathlib
import re

from names import RUST, Names

PAGE = 'docs/TRACE.md'
NOTHING_TO_SHOW = {
    'Leave `login.rs`, the tokens, `time.rs`': 'it says what is left out',
    '"The 512 code units of both pages stand in one constant table"': 'it is of a later request',
}


def rows(text):
    """(titles, cells) of each row of a page's tables."""
    titles = None
    for line in text.splitlines():
        if not line.startswith('|'):
            titles = None
        elif titles is None:
            titles = [cell.strip() for cell in line.strip('|').split('|')]
        elif not set(line) <= set('|-'):
            yield titles, [cell.strip() for cell in line.strip('|').split('|')]


def shows(names, cell):
    words = [word for part in re.findall(r'`([^`]+)`', cell) for word in re.split(r',\s+', part)]
    there = any(names.shape(word)[0] and not RUST.fullmatch(word) and names.fault(word) is None for word in words)
    return there or re.search(r'docs/[A-Z]+\.md', cell) is not None


def faults(root):
    names, above, seen = Names(root), False, 0
    for titles, cells in rows((pathlib.Path(root) / PAGE).read_text()):
        seen += 1
        if len(cells) != len(titles):
            yield '%s: the row of %s has %d cells for %d titles' % (PAGE, cells[0], len(cells), len(titles))
            continue
        cell = cells[titles.index('Contract or theorem') if 'Contract or theorem' in titles else -1]
        above = above if cell == 'the same' else shows(names, cell)
        if not above and cells[0] not in NOTHING_TO_SHOW:
            yield '%s: %s has no evidence' % (PAGE, cells[0])
        if above and cells[0] in NOTHING_TO_SHOW:
            yield '%s: %s has evidence, and is listed as having none' % (PAGE, cells[0])
    if not seen:
        yield '%s has no row' % PAGE
