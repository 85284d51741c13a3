"""The tables of docs/INTEROP.md."""
import re


def tables(page):
    """The page's tables: the titles, and the cells of each row."""
    titles = None
    for line in page.splitlines():
        cells = [cell.strip() for cell in line.strip('|').split('|')] if line.startswith('|') else None
        if cells is None:
            titles = None
        elif titles is None:
            titles = cells
        elif not set(line) <= set('|-'):
            yield titles, cells


def quoted(cell):
    return re.findall(r'`([^`]+)`', cell)[0]
