#!/usr/bin/env python3
"""What docs/BOARD.md shows, taken from the page.

    page.py program five.c      the program whose first line names the file
    page.py command cc          the line of a shell that begins so
"""
import pathlib
import re
import sys

ROOT = pathlib.Path(__file__).resolve().parent.parent
sys.path.insert(0, str(ROOT / '.ci'))
sys.dont_write_bytecode = True
import shown

what, name = sys.argv[1:]
blocks = list(shown.blocks((ROOT / 'docs/BOARD.md').read_text()))
if what == 'program':
    found = ['\n'.join(lines) for lines in blocks if re.fullmatch(r'(//|/\*) %s( \*/)?' % re.escape(name), lines[0])]
else:
    found = [line[2:] for lines in blocks for line in lines if line.startswith('$ %s ' % name)]
if len(found) != 1:
    sys.exit('docs/BOARD.md shows %d of %s %s' % (len(found), what, name))
print(found[0])
