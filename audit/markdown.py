"""The Markdown of the pages of docs/, as HTML: headings, paragraphs, lists, tables, indented blocks, and names in backquotes."""
import html
import re

# Pages that stand on the audit page too.
HERE = {'STOPS': 'stops', 'DIFFERENCES': 'differences', 'PUBLIC': 'public', 'TRUSTED': 'trusted', 'TRACE': 'sentences', 'GATE': 'gate'}


def anchor(name):
    """The anchor of a name's text, of an edit, of a tag."""
    return 'n-' + re.sub(r'[^\w-]', lambda c: '.%x.' % ord(c[0]), name)


def breakable(name):
    """A name that may go on in the next line, behind a mark."""
    return re.sub(r'(::|[/.!])(?=\w)', r'\1<wbr>', html.escape(name))


def inline(text, known=()):
    """A line's HTML. A name that is known leads to its text."""
    parts = []
    for number, part in enumerate(re.split(r'`([^`]+)`', text)):
        if number % 2:
            words = re.split(r'(,\s+)', part)
            shown = ''.join('<a href="#%s">%s</a>' % (anchor(word), breakable(word)) if word in known else breakable(word) for word in words)
            parts.append('<code>%s</code>' % shown)
        else:
            part = html.escape(part, quote=False)
            part = re.sub(r'\*\*([^*]+)\*\*', r'<strong>\1</strong>', part)
            part = re.sub(r'(?<![\w*])\*([^*\s][^*]*)\*(?![\w*])', r'<em>\1</em>', part)
            parts.append(re.sub(r'docs/([A-Z]+)\.md', lambda page: '<a href="#%s">%s</a>' % (HERE[page[1]], page[0]) if page[1] in HERE else page[0], part))
    return ''.join(parts)


def cells(line):
    return [cell.strip() for cell in line.strip().strip('|').split('|')]


def blocks(text):
    """(kind, content) of each block: heading (level, text), table (titles, rows), list [text], code [line], text."""
    lines = re.sub(r'<!--.*?-->\n?', '', text, flags=re.S).splitlines()
    at = 0
    while at < len(lines):
        line = lines[at]
        kind = ('heading' if line.startswith('#') else 'table' if line.startswith('|') else 'list' if re.match(r'(- |\d+\. )', line)
                else 'code' if line.startswith('    ') else 'text' if line.strip() else None)
        end = at + 1
        if kind == 'heading':
            yield kind, (len(line) - len(line.lstrip('#')), line.lstrip('# '))
        elif kind == 'table':
            while end < len(lines) and lines[end].startswith('|'):
                end += 1
            yield kind, (cells(line), [cells(row) for row in lines[at + 2:end]])
        elif kind == 'code':
            while end < len(lines) and (lines[end].startswith('    ') or not lines[end].strip() and end + 1 < len(lines) and lines[end + 1].startswith('    ')):
                end += 1
            yield kind, [row[4:] for row in lines[at:end]]
        elif kind == 'list':
            items = [re.sub(r'^(- |\d+\. )', '', line)]
            while end < len(lines) and lines[end].strip() and not lines[end].startswith(('#', '|')):
                if re.match(r'(- |\d+\. )', lines[end]):
                    items.append(re.sub(r'^(- |\d+\. )', '', lines[end]))
                else:
                    items[-1] += ' ' + lines[end].strip()
                end += 1
            yield kind, items
        elif kind == 'text':
            while end < len(lines) and lines[end].strip() and not re.match(r'#|\||- |    ', lines[end]):
                end += 1
            yield kind, ' '.join(lines[at:end])
        at = end


def table(titles, rows, known=(), row_anchor=None):
    """A table's HTML; `row_anchor` gives a row's anchor by its cells."""
    out = ['<div class="wide"><table><thead><tr>%s</tr></thead><tbody>' % ''.join('<th>%s</th>' % inline(title) for title in titles)]
    for row in rows:
        place = ' id="%s"' % row_anchor(row) if row_anchor else ''
        out.append('<tr class="row"%s>%s</tr>' % (place, ''.join('<td>%s</td>' % inline(cell, known) for cell in row)))
    return ''.join(out) + '</tbody></table></div>'


def page(text, known=(), row_anchor=None, deeper=1):
    """A page's HTML without its title."""
    out = []
    for kind, content in blocks(text):
        if kind == 'heading' and content[0] > 1:
            level = min(content[0] + deeper, 6)
            out.append('<h%d>%s</h%d>' % (level, inline(content[1]), level))
        elif kind == 'table':
            out.append(table(*content, known, row_anchor))
        elif kind == 'list':
            out.append('<ul>%s</ul>' % ''.join('<li class="row">%s</li>' % inline(item, known) for item in content))
        elif kind == 'code':
            out.append('<pre>%s</pre>' % html.escape('\n'.join(content)))
        elif kind == 'text':
            out.append('<p class="row">%s</p>' % inline(content, known))
    return '\n'.join(out)
