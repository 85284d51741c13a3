"""The audit page: what the sources say and what the gate's log said of it, in one file."""
import collections
import datetime
import html
import json
import pathlib
import re

import log as gate
import markdown
import text
from markdown import anchor, inline
from text import names

HERE = pathlib.Path(__file__).resolve().parent
ROOT = text.ROOT
DIFFERS = 'Where the Rust differs or stops'


def read(name):
    return (ROOT / name).read_text()


def quoted(cell):
    return [word for part in re.findall(r'`([^`]+)`', cell) for word in re.split(r',\s+', part)]


def tables(page):
    """(heading, titles, rows) of each table of a page."""
    heading = ''
    for kind, content in markdown.blocks(page):
        if kind == 'heading':
            heading = content[1]
        elif kind == 'table':
            yield heading, *content


def source(code):
    """A source text's HTML: comments stand back."""
    lines = (html.escape(line, quote=False) for line in code.splitlines())
    return '<pre>%s</pre>' % '\n'.join('<i>%s</i>' % line if re.match(r'\s*(--|//|#)', line) else line for line in lines)


def fold(summary, body, mark=''):
    return '<details%s><summary>%s</summary>%s</details>' % (mark and ' class="%s"' % mark, summary, body)


class Page:
    def __init__(self, log, faults):
        self.log, self.faults = log, list(faults)
        self.texts = text.Texts()
        self.tags = collections.Counter(json.loads(line)['tag'] for path in sorted((ROOT / 'cases').glob('*.jsonl')) for line in path.read_text().splitlines())
        self.edits = {(path.parent.parent.name, path.stem): path for path in sorted(ROOT.glob('crates/*/must-fail/*.edit'))}
        self.known = self.all_names()
        self.linked = set(self.known) | {'%s!%s' % edit for edit in self.edits}
        self.told = self.rust_rows()

    # ---- names

    def all_names(self):
        """Each name of the pages that has a text, with it. A name without one is a fault."""
        found = {}
        for page, word, shown in self.texts.on_pages():
            if isinstance(shown, text.Missing):
                self.faults.append('No source text was found for the name %s of %s: %s.' % (word, page, shown))
            else:
                found[word] = shown
        self.faults += ['%s.' % fault for fault in names.faults(ROOT)]
        return found

    def rust_rows(self):
        """Definition to the rows of docs/DIFFERENCES.md and docs/STOPS.md that name it; the row's number to its words."""
        rows = collections.defaultdict(list)
        for page, mark in (('docs/DIFFERENCES.md', 'd'), ('docs/STOPS.md', 'stop')):
            for _, titles, lines in tables(read(page)):
                for line in lines if titles[0] == '#' else ():
                    row = dict(zip(titles, line))
                    words = (row['What'], row['Smallest request'], row.get('The Rust') or row.get('The Rust, and here')) if mark == 'd' else (row['Place in the Rust'], row['What stops it'], row['Smallest request'])
                    entry = ('%s-%s' % (mark, line[0]), mark, line[0], words, row.get('Here', ''))
                    for word in {word for cell in line[1:] for word in quoted(cell) if self.texts.names.shape(word)[0] == 'definition'}:
                        rows[word].append(entry)
                    if mark == 'd':
                        rows['docs/DIFFERENCES.md, ' + line[0]].append(entry)
        return rows

    def of_the_rust(self, row):
        """The rows on the Rust that name one of a sentence's definitions, or that the sentence names by their numbers."""
        found = {}
        definitions = [word for cell in row for word in quoted(cell) if self.texts.names.shape(word)[0] == 'definition']
        numbers = re.findall(r'docs/DIFFERENCES\.md, ([\d, and]+)', ' '.join(row))
        for key in definitions + ['docs/DIFFERENCES.md, ' + number for part in numbers for number in re.findall(r'\d+', part)]:
            for entry in self.told.get(key, ()):
                found[entry[0]] = entry
        return list(found.values())

    # ---- pieces

    def name_fold(self, word):
        shown = self.known[word]
        return fold('<code>%s</code> <span class="kind">%s</span>' % (html.escape(word), shown.kind), source(shown.text) + '<p class="place">%s</p>' % shown.place)

    def edit_said(self, edit):
        """What the log said of an edit, and whether it is what it must be."""
        said = self.log.edits.get(edit) if self.log else None
        if said is None:
            return 'the log says nothing of it', False
        return said, said.startswith('refused, as it must be')

    def edit_fold(self, edit):
        said, right = self.edit_said(edit)
        summary = '<code>%s!%s</code> <span class="%s">%s</span>' % (*edit, 'right' if right else 'wrong', html.escape(said))
        path = self.edits.get(edit)
        if path is None:
            self.faults.append('There is no must-fail edit %s!%s.' % edit)
            return summary
        return fold(summary, source(path.read_text().rstrip()) + '<p class="place">%s</p>' % path.relative_to(ROOT))

    def cell(self, content):
        """A cell: its words where it has some beside names, then each name with its text, the cases' numbers and the edits."""
        words = quoted(content)
        out = []
        if re.sub(r'`[^`]+`|[,;\s]', '', content):
            out.append('<p>%s</p>' % inline(content, self.linked))
        for word in dict.fromkeys(words):
            kind, found = self.texts.names.shape(word)
            if word in self.known:
                out.append(self.name_fold(word))
            elif kind == 'must-fail edit':
                out.append(self.edit_fold((found[1], found[2])))
            elif kind == 'tag of the cases':
                out.append('<p class="tag"><code>%s</code> <span class="kind">%d case%s</span></p>' % (found[2], self.tags[found[2]], '' if self.tags[found[2]] == 1 else 's'))
                if not self.tags[found[2]]:
                    self.faults.append('There is no case with the tag %s.' % found[2])
            elif not out:
                out.append('<p>%s</p>' % inline(content, self.linked))
        return ''.join(out)

    def rust_list(self, entries):
        items = []
        for place, mark, number, words, here in entries:
            what = 'Difference' if mark == 'd' else 'Stop'
            items.append('<li><a href="#%s">%s %s</a>: %s; %s; the Rust: %s</li>' % ((place, what, number) + tuple(inline(w) for w in words)) if mark == 'd' else
                         '<li><a href="#%s">%s %s</a>: %s, %s; %s</li>' % ((place, what, number) + tuple(inline(w) for w in words)))
        return '<ul>%s</ul>' % ''.join(items)

    def sentence(self, number, titles, row):
        """One sentence of document 01 with its evidence."""
        parts = ['<div class="part"><h4>%s</h4>%s</div>' % (html.escape(title), self.cell(cell)) for title, cell in zip(titles[1:], row[1:]) if cell]
        if entries := self.of_the_rust(row):
            parts.append('<div class="part"><h4>%s</h4>%s</div>' % (DIFFERS, self.rust_list(entries)))
        return '<article class="row" id="s%d"><h3><a class="number" href="#s%d">%d</a> %s</h3><div class="parts">%s</div></article>' % (
            number, number, number, inline(row[0]), ''.join(parts))

    # ---- sections

    def sentences(self):
        """The sections of docs/TRACE.md: heading to (number, titles, row)."""
        found, number = {}, 0
        for heading, titles, rows in tables(read('docs/TRACE.md')):
            for row in rows:
                number += 1
                found.setdefault(heading, []).append((number, titles, row))
        return found

    def stops(self):
        return '<section id="stops"><h2>Every place where the Rust stops, and what happens here</h2>%s</section>' % markdown.page(
            read('docs/STOPS.md'), self.linked, lambda row: 'stop-' + row[0] if re.fullmatch(r'\d+\w?', row[0]) else anchor('stop ' + row[0]))

    def demands(self, rows):
        """The three demands, word for word, each with its rows of docs/TRACE.md."""
        texts = next(content for kind, content in markdown.blocks((HERE / 'demands.md').read_text()) if kind == 'list')
        belongs, at = collections.defaultdict(list), 0
        for entry in rows:
            if starts := re.match(r'([123]): ', entry[2][0]):
                at = int(starts[1])
            belongs[at].append(entry)
        out = []
        for number, demand in enumerate(texts, 1):
            if not belongs[number]:
                self.faults.append('docs/TRACE.md has nothing on demand %d.' % number)
            out.append('<div id="demand-%d"><blockquote class="row"><b>%d.</b> %s</blockquote>%s</div>' % (
                number, number, inline(demand), ''.join(self.sentence(*entry) for entry in belongs[number])))
        return '<section id="demands"><h2>The three demands</h2>%s</section>' % ''.join(out)

    def calls(self, kind):
        """The rows of docs/PUBLIC.md's table of calls, or of exports: name, definition, contract, edits."""
        out = []
        for _, titles, rows in tables(read('docs/PUBLIC.md')):
            for row in rows if titles[0] == kind else ():
                parts = ['<div class="part"><h4>%s</h4>%s</div>' % (html.escape(title), self.cell(cell)) for title, cell in zip(titles[1:], row[1:])]
                out.append('<article class="row" id="%s"><h3>%s</h3><div class="parts">%s</div></article>' % (anchor('call ' + quoted(row[0])[0]), inline(row[0]), ''.join(parts)))
        if not out:
            self.faults.append('docs/PUBLIC.md has no table of its %ss.' % kind.lower())
        return out

    def public(self):
        """The public calls and the exports, each with the words before its table; and how many there are."""
        text, calls, exports = read('docs/PUBLIC.md'), self.calls('Call'), self.calls('Export')
        before = text.partition('\n| ')[0], text.partition('## The exports\n')[2].partition('\n| ')[0]
        section = '<section id="%s"><h2>%s</h2>%s%s</section>'
        return ''.join(section % (place, title, markdown.page(words, self.linked), ''.join(rows)) for place, title, words, rows in (
            ('public', 'The public calls', before[0], calls), ('exports', 'The exports, for C and Rust', before[1], exports))), len(calls), len(exports)

    def gate(self):
        crates, edits, programs = gate.listed(ROOT)
        said = self.log.crates if self.log else {}
        ran = self.log.ran if self.log else {}
        rows = ''.join('<tr class="row"><td><code>%s</code></td><td class="%s">%s</td><td>%s</td></tr>' % (
            name, 'right' if name in said else 'wrong', 'proved, %d functions' % said[name] if name in said else 'the log says nothing of it',
            html.escape(ran.get(name, 'the log says nothing of its run')) if name in programs else '') for name in sorted(crates))
        earlier = ''.join('<li class="row">%s</li>' % html.escape(line) for line in (self.log.earlier.values() if self.log else ()))
        each = ''.join('<div class="row" id="%s">%s</div>' % (anchor('%s!%s' % edit), self.edit_fold(edit)) for edit in sorted(edits))
        return ('<section id="gate"><h2>What the gate said</h2><p>The gate proves every crate from nothing, tries every must-fail edit, a small wrong change that the prover must refuse, and compares %s cases.</p>'
                '<ul>%s</ul><div class="wide"><table><thead><tr><th>Crate</th><th>The log</th><th>Its run, of a program</th></tr></thead><tbody>%s</tbody></table></div>'
                '<h3 id="edits">The %d must-fail edits</h3>%s</section>') % ('{:,}'.format(sum(self.tags.values())), earlier, rows, len(edits), each)

    def verdict(self):
        """The first lines: green only where there is no fault at all."""
        made = datetime.datetime.now(datetime.timezone.utc).strftime('%Y-%m-%d %H:%M UTC')
        facts = []
        if self.log and self.log.last:
            facts.append(('The log\'s last line', self.log.last[:200]))
        if self.log and self.log.commit:
            facts += [('Kit', self.log.kit), ('Commit of the run', self.log.commit + (', files as committed' if self.log.clean else ', files NOT as committed')), ('Day of the run', self.log.day)]
        head = (gate.git(ROOT, 'rev-parse', 'HEAD') or 'unknown').strip()
        changed = gate.git(ROOT, 'status', '--porcelain')
        facts += [('This page is of commit', head + ('' if changed == '' else ', with files that differ from it')), ('This page was made', made)]
        if self.faults:
            first = 'NOT PROVED. ' + self.faults[0]
            rest = ''.join('<li>%s</li>' % html.escape(fault) for fault in self.faults[1:])
        else:
            first, rest = 'The gate is green: %s.' % self.log.last, ''
        return '<header id="top"><p class="verdict">%s</p>%s<dl>%s</dl></header>' % (
            html.escape(first), rest and '<ul>%s</ul>' % rest, ''.join('<div><dt>%s</dt><dd>%s</dd></div>' % (name, html.escape(value)) for name, value in facts))

    def side(self, sections, public, exports):
        def link(place, words):
            return '<a href="#%s">%s</a>' % (place, words)

        def short(words, most=74):
            words = re.sub(r'`', '', words)
            return html.escape(words if len(words) <= most else words[:most].rsplit(' ', 1)[0] + ' ..')

        out = [link('stops', 'Every place where the Rust stops'), link('differences', 'Where the two differ')]
        out.append('<b>The demands</b>')
        out += [link('demand-%d' % n, '%d. %s' % (n, words)) for n, words in enumerate(('No call stops', 'Every answer is the definitions\'', 'The normal form'), 1)]
        out.append('<b>Document 01, sentence by sentence</b>')
        for heading, rows in sections.items():
            if heading != 'The demands':
                out.append(fold('%s <span class="kind">%d</span>' % (html.escape(heading), len(rows)), ''.join(link('s%d' % number, short(row[0])) for number, _, row in rows)))
        out.append('<b>More</b>')
        out += [link('public', '%d public calls' % public), link('exports', '%d exports for C and Rust' % exports), link('trusted', 'What is trusted'), link('gate', 'What the gate said'), link('edits', 'The must-fail edits'), link('names', 'Every name, with its text')]
        return ''.join(out)

    def html(self):
        sections = self.sentences()
        public, calls, exports = self.public()
        chapters = ''.join('<section><h2>%s</h2>%s</section>' % (html.escape(heading), ''.join(self.sentence(*entry) for entry in rows))
                           for heading, rows in sections.items() if heading != 'The demands')
        body = [
            self.stops(),
            '<section id="differences"><h2>Where this codec and the Rust differ</h2>%s</section>' % markdown.page(
                read('docs/DIFFERENCES.md'), self.linked, lambda row: 'd-' + row[0]),
            self.demands(sections.get('The demands', [])),
            '<div id="sentences">%s</div>' % chapters,
            public,
            '<section id="trusted"><h2>What is trusted</h2>%s</section>' % markdown.page(read('docs/TRUSTED.md'), self.linked),
            self.gate(),
            '<section id="names"><h2>Every name, with its text</h2>%s</section>' % ''.join('<div class="row" id="%s">%s</div>' % (anchor(word), self.name_fold(word)) for word in sorted(self.known)),
        ]
        filled = {'STYLE': (HERE / 'style.css').read_text(), 'SCRIPT': (HERE / 'search.js').read_text(), 'SIDE': self.side(sections, calls, exports), 'BODY': '\n'.join(body)}
        filled.update(VERDICT=self.verdict(), COLOUR='red' if self.faults else 'green', TITLE='NOT PROVED: Morelquilt' if self.faults else 'Morelquilt, audited')
        return re.sub(r'\{\{(\w+)\}\}', lambda name: filled[name[1]], (HERE / 'frame.html').read_text())
