"""The source text of a name on the pages (.ci/names.py has their shapes): what stands there, with the comment above it.

A definition is shown whole. Of a theorem its statement is shown and not its proof, with the heads of the modules that it stands in, whose
parameters it is about; of a call its head with the contract; of a type its declaration; of a module its head and its calls.
`Texts().of(word)` is (kind, place, text); a name without a text raises Missing.
"""
import pathlib
import re
import sys
from typing import NamedTuple

ROOT = pathlib.Path(__file__).resolve().parent.parent
sys.path.insert(0, str(ROOT / '.ci'))
import names

ITEM = r'(?:(?:unfoldable|abbrev) )*pub (?:data |record )?%s(?=[\s:({]|$)'


class Missing(Exception):
    pass


class Text(NamedTuple):
    kind: str       # definition, theorem, call, type, module
    place: str      # file:line
    text: str


def indent(line):
    return len(line) - len(line.lstrip())


def comment_above(lines, at, mark):
    """The first line of the comment that ends just above a line; the line itself where there is none."""
    depth = indent(lines[at])
    while at > 0 and indent(lines[at - 1]) == depth and lines[at - 1].lstrip().startswith((mark, '#[')) and not lines[at - 1].lstrip().startswith('-- ----'):
        at -= 1
    return at


def cut(lines, first, end, depth):
    """Lines without the indent of their item and without empty ones at the end."""
    return '\n'.join(line[depth:] for line in lines[first:end]).rstrip()


def modules_around(lines, at):
    """The heads of the modules that an item of an antt file stands in, from the outside."""
    found, depth = [], indent(lines[at])
    for number in range(at - 1, -1, -1):
        line = lines[number]
        if line.strip() and indent(line) < depth and re.match(r'\s*(?:pub )?module ', line):
            depth = indent(line)
            end = number
            while not lines[end].rstrip().endswith('where'):
                end += 1
            found.insert(0, '\n'.join(part.strip() for part in lines[number:end + 1]))
        if depth == 0:
            break
    return found


def is_field(lines, at):
    """Does the line stand in a record or a data type?"""
    above = next((line for line in reversed(lines[:at]) if line.strip() and indent(line) < indent(lines[at])), '')
    return re.match(r'\s*(?:\w+ )*?(data|record) ', above) is not None


def in_antt(path, name):
    """A definition of an antt file, or a theorem's statement."""
    lines = path.read_text().splitlines()
    head = re.compile(r'\s*' + ITEM % re.escape(name))
    at = next((number for number, line in enumerate(lines) if head.match(line) and not is_field(lines, number)), None)
    if at is None:
        raise Missing('%s has no %s' % (path.relative_to(ROOT), name))
    depth = indent(lines[at])
    block = re.match(r'\s*(?:\w+ )*?(data|record) ', lines[at])
    clause = re.compile(r' {%d}(?:%s(?:\s|$)|unfolding )' % (depth, re.escape(name)))
    end, body = at + 1, None
    while end < len(lines) and (not lines[end].strip() or indent(lines[end]) > depth or clause.match(lines[end])):
        if body is None and lines[end].strip() and indent(lines[end]) == depth:
            body = end
        end += 1
    proof = 'proofs' in path.relative_to(ROOT).parts and not block and not re.match(r'\s*abbrev ', lines[at])
    around = modules_around(lines, at)
    text = cut(lines, comment_above(lines, at, '--'), body if proof and body else end, depth)
    return Text('theorem' if proof else 'definition', '%s:%d' % (path.relative_to(ROOT), at + 1), '\n'.join(around + [text]))


class Texts:
    def __init__(self):
        self.names = names.Names(ROOT)

    def file(self, crate, modules):
        folder = ROOT / 'crates' / crate / 'src'
        candidates = [folder / ('/'.join(modules) + '.rt')] if modules else [folder / 'lib.rt', folder / 'main.rt']
        return next(path for path in candidates if path.is_file())

    def call(self, path):
        """A call's comment and head, up to its body."""
        crate, *words = path.split('::')
        modules = [word for word in words[:-1] if word[0].islower()]
        owner = words[-2] if len(words) > 1 and words[-2][0].isupper() else None
        file = self.file(crate, modules)
        lines = file.read_text().splitlines()
        start = next(n for n, line in enumerate(lines) if re.match(r'impl %s \{' % owner, line)) if owner else 0
        at = next((n for n in range(start, len(lines)) if re.match(r'\s*pub (?:const )?(?:extern "C" )?fn %s[(<]' % words[-1], lines[n])), None)
        if at is None:
            raise Missing('there is no head of %s' % path)
        end = next(n for n in range(at, len(lines)) if lines[n].rstrip().endswith('{'))
        depth = indent(lines[at])
        text = cut(lines, comment_above(lines, at, '//'), end + 1, depth)
        return Text('call', '%s:%d' % (file.relative_to(ROOT), at + 1), re.sub(r'\s*\{$', '', text))

    def type(self, path):
        crate, *words = path.split('::')
        file = self.file(crate, [word for word in words[:-1] if word[0].islower()])
        owner = words[-1] if words[-1][0].isupper() and (len(words) < 2 or not words[-2][0].isupper()) else words[-2]
        lines = file.read_text().splitlines()
        at = next((n for n, line in enumerate(lines) if re.match(r'pub (?:enum|struct|type) %s\b' % owner, line)), None)
        if at is None:
            raise Missing('there is no declaration of %s' % path)
        end = at if lines[at].endswith(';') else next(n for n in range(at, len(lines)) if lines[n] == '}')
        return Text('type', '%s:%d' % (file.relative_to(ROOT), at + 1), cut(lines, comment_above(lines, at, '//'), end + 1, 0))

    def module(self, path):
        """A module's head, and its public calls with their contracts."""
        crate, *modules = path.split('::')
        file = self.file(crate, modules)
        head = re.match(r'(?://.*\n)*', file.read_text())[0].rstrip()
        calls = [self.call(name).text for name in self.names.sources.calls(crate, tuple(modules))]
        if not calls:
            raise Missing('the module %s has no call' % path)
        return Text('module', str(file.relative_to(ROOT)), '\n\n'.join([head] + calls))

    def of(self, word):
        """The text of a name; None of a word that names none, a file, an edit or a tag."""
        kind, found = self.names.shape(word)
        if kind in (None, 'file', 'must-fail edit', 'tag of the cases') or names.RUST.fullmatch(word):
            return None
        if kind == 'definition or theorem':
            return in_antt(ROOT / 'crates' / (found[1] + '.antt'), found[2])
        if kind == 'definition':
            return in_antt(ROOT / 'crates/format/specs' / (found[1] + '.antt'), found[2])
        item = self.names.sources.find(found[1])
        if item is None:
            raise Missing('there is no %s' % word)
        read = {'call': self.call, 'type': self.type, 'variant': self.type, 'module': self.module}.get(item.kind)
        if read is None:
            raise Missing('%s is a %s' % (word, item.kind))
        return read(item.path)

    def on_pages(self):
        """(page, name, its text or what is missing) of each name on the pages that should have a text."""
        seen = set()
        for page in names.pages(ROOT):
            for _, word in names.words(page.read_text()):
                if word is None or word in seen or self.names.fault(word):
                    continue
                seen.add(word)
                try:
                    shown = self.of(word)
                except (Missing, StopIteration) as fault:
                    shown = Missing(str(fault) or 'it does not stand where its path says')
                if shown:
                    yield page.relative_to(ROOT), word, shown


def faults(root):
    for page, word, shown in Texts().on_pages():
        if isinstance(shown, Missing):
            yield '%s: no source text is found for %s: %s' % (page, word, shown)
