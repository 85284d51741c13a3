"""The names on the pages. In backquotes a page says

      `Header.read_header`               a definition, of crates/format/specs/Header.antt
      `format/proofs/Marked.all_marked`  a theorem, of crates/format/proofs/Marked.antt
      `header/specs/Told.header_told`    a definition, of crates/header/specs/Told.antt
      `header::read_header`              a call, type or module, by its whole path from the crate
      `header!id_twice`                  a must-fail edit, crates/header/must-fail/id_twice.edit
      `cases:header-cut`                 a tag of cases/*.jsonl
      `docs/PUBLIC.md`, `crates/wire`    a file or folder, from the repository's root
      `src/`                             a folder that a crate has

A word of such a shape is the name of a thing that is there, and `pub` where it can be; there is no
third answer. Words of another shape (bytes, terms with spaces, `todo!`) name nothing.
"""
import pathlib
import re

from sources import Sources, definitions

# The Rust's own files are named as they are there, with a line or without.
RUST = re.compile(r'[\w./]+\.rs(:\d.*)?')
SHAPES = [
    ('definition or theorem', re.compile(r'(\w+/(?:specs|proofs)/(?:\w+/)*\w+)\.([^\s./]+)')),
    ('file', re.compile(r'(\.?[\w.*-]+(?:/[\w.*-]+)*/?)(?::\d[\d-]*)?')),
    ('definition', re.compile(r'([A-Z]\w*)\.([^\s./:]+)')),
    ('public call, type or module', re.compile(r'(\w+(?:::\w+)+)(?:\(.*\))?')),
    ('must-fail edit', re.compile(r'(\w+)!(\w+)')),
    ('tag of the cases', re.compile(r'([a-z]+):([\w-]+)')),
]
FILE_ENDINGS = ('.md', '.py', '.txt', '.jsonl', '.antt', '.rt', '.edit')


class Names:
    def __init__(self, root):
        self.root = pathlib.Path(root)
        self.sources = Sources(root)
        self.in_file = {}
        text = ''.join(path.read_text() for path in sorted((self.root / 'cases').glob('*.jsonl')))
        self.tags = set(re.findall(r'"tag": ?"([^"]+)"', text))

    def defined(self, path, name):
        if path not in self.in_file:
            self.in_file[path] = definitions(path) if path.is_file() else set()
        return name in self.in_file[path]

    def shape(self, word):
        for kind, pattern in SHAPES:
            if found := pattern.fullmatch(word):
                if kind == 'file' and '/' not in word and not found[1].endswith(FILE_ENDINGS):
                    continue
                return kind, found
        return None, None

    def fault(self, word):
        """What is wrong with a word; None where it names nothing, or what is there."""
        kind, found = self.shape(word)
        if kind is None or RUST.fullmatch(word):
            return None
        if kind == 'definition or theorem':
            there = self.defined(self.root / 'crates' / (found[1] + '.antt'), found[2])
        elif kind == 'definition':
            there = self.defined(self.root / 'crates/format/specs' / (found[1] + '.antt'), found[2])
        elif kind == 'file':
            of_a_crate = word.endswith('/') and word.count('/') == 1
            there = any(self.root.glob(('crates/*/' if of_a_crate else '') + found[1]))
        elif kind == 'must-fail edit':
            there = (self.root / 'crates' / found[1] / 'must-fail' / (found[2] + '.edit')).is_file()
        elif kind == 'tag of the cases':
            there = found[1] == 'cases' and found[2] in self.tags
        else:
            there = self.sources.find(found[1])
        return None if there else 'there is no %s %s' % (kind, word)


def words(text):
    """(line number, word) of each word in backquotes, outside of fenced blocks; None where a backquote has no other in its line."""
    fenced = False
    for number, line in enumerate(text.splitlines(), 1):
        if line.lstrip().startswith('```'):
            fenced = not fenced
        elif not fenced:
            if line.count('`') % 2:
                yield number, None
            for quoted in re.findall(r'`([^`]+)`', line):
                for word in re.split(r',\s+', quoted):
                    yield number, word


def pages(root):
    return [pathlib.Path(root) / 'README.md'] + sorted((pathlib.Path(root) / 'docs').glob('*.md'))


def faults(root):
    names = Names(root)
    for page in pages(root):
        for number, word in words(page.read_text()):
            fault = 'a backquote stands alone' if word is None else names.fault(word)
            if fault:
                yield '%s:%d: %s' % (page.relative_to(root), number, fault)
