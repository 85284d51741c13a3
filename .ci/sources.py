"""What the sources of the crates declare, read by lines in the form that `rt fmt` gives them.

`Sources(root).find('wire::Cursor::byte')` follows `pub mod` and `pub use` from the crate's root and
gives the item, or None where there is none or it is not `pub`. `definitions(path)` are the `pub`
items of an antt file.
"""
import pathlib
import re
from typing import NamedTuple

FUNCTION = re.compile(r'pub (?:const )?(?:extern "C" )?fn (\w+)')
TYPE = re.compile(r'pub (?:enum|struct|type) (\w+)')
CONSTANT = re.compile(r'pub const (\w+)\s*:')
MODULE = re.compile(r'pub mod (\w+);')
REEXPORT = re.compile(r'pub use ([\w:]+)::(\w+|\{[^}]*\});')
IMPL = re.compile(r'impl(?:<[^>]*>)? (\w+)(?:<[^>]*>)? \{')
CLAUSE = re.compile(r'\s*(?:ensures|requires)\b')
VARIANT = re.compile(r'    ([A-Z]\w*)\b')


class Item(NamedTuple):
    kind: str       # call, type, variant, constant, module
    path: str       # where it is declared, its whole path


class Module:
    """The public items of one source file."""

    def __init__(self, text):
        self.items, self.inside, self.modules, self.uses = {}, {}, set(), {}
        text = re.sub(r'(?m)//.*$', '', text)
        text = re.sub(r'(?m)^pub use [^;]*;', lambda found: ' '.join(found[0].split()), text)   # a long one stands on several lines
        within, seen = None, 0
        for line in text.splitlines():
            if line and not line[0].isspace():
                within = IMPL.match(line) or TYPE.match(line)
                self.top(line)
            elif within and (found := FUNCTION.match(line.strip())):
                self.inside.setdefault(within[1], {})[found[1]] = 'call'
            elif within and within.re is TYPE and (found := VARIANT.match(line)):
                self.inside.setdefault(within[1], {})[found[1]] = 'variant'
        seen = sum(kind == 'call' for kind in self.items.values())
        seen += sum(kind == 'call' for names in self.inside.values() for kind in names.values())
        if seen != len(re.findall(r'\bpub [^(\n;{]*\bfn \w', text)):
            raise ValueError('a `pub fn` stands where it is not looked for, or twice')

    def top(self, line):
        for pattern, kind in ((FUNCTION, 'call'), (TYPE, 'type'), (CONSTANT, 'constant')):
            if found := pattern.match(line):
                self.items[found[1]] = kind
        if found := MODULE.match(line):
            self.modules.add(found[1])
        if found := REEXPORT.match(line):
            for name in re.findall(r'\w+', found[2]):
                self.uses[name] = found[1] + '::' + name


def clause_lines(lines):
    """The numbers of the lines on which a clause of a contract stands: from its word to the bracket that ends it."""
    found, depth = set(), 0
    for number, line in enumerate(lines):
        if depth or CLAUSE.match(line):
            found.add(number)
            depth += line.count('{') - line.count('}')
    return found


def body_at(lines):
    """The line on which the body of the first function begins."""
    clauses = clause_lines(lines)
    return next(number for number, line in enumerate(lines) if number not in clauses and line.endswith('{'))


class Sources:
    def __init__(self, root):
        self.crates = pathlib.Path(root) / 'crates'
        self.read = {}

    def names(self):
        return sorted(path.name for path in self.crates.iterdir() if path.is_dir())

    def is_library(self, crate):
        return (self.crates / crate / 'src/lib.rt').is_file()

    def module(self, crate, path=()):
        """The module at a path of module names; None where there is no such file."""
        if (crate, path) not in self.read:
            files = ['/'.join(path) + '.rt'] if path else ['lib.rt', 'main.rt']
            files = [self.crates / crate / 'src' / name for name in files]
            there = [file for file in files if file.is_file()]
            try:
                self.read[crate, path] = Module(there[0].read_text()) if there else None
            except ValueError as fault:
                raise ValueError('%s: %s' % (there[0].relative_to(self.crates.parent), fault)) from None
        return self.read[crate, path]

    def find(self, path):
        crate, *words = path.split('::')
        return self.follow(crate, (), words)

    def follow(self, crate, modules, words):
        module = self.module(crate, modules)
        here = '::'.join((crate, *modules))
        if module is None:
            return None
        if not words:
            return Item('module', here)
        name, *rest = words
        if name in module.modules:
            return self.follow(crate, modules + (name,), rest)
        if name in module.uses:
            target = module.uses[name].split('::')
            first = crate if target[0] == 'crate' else target[0]
            return self.follow(first, (), target[1:] + rest)
        if name in module.items and not rest:
            return Item(module.items[name], here + '::' + name)
        if module.items.get(name) == 'type' and len(rest) == 1 and rest[0] in module.inside.get(name, {}):
            return Item(module.inside[name][rest[0]], '::'.join((here, name, rest[0])))
        return None

    def calls(self, crate, modules=()):
        """Every `pub fn` of the crate's public modules, by its whole path."""
        module = self.module(crate, modules)
        here = '::'.join((crate, *modules))
        found = [here + '::' + name for name, kind in module.items.items() if kind == 'call']
        for owner, names in module.inside.items():
            found += ['::'.join((here, owner, name)) for name, kind in names.items() if kind == 'call']
        for name in sorted(module.modules):
            found += self.calls(crate, modules + (name,))
        return found

    def exported(self, crate):
        """What a crate hands on by `pub use`: name to item, with the methods of its types."""
        found = {}
        for name in self.module(crate).uses:
            item = self.find(crate + '::' + name)
            found[crate + '::' + name] = item
            if item and item.kind == 'type':
                home, *modules, owner = item.path.split('::')
                for method, kind in self.module(home, tuple(modules)).inside.get(owner, {}).items():
                    if kind == 'call':
                        found['::'.join((crate, name, method))] = Item('call', item.path + '::' + method)
        return found

    def contract(self, path):
        """The head of a call, with its `requires` and `ensures`, as it stands in its file."""
        crate, *words = path.split('::')
        modules = [word for word in words[:-1] if word[0].islower()]
        owner = words[-2] if len(words) > 1 and words[-2][0].isupper() else None
        name = '/'.join(modules) + '.rt' if modules else 'lib.rt'
        text = (self.crates / crate / 'src' / name).read_text()
        if owner:
            text = re.search(r'(?ms)^impl(?:<[^>]*>)? %s(?:<[^>]*>)? \{.*?^\}' % owner, text)[0]
        lines = text[re.search(r'(?m)^ *pub (?:extern "C" )?fn %s[(<]' % words[-1], text).start():].splitlines()
        return '\n'.join(lines[:body_at(lines) + 1])

    def definitions_of(self, crate):
        """The definitions of this repository in which a crate's contracts are written, by name."""
        text = ''.join(file.read_text() for file in sorted((self.crates / crate / 'src').glob('**/*.rt')))
        return {word for names in re.findall(r'(?m)^ghost use Rattle\.(?!std\.)[\w.]+\.\{([^}]*)\};$', text) for word in re.findall(r'\w+', names)}

    def exports(self, crate):
        """The functions that a crate exports to C, each with the calls of its body."""
        text = ''.join(file.read_text() for file in sorted((self.crates / crate / 'src').glob('**/*.rt')))
        bodies = re.findall(r'(?ms)^pub extern "C" fn (\w+)\(.*?^\{\n(.*?)^\}', text)
        if len(bodies) != text.count('extern "C" fn '):
            raise ValueError('crates/%s/src: an `extern "C" fn` stands where it is not looked for' % crate)
        return {crate + '::' + name: re.findall(r'\b\w+::\w+(?=\()', body) for name, body in bodies}


def definitions(path):
    """The `pub` items of an antt file: at its left edge, or in an unnamed module that is open to all."""
    found, blocks = set(), []
    for line in pathlib.Path(path).read_text().splitlines():
        indent = len(line) - len(line.lstrip())
        if not line.strip():
            continue
        while blocks and blocks[-1][0] >= indent:
            blocks.pop()
        item = re.match(r'\s*(?:(?:unfoldable|abbrev) )?pub (data |record )?([^\s:({]+)', line)
        if item and all(is_open for _, is_open in blocks):
            found.add(item[2])
        if module := re.match(r'\s*(?:pub )?module (\S+)', line):
            blocks.append((indent, module[1] == '_'))
        elif item and item[1]:
            blocks.append((indent, False))
    return found - {'mod', 'module'}
