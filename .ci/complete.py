"""Whether the lists are whole: docs/PUBLIC.md's calls, types and must-fail edits, and the ops of the cases.

- The public list is what crates/morelquilt hands on, and each call's row says where it is proved,
  what its contract is, and at least two must-fail edits that are wrong programs: edits of code, not of
  a promise or a definition. Its words are the contract's own.
- The exports are the `extern "C"` functions of crates/board, and each one's row says the same of it, as far as it has it, and names every definition of its contract.
- Every other `pub fn` of a library stands under "Not public", by its path, its module or its crate.
- A module `inner`, whose functions may ask something of their caller, says at its head for whom it is: for the crates of
  this repository, and one of them uses it, or for its crate alone.
- Every must-fail edit changes lines that are there.
- No line of a definition or a proof is above 160 characters.
- Every op of the cases is answered by the replay program (cases/ops.txt) or still to come
  (cases/to-come.txt), and replay's lines are as many as the cases of its ops.
- The files of cases that were handed to the project are those of cases/sums.txt.
"""
import collections
import hashlib
import itertools
import json
import pathlib
import re

from sources import Sources, clause_lines

FACADE = 'morelquilt'
COLUMNS = ['Call', 'Proved as', 'Contract', 'Definition', 'Decided by', 'Must-fail edits']
EXPORTER = 'board'
LINE = 160
EXPORT_COLUMNS = ['Export', 'Proved as', 'Contract', 'Definition', 'Must-fail edits']
# What the short words of an export's contract stand for.
SHORT = {'W of': ['wrote', 'fitted', 'room_after'], 'R of': ['place', 'after']}
# Calls without two wrong programs among their edits. Each is one expression proved by hand along the
# compiled code, where other code is refused for its shape whatever it computes; their edits change the
# promise. One that has two wrong programs by now is a fault too.
PROMISE_ONLY = ['morelquilt::walk_object', 'morelquilt::walk_place', 'morelquilt::walk_standing']


def quoted(text):
    return re.findall(r'`([^`]+)`', text)


class Public:
    """docs/PUBLIC.md: rows by call, rows by export, the types, and the names under "Not public"."""

    def __init__(self, text):
        front, _, behind = text.partition('\n## Not public\n')
        self.rows, self.exports, self.titles = [], [], []
        for line in front.splitlines():
            cells = [cell.strip() for cell in line.strip().strip('|').split('|')]
            if line.startswith('| `%s::' % FACADE):
                self.rows.append(cells)
            elif line.startswith('| `%s_' % FACADE):
                self.exports.append(cells)
            elif line.startswith(('| Call ', '| Export ')):
                self.titles.append(cells)
        self.plain = ' '.join(line for line in front.splitlines() if not line.startswith('|'))
        self.types = {word for word in quoted(self.plain) if re.fullmatch(FACADE + r'::[A-Z]\w*', word)}
        self.hidden = {word for word in quoted(behind) if '::' in word}
        self.hidden |= {word[len('crates/'):] for word in quoted(behind) if word.startswith('crates/')}


def dependencies(root):
    """Crate to the crates that it is built on, by crates.txt: those that it lists, and theirs."""
    lines = (line.partition('#')[0].strip() for line in (root / 'crates.txt').read_text().splitlines())
    uses = {head.split()[0]: set(rest.split()) for head, _, rest in (line.partition(':') for line in lines if line)}
    for _ in uses:
        for listed in uses.values():
            listed |= {further for name in listed for further in uses.get(name, ())}
    return uses


def edit_fields(path):
    """A must-fail edit: its file, and the texts that it replaces."""
    fields = [line.partition(': ') for line in path.read_text().splitlines() if not line.startswith('#')]
    file = next((path.parent.parent / text for key, _, text in fields if key == 'file'), None)
    return file, [text for key, _, text in fields if key == 'old']


def wrong_programs(root):
    """The edits of code: in a source, and in no line of a contract."""
    found = set()
    for path in root.glob('crates/*/must-fail/*.edit'):
        file, olds = edit_fields(path)
        if file is None or file.suffix != '.rt' or not file.is_file():
            continue
        lines = file.read_text().splitlines()
        clauses = clause_lines(lines)
        if not any(number in clauses or line.startswith('ghost ') for number, line in enumerate(lines) if any(old in line for old in olds)):
            found.add('%s!%s' % (path.parent.parent.name, path.stem))
    return found


def contract_faults(call, contract, said):
    """The contract of a call against the words that its row says."""
    if 'ensures' not in contract:
        yield '%s has no contract' % call
    if 'requires' in contract:
        yield '%s asks something of its caller' % call
    for word in said:
        if not re.search(r'\b%s\b' % word, contract):
            yield '%s: its contract does not say %s' % (call, word)


def edits_faults(call, home, cell, uses, wrong):
    """The must-fail edits of a call that is proved in the crate `home`."""
    edits = {word for word in quoted(cell) if '!' in word}
    for edit in sorted(edits):
        if edit.partition('!')[0] not in {home} | uses[home]:
            yield '%s does not use the crate of %s' % (call, edit)
    if len(edits) < 2:
        yield '%s has %d must-fail edits' % (call, len(edits))
    programs = len(edits & wrong)
    if (programs < 2) != (call in PROMISE_ONLY):
        yield '%s has %d wrong programs among its edits' % (call, programs) + (', and is listed as having none' if programs > 1 else '')


def said_words(cells):
    """The words of a row's contract, and its definition."""
    return re.findall(r'[A-Za-z_]{3,}', ' '.join(quoted(cells[2]))) + [word.rpartition('.')[2] for word in quoted(cells[3])[:1]]


def row_faults(cells, exported, sources, uses, wrong):
    """What is wrong with the row of one call."""
    if len(cells) != len(COLUMNS):
        yield 'a row of %d cells' % len(cells)
        return
    call = quoted(cells[0])[0]
    item = exported[call]
    if quoted(cells[1]) != [item.path]:
        yield '%s is proved as %s' % (call, item.path)
    contract = sources.contract(item.path)
    said = said_words(cells)
    if (reads := re.search(r'\broom_after\w+', contract)) and reads[0] not in cells[2]:
        yield '%s has a room, and its row does not say %s' % (call, reads[0])
    if cells[2].startswith('W of ') or re.search(r'\broom_after\b', contract):
        said += ['answer_told', 'wrote', 'fitted', 'room_after']
        if not cells[2].startswith('W of '):
            yield '%s has a room, and its row does not say W' % call
    yield from contract_faults(call, contract, said)
    if not re.fullmatch(r'`\w+/proofs/[^`]+`', cells[4]):
        yield '%s is decided by no theorem' % call
    yield from edits_faults(call, item.path.partition('::')[0], cells[5], uses, wrong)


def export_row_faults(cells, sources, uses, wrong):
    """What is wrong with the row of one export."""
    if len(cells) != len(EXPORT_COLUMNS):
        yield 'a row of %d cells' % len(cells)
        return
    call = quoted(cells[0])[0]
    path = EXPORTER + '::' + call
    below = [name for name in sources.exports(EXPORTER)[path] if not name.startswith('board_answer::')]
    if quoted(cells[1]) != below:
        yield '%s is proved as %s' % (call, ', '.join(below))
    contract = sources.contract(path)
    said = said_words(cells) + ['counted'] + SHORT.get(cells[2].partition(' `')[0], [])
    for word in sorted(sources.definitions_of(EXPORTER) & set(re.findall(r'\w+', contract)) - set(said)):
        yield '%s: its row does not say %s' % (call, word)
    yield from contract_faults(call, contract, said)
    yield from edits_faults(call, EXPORTER, cells[4], uses, wrong)


def listing_faults(there, listed, other):
    """A table's first column against what is there."""
    for name in sorted(there ^ set(listed)):
        yield '%s is %s' % (name, 'not listed' if name in there else 'listed, and ' + other)
    for name, times in collections.Counter(listed).items():
        if times > 1:
            yield '%s is listed twice' % name


def public_faults(root, sources):
    page = Public((root / 'docs/PUBLIC.md').read_text())
    uses = dependencies(root)
    exported = sources.exported(FACADE)
    yield from ('%s hands on %s, which is not public' % (FACADE, name) for name, item in exported.items() if item is None)
    exported = {name: item for name, item in exported.items() if item}
    calls = {name for name, item in exported.items() if item.kind == 'call'}
    listed = [quoted(cells[0])[0] for cells in page.rows]
    if page.titles != [COLUMNS, EXPORT_COLUMNS]:
        yield 'the tables have other columns'
    yield from listing_faults(calls, listed, 'not handed on by crates/' + FACADE)
    wrong = wrong_programs(root)
    for cells in page.rows:
        if quoted(cells[0])[0] in calls:
            yield from row_faults(cells, exported, sources, uses, wrong)
    exports = {path.partition('::')[2] for path in sources.exports(EXPORTER)}
    yield from listing_faults(exports, [quoted(cells[0])[0] for cells in page.exports], 'not exported by crates/' + EXPORTER)
    for cells in page.exports:
        if quoted(cells[0])[0] in exports:
            yield from export_row_faults(cells, sources, uses, wrong)
    named = {word for cells in page.rows + page.exports for word in quoted(cells[-1]) if '!' in word}
    if 'Of the %d edits named, %d are wrong programs' % (len(named), len(named & wrong)) not in page.plain:
        yield 'of the %d edits named, %d are wrong programs, and the page does not say so' % (len(named), len(named & wrong))
    for call in PROMISE_ONLY:
        if '`%s`' % call not in page.plain:
            yield '%s has no wrong program among its edits, and the page does not say so' % call
    types = {name for name, item in exported.items() if item.kind == 'type'}
    for name in sorted(types ^ page.types):
        yield 'the type %s is %s' % (name, 'not listed' if name in types else 'listed, and not handed on')
    yield from hidden_faults(page, sources, {exported[call].path for call in calls} | set(sources.exports(EXPORTER)))


def hidden_faults(page, sources, public):
    """The list "Not public" against the `pub fn` of every library."""
    used = set()
    for crate in filter(sources.is_library, sources.names()):
        for path in sources.calls(crate):
            words = path.split('::')
            over = {'::'.join(words[:n]) for n in range(1, len(words) + 1)} & page.hidden
            used |= over
            if over and path in public:
                yield '%s is public, and on the list "Not public"' % path
            if not over and path not in public:
                yield '%s is a `pub fn` on neither list' % path
            if 'requires' in sources.contract(path) and 'inner' not in words:
                yield '%s has a `requires` and stands in no module named inner' % path
    programs = {name for name in sources.names() if not sources.is_library(name)}
    for name in sorted(page.hidden - used - programs):
        yield '%s is on the list "Not public", and has no `pub fn`' % name


def inner_faults(root):
    """A module `inner` says for whom it is."""
    sources = {path: path.read_text() for path in root.glob('crates/*/src/**/*.rt')}
    for path in sorted(root.glob('crates/*/src/inner.rt')):
        crate = path.parent.parent.name
        head = ' '.join(line.lstrip('/ ') for line in itertools.takewhile(lambda line: line.startswith('//'), sources[path].splitlines()))
        public = 'pub mod inner;' in sources[path.with_name('lib.rt')]
        if ('for the crates of this repository' if public else 'For this crate alone') not in head:
            yield '%s does not say for whom it is' % path.relative_to(root)
        if public and not any(re.search(r'\b%s::(\{[^}]*)?\binner\b' % crate, text) for other, text in sources.items() if other.parent.parent != path.parent.parent):
            yield '%s is for no crate but its own, and is public' % path.relative_to(root)


def edit_faults(root):
    """A must-fail edit changes lines that are there: each `old:` stands once in its file."""
    for path in sorted(root.glob('crates/*/must-fail/*.edit')):
        file, olds = edit_fields(path)
        if file is None or not file.is_file() or not olds:
            yield '%s names no file, or no line of it' % path.relative_to(root)
            continue
        for old in olds:
            if (times := file.read_text().count(old)) != 1:
                yield '%s: its old line stands %d times in %s' % (path.relative_to(root), times, file.relative_to(root))


def width_faults(root):
    """Lines of definitions and proofs that are too long to be read."""
    for path in sorted(path for part in ('specs', 'proofs') for path in root.glob('crates/*/%s/**/*.antt' % part)):
        for number, line in enumerate(path.read_text().splitlines(), 1):
            if len(line) > LINE:
                yield '%s:%d: %d characters, above %d' % (path.relative_to(root), number, len(line), LINE)


def case_faults(root):
    cases = root / 'cases'
    counts = collections.Counter()
    for path in sorted(cases.glob('*.jsonl')):
        counts.update(json.loads(line)['op'] for line in path.read_text().splitlines())
    answered, later = ((cases / name).read_text().split() for name in ('ops.txt', 'to-come.txt'))
    for op in sorted(set(counts) - set(answered) - set(later)):
        yield 'the op %s is neither in cases/ops.txt nor in cases/to-come.txt' % op
    for op in sorted(set(answered) & set(later)):
        yield 'the op %s is in cases/ops.txt and in cases/to-come.txt' % op
    for op in sorted(set(answered + later) - set(counts)):
        yield 'the op %s has no case' % op
    wanted = sum(counts[op] for op in set(answered))
    lines = (root / 'crates/replay/stdout').read_bytes().count(b'\n')
    if lines != wanted:
        yield 'crates/replay/stdout has %d lines, the answered ops have %d cases' % (lines, wanted)
    for line in (cases / 'sums.txt').read_text().splitlines():
        digest, name = line.split()
        if hashlib.sha256((cases / name).read_bytes()).hexdigest() != digest:
            yield 'cases/%s is not the file that cases/sums.txt names' % name


def faults(root):
    root = pathlib.Path(root)
    sources = Sources(root)
    for fault in public_faults(root, sources):
        yield 'docs/PUBLIC.md: ' + fault
    yield from inner_faults(root)
    yield from edit_faults(root)
    yield from width_faults(root)
    yield from case_faults(root)
