#!/usr/bin/env python3
"""The must-fail edits of the checks: each sabotage is applied to a copy of the repository, and .ci/checks.py must name it.

A sabotage is a file, a text of it, what stands there instead, and what the checks must say. Those of one batch
are tried together, each by its own words; no proof is needed. Definitions that are changed are the canary of cases/definitions.py.
"""
import concurrent.futures
import pathlib
import shutil
import subprocess
import sys
import tempfile
from typing import NamedTuple, Optional

ROOT = pathlib.Path(__file__).resolve().parent.parent


class Sabotage(NamedTuple):
    file: str
    old: str
    new: Optional[str]      # None: the file is removed
    told: str


# A wrong name of each kind. Each is put on every page.
WRONG_NAMES = [
    ('definition', 'Header.read_haeder'),
    ('definition or theorem', 'format/proofs/Normal.no_such_theorem'),
    ('definition or theorem', 'header/specs/Told.no_such_definition'),
    ('definition or theorem', 'wire/proofs/Decided.wrote_back'),        # there, but not `pub`
    ('definition or theorem', 'format/proofs/Codec.again'),             # a record's field, no theorem
    ('public call, type or module', 'header::nonsense::read_header'),
    ('public call, type or module', 'header::header_in'),               # private
    ('public call, type or module', 'wire::Cursor::read_header'),
    ('public call, type or module', 'morelquilt::inside'),              # public in its crate, not handed on
    ('must-fail edit', 'header!no_such_edit'),
    ('tag of the cases', 'cases:no-such-tag'),
    ('file', 'docs/NO-SUCH-PAGE.md'),
]

NAMES_AND_LISTS = [
    # calls and types
    Sabotage('crates/header/src/lib.rt', 'pub fn read_header(', 'pub fn stray() {}\n\npub fn read_header(', 'header::stray is a `pub fn` on neither list'),
    Sabotage('crates/cursor/src/lib.rt', '    pub fn high(', '    pub fn stray(self) {}\n\n    pub fn high(', 'morelquilt::Cursor::stray is not listed'),
    Sabotage('crates/morelquilt/src/lib.rt', 'pub use header::{Header, ', 'pub use header::{Header, read_header, ', 'morelquilt::read_header is not listed'),
    Sabotage('crates/morelquilt/src/lib.rt', 'pub use text::{to_utf8, ', 'pub use text::{', 'morelquilt::to_utf8 is listed, and not handed on'),
    Sabotage('crates/morelquilt/src/lib.rt', 'pub use wire::{Guid, ', 'pub use wire::{', 'the type morelquilt::Guid is listed, and not handed on'),
    Sabotage('crates/prelogin/src/lib.rt', 'pub fn write_prelogin(', 'pub(crate) fn write_prelogin(', 'morelquilt hands on morelquilt::write_prelogin, which is not public'),
    Sabotage('crates/column_rule/src/lib.rt', 'pub fn names_fit(', 'fn names_fit(', 'there is no public call, type or module column_rule::names_fit'),
    Sabotage('crates/text_lead/src/lib.rt', 'pub fn within(low: u32, high: u32, n: u32) -> bool\n',
             'pub fn within(low: u32, high: u32, n: u32) -> bool\n    requires { low ≤ high }\n', 'text_lead::within has a `requires`'),
    Sabotage('crates/text/src/lib.rt', '    ensures { answer_told result ≡ wrote (text_in s.now) }\n{', '{', 'morelquilt::utf16_size has no contract'),
    Sabotage('crates/format/specs/Guid.antt', '-- ', '-- %s ' % ('long ' * 40), 'crates/format/specs/Guid.antt:1: '),
    # docs/PUBLIC.md
    Sabotage('docs/PUBLIC.md', ', `morelquilt::Span`', '', 'the type morelquilt::Span is not listed'),
    Sabotage('docs/PUBLIC.md', 'the module `bits::signed` (two\'s complement).', 'the module.', 'bits::signed::of_i16 is a `pub fn` on neither list'),
    Sabotage('docs/PUBLIC.md', '`value_part!short_at_length`, ', '', 'morelquilt::Cursor::short_content has 1 must-fail edits'),
    Sabotage('docs/PUBLIC.md', '`untyped_size!string_by_units`', '`format!untyped_bound_moved`', 'morelquilt::untyped_size has 1 wrong programs among its edits'),
    Sabotage('.ci/complete.py', 'PROMISE_ONLY = [', "PROMISE_ONLY = ['morelquilt::Cursor::low', ", 'morelquilt::Cursor::low has 2 wrong programs among its edits, and is listed as having none'),
    Sabotage('docs/PUBLIC.md', 'are wrong programs; the others', 'were wrong programs; the others', 'are wrong programs, and the page does not say so'),
    Sabotage('docs/PUBLIC.md', '| `header_told result ≡ read_at read_header s at` |', '| `header_told result ≡ read_at read_column s at` |', 'its contract does not say read_column'),
    Sabotage('docs/PUBLIC.md', '| `column_size::column_size` |', '| `column_write::write_column` |', 'morelquilt::column_size is proved as column_size::column_size'),
    Sabotage('docs/PUBLIC.md', '`text!room_one_short`, ', '`value_write!room_one_short`, ', 'morelquilt::to_utf16 does not use the crate of value_write!room_one_short'),
    Sabotage('docs/PUBLIC.md', ', and the room afterwards ≡ `room_after_join text s at room`', '', 'morelquilt::Cursor::join_plp has a room, and its row does not say room_after_join'),
    Sabotage('crates/guid/src/inner.rt', ', for the crates of this repository.', '.', 'crates/guid/src/inner.rt does not say for whom it is'),
    Sabotage('crates/untyped_write/src/lib.rt', 'mod inner;', 'pub mod inner;', 'crates/untyped_write/src/inner.rt is for no crate but its own, and is public'),
    # the exports
    Sabotage('crates/board/src/lib.rt', '// How many bytes UTF-8 takes in UTF-16LE.\n', '#[unsafe(no_mangle)]\npub extern "C" fn morelquilt_stray() -> Counted\n{\n    board_answer::unknown()\n}\n\n// ',
             'morelquilt_stray is not listed'),
    Sabotage('docs/PUBLIC.md', '| `morelquilt_guid_write` |', '| `morelquilt_guid_wrote` |', 'morelquilt_guid_wrote is listed, and not exported by crates/board'),
    Sabotage('crates/board/src/lib.rt', 'board_packet::header_read(bytes, at, fields)', 'board_packet::header_reads(bytes, at, fields)',
             'morelquilt_header_read is proved as board_packet::header_reads'),
    Sabotage('docs/PUBLIC.md', 'R of `number_at width high s at`', 'R of `guid_at width high s at`', 'morelquilt_number_read: its contract does not say guid_at'),
    Sabotage('docs/PUBLIC.md', '| R of `walk_at text s at` |', '| `result ≡ counted (place (walk_at text s at))` |', 'morelquilt_walk_open: its row does not say after'),
    Sabotage('docs/PUBLIC.md', ', and the walk afterwards ≡ `walk_after (walk_step allowed s walk) walk`', '', 'morelquilt_walk_step: its row does not say walk_after'),
    Sabotage('docs/PUBLIC.md', ', and the names afterwards ≡ `after (spans_at s at) names`', '', 'morelquilt_column_read: its row does not say spans_at'),
    Sabotage('docs/PUBLIC.md', '`prelogin!three_refused`, ', '', 'morelquilt_prelogin_write has 1 must-fail edits'),
    # edits and crates
    Sabotage('crates/header/must-fail/id_twice.edit', '', None, 'there is no must-fail edit header!id_twice'),
    Sabotage('crates/header/must-fail/seven_written.edit', 'old: Ok(8)', 'old: Ok(88)',
             'crates/header/must-fail/seven_written.edit: its old line stands 0 times'),
    # what README.md shows
    Sabotage('README.md', '     1  int                   4711\n', '     1  int                   4712\n', './show samples/corridor.tds does not print what is shown'),
    Sabotage('crates/capture/stdout', 'begins at byte 12\n', 'begins at byte 13\n', './show samples/wrong-total.tds does not print what is shown'),
    Sabotage('crates/example_limits/src/main.rt', 'fn main(', 'fn stray() {}\n\nfn main(', 'crates/example_limits/src/main.rt is not what is shown'),
    Sabotage('crates/capture/data/cut.tds', '', '\0', 'crates/capture/data/cut.tds is not what'),
    Sabotage('samples/cut.tds', '', '\0', 'samples/cut.tds is not what'),
    Sabotage('crates.txt', 'column_rule: column_has column_type wire format lists\n', '', 'crates/column_rule is not listed in crates.txt'),
    # the ways in from C and Rust
    Sabotage('bindings/c/morelquilt.h', 'uint8_t width, uint8_t high', 'uint8_t high, uint8_t width', 'morelquilt.h: morelquilt_number_read has the parameters bytes, bytes_length, at, high, width, to'),
    Sabotage('bindings/c/morelquilt.h', 'morelquilt_needs *needs);', 'morelquilt_walk *needs);', 'morelquilt.h: needs of morelquilt_row_needs is mut Walk, and in the source mut [u64; 2]'),
    Sabotage('bindings/c/morelquilt.h', 'morelquilt_counted morelquilt_utf8_size(', 'morelquilt_counted morelquilt_utf8_length(', 'morelquilt.h: morelquilt_utf8_size is not there'),
    Sabotage('bindings/c/morelquilt.h', 'MORELQUILT_ROOM = 4', 'MORELQUILT_ROOM = 5', 'morelquilt.h: ROOM is not 4'),
    Sabotage('bindings/c/morelquilt.h', '    uint8_t sort;  ', '    uint16_t sort;  ', 'morelquilt.h: column of morelquilt_column_size is const Column, and in the source const [u8; 16]'),
    Sabotage('bindings/rust/morelquilt-sys/src/lib.rs', '    pub sum: u64,\n    pub known: u64,\n', '    pub known: u64,\n    pub sum: u64,\n', 'the struct Walk is '),
    Sabotage('bindings/rust/morelquilt-sys/src/lib.rs', 'window: u8, out', 'window: u16, out', 'lib.rs: window of morelquilt_header_write is u16, and in the source u8'),
    Sabotage('bindings/rust/morelquilt-sys/src/lib.rs', '    pub fn morelquilt_guid_write(', '    fn morelquilt_guid_write(', 'lib.rs: morelquilt_guid_write is not there'),
    Sabotage('bindings/rust/morelquilt-sys/src/lib.rs', 'TYPE_INTN: u8 = 0x26', 'TYPE_INTN: u8 = 0x27', 'TYPE_INTN is 39 in C or Rust alone'),
    Sabotage('bindings/rust/morelquilt/src/walk.rs', '// SAFETY: ', '// ', 'walk.rs:46: an unsafe block that does not say why it is sound'),
    Sabotage('crates/board/src/lib.rt', 'fn morelquilt_to_utf16(text: &[u8], out: &mut [u8])', 'fn morelquilt_to_utf16(text: &[u8], out: &mut [u16])',
             'morelquilt.h: out of morelquilt_to_utf16 is mut u8, and in the source mut u16'),
    Sabotage('crates/packed/specs/Packed.antt', '∷ c.precision ∷ c.scale', '∷ c.scale ∷ c.precision', "and by record_of [('ty', 'u8'), ('flags', 'u8'), ('scale', 'u8')"),
    Sabotage('docs/BOARD.md', '`morelquilt_guid_read`', 'it', 'docs/BOARD.md: morelquilt_guid_read is not named'),
    Sabotage('docs/BOARD.md', '`tds/codec/header.rs:154` | `decode`', '`tds/codec/header.rs:155` | `decode`', 'docs/BOARD.md: decode does not stand at tds/codec/header.rs:155'),
    # docs/TRACE.md: evidence
    Sabotage('docs/TRACE.md', '| `prelogin::write_prelogin` | `cases:prelogin` |', '| | `cases:prelogin` |', 'docs/TRACE.md: Prelogin message, writing has no evidence'),
    Sabotage('docs/TRACE.md', '| `text::to_utf16`, `text::to_utf8` | `cases:utf8-pairs`', '| it is proved | `cases:utf8-pairs`', "or text out meets an unpaired surrogate has no evidence"),
    Sabotage('docs/TRACE.md', '| `Header.read_header` | `header/proofs/Laws.header-short` |', '| `header/proofs/Laws.header-short` |', 'the row of Fewer than 8 bytes: 1, before anything else has 3 cells for 4 titles'),
    Sabotage('docs/TRACE.md', '| marked (02): still to come, with that request |', '| `wire::Refusal` |', 'constant table" has evidence, and is listed as having none'),
    Sabotage('docs/TRACE.md', '`wire::Refusal`, by', '`demands/proofs/Demand3.took-bytes`, by', 'docs/TRACE.md: no source text is found for demands/proofs/Demand3.took-bytes'),
    # ops, and the cases that were handed to the project
    Sabotage('cases/ops.txt', 'type_read\n', '', 'the op type_read is neither in cases/ops.txt nor in cases/to-come.txt'),
    Sabotage('cases/to-come.txt', '', 'type_write\n', 'the op type_write is in cases/ops.txt and in cases/to-come.txt'),
    Sabotage('cases/to-come.txt', '', 'no_such_op\n', 'the op no_such_op has no case'),
    Sabotage('cases/public.jsonl', '"want":{"no":1}', '"want":{"no":2}', 'cases/public.jsonl is not the file that cases/sums.txt names'),
    Sabotage('cases/rust.jsonl', '{"id":2000003,', '{"id":2900003,', 'cases/rust.jsonl is not the file that cases/sums.txt names'),
]

# Of stdin, stdout and the cases behind them, and one that ends the check of a page, each alone.
BOTH = 'crates/replay/stdin and stdout: not what the cases make'
ALONE = [
    Sabotage('crates/board/src/lib.rt', '', '\nextern "C" fn stray() {}\n', 'an `extern "C" fn` stands where it is not looked for'),
    Sabotage('crates/replay/stdin', '', '\0', 'crates/replay/stdin: not what the cases make'),
    Sabotage('crates/replay/stdout', 'ok 8 4 1 32 51 1 0\n', 'ok 8 4 1 32 51 1 1\n', 'crates/replay/stdout: not what the cases make'),
    Sabotage('crates/replay/stdout', 'ok 8 4 1 32 51 1 0\n', '', 'lines, the answered ops have'),
    Sabotage('cases/own.jsonl', '"in": "0501002000330100", "want": {"no": 2}', '"in": "0501002000330100", "want": {"no": 1}',
             'crates/replay/stdout: not what the cases make'),
    Sabotage('cases/own.jsonl', '"in": "0501002000330100"', '"in": "0901002000330100"', 'crates/replay/stdin: not what the cases make'),
    Sabotage('cases/own.jsonl', '{"id": 3000001,', '{"id": 3900001, "tag": "own", "op": "number", "width": 3, "in": "00", "want": {"no": 1}}\n{"id": 3000001,',
             'cases of these ops, and'),
    Sabotage('cases/own.jsonl', '{"id": 3000001,', '{"id": 3900001, "tag": "own", "op": "number", "width": 1, "in": "", "want": {"no": 1}}\n{"id": 3000001,', BOTH),
]


def copied(folder):
    shutil.copytree(ROOT, folder, ignore=shutil.ignore_patterns('.git', 'target', 'out', '__pycache__'))


def apply(folder, sabotage):
    path = folder / sabotage.file
    if sabotage.new is None:
        path.unlink()
        return
    text = path.read_bytes()
    old, new = sabotage.old.encode(), sabotage.new.encode()
    if old not in text:
        sys.exit('%s does not say %s' % (sabotage.file, sabotage.old))
    path.write_bytes(text.replace(old, new, 1) if old else text + new)


def said(sabotages):
    """What the checks say of a copy with these sabotages; None where they pass."""
    with tempfile.TemporaryDirectory() as name:
        folder = pathlib.Path(name) / 'copy'
        copied(folder)
        for sabotage in sabotages:
            apply(folder, sabotage)
        done = subprocess.run([sys.executable, '-B', folder / '.ci/checks.py'], stdout=subprocess.PIPE, stderr=subprocess.STDOUT, text=True)
        return done.stdout if done.returncode else None


def on_pages():
    """The wrong names on every page, as sabotages at its end."""
    for page in [ROOT / 'README.md'] + sorted((ROOT / 'docs').glob('*.md')):
        name = str(page.relative_to(ROOT))
        last = page.read_text().count('\n')
        for number, (kind, word) in enumerate(WRONG_NAMES, last + 1):
            yield Sabotage(name, '', '`%s`\n' % word, '%s:%d: there is no %s %s' % (name, number, kind, word))


def main():
    before = said([]) or ''
    batches = [list(on_pages()), NAMES_AND_LISTS] + [[sabotage] for sabotage in ALONE]
    unnoticed = []
    with concurrent.futures.ThreadPoolExecutor(2) as pool:
        for batch, text in zip(batches, pool.map(said, batches)):
            unnoticed += [s for s in batch if s.told not in (text or '') or s.told in before]
    for s in unnoticed:
        print('not noticed: %s: %r for %r' % (s.file, s.new, s.old))
    if unnoticed:
        sys.exit(1)
    print('%d sabotages, each noticed' % sum(map(len, batches)))


main()
