#!/usr/bin/env python3
"""Tries the definitions of crates/format/specs on the cases: each case is an equation (statements.py) that must hold by computing.

    definitions.py [--ops a,b,c] [--tags a,b,c] [--flip] [--changed] [--no-canary]

The statements go into a repository of their own, in a temporary folder, beside copies of the definitions (without their proofs), and `rt all check` judges
them. It fails where one statement is refused, and where there are not as many statements as cases. --flip states a wrong answer for every case, to
see that each is refused. --changed tries definitions that are changed (CANARY) on the cases of the changes, and on one that no change touches; a run
begins with it, the canary, and ends there unless it fails as it must.
"""
import argparse
import json
import pathlib
import re
import shutil
import subprocess
import sys
import tempfile

from cases import unhx
from statements import LINE, NOT_OF_THE_FORMAT, Statement, wrong

HERE = pathlib.Path(__file__).resolve().parent
CRATES = HERE.parent / 'crates'
FILES = ('public', 'rust', 'own')
# Statements to a file, and crates that are judged side by side.
IN_A_FILE = 400
PARTS = 2
# What the statements name, beside the definitions that are opened.
NAMES = {
    'Answer': 'Answer gives refuses Read took stops Part inside outside map_read',
    'Header': 'Header',
    'Prelogin': 'Prelogin',
    'Descriptor': 'FixedLen ByteLen UShortLen LongLen TypeId fixed_len byte_len u_short_len long_len daten xml udt ss_variant Collation Schema Column',
    'Scalar': 'Scalar',
    'Plp': 'PlpHead is_null chunked Walk Walked',
    'Value': 'Value Given',
    'Row': 'Capture',
    'Number': '',
    'Guid': '',
    'Text': '',
    'Normal': '',
}
HEAD = '''use mathlib.Core.Path.{◌≡◌, refl}
use Rattle.std.specs.Prelude.{ℕ, List, [], ◌∷◌, true, false, pos, negsuc, None, Some}
use Rattle.%s.specs.Line.{rep, run, run_two, filler, named, Line, ok, no, line, writing, copying, reading, read_guid}
'''
# Definitions changed in the canary's copy: the file, the line, what stands there instead, and the cases that must then be refused.
CANARY = [
    ('Answer', 'number kind = 3', 'number kind = 4', ['public-2492']),
    ('Answer', 'number long = 5', 'number long = 7', ['public-13']),
    ('Answer', 'room_after_read copied (stops e) out = out', 'room_after_read copied (stops e) out = drop 1 out', ['public-3971']),
    ('Answer', 'room_after_read copied (took v n) out = copied v ++ drop (length (copied v)) out', 'room_after_read copied (took v n) out = out', ['public-6132']),
    ('Header', 'packet_statuses = 0 ∷ 1 ∷ 3 ∷ 8 ∷ 16 ∷ []', 'packet_statuses = 0 ∷ 1 ∷ 2 ∷ 3 ∷ 8 ∷ 16 ∷ []', ['own-3000246']),
    ('Descriptor', 'schema_fits (byte_len t) (Some n) = false', 'schema_fits (byte_len t) (Some n) = true', ['own-3000565']),
    ('Descriptor', 'name_fits w (inside s) = both (eqb (length s % 2) 0) (ltb (length s / 2) (256 ^ w))',
     'name_fits w (inside s) = both (eqb (length s % 2) 0) (ltb (length s / 2) (Rattle.std.specs.Prelude.suc (256 ^ w)))', ['own-3000619', 'own-3000621']),
    ('Plp', 'opened_at total text at = record { at = at; sum = 0; total = total; text = text; ended = false }',
     'opened_at total text at = record { at = at; sum = 0; total = total; text = text; ended = true }', ['public-20158']),
    ('Value', 'untyped_string = 4000', 'untyped_string = 4001', ['own-3000686', 'own-3000688']),
    ('Row', 'max_columns = 1024', 'max_columns = 1025', ['own-3000692', 'own-3000697', 'own-3000699']),
]
UNTOUCHED = 'public-1'


def cases():
    """(label, case) of every case."""
    for name in FILES:
        for text in (HERE / (name + '.jsonl')).read_text().splitlines():
            case = json.loads(text)
            yield '%s-%s' % (name, case['id']), case


def how_many():
    """The cases that are to be stated: the lines of every file of cases, whatever FILES has."""
    lines = [line for path in HERE.glob('*.jsonl') for line in path.read_text().splitlines()]
    return sum(json.loads(line)['op'] not in NOT_OF_THE_FORMAT for line in lines)


def chosen(options):
    for label, case in cases():
        if case['op'] in NOT_OF_THE_FORMAT or options.changed and label not in canary_labels() | {UNTOUCHED}:
            continue
        if (not options.ops or case['op'] in options.ops.split(',')) and (not options.tags or case['tag'] in options.tags.split(',')):
            yield label, case


# ------------------------------------------------------------------ the repository of statements

def opened():
    """The definitions of each module that a statement opens."""
    return {module: re.findall(r'(?m)^unfoldable pub (\S+) :', (CRATES / 'format/specs' / (module + '.antt')).read_text()) for module in NAMES}


def weight(case):
    return len(unhx(case.get('in', ''))) + case.get('room', 0)


def lay_out(folder, labelled, parts, flip):
    """The repository of these cases' statements."""
    for crate in ('lists', 'format'):
        for part in ('src', 'specs'):
            shutil.copytree(CRATES / crate / part, folder / 'crates' / crate / part)
    names = opened()
    uses = ''.join('use Rattle.format.specs.%s.{%s}\n' % (m, ', '.join(NAMES[m].split() + names[m])) for m in NAMES)
    unfolding = 'unfolding ' + ' '.join(name for m in NAMES for name in names[m])
    crates = ['lists:', 'format: lists']
    heavy = sorted(labelled, key=lambda item: weight(item[1]))      # so that each part has as much to do
    for k in range(parts):
        crates.append('trial%d: format lists' % k)
        trial = folder / 'crates' / ('trial%d' % k)
        for part in ('src', 'specs', 'proofs'):
            (trial / part).mkdir(parents=True)
        (trial / 'src/lib.rt').write_text('// No code.\n\n#![tactic(auto)]\n')
        (trial / 'specs/Lib.antt').write_text('pub mod Line\n')
        (trial / 'specs/Line.antt').write_text(LINE)
        mine, modules = heavy[k::parts], ''
        for start in range(0, len(mine), IN_A_FILE):
            text = HEAD % ('trial%d' % k) + uses
            for label, case in mine[start:start + IN_A_FILE]:
                s = Statement(case)
                text += '\n%s : %s ≡ %s\n%s\n%s = refl\n' % (label, s.left, wrong(s.right) if flip else s.right, unfolding, label)
            (trial / 'proofs' / ('Cases%d.antt' % start)).write_text(text)
            modules += 'pub mod Cases%d\n' % start
        (trial / 'proofs/Lib.antt').write_text(modules)
    (folder / 'crates.txt').write_text('\n'.join(crates) + '\n')


def statements(folder):
    """How many there are, counted in the files themselves."""
    return sum(path.read_text().count(' = refl\n') for path in folder.glob('crates/trial*/proofs/Cases*.antt'))


def judged(folder):
    """Whether all is proved, the labels refused, and what was said."""
    done = subprocess.run(['rt', 'all', 'check', '--jobs', str(PARTS)], cwd=folder, stdout=subprocess.PIPE, stderr=subprocess.STDOUT, text=True)
    return done.returncode == 0, set(re.findall(r'error: `((?:%s)-\d+)`' % '|'.join(FILES), done.stdout)), done.stdout


# ------------------------------------------------------------------ the runs

def canary_labels():
    return {label for *_, labels in CANARY for label in labels}


def change(folder):
    """The canary's changes, in the copy of the definitions."""
    for module, old, new, _ in CANARY:
        path = folder / 'crates/format/specs' / (module + '.antt')
        text = path.read_text()
        if text.count(old + '\n') != 1:
            sys.exit('the canary: %s.antt does not say %s' % (module, old))
        path.write_text(text.replace(old, new))


def try_cases(options):
    labelled = list(chosen(options))
    part = options.ops or options.tags or options.changed
    wanted = len(labelled) if part else how_many()
    with tempfile.TemporaryDirectory() as name:
        folder = pathlib.Path(name)
        lay_out(folder, labelled, 1 if options.changed else PARTS, options.flip)
        if options.changed:
            change(folder)
        stated = statements(folder)
        if stated != wanted:
            sys.exit('%d cases, %d statements' % (wanted, stated))
        proved, refused, text = judged(folder)
    if options.flip:
        print('%d wrong statements, %d refused' % (stated, len(refused)))
        sys.exit(0 if len(refused) == stated else 1)
    if refused or not proved:
        print(text[-4000:])
        sys.exit('refused: %s' % ' '.join(sorted(refused)))
    print('the definitions answer %d cases as they should' % stated)


def try_canary():
    """This program, on changed definitions, must fail, by the changes' cases and by no other."""
    done = subprocess.run([sys.executable, __file__, '--changed'], stdout=subprocess.PIPE, stderr=subprocess.PIPE, text=True)
    refused = set(done.stderr.strip().rpartition('refused: ')[2].split())
    if done.returncode != 1 or refused != canary_labels():
        print(done.stdout, done.stderr)
        sys.exit('the canary: %s not refused' % sorted(canary_labels() - refused))
    print('the canary: %d changed definitions, each refused' % len(CANARY))


def main():
    parser = argparse.ArgumentParser(description=__doc__, formatter_class=argparse.RawDescriptionHelpFormatter)
    parser.add_argument('--ops')
    parser.add_argument('--tags')
    for name in ('--flip', '--changed', '--no-canary'):
        parser.add_argument(name, action='store_true')
    options = parser.parse_args()
    if not (options.flip or options.changed or options.no_canary):
        try_canary()
    try_cases(options)


if __name__ == '__main__':
    main()
