"""The log of a gate run (audit/make has the command), and whether it is the log of a whole green run, from nothing, on the files that are here.

`read(text)` takes it apart. `faults(log, root)` are the reasons, in plain words, for which it is no verdict on these files: one is enough.
"""
import pathlib
import re
import subprocess
from typing import NamedTuple

HEAD = re.compile(r'gate: commit (\S+), files (not )?as committed, kit (.+), (\d{4}-\d\d-\d\d)')
VERDICT = re.compile(r'(\d+) passed, (\d+) failed')
# What the gate says before the proofs, each in one line.
EARLIER = {
    'the sabotages of its checks': re.compile(r'\d+ sabotages, each noticed'),
    'the changed definitions': re.compile(r'the canary: \d+ changed definitions, each refused'),
    'the definitions on the cases': re.compile(r'the definitions answer \d+ cases as they should'),
}
# Made from a gate run, so that they are always younger than its commit.
MADE_AFTER = {'docs/GATE.md', 'docs/audit.png'}


class Log(NamedTuple):
    commit: str         # '' where the log does not say
    clean: bool         # were the files those of the commit?
    kit: str
    day: str
    earlier: dict       # of EARLIER: the line that was said
    crates: dict        # crate to its functions
    kept: set           # crates that an earlier run had proved, and this one did not
    whole: bool         # was every proof and every edit done in this run?
    sums: set           # the logic that the crates were proved with
    edits: dict         # (crate, edit) to what was said
    ran: dict           # program to what was said of its run
    trouble: list       # lines that tell of something not proved, not refused or not run
    last: str


def read(text):
    lines = text.splitlines()
    head = HEAD.fullmatch(lines[0]) if lines else None
    crates, kept, whole, sums, edits, ran, trouble, functions = {}, set(), False, set(), {}, {}, [], 0
    for line in lines:
        if found := re.match(r'logic=proved functions=(\d+) .*?\bsum=(\w+)', line):
            functions = int(found[1])
            sums.add(found[2])
        elif found := re.fullmatch(r'rt: (\w+) proved', line):
            crates[found[1]] = functions
        elif found := re.match(r'rt: (\w+) is kept: ', line):
            kept.add(found[1])
        elif line.startswith('rt: ok'):
            whole = line.endswith('; every proof and must-fail edit was done in this run')
        elif found := re.match(r'rt: must-fail (\w+)/(\w+)\.edit: (.*)', line):
            edits[found[1], found[2]] = found[3]
            if not found[3].startswith('refused, as it must be'):
                trouble.append(line[4:])
        elif found := re.match(r"rt: (\w+) (ran\b.*)", line):
            ran[found[1]] = found[2]
        elif re.match(r'rt: .*(NOT PROVED|FAILED|BAD EDIT|NOT TRIED|NOT REFUSED|was not run)', line):
            trouble.append(line[4:])
    earlier = {name: line for name, pattern in EARLIER.items() for line in lines if pattern.fullmatch(line)}
    return Log(head[1] if head and head[1] != 'unknown' else '', bool(head and not head[2]), head[3] if head else '', head[4] if head else '',
               earlier, crates, kept - set(crates), whole, sums, edits, ran, trouble, next((line for line in reversed(lines) if line.strip()), ''))


def git(root, *words):
    """What git answers; None where there is none, or no repository."""
    try:
        done = subprocess.run(['git', '-C', str(root), *words], stdout=subprocess.PIPE, stderr=subprocess.DEVNULL, text=True)
    except OSError:
        return None
    return done.stdout if done.returncode == 0 else None


def listed(root):
    """What the gate has to judge: the crates, the edits, the programs."""
    lines = (line.partition('#')[0].partition(':')[0].strip() for line in (root / 'crates.txt').read_text().splitlines())
    crates = {line.split()[0] for line in lines if line}
    edits = {(path.parent.parent.name, path.stem) for path in root.glob('crates/*/must-fail/*.edit')}
    return crates, edits, {name for name in crates if (root / 'crates' / name / 'src/main.rt').is_file()}


def unlike(what, wanted, told):
    """Two lists that should be one."""
    for verb, names in (('says nothing of', wanted - told), ('speaks of', told - wanted)):
        if names:
            some = ', '.join('/'.join(name) if isinstance(name, tuple) else name for name in sorted(names)[:3])
            tail = '' if verb == 'says nothing of' else ', which %s not here' % ('is' if len(names) == 1 else 'are')
            yield 'The log %s %d %s%s: %s%s.' % (verb, len(names), what, '' if len(names) == 1 else 's', some + (' ..' if len(names) > 3 else ''), tail)


def changed_since(root, commit):
    """The files that are not as in the commit, save those that are made after a run; None where git cannot tell."""
    differ, new = git(root, 'diff', '--name-only', commit), git(root, 'ls-files', '--others', '--exclude-standard')
    if differ is None or new is None:
        return None
    return sorted(set((differ + new).splitlines()) - MADE_AFTER)


def of_these_files(log, root):
    if not log.commit:
        yield 'The log does not say of which commit it is.'
        return
    if not log.clean:
        yield 'The gate ran on files that were not those of a commit.'
    changed = changed_since(root, log.commit)
    if changed is None:
        yield 'The log is of commit %s, and git cannot tell whether the files here are the same.' % log.commit[:10]
    elif changed:
        yield 'The log is of commit %s, and %d file%s here differ%s from it: %s.' % (
            log.commit[:10], len(changed), *(('', 's') if len(changed) == 1 else ('s', '')), ', '.join(changed[:3]) + (' ..' if len(changed) > 3 else ''))


def faults(log, root):
    root = pathlib.Path(root)
    verdict = VERDICT.fullmatch(log.last)
    if verdict is None:
        yield 'The gate\'s log is cut short: it does not end in a verdict.'
    elif int(verdict[2]):
        yield 'The gate failed: %s.' % log.last
    yield from ('The gate said: ' + line for line in log.trouble)
    for name in EARLIER:
        if name not in log.earlier:
            yield 'The log does not tell of %s.' % name
    crates, edits, programs = listed(root)
    yield from unlike('crate', crates, set(log.crates) | log.kept)
    if log.kept or verdict and not log.whole:
        some = ' (%d crate%s: %s)' % (len(log.kept), '' if len(log.kept) == 1 else 's', ', '.join(sorted(log.kept)[:3]) + (' ..' if len(log.kept) > 3 else '')) if log.kept else ''
        yield 'The gate kept what an earlier run had proved or tried%s. This log does not show it: rt ci --anew does.' % some
    yield from unlike('must-fail edit', edits, set(log.edits))
    yield from unlike('program\'s run', programs, set(log.ran))
    if verdict and not int(verdict[2]) and int(verdict[1]) != len(crates) + len(edits):
        yield 'The gate counted %s, and there are %d crates and %d must-fail edits.' % (verdict[1], len(crates), len(edits))
    if log.kit and {log.kit.split()[-1]} != log.sums:
        yield 'The crates were proved with another logic than the kit\'s: %s.' % (', '.join(sorted(log.sums)) or 'none')
    yield from of_these_files(log, root)
