#!/usr/bin/env python3
"""Makes the replay program's stdin and stdout from the cases, or checks that they are what the cases make.

    frames.py write     writes crates/replay/stdin and crates/replay/stdout
    frames.py check     exit 1 where they differ from what the cases make

The ops are those of cases/ops.txt; the cases are public.jsonl, rust.jsonl and own.jsonl, in this order. Each case of these ops makes one frame and one
line: a case that has no frame is a fault, not a gap.
"""
import json
import pathlib
import subprocess
import sys
import tempfile

HERE = pathlib.Path(__file__).resolve().parent
REPLAY = HERE.parent / 'crates' / 'replay'
FILES = ('public.jsonl', 'rust.jsonl', 'own.jsonl')


def cases_of(ops):
    return sum(json.loads(line)['op'] in ops for name in FILES for line in (HERE / name).read_text().splitlines())


def made():
    """The two files as the cases make them, a pair."""
    ops = (HERE / 'ops.txt').read_text().split()
    requests, answers = b'', b''
    with tempfile.TemporaryDirectory() as folder:
        request, answer = pathlib.Path(folder) / 'request', pathlib.Path(folder) / 'answer'
        for name in FILES:
            subprocess.run([sys.executable, HERE / 'cases.py', 'encode', HERE / name, request, answer, '--ops', ','.join(ops)],
                           check=True, stdout=subprocess.DEVNULL)
            requests += request.read_bytes()
            answers += answer.read_bytes()
    if answers.count(b'\n') != cases_of(ops):
        sys.exit('cases/frames.py: %d cases of these ops, and %d lines' % (cases_of(ops), answers.count(b'\n')))
    return requests, answers


def main(word):
    pair = made()
    if word == 'write':
        (REPLAY / 'stdin').write_bytes(pair[0])
        (REPLAY / 'stdout').write_bytes(pair[1])
        print('%d lines' % pair[1].count(b'\n'))
        return
    there = (REPLAY / 'stdin').read_bytes(), (REPLAY / 'stdout').read_bytes()
    if there != pair:
        other = [name for name, a, b in zip(('stdin', 'stdout'), there, pair) if a != b]
        sys.exit('crates/replay/%s: not what the cases make; cases/frames.py write' % ' and '.join(other))


if len(sys.argv) != 2 or sys.argv[1] not in ('write', 'check'):
    sys.exit(__doc__)
main(sys.argv[1])
