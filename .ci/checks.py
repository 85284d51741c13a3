#!/usr/bin/env python3
"""Cheap checks of the repository, before the proofs. Each fault is printed; one is enough to fail.

- crates.txt lists every folder of crates/.
- The pages name only what is there (names.py).
- The lists are whole: public calls, must-fail edits, ops of the cases (complete.py).
- The replay program's stdin and stdout are what the cases make (cases/frames.py).
- README.md shows what there is (shown.py).
- Each sentence of docs/TRACE.md has evidence (traced.py), and each name on the pages a source text for the audit page (audit/text.py).
- The ways in from C and Rust are the proved one (bindings.py).

.ci/sabotage.py tries that each of them can fail.
"""
import pathlib
import subprocess
import sys

import bindings
import complete
import names
import shown
import traced

ROOT = pathlib.Path(__file__).resolve().parent.parent
sys.path.insert(0, str(ROOT / 'audit'))
import text


def crate_faults():
    listed = complete.dependencies(ROOT)
    for path in sorted((ROOT / 'crates').iterdir()):
        if path.is_dir() and path.name not in listed:
            yield 'crates/%s is not listed in crates.txt' % path.name


def frame_faults():
    done = subprocess.run([sys.executable, ROOT / 'cases' / 'frames.py', 'check'], stderr=subprocess.PIPE, text=True)
    if done.returncode:
        yield done.stderr.strip() or 'cases/frames.py check failed'


def main():
    faults = [fault for check in (crate_faults, frame_faults) for fault in check()]
    for check in (names.faults, complete.faults, shown.faults, traced.faults, text.faults, bindings.faults):
        try:
            faults += check(ROOT)
        except ValueError as fault:
            faults.append(str(fault))
    for fault in faults:
        print(fault)
    sys.exit(1 if faults else 0)


main()
