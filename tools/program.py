"""The repository's own programs, for ./show and ./ask: proved and built where need be, then run.

A program is for x86-64, and runs with the kit's own loader and C library.
"""
import pathlib
import shutil
import subprocess
import sys

ROOT = pathlib.Path(__file__).resolve().parent.parent


def newest(folder):
    """When a file of the sources was last written; what `rt` makes of them, in a crate's out/, is none."""
    return max((path.stat().st_mtime for path in folder.rglob('*') if path.is_file() and path.relative_to(folder).parts[1:2] != ('out',)), default=0)


def built(name):
    """The program's file. Where it is missing or older than the sources, it is proved and built first."""
    crate = ROOT / 'crates' / name
    binary = crate / 'out' / name
    if binary.is_file() and newest(ROOT / 'crates') < binary.stat().st_mtime:
        return binary
    print('proving and building %s: a while the first time, a few seconds later on' % name, file=sys.stderr)
    # `rt run` says that it runs a program that is proved and built, here on no input.
    done = subprocess.run(['rt', 'run'], cwd=crate, stdin=subprocess.DEVNULL, stdout=subprocess.DEVNULL, stderr=subprocess.PIPE, text=True)
    if 'rt: running out/%s;' % name not in done.stderr:
        print(done.stderr[-2000:], file=sys.stderr)
        sys.exit('%s was not proved or not built' % name)
    binary.touch()
    return binary


def command(name):
    """The words that start the program."""
    rt = shutil.which('rt')
    if rt is None:
        sys.exit('the kit is missing: there is no command rt')
    libraries = pathlib.Path(rt).resolve().parent.parent / 'toolchain' / 'lib'
    return [str(word) for word in (libraries / 'ld-linux-x86-64.so.2', '--library-path', libraries, built(name))]
