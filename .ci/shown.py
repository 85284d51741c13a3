"""What README.md shows is what there is: each `./show samples/..` with the lines that the program prints (crates/capture/stdout, which the proofs' run holds
to the program), each crate's source with the file, and the samples, in samples/ and where the program's run reads them, with what tools/samples.py makes."""
import re
import subprocess
import sys


def blocks(text):
    """The runs of indented lines of a page, without the indent."""
    for run in re.findall(r'(?:^(?: {4}.*)?\n)+', text, re.M):
        lines = [line[4:] for line in run.strip('\n').splitlines()]
        if any(lines):
            yield lines


def printed(root):
    """What the program prints of each sample."""
    parts = re.split(r'^== (.*)\n', (root / 'crates' / 'capture' / 'stdout').read_text(), flags=re.M)
    return dict(zip(parts[1::2], parts[2::2]))


def faults(root):
    found, shown, sources = [], 0, 0
    samples = printed(root)
    for lines in blocks((root / 'README.md').read_text()):
        command = re.fullmatch(r'\$ \./show samples/(\S+)', lines[0])
        source = re.fullmatch(r'// (crates/\S+\.rt)', lines[0])
        if command:
            shown += 1
            if '\n'.join(lines[1:]) + '\n' != samples.get(command[1]):
                found.append('README.md: %s does not print what is shown' % lines[0][2:])
        elif source:
            sources += 1
            if '\n'.join(lines[1:]) + '\n' != (root / source[1]).read_text():
                found.append('README.md: %s is not what is shown' % source[1])
    if not shown or not sources:
        found.append('README.md shows %d samples and %d sources' % (shown, sources))
    done = subprocess.run([sys.executable, root / 'tools' / 'samples.py', 'check'], stdout=subprocess.PIPE, stderr=subprocess.STDOUT, text=True)
    if done.returncode:
        found.append(done.stdout.strip() or 'tools/samples.py check failed')
    return found
