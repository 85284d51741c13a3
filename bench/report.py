#!/usr/bin/env python3
"""What bench/run prints and draws.

    report.py count TRACE                       the instructions between the driver's marks, out of the emulator's log: codec and plain, a line for each work
    report.py report TIMES COUNTS [--pages]     the table, the ratios, the goals, bench/plot.svg; --pages: the tables of README.md and docs/BENCHMARKS.md
"""
import math
import pathlib
import re
import subprocess
import sys

HERE = pathlib.Path(__file__).resolve().parent
ROOT = HERE.parent
OTHERS = ('plain', 'tiberius', 'copy')
GROUPS = (('header', 'header-'), ('text to UTF-16', 'utf16.'), ('text to UTF-8', 'utf8.'), ('descriptors', 'columns-'),
          ('rows written', 'write.'), ('rows read', 'read.'), ('rows normalised', 'normal.'))


def count(trace):
    """The log has a line for each instruction, with the function's name behind it. A mark begins the codec, the next plain Rust, the third ends both."""
    mark, counts, number = False, [], 0
    for line in open(trace, errors='replace'):
        if line.endswith('] bench_mark\n'):
            if not mark:
                counts.append(number)
                number = 0
            mark = True
        else:
            mark = False
            number += 1
    # The first of three is what happened before.
    for _, codec, plain in zip(counts[0::3], counts[1::3], counts[2::3]):
        print(codec, plain)


# ---- what was measured

class Work:
    def __init__(self, name):
        self.name, self.times, self.ratios, self.counts = name, {}, {}, None

    def nanoseconds(self, side):
        time, calls, _ = self.times[side]
        return time / calls

    def per_byte(self):
        time, _, size = self.times['codec']
        return time / size


def measured(times, counts):
    works = {}
    for line in open(times):
        what, name, side, *numbers = line.split()
        work = works.setdefault(name, Work(name))
        if what == 'time':
            work.times[side] = tuple(map(float, numbers))
        else:
            work.ratios[side] = float(numbers[0])
    for line in open(counts):
        name, calls, codec, plain = line.split()
        # Counted passes are small: the volume says nothing there.
        for work in works.values():
            if work.name == name or work.name == name.replace('.64K', '.16M'):
                work.counts = int(codec) / int(calls), int(plain) / int(calls)
    # What does not fit the nearer caches: the time of a byte beside that in 64 KiB.
    for work in works.values():
        if work.name.endswith('.16M'):
            work.ratios['64K'] = work.per_byte() / works[work.name.replace('.16M', '.64K')].per_byte()
    return list(works.values())


# ---- tables

def table(works):
    yield '| Work | Codec, ns a call | beside plain Rust | tiberius | block copy | its time a byte in 64 KiB | x86-64 instructions a call | beside plain Rust |'
    yield '|---|---|---|---|---|---|---|---|'
    for work in works:
        cells = ['%.2f' % work.ratios[other] if other in work.ratios else '' for other in (*OTHERS, '64K')]
        counts = ['%.0f' % work.counts[0], '%.2f' % (work.counts[0] / work.counts[1])] if not work.name.endswith('16M') else ['', '']
        yield '| `%s` | %.1f | %s |' % (work.name, work.nanoseconds('codec'), ' | '.join(cells + counts))


def span(numbers):
    low, high = ('%.2f' % number for number in (min(numbers), max(numbers)))
    return low if low == high else '%s to %s' % (low, high)


def short_table(works):
    yield '| Time of the codec beside that of | plain Rust | tiberius | x86-64 instructions beside plain Rust |'
    yield '|---|---|---|---|'
    for group, start in GROUPS:
        some = [work for work in works if work.name.startswith(start)]
        old = [work.ratios['tiberius'] for work in some if 'tiberius' in work.ratios]
        yield '| %s | %s | %s | %s |' % (group, span([work.ratios['plain'] for work in some]), span(old) if old else '',
                                        span([work.counts[0] / work.counts[1] for work in some]))


def goals(works):
    """Each goal, whether it is met, and the worst."""
    def goal(what, limit, other, chosen):
        ratio, name = max((work.ratios[other], work.name) for work in works if other in work.ratios and chosen(work.name))
        return '| %s | %.1f | %s | %.2f, `%s` |' % (what, limit, 'met' if ratio <= limit else 'not met', ratio, name)
    yield '| Goal | at most | | the worst |'
    yield '|---|---|---|---|'
    for group, start in GROUPS:
        yield goal(group + ', beside plain Rust', 1.0, 'plain', lambda name: name.startswith(start))
    yield goal('rows written, beside tiberius', 0.6, 'tiberius', lambda name: name.startswith('write.'))
    yield goal('8,000-byte values normalised, beside a block copy', 2.0, 'copy', lambda name: name.startswith('normal.plp-8000'))
    yield goal('time a byte in 16 MiB, beside 64 KiB', 1.1, '64K', lambda name: True)


def machine():
    said = lambda *command: subprocess.run(command, stdout=subprocess.PIPE, text=True).stdout
    model = re.search(r'Model name: *(.*)', said('lscpu'))
    versions = re.search(r'release: (\S+)(?:.|\n)*LLVM version: (\S+)', said('rustc', '-vV')).groups()
    counter = re.search(r'release: (\S+)', said('/usr/bin/rustc', '-vV')).group(1)
    cores, load = said('nproc').strip(), open('/proc/loadavg').read().split()[0]
    return ('Measured on a %s (%s), %s cores, load %s; plain Rust and tiberius by rustc %s with LLVM %s. Instructions are those of the x86-64 archive under an '
            'emulator, plain Rust there by rustc %s.' % (model.group(1) if model else 'machine', said('uname', '-m').strip(), cores, load, *versions, counter))


def put(page, mark, lines):
    """The lines between <!-- MARK --> and <!-- /MARK --> of a page."""
    text = page.read_text()
    shape = re.compile('(<!-- %s -->\n).*?(<!-- /%s -->)' % (mark, mark), re.S)
    if not shape.search(text):
        sys.exit('%s has no mark %s' % (page.name, mark))
    page.write_text(shape.sub(lambda found: found.group(1) + '\n'.join(lines) + '\n' + found.group(2), text))


# ---- the plot: a row's time against its length, in 64 KiB of rows

PANELS = (('written', 'write.plp-%d.64K', ''), ('read, 3 chunks', 'read.plp-%d%s.64K', '-in-3'), ('normalised, 3 chunks', 'normal.plp-%d%s.64K', '-in-3'))
COLOURS = {'codec': '#0b6e4f', 'plain': '#c8553d', 'tiberius': '#6a4c93', 'copy': '#8a8d91'}
NAMES = {'codec': 'this codec', 'plain': 'plain Rust', 'tiberius': 'tiberius', 'copy': 'block copy'}
WIDE, HIGH, LEFT, TOP = 250, 260, 80, 40


def plot(works):
    named = {work.name: work for work in works}
    x = lambda size: LEFT + WIDE * (math.log10(size) - 2) / 2
    y = lambda time: TOP + HIGH * (5 - math.log10(time)) / 5
    out = ['<svg xmlns="http://www.w3.org/2000/svg" width="%d" height="%d" font-family="sans-serif" font-size="12">' % (3 * (WIDE + 60) + LEFT, HIGH + 110),
           '<rect width="100%" height="100%" fill="white"/>']
    for i, (title, shape, cut) in enumerate(PANELS):
        out.append('<g transform="translate(%d 0)">' % (i * (WIDE + 60)))
        out.append('<text x="%d" y="24" font-weight="bold">%s</text>' % (LEFT, title))
        for power in range(6):
            out.append('<path d="M%d %.1fh%d" stroke="#ddd"/>' % (LEFT, y(10 ** power), WIDE))
            if i == 0:
                out.append('<text x="%d" y="%.1f" text-anchor="end">%s ns</text>' % (LEFT - 6, y(10 ** power) + 4, format(10 ** power, ',')))
        for size in (100, 1000, 10000):
            out.append('<path d="M%.1f %dv%d" stroke="#ddd"/>' % (x(size), TOP, HIGH))
            out.append('<text x="%.1f" y="%d" text-anchor="middle">%s</text>' % (x(size), TOP + HIGH + 18, format(size, ',')))
        for side, colour in COLOURS.items():
            points = []
            for content in (0, 16, 1000, 8000):
                work = named[shape % ((content,) if not cut else (content, cut if content else ''))]
                if side in work.times:
                    time, calls, size = work.times[side]
                    points.append('%.1f,%.1f' % (x(size / calls), y(time / calls)))
            if points:
                out.append('<polyline points="%s" fill="none" stroke="%s" stroke-width="2"/>' % (' '.join(points), colour))
                out.extend('<circle cx="%s" cy="%s" r="3" fill="%s"/>' % (*point.split(','), colour) for point in points)
        out.append('</g>')
    out.append('<text x="%d" y="%d">bytes of a row: 20 integers and PLP content of 0, 16, 1,000 and 8,000 bytes</text>' % (LEFT, TOP + HIGH + 40))
    for i, (side, colour) in enumerate(COLOURS.items()):
        out.append('<path d="M%d %dh24" stroke="%s" stroke-width="2"/>' % (LEFT + i * 130, TOP + HIGH + 58, colour))
        out.append('<text x="%d" y="%d">%s</text>' % (LEFT + 30 + i * 130, TOP + HIGH + 62, NAMES[side]))
    (HERE / 'plot.svg').write_text('\n'.join(out + ['</svg>', '']))


def report(times, counts, pages):
    works = measured(times, counts)
    for lines in (table(works), goals(works)):
        print('\n'.join(lines), end='\n\n')
    print(machine(), end='\n\n')
    for work in works:
        for other, ratio in work.ratios.items():
            print('ratio %s %s %.2f' % (work.name, other, ratio))
    plot(works)
    if pages:
        put(ROOT / 'README.md', 'bench', ['', *short_table(works), '', machine(), ''])
        put(ROOT / 'docs/BENCHMARKS.md', 'bench', ['', machine(), '', *table(works), ''])
        put(ROOT / 'docs/BENCHMARKS.md', 'goals', ['', *goals(works), ''])


if __name__ == '__main__':
    words = sys.argv[1:]
    if words[:1] == ['count'] and len(words) == 2:
        count(words[1])
    elif words[:1] == ['report'] and len(words) in (3, 4):
        report(words[1], words[2], words[3:] == ['--pages'])
    else:
        sys.exit(__doc__)
