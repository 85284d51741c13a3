#!/usr/bin/env python3
"""Makes the captures of samples/ and their copies in crates/capture/data, where the gate's run of the program finds them, or checks both folders.

    tools/samples.py          writes them
    tools/samples.py check    exit 1 where one differs, or another file stands there

A capture is a column count in two bytes, low first, the columns' descriptors, then a row. Written byte by byte from document 01, without this codec.
"""
import pathlib
import struct
import sys
import uuid

ROOT = pathlib.Path(__file__).resolve().parent.parent
FOLDERS = ('samples', 'crates/capture/data')
COLLATION = bytes.fromhex('0904D00034')


def intn(width):
    return bytes((0x26, width))


def two(byte, length, collation=b''):
    return bytes((byte,)) + struct.pack('<H', length) + collation


def nvarchar(length):
    return two(0xE7, length, COLLATION)


def short(content):
    return struct.pack('<H', len(content)) + content


def plp(*chunks, total=None):
    """Long content: the total, or that it is unknown; the chunks; the end."""
    head = bytes.fromhex('FEFFFFFFFFFFFFFF') if total is None else struct.pack('<Q', total)
    return head + b''.join(struct.pack('<I', len(chunk)) + chunk for chunk in chunks) + bytes(4)


def text(letters):
    return letters.encode('utf-16-le')


def guid(name):
    return b'\x10' + uuid.UUID(name).bytes_le


def capture(*columns):
    """Columns as pairs of a descriptor and the value's bytes."""
    return struct.pack('<H', len(columns)) + b''.join(desc for desc, _ in columns) + b''.join(value for _, value in columns)


NOTE = 'Overhead line masts on the left from here on; the embankment is undercut at the culvert. Keep right of the fence until the relay hut.'
OUTLINE = b''.join(struct.pack('<ff', 12345.5 + 2 * n, 3.25 + n / 4) for n in range(12))

CORRIDOR = capture(
    (intn(4), b'\x04' + struct.pack('<i', 4711)),
    (nvarchar(80), short(text('Köping–Västerås, spår 2'))),
    (b'\x6D\x08', b'\x08' + struct.pack('<d', 12345.675)),
    (b'\x7F', struct.pack('<q', 12345675)),
    (b'\x6D\x04', b'\x04' + struct.pack('<f', -3.25)),
    (b'\x6D\x04', b'\x04' + struct.pack('<f', 4.1)),
    (b'\x24\x10', guid('3F2504E0-4F89-11D3-9A0C-0305E82C3301')),
    (b'\x68\x01', b'\x01\x01'),
    (nvarchar(40), b'\xFF\xFF'),
    (nvarchar(65535), plp(text(NOTE[:50]), text(NOTE[50:90]), text(NOTE[90:]))),
    (two(0xA5, 65535), plp(OUTLINE[:64], OUTLINE[64:], total=len(OUTLINE))))

EVERY_TYPE = capture(
    (b'\x30', b'\xC8'),
    (b'\x32', b'\x02'),
    (b'\x34', struct.pack('<h', -300)),
    (b'\x38', struct.pack('<i', -2)),
    (b'\x7F', struct.pack('<q', -2 ** 63)),
    (b'\x3B', struct.pack('<f', 0.1)),
    (b'\x3E', struct.pack('<d', 1 / 3)),
    (intn(8), b'\x01\x07'),
    (intn(2), b'\x00'),
    (b'\x68\x01', b'\x00'),
    (b'\x6D\x08', b'\x08' + bytes.fromhex('010000000000F87F')),
    (b'\x24\x10', b'\x00'),
    (two(0xAD, 4), short(bytes.fromhex('0004F7FF'))),
    (two(0xA5, 8000), short(b'')),
    (two(0xEF, 10, COLLATION), short(text('mast\0'))),
    (nvarchar(8), short(bytes.fromhex('610000D86200'))),
    (two(0xA5, 65535), bytes.fromhex('FFFFFFFFFFFFFFFF')),
    (nvarchar(65535), plp())) + b'\xD1\x02'

SAMPLES = {
    'corridor.tds': CORRIDOR,
    'every-type.tds': EVERY_TYPE,
    # the corridor, cut within the second chunk of its note
    'cut.tds': CORRIDOR[:CORRIDOR.index(text(NOTE[50:90])) + 30],
    # marked case 11 behind a good column: a total of 2, and a chunk of 3
    'wrong-total.tds': capture((intn(4), b'\x04\x01\x00\x00\x00'), (two(0xA5, 65535), plp(b'\xAA\xBB\xCC', total=2))),
    # the second descriptor has a type byte that no type has
    'unknown-type.tds': b'\x02\x00' + intn(4) + b'\x99\x04' + b'\x04\x01\x00\x00\x00',
}


def faults():
    for folder in FOLDERS:
        there = {path.name: path.read_bytes() for path in (ROOT / folder).iterdir()}
        for name in sorted(set(SAMPLES) | set(there)):
            if there.get(name) != SAMPLES.get(name):
                yield '%s/%s is not what tools/samples.py makes' % (folder, name)


if __name__ == '__main__':
    if sys.argv[1:] == ['check']:
        sys.exit('\n'.join(faults()) or 0)
    for folder in FOLDERS:
        (ROOT / folder).mkdir(parents=True, exist_ok=True)
        for name, made in SAMPLES.items():
            (ROOT / folder / name).write_bytes(made)
