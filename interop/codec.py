"""The project's own program, asked for bytes: `crates/replay`, compiled, by the frames of cases/PROTOCOL.md. It is proved and built first where need be."""
import importlib.machinery
import importlib.util
import pathlib
import struct
import subprocess
import sys

ROOT = pathlib.Path(__file__).resolve().parent.parent
loader = importlib.machinery.SourceFileLoader('ask', str(ROOT / 'ask'))
ask = importlib.util.module_from_spec(importlib.util.spec_from_loader('ask', loader))
loader.exec_module(ask)


def answers(questions):
    """The program's line for each case."""
    asked = b''.join(map(ask.cases.request, questions))
    done = subprocess.run(ask.program.command('replay'), input=asked, stdout=subprocess.PIPE, check=True)
    lines = done.stdout.decode().splitlines()
    if len(lines) != len(questions):
        sys.exit('the program answered %d of %d' % (len(lines), len(questions)))
    return lines


def written(questions):
    """The bytes that the program wrote for each case. A refusal, or another byte of the room changed, is a fault."""
    found = []
    for question, line in zip(questions, answers(questions)):
        words = line.split()
        if words[0] != 'ok' or words[-2:] != ['changed', '0']:
            sys.exit('the program does not write %s: %s' % (question, line))
        found.append(bytes.fromhex(words[-3].strip('-')))
    return found


def given(value):
    """A value of the case's form, and the content that it points to: None is null, else a kind and a number, a truth, a GUID in text order, bytes or a text."""
    if value is None:
        return {'k': 'null'}, b''
    kind, content = value
    if kind in ('binary', 'string'):
        return {'k': kind}, content.encode() if kind == 'string' else content
    if kind in ('f32', 'f64'):
        content = int.from_bytes(struct.pack('>f' if kind == 'f32' else '>d', content), 'big')
    return {'k': kind, 'v': content}, b''


def placed(values):
    """Values whose contents stand in one buffer."""
    found, buffer = [], b''
    for value in values:
        record, content = given(value)
        if record['k'] in ('binary', 'string'):
            record.update(start=len(buffer), count=len(content))
        buffer += content
        found.append(record)
    return found, buffer.hex()


ROOM = 200000


def descriptor(column):
    return {'op': 'type_write', 'room': ROOM, 'desc': ask.column(column), 'in': ''}


def row(columns, values):
    records, buffer = placed(values)
    return {'op': 'row_write', 'room': ROOM, 'cols': [ask.column(word) for word in columns], 'values': records, 'in': buffer}


def normal(columns, raw):
    return {'op': 'normal', 'room': ROOM, 'at': 0, 'cols': [ask.column(word) for word in columns], 'in': raw.hex()}


def untyped(value):
    records, buffer = placed([value])
    return {'op': 'untyped_write', 'room': ROOM, 'value': records[0], 'in': buffer}


def header(kind, status, length, number):
    return {'op': 'header_write', 'room': 8, 'header': [kind, status, length, 51, number, 0]}


def prelogin(**fields):
    return dict({'op': 'prelogin_write', 'room': 64}, **fields)


def type_ends(messages):
    """Where the descriptor ends that each of these begins with, by the program's own reader."""
    return [int(line.split()[1]) for line in answers([{'op': 'type_read', 'at': 0, 'in': message.hex()} for message in messages])]


MOST = 4096 - 8


def packets(messages):
    """(packet type, message) as packets of 4,096 bytes at most, each behind a header that the program wrote: a list for each message."""
    parts = [(kind, [body[at:at + MOST] for at in range(0, len(body), MOST)] or [b'']) for kind, body in messages]
    asked = [header(kind, int(number == len(cut)), 8 + len(part), number) for kind, cut in parts for number, part in enumerate(cut, 1)]
    heads = iter(written(asked))
    return [[next(heads) + part for part in cut] for _, cut in parts]
