"""Compares the tables of docs/INTEROP.md with what tshark, tsql (FreeTDS) and pytds say now.

    observe.py PAGE

A table is known by its first column's title. In "Descriptor" a row has the bytes of a descriptor and of a value, then, in the columns that bear a
program's name, what that program shows. In "Message" it is a prelogin message; in "Written by pytds" the front of what pytds writes. What the page says
stands in backquotes. Ends with 1 where a program says something else, and with 2 where the page has no such table.
"""
import pathlib
import re
import sys

import pytds

from page import quoted, tables
from programs import fetched, tshark, tsql_lines, with_pytds
from server import Server, packet, prelogin, result


# ---- what a program shows in the one row

def tsql(server):
    """A line, 'empty', or 'no row'."""
    lines, error = tsql_lines(server)
    if lines is None:
        return 'failed: ' + error
    return (lines[1] or 'empty') if len(lines) > 1 else 'no row'


def value(connection):
    value = fetched(connection)[0][0]
    return value.hex() if isinstance(value, bytes) else str(value)


def shown(text):
    """What tshark shows in the one row: its data, or 'malformed'."""
    row = text.rpartition('Token - Row')[2]
    if 'Malformed Packet' in row:
        return 'malformed'
    data = re.search(r'(?m)^ *Data: (.*)$', row)
    return data[1] if data else 'no row'


# ---- the tables

def of_descriptor(descriptor, content):
    answer = result([descriptor], [content])
    first = Server(answer)
    said = {'tsql': tsql(first), 'tshark': shown(tshark(first.talk))}
    said['pytds'] = with_pytds(Server(answer), value)
    return said


def of_message(message):
    """The sub-build of a prelogin message."""
    text = tshark([(True, packet(0x12, message)), (False, packet(4, prelogin()))])
    found = re.search(r'Sub-build: (\d+)', text)
    server = Server(result([b'\x26\x04'], [b'\x00']), message)
    return {
        'tshark': found[1] if found else 'none',
        'pytds': with_pytds(server, lambda connection: str(connection._conn.server_library_version[1])),
    }


def of_writing(count):
    """What pytds writes for a binary of so many bytes AA: from its type byte to the first content byte, and the last four bytes."""
    server = Server(result([b'\x26\x04'], [b'\x00']))

    def use(connection):
        connection.cursor().execute('select %s', (pytds.Binary(b'\xAA' * count),))
        message = b''.join(data[8:] for client, data in server.talk if client and data[0] == 3)
        front = message[message.rindex(b'\xA5', 0, message.index(b'\xAA' * count)):message.index(b'\xAA' * count)]
        return '%s .. %s' % (front.hex(' ').upper(), message[-4:].hex(' ').upper())

    return {'bytes': with_pytds(server, use)}


def main(path):
    seen, wrong = set(), 0
    for titles, cells in tables(pathlib.Path(path).read_text()):
        row = dict(zip(titles, cells))
        if titles[0] == 'Descriptor':
            said = of_descriptor(bytes.fromhex(quoted(row['Descriptor'])), bytes.fromhex(quoted(row['Value'])))
        elif titles[0] == 'Message':
            said = of_message(bytes.fromhex(quoted(row['Message'])))
        elif titles[0] == 'Written by pytds':
            said = of_writing(int(re.findall(r'[\d,]+', row['Written by pytds'])[0].replace(',', '')))
        else:
            continue
        seen.add(titles[0])
        for program, answer in said.items():
            agrees = quoted(row[program]) == answer
            wrong += not agrees
            print('%-5s %-8s %-48s %s' % ('ok' if agrees else 'WRONG', program, cells[0].replace('`', '')[:48], answer))
    print('\n%d said something else than the page' % wrong)
    if seen != {'Descriptor', 'Message', 'Written by pytds'}:
        sys.exit(2)
    sys.exit(1 if wrong else 0)


if len(sys.argv) != 2:
    sys.exit(__doc__)
main(sys.argv[1])
