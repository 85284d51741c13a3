"""Bytes that this codec writes at the time of the run, judged by tshark, tsql (FreeTDS) and pytds.

    written.py PAGE

The program `crates/replay`, compiled, writes descriptors, rows, normal forms, untyped values, prelogin messages and packet headers (codec.py); here COLMETADATA, the ROW tokens, DONE and the head of
an RPC request are put around them. Each program must show each value that was written, save those in the page's table "Under", and each of those must be seen. The page's table
"Judged" must have the counts. Ends with 1 where it is otherwise.
"""
import collections
import math
import pathlib
import re
import struct
import sys

import codec
import server
from page import quoted, tables
from programs import fetched, tshark, tsql_lines, with_pytds

PROGRAMS = ('tshark', 'tsql', 'pytds')


# ---- what is written

def whole(kind, bits):
    top = 1 << (bits - 1)
    return [(kind, n) for n in (0, 1, -1, 1 - top, -top, top - 1)]


F32 = [('f32', n) for n in (0.0, 1.5, -3.25, 0.10000000149011612, 3.4028234663852886e+38, 1.1754943508222875e-38, 1.401298464324817e-45)]
F64 = [('f64', n) for n in (0.0, 1.5, -12345.675, 0.1, math.pi, 1.7976931348623157e+308, 2.2250738585072014e-308, 5e-324)]
GUIDS = [('guid', '00112233445566778899aabbccddeeff'), ('guid', '3f2504e04f8911d39a0c0305e82c3301'), ('guid', '0' * 32)]
BYTES = [('binary', content) for content in (b'\xaa', b'\x00', b'\xaa\xbb\xcc', bytes(8))]
TEXTS = [('string', text) for text in ('a', 'hi', 'Köping', 'å–ö', 'h\U0001F600', '\U0001D11E\U0001F682')]
BITS, UNSIGNED = [('bit', False), ('bit', True)], [('u8', n) for n in (0, 1, 127, 128, 255)]
LONG_BYTES, LONG_TEXT = [('binary', bytes(range(256)) * 20)], [('string', 'Västerås \U0001F682 ' * 200)]
EMPTY_BYTES, EMPTY_TEXT = [('binary', b'')], [('string', '')]

# A column, and a row for each value.
UNDER = [
    ('Int1', UNSIGNED), ('Bit', BITS), ('Int2', whole('i16', 16)), ('Int4', whole('i32', 32)), ('Int8', whole('i64', 64)), ('Float4', F32), ('Float8', F64),
    ('Intn:1', [None] + UNSIGNED), ('Intn:2', [None] + whole('i16', 16)), ('Intn:4', [None] + whole('i32', 32)), ('Intn:8', [None] + whole('i64', 64)),
    ('Bitn:1', [None] + BITS), ('Floatn:4', [None] + F32), ('Floatn:8', [None] + F64), ('Guid:16', [None] + GUIDS),
    ('BigBinary:8', [None] + EMPTY_BYTES + BYTES), ('BigVarBin:8', [None] + EMPTY_BYTES + BYTES), ('BigVarBin:8000', [None] + LONG_BYTES),
    ('BigVarBin:65535', [None] + EMPTY_BYTES + BYTES + LONG_BYTES),
    ('NChar:12', [None] + EMPTY_TEXT + TEXTS), ('NVarchar:12', [None] + EMPTY_TEXT + TEXTS), ('NVarchar:8000', [None] + LONG_TEXT),
    ('NVarchar:65535', [None] + EMPTY_TEXT + TEXTS + LONG_TEXT),
]
# Every descriptor that can be a column, with numbers that a server sends.
DESCRIBED = ['Int1', 'Bit', 'Int2', 'Int4', 'Int8', 'Float4', 'Float8', 'Money', 'Money4', 'Datetime', 'Datetime4', 'Guid:16', 'Intn:1', 'Intn:2', 'Intn:4', 'Intn:8', 'Bitn:1',
             'Decimaln:17:38:4', 'Numericn:5:9:2', 'Floatn:4', 'Floatn:8', 'Moneyn:8', 'Datetimen:8', 'Daten:3', 'Timen:7', 'Datetime2:7', 'DatetimeOffsetn:7', 'BigVarBin:8000',
             'BigVarBin:65535', 'BigVarChar:8000', 'BigVarChar:65535', 'BigBinary:20', 'BigChar:20', 'NVarchar:8000', 'NVarchar:65535', 'NChar:20', 'Image:2147483647', 'Text:2147483647',
             'NText:2147483646', 'Xml']
TWENTY = ['Int4', 'NVarchar:80', 'Float8', 'Intn:8', 'Floatn:4', 'Guid:16', 'Bitn:1', 'NVarchar:65535', 'BigVarBin:65535', 'Intn:2', 'Int2', 'Int8', 'Bit', 'Float4', 'Intn:4', 'NChar:12', 'BigVarBin:8',
          'Floatn:8', 'BigBinary:8', 'NVarchar:8000']
TWENTY_ROWS = [
    [('i32', 4711), ('string', 'Köping–Västerås, spår 2'), ('f64', 12345.675), ('i64', 12345675), ('f32', -3.25), GUIDS[1], ('bit', True), ('string', 'Overhead line masts on the left \U0001F682'), LONG_BYTES[0], ('i16', -2),
     ('i16', 7), ('i64', -1), ('bit', False), ('f32', 1.5), ('i32', 0), ('string', 'spår'), ('binary', b'\xaa\xbb'), ('f64', 0.1), ('binary', bytes(range(8))), LONG_TEXT[0]],
    [('i32', -1), None, ('f64', -1.0), None, None, None, None, None, None, None, ('i16', 0), ('i64', 0), ('bit', True), ('f32', 0.0), None, None, None, None, None, None],
    [('i32', 0), ('string', 'x'), ('f64', 5e-324), ('i64', 1), ('f32', 1.5), GUIDS[0], ('bit', False), ('string', 'a'), ('binary', b'\x00'), ('i16', 1), ('i16', -7), ('i64', 1 << 62), ('bit', True), ('f32', 2.5), ('i32', 9),
     ('string', 'hi'), ('binary', b'\x01'), ('f64', 3.5), ('binary', b'\xff' * 8), ('string', 'end')],
]
UNTYPED = BITS + UNSIGNED + whole('i16', 16) + whole('i32', 32) + whole('i64', 64) + F32 + F64 + GUIDS + EMPTY_BYTES + BYTES + EMPTY_TEXT + TEXTS + [
    ('binary', b'\xaa' * 8000), ('binary', b'\xaa' * 8001), ('string', 'a' * 4000), ('string', 'a' * 4001)]
PRELOGINS = [dict(version=v, sub_build=b, encryption=e, thread_id=t, mars=m, fedauth=f) for v, b, e, t, m, f in (
    (0x0B000C38, 0x0101, 0, 0, 0, False), (0x0B000C38, 0x0101, 1, 1, 1, True), (0x0C000000, 0, 2, 0xDEADBEEF, 0, False), (0x10000406, 0x0202, 2, 0, 0, True), (0x10000406, 0x0303, 3, 0xFFFFFFFF, 1, False))]
# Headers: each packet type that document 01 lists, and each status; length, SPID, id and window at their ends.
HEADERS = [(kind, 1, 8, 51, 1, 0) for kind in (1, 2, 3, 4, 6, 7, 8, 14, 16, 17, 18)] + [(4, status, 8, 0xFFFE, 255, 255) for status in (0, 3, 8, 16)]


def chunked(*chunks):
    """A PLP value of unknown length in chunks, as a server may send it."""
    return struct.pack('<Q', 0xFFFFFFFFFFFFFFFE) + b''.join(struct.pack('<I', len(chunk)) + chunk for chunk in chunks) + bytes(4)


# A row that came in three chunks in two of its columns, and what it holds.
CHUNKED = ['Intn:4', 'BigVarBin:65535', 'NVarchar:65535', 'Bitn:1']
CAME = b'\x04\xfe\xff\xff\xff' + chunked(b'\xaa', b'\xbb\xcc', b'\xdd') + chunked(*(part.encode('utf-16-le') for part in ('Väst', 'erås \U0001F682', '!'))) + b'\x01\x07'
HELD = [('i32', -2), ('binary', b'\xaa\xbb\xcc\xdd'), ('string', 'Västerås \U0001F682!'), ('bit', True)]


# ---- what a program shows, and whether it is what was written

class Shown:
    """What tshark shows of a value: its text, which may be only the front, and the bytes that it counted."""

    def __init__(self, lines):
        data = re.search(r'(?m)^ *Data(?: \[truncated\])?: ?(.*)$', lines)
        counts = [int(n) for n in re.findall(r'(?m)^ *(?:PLP chunk length|Length): (\d+)', lines)]
        self.count = sum(counts)
        self.null = 'PLP_NULL' in lines or 'NULLTYPE' in lines or data is not None and data[1] == 'NULL' and ('CHARBIN_NULL' in lines or counts == [0])
        self.text = '' if data is None else data[1]
        self.front = '[truncated]' in lines or self.text.endswith('…')
        if self.text == '<MISSING>' and not self.count:
            self.text = ''

    def __str__(self):
        return 'NULL' if self.null else self.text


def same_content(wanted, shown):
    """Does tshark show this content? Of a long one it shows the front, and counts the bytes."""
    return wanted.startswith(shown.text.rstrip('…')) and len(shown.text) > 60 if shown.front else wanted == shown.text


def shows(program, value, shown):
    """Is this the value that was written?"""
    if value is None:
        return shown.null if program == 'tshark' else shown == 'NULL' if program == 'tsql' else shown is None
    if program == 'tshark' and shown.null or shown is None:
        return False
    kind, content = value
    if program == 'tshark' and kind in ('binary', 'string'):
        size = len(content if kind == 'binary' else content.encode('utf-16-le'))
        return shown.count == size and same_content(content.hex() if kind == 'binary' else content, shown)
    text = shown if program == 'pytds' else str(shown)
    try:
        if kind == 'bit':
            return text is content if program == 'pytds' else text == (str(content) if program == 'tshark' else str(int(content)))
        if program == 'tshark' and kind in ('f32', 'f64'):
            return text == ('%.6g' if kind == 'f32' else '%.15g') % content
        if kind in ('f32', 'f64'):
            form = '<f' if kind == 'f32' else '<d'
            return struct.pack(form, float(text)) == struct.pack(form, content)
        if kind == 'guid':
            return str(text).replace('-', '').lower() == content
        if kind == 'binary':
            return (text.hex() if program == 'pytds' else text) == content.hex()
        return text == content if kind == 'string' else int(text) == content
    except (ValueError, OverflowError, AttributeError):
        return False


def label(value):
    """A value in words of the page."""
    if value is None:
        return 'null'
    kind, content = value
    if kind in ('binary', 'string') and len(content) > 40:
        return '%s of %d' % (kind, len(content))
    return ('%s %s' % (kind, content.hex(' ').upper() if kind == 'binary' else content)).strip()


def briefly(shown):
    text = shown.hex() if isinstance(shown, bytes) else str(shown)
    return text if len(text) <= 60 else text[:60] + ' ..'


# ---- the programs on a result

def by_tsql(answer, packets, columns, rows):
    lines, error = tsql_lines(server.Server(answer, packets=packets))
    found = [line.split('\t') for line in (lines or [])[1:]]
    return found if lines and len(found) == rows and all(len(line) == columns for line in found) else error or 'tsql: %d rows of %s' % (len(found), [len(line) for line in found][:3])


def by_pytds(answer, packets, columns, rows):
    found = with_pytds(server.Server(answer, packets=packets), fetched)
    return found if isinstance(found, list) and len(found) == rows and all(len(row) == columns for row in found) else 'pytds: %s' % (found,)


def by_tshark(talk, columns, rows):
    text = tshark(talk)
    if 'Malformed' in text:
        return 'tshark: malformed'
    parts = [re.split(r'(?m)^ {4}Token - ', part)[0] for part in re.split(r'(?m)^ {4}Token - Row$', text)[1:]]
    found = [[Shown(field) for field in re.split(r'(?m)^ {8}Field \d+', part)[1:]] for part in parts]
    return found if len(found) == rows and all(len(row) == columns for row in found) else 'tshark: %d rows of %s' % (len(found), [len(row) for row in found][:3])


class Judged:
    """Counts, and compares with what the page lists."""

    def __init__(self, page):
        listed = [dict(zip(titles, cells)) for titles, cells in tables(page) if titles[0] == 'Under']
        self.listed = {(quoted(row['Under']), quoted(row['Written']), program): quoted(row[program]) for row in listed for program in PROGRAMS if row[program]}
        self.unseen = set(self.listed)
        self.counts = collections.defaultdict(collections.Counter)
        self.wrong = 0

    def say(self, what, program, right, under, value, shown):
        key = (under, label(value), program)
        if right:
            state = 'as written'
        elif self.listed.get(key) == briefly(shown):
            state = 'listed'
            self.unseen.discard(key)
        else:
            state = 'WRONG'
            self.wrong += 1
        self.counts[what, program][state] += 1
        print('%-10s %-7s %-18s %-34s %s' % (state, program, under, label(value), briefly(shown)))

    def values(self, what, columns, rows, said):
        """The values of a result, as each program read them; a program that read no such result has read none of them."""
        for program, found in said.items():
            for number, row in enumerate(rows):
                for column, value in enumerate(row):
                    shown = found[number][column] if isinstance(found, list) else found
                    right = isinstance(found, list) and shows(program, value, shown)
                    self.say(what, program, right, columns[column], value, shown)

    def fact(self, what, program, under, wanted, shown):
        self.say(what, program, wanted == shown, under, ('', wanted), shown)

    def table(self):
        names = list(dict.fromkeys(what for what, _ in self.counts))
        for what in names:
            cells = []
            for program in PROGRAMS:
                count = self.counts.get((what, program))
                cells.append('' if count is None else '%d of %d' % (count['as written'], sum(count.values())))
            yield '| %s | %s |' % (what, ' | '.join(cells))


# ---- the judging

def results(judged):
    """Results of rows: every type, 20 columns, the normal form of chunks."""
    wanted = [('values under a type', [column], [[value] for value in values]) for column, values in UNDER]
    wanted += [('rows of 20 columns', TWENTY, TWENTY_ROWS), ('normal form of a row of three chunks', CHUNKED, [HELD])]
    descriptors = iter(codec.written([codec.descriptor(column) for _, columns, _ in wanted for column in columns]))
    rows = iter(codec.written([codec.row(columns, row) for _, columns, rows in wanted[:-1] for row in rows] + [codec.normal(CHUNKED, CAME)]))
    for what, columns, values in wanted:
        judge_result(judged, what, columns, values, [next(descriptors) for _ in columns], [next(rows) for _ in values])


def own_packets(answer):
    """What a server sends that gives this answer, in packets whose headers the program wrote."""
    bodies = (answer, server.prelogin(), server.logged_in(), server.done(0))
    known = dict(zip(bodies, codec.packets([(4, body) for body in bodies])))
    return lambda kind, body: known[body]


def judge_result(judged, what, columns, values, descriptors, rows):
    answer = server.result(descriptors, rows)
    packets, size = own_packets(answer), (len(columns), len(values))
    said = {
        'tshark': by_tshark([(False, packet) for packet in packets(4, answer)], *size),
        'tsql': by_tsql(answer, packets, *size),
        'pytds': by_pytds(answer, packets, *size),
    }
    judged.values(what, columns, values, said)


def descriptions(judged):
    """Every descriptor, in one result without a row. Text, NText and Image have a table's name behind them."""
    found = codec.written([codec.descriptor(word) for word in DESCRIBED])
    table = b'\x01' + struct.pack('<H', 1) + 't'.encode('utf-16-le')
    answer = server.result([bytes_ + (table if word.split(':')[0] in ('Image', 'Text', 'NText') else b'') for word, bytes_ in zip(DESCRIBED, found)], [])
    first = server.Server(answer)
    lines, error = tsql_lines(first)
    columns = re.split(r'(?m)^ {8}Column \d+$', tshark(first.talk))[1:]
    cells = with_pytds(server.Server(answer), described)
    for number, word in enumerate(DESCRIBED):
        wanted = column_wanted(word)
        judged.fact('descriptors', 'tshark', word, wanted, column_shown(columns[number]) if len(columns) == len(DESCRIBED) else '%d columns' % len(columns))
        judged.fact('descriptors', 'tsql', word, 'a column', 'a column' if lines and len(lines[0].split('\t')) == len(DESCRIBED) else error)
        judged.fact('descriptors', 'pytds', word, 'a column', 'a column' if isinstance(cells, tuple) and len(cells) == len(DESCRIBED) else str(cells))


def column_wanted(word):
    """What tshark should show of a column, in the words of column_shown."""
    name, *numbers = word.split(':')
    titles = {'Daten': (), 'Timen': ('scale',), 'Datetime2': ('scale',), 'DatetimeOffsetn': ('scale',)}.get(name, ('size', 'precision', 'scale'))
    text = 'type %d' % codec.ask.TYPES[name] + ''.join(', %s %s' % pair for pair in zip(titles, numbers))
    return text + (', collation %d %d' % tuple(codec.ask.COLLATION) if name in codec.ask.COLLATED else '')


def described(connection):
    cursor = connection.cursor()
    cursor.execute('select 1')
    return cursor.description


def column_shown(lines):
    """A column of COLMETADATA as tshark shows it."""
    def number(title):
        found = re.search(r'(?m)^ {12}%s: (0x[0-9a-f]+|\d+)' % title, lines)
        return None if found is None else int(found[1], 0)

    text = 'type %d' % number('Type')
    for title, name in (('Type size', 'size'), ('Large type size', 'size'), ('Precision', 'precision'), ('Scale', 'scale')):
        if number(title) is not None:
            text += ', %s %d' % (name, number(title))
    if number('Collate codepage') is not None:
        text += ', collation %d %d' % (number('Collate codepage') | number('Collate flags') << 16, number('Collate charset ID'))
    return text


def rpc(parameter):
    """A call of sp_executesql with one parameter: the head, then the untyped value's own bytes."""
    return struct.pack('<IIHQI', 22, 18, 2, 0, 1) + b'\xff\xff' + struct.pack('<HH', 10, 0) + server.counted('@p') + b'\x00' + parameter


def untyped(judged):
    """Untyped values: as the parameter of an RPC request for tshark, and cut at the descriptor's end as a column and its row."""
    values = [None] + UNTYPED
    found = codec.written([codec.untyped(value) for value in values])
    for value, packets in zip(values, codec.packets([(3, rpc(part)) for part in found])):
        text = tshark([(True, packet) for packet in packets])
        parameter = text.rpartition('Type info')[2]
        shown = 'malformed' if 'Malformed' in text or not parameter else Shown(parameter)
        judged.say('untyped values in an RPC request', 'tshark', isinstance(shown, Shown) and shows('tshark', value, shown), 'untyped', value, shown)
    ends = codec.type_ends(found[1:])
    for value, part, end in zip(values[1:], found[1:], ends):
        answer = server.result([part[:end]], [part[end:]])
        packets = own_packets(answer)
        said = {'tsql': by_tsql(answer, packets, 1, 1), 'pytds': by_pytds(answer, packets, 1, 1)}
        judged.values('untyped values as a column', ['untyped'], [[value]], said)


def messages(judged):
    """Prelogin messages: a client's for tshark, a server's greeting for the two clients."""
    found = codec.written([codec.prelogin(**fields) for fields in PRELOGINS])
    answer = server.result([b'\x26\x04'], [b'\x04\x07\x00\x00\x00'])
    for fields, message, [packet] in zip(PRELOGINS, found, codec.packets([(18, message) for message in found])):
        text = tshark([(True, packet)])
        names = {'Version': 'version', 'Sub-build': 'sub-build', 'Encryption': 'encryption', 'ThreadID': 'thread', 'MARS': 'MARS', 'FedAuthRequired': 'fedauth'}
        shown = ', '.join('%s %s' % (name, re.sub(r'.*\((\d+)\)$', r'\1', found[1])) for title, name in names.items() for found in [re.search(r'(?m)^ {12}%s: (.*)$' % title, text)] if found)
        version = fields['version']
        wanted = 'version %d.%d.%d, sub-build %d, encryption %d, thread %d, MARS %d' % (version >> 24, version >> 16 & 255, version & 65535, fields['sub_build'], fields['encryption'], fields['thread_id'], fields['mars'])
        judged.fact('prelogin messages', 'tshark', 'prelogin', wanted + (', fedauth 1' if fields['fedauth'] else ''), shown)
        if fields['encryption'] == 2:       # the others begin TLS, which the server here does not have
            lines, error = tsql_lines(server.Server(answer, message))
            judged.fact('prelogin messages', 'tsql', 'prelogin', 'logged in', 'logged in' if lines == ['x', '7'] else error)
            said = with_pytds(server.Server(answer, message), lambda connection: 'version %d, sub-build %d' % connection._conn.server_library_version)
            judged.fact('prelogin messages', 'pytds', 'prelogin', 'version %d, sub-build %d' % (version, fields['sub_build']), said)


HEADER = re.compile(r'(?m)^ {4}Type: .*\((\d+)\)\n {4}Status: 0x(\w+).*\n(?: {8}.*\n)*? {4}Length: (\d+)\n {4}Channel: (\d+)\n {4}Packet Number: (\d+)\n {4}Window: (\d+)$')


def headers_shown(text):
    """The headers that tshark shows, each as its six numbers."""
    return [' '.join(str(int(number, 16 if at == 1 else 10)) for at, number in enumerate(found)) for found in HEADER.findall(text)]


def headers(judged):
    """Headers of packets without a body, and those of a message of several packets."""
    for numbers, head in zip(HEADERS, codec.written([{'op': 'header_write', 'room': 8, 'header': list(numbers)} for numbers in HEADERS])):
        shown = headers_shown(tshark([(numbers[0] != 4, head)]))
        judged.fact('packet headers', 'tshark', 'header', ' '.join(map(str, numbers)), shown[0] if len(shown) == 1 else '%d headers' % len(shown))
    [descriptor, row] = codec.written([codec.descriptor('BigVarBin:65535'), codec.row(['BigVarBin:65535'], LONG_BYTES)])
    [packets] = codec.packets([(4, server.result([descriptor], [row] * 3))])
    shown = headers_shown(tshark([(False, packet) for packet in packets]))
    for number, packet in enumerate(packets, 1):
        wanted = '4 %d %d 51 %d 0' % (number == len(packets), len(packet), number)
        judged.fact('packet headers', 'tshark', 'header', wanted, shown[number - 1] if len(shown) == len(packets) else '%d headers' % len(shown))


def main(path):
    page = pathlib.Path(path).read_text()
    judged = Judged(page)
    for part in (descriptions, results, untyped, messages, headers):
        part(judged)
    print('\n| Judged | %s |' % ' | '.join(PROGRAMS))
    for line in judged.table():
        on_page = line in page.splitlines()
        judged.wrong += not on_page
        print(line + ('' if on_page else '    WRONG: the page does not say so'))
    for key in sorted(judged.unseen):
        print('WRONG: the page lists, and it was not seen: %s, %s, %s' % key)
    print('\n%d said something else than the page' % (judged.wrong + len(judged.unseen)))
    sys.exit(1 if judged.wrong or judged.unseen else 0)


if len(sys.argv) != 2:
    sys.exit(__doc__)
main(sys.argv[1])
