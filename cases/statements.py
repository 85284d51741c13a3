"""A case as an equation about the definitions of crates/format/specs. definitions.py has them judged.

A statement says all that the case's line says: the answer, the refusal's number (`number`), the place behind what was read, and the room afterwards
(`room_after`, `room_after_read`), which is full of A5 before. Content is compared, and not the spans at which a reader finds it: those are the code's, and the
replay program compares them.
"""
import re

from cases import unhx

FAMILIES = {
    ('fixed_len', 'FixedLen'): {0x1F: 'null', 0x30: 'int1', 0x32: 'bit', 0x34: 'int2', 0x38: 'int4', 0x3A: 'datetime4', 0x3B: 'float4', 0x3C: 'money',
                                0x3D: 'datetime', 0x3E: 'float8', 0x7A: 'money4', 0x7F: 'int8'},
    ('byte_len', 'ByteLen'): {0x24: 'guid', 0x26: 'intn', 0x68: 'bitn', 0x6A: 'decimaln', 0x6C: 'numericn', 0x6D: 'floatn', 0x6E: 'moneyn',
                              0x6F: 'datetimen', 0x29: 'timen', 0x2A: 'datetime2', 0x2B: 'datetime_offsetn'},
    ('u_short_len', 'UShortLen'): {0xA5: 'big_var_bin', 0xA7: 'big_var_char', 0xAD: 'big_binary', 0xAF: 'big_char', 0xE7: 'n_varchar', 0xEF: 'n_char'},
    ('long_len', 'LongLen'): {0x22: 'image', 0x23: 'text', 0x63: 'n_text'},
}
OTHERS = {0x28: 'daten', 0xF1: 'xml', 0xF0: 'udt', 0x62: 'ss_variant'}
# Ops that are the replay program's own and say nothing of the format.
NOT_OF_THE_FORMAT = ('self_test',)
# What the statements are made of, beside the definitions: a file of the trial crate.
LINE = '''-- A line of the replay program, in the words of the definitions.
use Rattle.std.specs.Prelude.{ℕ, zero, suc, List, [], ◌∷◌, ◌++◌}
use Rattle.format.specs.Answer.{Answer, gives, refuses, Read, took, stops, number, fitted, wrote, room_after, fitted_read, room_after_read, map_read, part}
use Rattle.format.specs.Number.{read_bytes}
use Rattle.format.specs.Guid.{guid_order}
use Rattle.format.specs.Descriptor.{Schema}

-- n times the same elements in front of others.
abbrev pub rep : {A : Type 0} → ℕ → List A → List A → List A
rep zero unit rest = rest
rep (suc n) unit rest = unit ++ rep n unit rest

-- The same for one element, and for two in turn.
abbrev pub run : {A : Type 0} → ℕ → A → List A → List A
run zero a rest = rest
run (suc n) a rest = a ∷ run n a rest

abbrev pub run_two : {A : Type 0} → ℕ → A → A → List A → List A
run_two zero a b rest = rest
run_two (suc n) a b rest = a ∷ b ∷ run_two n a b rest

-- The room before a call.
abbrev pub filler : ℕ → List ℕ
filler n = run n 0xA5 []

-- A schema's three names, parts of one lent buffer.
abbrev pub named : List ℕ → ℕ → ℕ → ℕ → ℕ → ℕ → ℕ → Schema
named buffer a n b m c k = record { database = part buffer a n; owner = part buffer b m; collection = part buffer c k }

-- Answered: what, and the room afterwards. Refused: the number, and the room afterwards.
pub data Line (A : Type 0) : Type 0 where
  ok : A → List ℕ → Line A
  no : ℕ → List ℕ → Line A

abbrev pub line : {A : Type 0} → Answer A → List ℕ → Line A
line (gives v) out = ok v out
line (refuses e) out = no (number e) out

abbrev pub written : Answer (List ℕ) → List ℕ → Line ℕ
written answer out = line (wrote answer) (room_after answer out)

abbrev pub writing : Answer (List ℕ) → ℕ → Line ℕ
writing given size = written (fitted given size) (filler size)

abbrev pub read : {A : Type 0} → (A → List ℕ) → Read A → List ℕ → Line (Read A)
read copied (took v n) out = ok (took v n) (room_after_read copied (took v n) out)
read copied (stops e) out = no (number e) (room_after_read copied (stops e) out)

-- A reader that copies content out, and one that copies nothing.
abbrev pub copying : {A : Type 0} → (A → List ℕ) → Read A → ℕ → Line (Read A)
copying copied answer size = read copied (fitted_read copied answer size) (filler size)

abbrev pub nothing : {A : Type 0} → A → List ℕ
nothing v = []

abbrev pub reading : {A : Type 0} → Read A → Line (Read A)
reading answer = read nothing answer []

-- Sixteen bytes in wire order, read in text order.
abbrev pub read_guid : List ℕ → Read (List ℕ)
read_guid s = map_read guid_order (read_bytes 16 s)
'''


# ------------------------------------------------------------------ terms

def listed(terms, tail='[]'):
    return '(%s%s)' % (''.join(term + ' ∷ ' for term in terms), tail)


def repeated(terms, times, tail='[]'):
    if times == 1:
        return listed(terms, tail)
    if len(terms) < 3:
        return '(%s %d %s %s)' % (('run', 'run_two')[len(terms) - 1], times, ' '.join(terms), tail)
    return '(rep %d %s %s)' % (times, listed(terms), tail)


def bytes_(raw, tail='[]'):
    """A list of bytes in front of a tail; long runs by `rep`."""
    term, last = tail, len(raw)
    for m in reversed(list(re.finditer(rb'(?s)(.{1,3}?)\1{63,}', raw))):
        if m.end() < last:
            term = listed(map(str, raw[m.end():last]), term)
        term = repeated(list(map(str, m[1])), len(m[0]) // len(m[1]), term)
        last = m.start()
    return listed(map(str, raw[:last]), term)


def truth(b):
    return 'true' if b else 'false'


def option(term):
    return 'None' if term is None else '(Some %s)' % term


def record(**fields):
    return '(record { %s })' % '; '.join('%s = %s' % item for item in fields.items())


def type_(number):
    for (constructor, family), names in FAMILIES.items():
        if number in names:
            return '(%s %s.%s)' % (constructor, family, names[number])
    return OTHERS[number]


def column(d, schema):
    """A column; schema(spans) is the term of a schema."""
    collation, names = d.get('coll'), d.get('xml')
    return record(
        type=type_(d['t']), length=d.get('len', 0), precision=d.get('p', 0), scale=d.get('s', 0),
        collation=option(collation and record(info=collation[0], sort=collation[1])), schema=option(names and schema(names)))


def scalar(v):
    kind, content = v['k'], v['v']
    if kind == 'bit':
        term = truth(content)
    elif kind == 'guid':
        term = bytes_(bytes.fromhex(content))
    elif kind in ('i16', 'i32', 'i64'):
        term = '(pos %d)' % content if content >= 0 else '(negsuc %d)' % (-content - 1)
    else:
        term = str(content)
    return '(Scalar.%s %s)' % (kind, term)


def given(v, buffer):
    if v['k'] == 'null':
        return 'Given.null'
    if v['k'] in ('binary', 'string'):
        return '(Given.%s (part %s %d %d))' % (v['k'], buffer, v['start'], v['count'])
    return '(Given.scalar %s)' % scalar(v)


def value(v):
    if v['k'] == 'null':
        return 'Value.null'
    if v['k'] in ('binary', 'string'):
        return '(Value.%s %s)' % (v['k'], bytes_(unhx(v['content'])))
    return '(Value.scalar %s)' % scalar(v)


def values(vs):
    """A list of values, the same ones in a row by `rep`."""
    if len(vs) > 63 and all(v == vs[0] for v in vs):
        return repeated([value(vs[0])], len(vs))
    return listed(map(value, vs))


def walk(w):
    return record(at=w['at'], sum=w['sum'], total=option(None if w['total'] is None else str(w['total'])), text=truth(w['text']), ended=truth(w['ended']))


def header(h):
    return record(**dict(zip(('type', 'status', 'length', 'spid', 'id', 'window'), h)))


# ------------------------------------------------------------------ statements

class Statement:
    """A case's equation, its two sides."""

    def __init__(self, case):
        self.case, self.want = case, case['want']
        self.raw, self.at = unhx(case.get('in', '')), case.get('at', 0)
        self.left, self.right = getattr(self, case['op'])()

    def lent(self, spans):
        return '(named %s %s)' % (bytes_(self.raw), ' '.join('%d %d' % (start, 2 * units) for start, units in spans))

    def found(self, spans):
        names = ['(inside %s)' % bytes_(self.raw[start:start + 2 * units]) for start, units in spans]
        return record(database=names[0], owner=names[1], collection=names[2])

    def column(self):
        return column(self.case['desc'], self.lent)

    def columns(self):
        return repeated([column(d, self.lent) for d in self.case['cols']], self.case.get('ncols', 1))

    def read_at(self, reader):
        return '(read_at %s %s %d)' % (reader, bytes_(self.raw), self.at)

    def wanted(self, answered):
        """The line: answered(ok) is what was answered; the room is A5 but for the bytes written at its front."""
        room, ok = self.case.get('room'), self.want.get('ok')
        out = unhx(ok['out']) if ok and room is not None else b''
        after = '[]' if room is None else bytes_(out, '(filler %d)' % (room - len(out)))
        return 'no %d %s' % (self.want['no'], after) if ok is None else 'ok %s %s' % (answered(ok), after)

    def took(self, term):
        return self.wanted(lambda ok: '(took %s %d)' % (term(ok), ok['next']))

    def reading(self, reader, term):
        return 'reading %s' % self.read_at(reader), self.took(term)

    def copying(self, copied, reader, term):
        return 'copying %s %s %d' % (copied, self.read_at(reader), self.case['room']), self.took(term)

    def writing(self, writer):
        return 'writing (%s) %d' % (writer, self.case['room']), self.wanted(lambda ok: str(len(unhx(ok['out']))))

    def header_read(self):
        return self.reading('read_header', lambda ok: header(ok['header']))

    def header_write(self):
        return self.writing('write_header ' + header(self.case['header']))

    def prelogin_write(self):
        c = self.case
        return self.writing('write_prelogin ' + record(
            version=c['version'], sub_build=c['sub_build'], encryption=c['encryption'], thread_id=c['thread_id'], mars=truth(c['mars']),
            fed_auth_required=truth(c['fedauth'])))

    def type_read(self):
        return self.reading('read_column', lambda ok: column(ok['desc'], self.found))

    def type_write(self):
        return self.writing('write_column ' + self.column())

    def value_read(self):
        c = self.column()
        return self.copying('(copied_out %s)' % c, '(read_value %s)' % c, lambda ok: value(ok['value']))

    def value_write(self):
        return self.writing('write_value %s %s' % (self.column(), given(self.case['value'], bytes_(self.raw))))

    def untyped_write(self):
        return self.writing('write_untyped ' + given(self.case['value'], bytes_(self.raw)))

    def row_read(self):
        cs = self.columns()
        return self.copying('(copied_out_row %s)' % cs, '(read_row %s)' % cs, lambda ok: values(ok['values']))

    def row_write(self):
        vs = [given(v, bytes_(self.raw)) for v in self.case['values']]
        return self.writing('write_row %s %s' % (self.columns(), repeated(vs, self.case.get('nvalues', 1))))

    def normal(self):
        return self.copying('(λ (b : List ℕ). b)', '(normal %s)' % self.columns(), lambda ok: bytes_(unhx(ok['out'])))

    def walk_open(self):
        return 'reading (open_walk %s %s %d)' % (truth(self.case['text']), bytes_(self.raw), self.at), self.took(lambda ok: option(ok['walk'] and walk(ok['walk'])))

    def walk(self):
        walked = 'walk_chunks %d %s %s' % (self.case['allowed'], bytes_(self.raw), walk(self.case['walk']))
        return 'line (%s) []' % walked, self.wanted(lambda ok: record(walk=walk(ok['walk']), taken=ok['taken']))

    def text_in(self):
        return self.writing('text_in ' + bytes_(self.raw))

    def text_out(self):
        return self.writing('text_out ' + bytes_(self.raw))

    def guid(self):
        return 'guid_order ' + bytes_(self.raw), bytes_(unhx(self.want['ok']['out']))

    def guid_read(self):
        return self.reading('read_guid', lambda ok: bytes_(unhx(ok['out'])))

    def number(self):
        return self.reading('(read_low %d)' % self.case['width'], lambda ok: str(ok['number']))

    def capture(self):
        def captured(ok):
            return record(columns=listed(column(d, self.found) for d in ok['cols']), values=values(ok['values']))
        return self.copying('(λ (c : Capture). copied_out_row c.columns c.values)', 'read_capture', captured)


def wrong(answer):
    """Another answer: its last number is one more; a refusal's is another refusal's."""
    if found := re.match(r'no (\d)', answer):
        return 'no %d%s' % (int(found[1]) % 9 + 1, answer[4:])
    last = list(re.finditer(r'\d+', answer))[-1]
    return answer[:last.start()] + str(int(last[0]) + 1) + answer[last.end():]
