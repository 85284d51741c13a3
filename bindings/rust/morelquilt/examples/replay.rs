//! Answers the frames of cases/PROTOCOL.md through the safe calls: frames on standard input, a line each on standard output.
//!
//! Beyond what the lines say it holds every call that finds a size to the one that writes, and says `fault: ..` in the line
//! where they differ.
use morelquilt::*;
use std::fmt::Write as _;
use std::io::{Read as _, Write as _};
use std::ops::Range;

const FILL: u8 = 0xA5;

/// A frame's fields, in their order.
struct Frame<'a>(&'a [u8]);

impl<'a> Frame<'a> {
    fn take(&mut self, n: usize) -> &'a [u8] {
        let (front, rest) = self.0.split_at(n);
        self.0 = rest;
        front
    }

    fn u64(&mut self) -> u64 {
        u64::from_le_bytes(self.take(8).try_into().unwrap())
    }

    fn u32(&mut self) -> u32 {
        u32::from_le_bytes(self.take(4).try_into().unwrap())
    }

    fn u16(&mut self) -> u16 {
        u16::from_le_bytes(self.take(2).try_into().unwrap())
    }

    fn u8(&mut self) -> u8 {
        self.take(1)[0]
    }

    fn place(&mut self) -> usize {
        self.u64().try_into().unwrap()
    }

    fn input(&mut self) -> &'a [u8] {
        let n = self.u32();
        self.take(n.try_into().unwrap())
    }

    fn room(&mut self) -> Vec<u8> {
        vec![FILL; self.u32().try_into().unwrap()]
    }

    fn name(&mut self) -> Name {
        Name { start: self.u64(), units: self.u64() }
    }

    /// A length above four bytes has no column. A record that no column packs to stands for one: refusal 6 where it is used.
    fn column(&mut self) -> (Column, Names) {
        let (ty, length, precision, scale) = (self.u8(), self.u64(), self.u8(), self.u8());
        let mut column =
            u32::try_from(length).map_or(Column::from_record([0xFF; 16]), |n| Column::new(ty, n).with_digits(precision, scale));
        let (collation, info, sort) = (self.u8(), self.u32(), self.u8());
        if collation != 0 {
            column = column.with_collation(Collation { info, sort });
        }
        if self.u8() != 0 {
            column = column.with_schema(0);
        }
        (column, Names { database: self.name(), owner: self.name(), collection: self.name() })
    }

    fn table(&mut self) -> Vec<Column> {
        (0..self.u16()).map(|_| self.column().0).collect()
    }

    fn given(&mut self) -> Given {
        let kind = self.u8();
        let mut both = Frame(self.take(16));
        if kind == 8 {
            return Given::guid(both.0.try_into().unwrap());
        }
        let (first, second) = (both.u64(), both.u64());
        let signed = first as i64;
        match kind {
            0 => Given::NULL,
            1 => Given::bit(first != 0),
            2 => Given::u8(first.try_into().unwrap()),
            3 => Given::i16(signed.try_into().unwrap()),
            4 => Given::i32(signed.try_into().unwrap()),
            5 => Given::i64(signed),
            6 => Given::f32(f32::from_bits(first.try_into().unwrap())),
            7 => Given::f64(f64::from_bits(first)),
            9 => Given::binary(first.try_into().unwrap(), second.try_into().unwrap()),
            10 => Given::string(first.try_into().unwrap(), second.try_into().unwrap()),
            _ => panic!("there is no kind {kind}"),
        }
    }
}

// ---- an answer's words

fn hex(bytes: &[u8]) -> String {
    if bytes.is_empty() {
        return "-".into();
    }
    bytes.iter().fold(String::new(), |mut text, b| {
        write!(text, "{b:02x}").unwrap();
        text
    })
}

fn changed(room: &[u8]) -> usize {
    room.iter().filter(|b| **b != FILL).count()
}

fn front(room: &[u8], n: usize) -> String {
    format!("{n} {} changed {}", hex(&room[..n]), changed(&room[n..]))
}

/// The line of a call without a room.
fn line(answer: Result<String, Refusal>) -> String {
    answer.map_or_else(|e| format!("no {}", e.number()), |words| format!("ok {words}"))
}

/// The line of a call with a room.
fn line_with(room: &[u8], answer: Result<String, Refusal>) -> String {
    let refused = answer.is_err();
    line(answer) + &if refused { format!(" changed {}", changed(room)) } else { String::new() }
}

/// The line of a call that writes, beside the one that finds the size.
fn wrote(room: &[u8], size: Result<usize, Refusal>, wrote: Result<usize, Refusal>) -> String {
    let wanted = size.and_then(|n| if n <= room.len() { Ok(n) } else { Err(Refusal::Room) });
    line_with(room, wrote.map(|n| front(room, n))) + if wanted == wrote { "" } else { " fault: the size is another" }
}

fn say_column(column: &Column, names: &Names) -> String {
    let (collation, name) = (column.collation(), |n: Name| format!("{} {}", n.start, n.units));
    let Collation { info, sort } = collation.unwrap_or_default();
    let numbers = format!("{} {} {} {}", column.ty(), column.length(), column.precision(), column.scale());
    let flags = format!("{} {info} {sort} {}", u8::from(collation.is_some()), u8::from(column.schema().is_some()));
    format!("{numbers} {flags} {} {} {}", name(names.database), name(names.owner), name(names.collection))
}

/// The addresses of the input and of the room: content is told by where it stands, while the room is lent.
struct Lent {
    input: Range<usize>,
    room: Range<usize>,
}

impl Lent {
    fn of(input: &[u8], room: &[u8]) -> Lent {
        let addresses = |of: &[u8]| of.as_ptr() as usize..of.as_ptr() as usize + of.len();
        Lent { input: addresses(input), room: addresses(room) }
    }

    fn start(content: &[u8], of: &Range<usize>) -> Option<usize> {
        let at = content.as_ptr() as usize;
        (of.start <= at && at + content.len() <= of.end).then(|| at - of.start)
    }

    fn say(&self, kind: &str, content: &[u8]) -> String {
        let (place, start) = match (Lent::start(content, &self.input), Lent::start(content, &self.room)) {
            (Some(n), _) => ("in", n),
            (_, Some(n)) => ("out", n),
            _ => ("nowhere", 0),
        };
        format!("{kind} {place} {start} {} {}", content.len(), hex(content))
    }

    /// How many bytes of the room a value takes.
    fn joined(&self, value: Value<'_>) -> usize {
        let content = match value {
            Value::Binary(bytes) => bytes,
            Value::String(units) => units.as_bytes(),
            _ => return 0,
        };
        Lent::start(content, &self.room).map_or(0, |_| content.len())
    }
}

fn say_value(value: Value<'_>, lent: &Lent) -> String {
    match value {
        Value::Null => "null".into(),
        Value::Bit(b) => format!("bit {}", u8::from(b)),
        Value::U8(n) => format!("u8 {n}"),
        Value::I16(n) => format!("i16 {n}"),
        Value::I32(n) => format!("i32 {n}"),
        Value::I64(n) => format!("i64 {n}"),
        Value::F32(x) => format!("f32 {}", x.to_bits()),
        Value::F64(x) => format!("f64 {}", x.to_bits()),
        Value::Guid(g) => format!("guid {}", hex(&g)),
        Value::Binary(bytes) => lent.say("binary", bytes),
        Value::String(units) => lent.say("string", units.as_bytes()),
    }
}

fn say_stand(s: Stand) -> String {
    let flags = (u8::from(s.total.is_some()), u8::from(s.text), u8::from(s.ended));
    format!("{} {} {} {} {} {}", s.at, s.sum, flags.0, s.total.unwrap_or(0), flags.1, flags.2)
}

// ---- the operations

fn value_read(f: &mut Frame<'_>) -> String {
    let (at, mut room, (column, _), input) = (f.place(), f.room(), f.column(), f.input());
    let lent = Lent::of(input, &room);
    let answer = Value::read(&column, input, at, &mut room).map(|(v, next)| (format!("{next} {}", say_value(v, &lent)), lent.joined(v)));
    line_with(&room, answer.map(|(words, n)| format!("{words} {}", front(&room, n))))
}

/// The row at a place, in two steps as a caller would take them: what it needs, then its values, one slot more being lent. The
/// columns are said where they come with names.
fn row(table: &[Column], names: &[Names], input: &[u8], at: usize, mut room: Vec<u8>) -> String {
    let mut slots = vec![Slot::EMPTY; table.len() + 1];
    let (lent, size) = (Lent::of(input, &room), room.len());
    let answer = Row::read(table, input, at, &mut room, &mut slots).map(|row| {
        let mut words = vec![row.next().to_string(), row.len().to_string()];
        words.extend(table.iter().zip(names).map(|(c, n)| say_column(c, n)));
        words.extend(row.iter().map(|v| say_value(v, &lent)));
        (words.join(" "), row.next(), row.iter().map(|v| lent.joined(v)).sum::<usize>())
    });
    let needed = row_needs(table, input, at).and_then(|(n, next)| if n.room <= size { Ok((next, n.room)) } else { Err(Refusal::Room) });
    let agrees = needed == answer.as_ref().map(|(_, next, n)| (*next, *n)).map_err(|e| *e);
    line_with(&room, answer.map(|(words, _, n)| format!("{words} {}", front(&room, n))))
        + if agrees { "" } else { " fault: it needs another room" }
}

fn normal(f: &mut Frame<'_>) -> String {
    let (at, mut room, table, input) = (f.place(), f.room(), f.table(), f.input());
    let needed =
        row_needs(&table, input, at).and_then(|(n, next)| if n.normal <= room.len() { Ok((n.normal, next)) } else { Err(Refusal::Room) });
    let answer = normal_form(&table, input, at, &mut room);
    let words = answer.map(|(n, next)| format!("{next} {}", front(&room, n)));
    line_with(&room, words) + if needed == answer { "" } else { " fault: it needs another room" }
}

/// A capture: a count of columns in two bytes, their descriptors, a row.
fn capture(f: &mut Frame<'_>) -> String {
    let (room, input) = (f.room(), f.input());
    let (mut table, mut names) = (Vec::new(), Vec::new());
    let read = read_low(input, 0, 2).and_then(|(count, mut at)| {
        if count > 1024 {
            return Err(Refusal::Rule);
        }
        for _ in 0..count {
            let (column, beside, next) = Column::read(input, at, 0)?;
            table.push(column);
            names.push(beside);
            at = next;
        }
        Ok(at)
    });
    match read {
        Ok(at) => row(&table, &names, input, at, room),
        Err(refusal) => line_with(&room, Err(refusal)),
    }
}

fn walk(f: &mut Frame<'_>) -> String {
    let (at, sum, known, total, text, ended) = (f.place(), f.u64(), f.u8(), f.u64(), f.u8(), f.u8());
    let (allowed, input) = (f.u64(), f.input());
    let stand = Stand { at, sum, total: (known != 0).then_some(total), text: text != 0, ended: ended != 0 };
    let mut walk = Walk::standing(input, stand);
    let answer = walk.step(allowed);
    let kept = answer.is_ok() || walk.stand() == stand;
    line(answer.map(|n| format!("{n} {}", say_stand(walk.stand())))) + if kept { "" } else { " fault: a refused step moved" }
}

/// No call of the codec: whether this program counts changed bytes.
fn self_test(f: &mut Frame<'_>) -> String {
    let (mut room, at, byte, refusal, count) = (f.room(), f.u32() as usize, f.u8(), f.u8(), f.u32() as usize);
    if let Some(stored) = room.get_mut(at) {
        *stored = byte;
    }
    match refusal {
        0 => format!("ok {}", front(&room, count)),
        n => format!("no {n} changed {}", changed(&room)),
    }
}

fn answer(f: &mut Frame<'_>) -> String {
    match f.u8() {
        0x20 => {
            let (at, input) = (f.place(), f.input());
            line(
                Header::read(input, at)
                    .map(|(h, next)| format!("{next} {} {} {} {} {} {}", h.ty, h.status, h.length, h.spid, h.id, h.window)),
            )
        }
        0x21 => {
            let mut room = f.room();
            let header = Header { ty: f.u8(), status: f.u8(), length: f.u16(), spid: f.u16(), id: f.u8(), window: f.u8() };
            let n = header.write(&mut room);
            wrote(&room, Ok(8), n)
        }
        0x22 => {
            let (mut room, version, sub_build, encryption, thread_id) = (f.room(), f.u32(), f.u16(), f.u8(), f.u32());
            let prelogin = Prelogin { version, sub_build, encryption, thread_id, mars: f.u8() != 0, fed_auth: f.u8() != 0 };
            let n = prelogin.write(&mut room);
            wrote(&room, Ok(if prelogin.fed_auth { 39 } else { 33 }), n)
        }
        0x28 => {
            let (at, input) = (f.place(), f.input());
            line(Column::read(input, at, 0).map(|(column, names, next)| format!("{next} {}", say_column(&column, &names))))
        }
        0x29 => {
            let (mut room, (column, names), input) = (f.room(), f.column(), f.input());
            let n = column.write(&names, input, &mut room);
            wrote(&room, column.size(&names, input), n)
        }
        0x30 => value_read(f),
        0x31 => {
            let (mut room, (column, _), given, input) = (f.room(), f.column(), f.given(), f.input());
            let n = given.write(&column, input, &mut room);
            wrote(&room, given.size(&column, input), n)
        }
        0x32 => {
            let (mut room, given, input) = (f.room(), f.given(), f.input());
            let n = given.write_untyped(input, &mut room);
            wrote(&room, given.untyped_size(input), n)
        }
        0x38 => {
            let (at, room, table, input) = (f.place(), f.room(), f.table(), f.input());
            row(&table, &[], input, at, room)
        }
        0x39 => {
            let (mut room, table) = (f.room(), f.table());
            let values: Vec<Given> = (0..f.u16()).map(|_| f.given()).collect();
            let input = f.input();
            let n = write_row(&table, &values, input, &mut room);
            wrote(&room, row_size(&table, &values, input), n)
        }
        0x3A => normal(f),
        0x40 => {
            let (at, text, input) = (f.place(), f.u8() != 0, f.input());
            let say = |walk: Option<Walk<'_>>| walk.map_or("null".into(), |w| format!("walk {}", say_stand(w.stand())));
            line(Walk::open(input, at, text).map(|(walk, next)| format!("{next} {}", say(walk))))
        }
        0x41 => walk(f),
        0x48 => {
            let (mut room, input) = (f.room(), f.input());
            let n = to_utf16(input, &mut room);
            wrote(&room, utf16_size(input), n)
        }
        0x49 => {
            let (mut room, input) = (f.room(), f.input());
            let n = Units::new(input).to_utf8(&mut room).map(str::len);
            wrote(&room, Units::new(input).utf8_size(), n)
        }
        0x50 => {
            let mut wire = [FILL; 16];
            line(write_guid(f.take(16).try_into().unwrap(), &mut wire).map(|_| hex(&wire)))
        }
        0x51 => {
            let (at, width, input) = (f.place(), f.u8(), f.input());
            line(read_low(input, at, width).map(|(n, next)| format!("{next} {n}")))
        }
        0x52 => {
            let (at, input) = (f.place(), f.input());
            line(read_guid(input, at).map(|(guid, next)| format!("{next} {}", hex(&guid))))
        }
        0x58 => capture(f),
        0x7E => self_test(f),
        op => panic!("there is no operation {op:02X}"),
    }
}

fn main() {
    let mut all = Vec::new();
    std::io::stdin().read_to_end(&mut all).unwrap();
    let (mut rest, mut out) = (Frame(&all), std::io::stdout().lock());
    while !rest.0.is_empty() {
        writeln!(out, "{}", answer(&mut Frame(rest.input()))).unwrap();
    }
}
