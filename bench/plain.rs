//! The codec's contract in plain Rust, written to be measured beside it: the same bytes, numbers and refusals go in and
//! come out. Like the codec it works in two passes: the first finds every refusal and the size, the second writes and
//! cannot fail. It allocates nothing. The public calls are never inlined, since the codec's are calls into an archive.
#![forbid(unsafe_code)]

/// The refusals, by their numbers.
#[derive(Clone, Copy, Debug, PartialEq, Eq)]
pub enum Refusal {
    Missing = 1,
    Unknown,
    Kind,
    Room,
    Long,
    Rule,
    NotCarried,
    Sequence,
    NotText,
}
use Refusal::*;

pub type Answer<T> = Result<T, Refusal>;

const PLP_NULL: u64 = u64::MAX;
const PLP_UNKNOWN: u64 = u64::MAX - 1;
const PLP_BOUND: u64 = 65535;

// ---- bytes

fn byte(bytes: &[u8], at: usize) -> Answer<u8> {
    bytes.get(at).copied().ok_or(Missing)
}

fn u16_at(bytes: &[u8], at: usize) -> Answer<u16> {
    Ok(u16::from_le_bytes(array(bytes, at)?))
}

fn u32_at(bytes: &[u8], at: usize) -> Answer<u32> {
    Ok(u32::from_le_bytes(array(bytes, at)?))
}

fn u64_at(bytes: &[u8], at: usize) -> Answer<u64> {
    Ok(u64::from_le_bytes(array(bytes, at)?))
}

fn array<const N: usize>(bytes: &[u8], at: usize) -> Answer<[u8; N]> {
    let rest = bytes.get(at..).ok_or(Missing)?;
    rest.get(..N).and_then(|part| part.try_into().ok()).ok_or(Missing)
}

/// What is written so far, and the room behind it.
struct Writer<'a> {
    rest: &'a mut [u8],
}

impl<'a> Writer<'a> {
    fn put(&mut self, bytes: &[u8]) {
        self.take(bytes.len()).copy_from_slice(bytes);
    }

    fn take(&mut self, count: usize) -> &'a mut [u8] {
        let (front, rest) = std::mem::take(&mut self.rest).split_at_mut(count);
        self.rest = rest;
        front
    }
}

// ---- headers

/// Type, status, length, SPID, id and window at a place of the bytes; the next place.
#[inline(never)]
pub fn header_read(bytes: &[u8], at: usize, fields: &mut [u16; 6]) -> Answer<usize> {
    let [ty, status, l1, l0, s1, s0, id, window] = array(bytes, at)?;
    known(ty, status)?;
    *fields = [ty.into(), status.into(), u16::from_be_bytes([l1, l0]), u16::from_be_bytes([s1, s0]), id.into(), window.into()];
    Ok(at + 8)
}

/// The header at the front of the room.
#[inline(never)]
pub fn header_write(ty: u8, status: u8, length: u16, spid: u16, id: u8, window: u8, out: &mut [u8]) -> Answer<usize> {
    known(ty, status)?;
    let [l1, l0] = length.to_be_bytes();
    let [s1, s0] = spid.to_be_bytes();
    out.get_mut(..8).ok_or(Room)?.copy_from_slice(&[ty, status, l1, l0, s1, s0, id, window]);
    Ok(8)
}

fn known(ty: u8, status: u8) -> Answer<()> {
    match (ty, status) {
        (1..=4 | 6..=8 | 14 | 16..=18, 0 | 1 | 3 | 8 | 16) => Ok(()),
        _ => Err(Unknown),
    }
}

// ---- text

/// UTF-8 as UTF-16LE, at the front of the room.
#[inline(never)]
pub fn to_utf16(text: &[u8], out: &mut [u8]) -> Answer<usize> {
    let text = str_of(text)?;
    let size = utf16_len(text);
    put_utf16(text, out.get_mut(..size).ok_or(Room)?);
    Ok(size)
}

/// UTF-16LE as UTF-8, at the front of the room.
#[inline(never)]
pub fn to_utf8(units: &[u8], out: &mut [u8]) -> Answer<usize> {
    if units.len() % 2 != 0 {
        return Err(Sequence);
    }
    let mut size = 0;
    for decoded in chars(units) {
        size += decoded.map_err(|_| NotText)?.len_utf8();
    }
    let mut rest = out.get_mut(..size).ok_or(Room)?;
    for letter in chars(units).flatten() {
        let count = letter.encode_utf8(rest).len();
        rest = &mut rest[count..];
    }
    Ok(size)
}

fn chars(units: &[u8]) -> impl Iterator<Item = Result<char, std::char::DecodeUtf16Error>> + '_ {
    char::decode_utf16(units.chunks_exact(2).map(|unit| u16::from_le_bytes([unit[0], unit[1]])))
}

fn str_of(text: &[u8]) -> Answer<&str> {
    std::str::from_utf8(text).map_err(|_| NotText)
}

fn utf16_len(text: &str) -> usize {
    2 * text.encode_utf16().count()
}

/// The text at the front of the room: how many bytes.
fn put_utf16(text: &str, out: &mut [u8]) -> usize {
    let mut size = 0;
    for (place, unit) in out.chunks_exact_mut(2).zip(text.encode_utf16()) {
        place.copy_from_slice(&unit.to_le_bytes());
        size += 2;
    }
    size
}

// ---- columns

/// What follows a type byte in a descriptor.
#[derive(Clone, Copy, PartialEq, Eq)]
enum Shape {
    Fixed,
    Byte,
    Short,
    Long,
    Daten,
    Xml,
    NotCarried,
}

fn shape_of(ty: u8) -> Option<Shape> {
    Some(match ty {
        0x1F | 0x30 | 0x32 | 0x34 | 0x38 | 0x3A..=0x3E | 0x7A | 0x7F => Shape::Fixed,
        0x24 | 0x26 | 0x29..=0x2B | 0x68 | 0x6A | 0x6C..=0x6F => Shape::Byte,
        0xA5 | 0xA7 | 0xAD | 0xAF | 0xE7 | 0xEF => Shape::Short,
        0x22 | 0x23 | 0x63 => Shape::Long,
        0x28 => Shape::Daten,
        0xF1 => Shape::Xml,
        0x62 | 0xF0 => Shape::NotCarried,
        _ => return None,
    })
}

fn has_digits(ty: u8) -> bool {
    matches!(ty, 0x6A | 0x6C)
}

fn has_collation(ty: u8) -> bool {
    matches!(ty, 0x23 | 0x63 | 0xA7 | 0xAF | 0xE7 | 0xEF)
}

/// A column, as its record of 16 bytes says.
struct Column {
    ty: u8,
    shape: Shape,
    precision: u8,
    scale: u8,
    length: u32,
    collation: Option<(u32, u8)>,
    schema: bool,
}

impl Column {
    /// The column of a record, where it keeps the rule; a record that no column packs to breaks it.
    fn of(record: &[u8]) -> Answer<Column> {
        Column::unpack(record).filter(Column::keeps_rule).ok_or(Rule)
    }

    fn unpack(record: &[u8]) -> Option<Column> {
        let &[ty, flags, precision, scale, l0, l1, l2, l3, c0, c1, c2, c3, sort, zero, i0, i1] = <&[u8; 16]>::try_from(record).ok()?;
        let info = u32::from_le_bytes([c0, c1, c2, c3]);
        let (collation, schema) = (flags & 1 != 0, flags & 2 != 0);
        if flags > 3 || zero != 0 || !collation && (info != 0 || sort != 0) || !schema && (i0 != 0 || i1 != 0) {
            return None;
        }
        Some(Column {
            ty,
            shape: shape_of(ty)?,
            precision,
            scale,
            length: u32::from_le_bytes([l0, l1, l2, l3]),
            collation: if collation { Some((info, sort)) } else { None },
            schema,
        })
    }

    fn keeps_rule(&self) -> bool {
        let length_fits = match self.shape {
            Shape::Fixed | Shape::Xml | Shape::NotCarried => self.length == 0,
            Shape::Byte => self.length < 1 << 8,
            Shape::Short => self.length < 1 << 16,
            Shape::Long => true,
            Shape::Daten => self.length == 3,
        };
        length_fits
            && (has_digits(self.ty) || self.precision == 0 && self.scale == 0)
            && self.collation.is_some() == has_collation(self.ty)
            && (!self.schema || self.shape == Shape::Xml)
    }

    fn pack(&self, index: u16) -> [u8; 16] {
        let flags = u8::from(self.collation.is_some()) + 2 * u8::from(self.schema);
        let (info, sort) = self.collation.unwrap_or((0, 0));
        let [l0, l1, l2, l3] = self.length.to_le_bytes();
        let [c0, c1, c2, c3] = info.to_le_bytes();
        let [i0, i1] = if self.schema { index.to_le_bytes() } else { [0, 0] };
        [self.ty, flags, self.precision, self.scale, l0, l1, l2, l3, c0, c1, c2, c3, sort, 0, i0, i1]
    }
}

/// The descriptor at a place, as a record and the spans of its names; the next place.
#[inline(never)]
pub fn column_read(bytes: &[u8], at: usize, index: u16, column: &mut [u8; 16], names: &mut [u64; 6]) -> Answer<usize> {
    let ty = byte(bytes, at)?;
    let shape = shape_of(ty).ok_or(Unknown)?;
    let mut next = at + 1;
    let mut found = Column { ty, shape, precision: 0, scale: 0, length: 0, collation: None, schema: false };
    let mut spans = [0; 6];
    match shape {
        Shape::Fixed => {}
        Shape::Daten => found.length = 3,
        Shape::Byte => {
            found.length = byte(bytes, next)?.into();
            next += 1;
        }
        Shape::Short => {
            found.length = u16_at(bytes, next)?.into();
            next += 2;
        }
        Shape::Long => {
            found.length = u32_at(bytes, next)?;
            next += 4;
        }
        Shape::Xml => {
            found.schema = byte(bytes, next)? == 1;
            next += 1;
            if found.schema {
                for (span, width) in spans.chunks_exact_mut(2).zip([1, 1, 2]) {
                    let units = if width == 1 { usize::from(byte(bytes, next)?) } else { usize::from(u16_at(bytes, next)?) };
                    next += width;
                    if (bytes.len() - next) / 2 < units {
                        return Err(Missing);
                    }
                    span.copy_from_slice(&[next as u64, units as u64]);
                    next += 2 * units;
                }
            }
        }
        Shape::NotCarried => return Err(NotCarried),
    }
    if has_digits(ty) {
        [found.precision, found.scale] = array(bytes, next)?;
        next += 2;
    }
    if has_collation(ty) {
        found.collation = Some((u32_at(bytes, next)?, byte(bytes, next + 4)?));
        next += 5;
    }
    *column = found.pack(index);
    *names = spans;
    Ok(next)
}

/// The bytes of a name, where they lie in the buffer and their count is below the limit.
fn name_of<'a>(span: &[u64], buffer: &'a [u8], limit: u64) -> Answer<&'a [u8]> {
    let (start, units) = (span[0] as usize, span[1]);
    let rest = buffer.get(start..).ok_or(Rule)?;
    if units >= limit {
        return Err(Rule);
    }
    rest.get(..2 * units as usize).ok_or(Rule)
}

/// The descriptor at the front of the room.
#[inline(never)]
pub fn column_write(column: &[u8; 16], names: &[u64; 6], buffer: &[u8], out: &mut [u8]) -> Answer<usize> {
    let column = Column::of(column)?;
    let [database, owner, collection] = if column.schema {
        [name_of(&names[0..2], buffer, 1 << 8)?, name_of(&names[2..4], buffer, 1 << 8)?, name_of(&names[4..6], buffer, 1 << 16)?]
    } else {
        [&[][..]; 3]
    };
    let behind = match column.shape {
        Shape::Fixed | Shape::Daten => 0,
        Shape::Byte => 1,
        Shape::Short => 2,
        Shape::Long => 4,
        Shape::Xml if column.schema => 5 + database.len() + owner.len() + collection.len(),
        Shape::Xml => 1,
        Shape::NotCarried => return Err(NotCarried),
    };
    let digits = if has_digits(column.ty) { 2 } else { 0 };
    let size = 1 + behind + digits + if column.collation.is_some() { 5 } else { 0 };
    let mut to = Writer { rest: out.get_mut(..size).ok_or(Room)? };
    to.put(&[column.ty]);
    match column.shape {
        Shape::Byte => to.put(&[column.length as u8]),
        Shape::Short => to.put(&(column.length as u16).to_le_bytes()),
        Shape::Long => to.put(&column.length.to_le_bytes()),
        Shape::Xml if column.schema => {
            to.put(&[1, (database.len() / 2) as u8]);
            to.put(database);
            to.put(&[(owner.len() / 2) as u8]);
            to.put(owner);
            to.put(&((collection.len() / 2) as u16).to_le_bytes());
            to.put(collection);
        }
        Shape::Xml => to.put(&[0]),
        Shape::Fixed | Shape::Daten | Shape::NotCarried => {}
    }
    if has_digits(column.ty) {
        to.put(&[column.precision, column.scale]);
    }
    if let Some((info, sort)) = column.collation {
        to.put(&info.to_le_bytes());
        to.put(&[sort]);
    }
    Ok(size)
}

// ---- values

/// The kinds of a fixed width, by their numbers.
#[derive(Clone, Copy, PartialEq, Eq)]
enum Kind {
    Bit = 1,
    U8,
    I16,
    I32,
    I64,
    F32,
    F64,
    Guid,
}

impl Kind {
    fn width(self) -> usize {
        match self {
            Kind::Bit | Kind::U8 => 1,
            Kind::I16 => 2,
            Kind::I32 | Kind::F32 => 4,
            Kind::I64 | Kind::F64 => 8,
            Kind::Guid => 16,
        }
    }
}

#[derive(Clone, Copy, PartialEq, Eq)]
enum Content {
    Binary = 9,
    String,
}

/// The kinds that stand behind a length byte.
#[derive(Clone, Copy)]
enum Listed {
    Integers,
    Bits,
    Floats,
    Guids,
}

impl Listed {
    fn kind_of(self, width: u8) -> Option<Kind> {
        Some(match (self, width) {
            (Listed::Integers, 1) => Kind::U8,
            (Listed::Integers, 2) => Kind::I16,
            (Listed::Integers, 4) => Kind::I32,
            (Listed::Integers, 8) => Kind::I64,
            (Listed::Bits, 1) => Kind::Bit,
            (Listed::Floats, 4) => Kind::F32,
            (Listed::Floats, 8) => Kind::F64,
            (Listed::Guids, 16) => Kind::Guid,
            _ => return None,
        })
    }
}

/// How a column's values stand in a row.
#[derive(Clone, Copy)]
enum Form {
    Fixed(Kind),
    LengthByte(Listed, u32),
    Short(Content, u32),
    Plp(Content),
}

impl Form {
    /// The form under a column's record, where it keeps the rule and its values are carried.
    fn of(record: &[u8]) -> Answer<Form> {
        let Column { ty, length, .. } = Column::of(record)?;
        let content = |kind| if u64::from(length) == PLP_BOUND { Form::Plp(kind) } else { Form::Short(kind, length) };
        Ok(match ty {
            0x30 => Form::Fixed(Kind::U8),
            0x32 => Form::Fixed(Kind::Bit),
            0x34 => Form::Fixed(Kind::I16),
            0x38 => Form::Fixed(Kind::I32),
            0x3B => Form::Fixed(Kind::F32),
            0x3E => Form::Fixed(Kind::F64),
            0x7F => Form::Fixed(Kind::I64),
            0x24 => Form::LengthByte(Listed::Guids, length),
            0x26 => Form::LengthByte(Listed::Integers, length),
            0x68 => Form::LengthByte(Listed::Bits, length),
            0x6D => Form::LengthByte(Listed::Floats, length),
            0xA5 | 0xAD => content(Content::Binary),
            0xE7 | 0xEF => content(Content::String),
            _ => return Err(NotCarried),
        })
    }
}

/// A value to be written.
#[derive(Clone, Copy)]
enum Value {
    Null,
    Scalar(Kind, u64, u64),
    Content(Content, usize, usize),
}

impl Value {
    /// The value of three numbers. A list that ends within them is cut.
    fn of(numbers: &[u64]) -> Answer<Value> {
        let &[kind, first, second] = <&[u64; 3]>::try_from(numbers).map_err(|_| Rule)?;
        let signed = first as i64;
        let (value, is_value) = match kind {
            0 => (Value::Null, first == 0),
            1 => (Value::Scalar(Kind::Bit, first, 0), first < 2),
            2 => (Value::Scalar(Kind::U8, first, 0), first < 1 << 8),
            3 => (Value::Scalar(Kind::I16, first, 0), i64::from(signed as i16) == signed),
            4 => (Value::Scalar(Kind::I32, first, 0), i64::from(signed as i32) == signed),
            5 => (Value::Scalar(Kind::I64, first, 0), true),
            6 => (Value::Scalar(Kind::F32, first, 0), first < 1 << 32),
            7 => (Value::Scalar(Kind::F64, first, 0), true),
            8 => return Ok(Value::Scalar(Kind::Guid, first, second)),
            9 => return Ok(Value::Content(Content::Binary, first as usize, second as usize)),
            10 => return Ok(Value::Content(Content::String, first as usize, second as usize)),
            _ => return Err(Refusal::Kind),
        };
        if is_value && second == 0 {
            Ok(value)
        } else {
            Err(Refusal::Kind)
        }
    }
}

/// A GUID's bytes between text order and wire order, either way.
fn guid_order(bytes: [u8; 16]) -> [u8; 16] {
    let [a, b, c, d, e, f, g, h, rest @ ..] = bytes;
    let mut turned = [d, c, b, a, f, e, h, g, 0, 0, 0, 0, 0, 0, 0, 0];
    turned[8..].copy_from_slice(&rest);
    turned
}

fn span(buffer: &[u8], start: usize, count: usize) -> Answer<&[u8]> {
    buffer.get(start..).and_then(|rest| rest.get(..count)).ok_or(Missing)
}

/// How many bytes content takes that is written, within its bound.
fn content_size(kind: Content, bytes: &[u8], bound: u64) -> Answer<usize> {
    let size = match kind {
        Content::Binary => bytes.len(),
        Content::String => utf16_len(str_of(bytes)?),
    };
    if size as u64 > bound {
        return Err(Long);
    }
    Ok(size)
}

fn plp_size(content: usize) -> usize {
    if content == 0 {
        12
    } else {
        16 + content
    }
}

/// How many bytes a value takes.
fn value_size(form: Form, value: Value, buffer: &[u8]) -> Answer<usize> {
    match (form, value) {
        (Form::Fixed(wanted), Value::Scalar(kind, ..)) if kind == wanted => Ok(kind.width()),
        (Form::LengthByte(..), Value::Null) => Ok(1),
        (Form::LengthByte(listed, declared), Value::Scalar(kind, ..)) if listed.kind_of(kind.width() as u8) == Some(kind) => {
            if kind.width() as u32 > declared {
                return Err(Long);
            }
            Ok(1 + kind.width())
        }
        (Form::Short(..), Value::Null) => Ok(2),
        (Form::Plp(..), Value::Null) => Ok(8),
        (Form::Short(wanted, declared), Value::Content(kind, start, count)) if kind == wanted => {
            Ok(2 + content_size(kind, span(buffer, start, count)?, declared.into())?)
        }
        (Form::Plp(wanted), Value::Content(kind, start, count)) if kind == wanted => {
            Ok(plp_size(content_size(kind, span(buffer, start, count)?, PLP_BOUND)?))
        }
        _ => Err(Refusal::Kind),
    }
}

fn put_scalar(to: &mut Writer, kind: Kind, first: u64, second: u64) {
    match kind {
        Kind::Bit | Kind::U8 => to.put(&[first as u8]),
        Kind::I16 => to.put(&(first as u16).to_le_bytes()),
        Kind::I32 | Kind::F32 => to.put(&(first as u32).to_le_bytes()),
        Kind::I64 | Kind::F64 => to.put(&first.to_le_bytes()),
        Kind::Guid => {
            let text = (u128::from(first) << 64 | u128::from(second)).to_be_bytes();
            to.put(&guid_order(text));
        }
    }
}

/// The content that was sized: how many bytes.
fn put_content(to: &mut Writer, kind: Content, bytes: &[u8]) -> Answer<usize> {
    match kind {
        Content::Binary => {
            to.put(bytes);
            Ok(bytes.len())
        }
        Content::String => {
            let size = put_utf16(str_of(bytes)?, to.rest);
            to.take(size);
            Ok(size)
        }
    }
}

/// The value that was sized.
fn put_value(to: &mut Writer, form: Form, value: Value, buffer: &[u8]) -> Answer<()> {
    match (form, value) {
        (Form::LengthByte(..), Value::Null) => to.put(&[0]),
        (Form::Short(..), Value::Null) => to.put(&[0xFF; 2]),
        (_, Value::Null) => to.put(&PLP_NULL.to_le_bytes()),
        (Form::LengthByte(..), Value::Scalar(kind, first, second)) => {
            to.put(&[kind.width() as u8]);
            put_scalar(to, kind, first, second);
        }
        (_, Value::Scalar(kind, first, second)) => put_scalar(to, kind, first, second),
        (Form::Plp(_), Value::Content(_, _, 0)) => put_plp(to, 0),
        (Form::Plp(_), Value::Content(kind, start, count)) => {
            let head = to.take(12);
            let size = put_content(to, kind, span(buffer, start, count)?)?;
            put_plp(&mut Writer { rest: head }, size);
            to.put(&[0; 4]);
        }
        (_, Value::Content(kind, start, count)) => {
            let length = to.take(2);
            let size = put_content(to, kind, span(buffer, start, count)?)?;
            length.copy_from_slice(&(size as u16).to_le_bytes());
        }
    }
    Ok(())
}

/// What stands in front of PLP content: unknown length, and the length of its one chunk, or the last zero.
fn put_plp(to: &mut Writer, size: usize) {
    to.put(&PLP_UNKNOWN.to_le_bytes());
    to.put(&(size as u32).to_le_bytes());
}

// ---- rows, written

/// How many bytes a row takes.
#[inline(never)]
pub fn row_size(table: &[u8], values: &[u64], buffer: &[u8]) -> Answer<usize> {
    for numbers in values.chunks(3) {
        Value::of(numbers)?;
    }
    let (records, values) = (table.chunks(16), values.chunks(3));
    if records.len() > 1024 || records.len() != values.len() {
        return Err(Rule);
    }
    let mut size = 0;
    for (record, numbers) in records.zip(values) {
        size += value_size(Form::of(record)?, Value::of(numbers)?, buffer)?;
    }
    Ok(size)
}

/// The row, at the front of the room.
#[inline(never)]
pub fn row_write(table: &[u8], values: &[u64], buffer: &[u8], out: &mut [u8]) -> Answer<usize> {
    let size = row_size(table, values, buffer)?;
    let mut to = Writer { rest: out.get_mut(..size).ok_or(Room)? };
    for (record, numbers) in table.chunks(16).zip(values.chunks(3)) {
        put_value(&mut to, Form::of(record)?, Value::of(numbers)?, buffer)?;
    }
    Ok(size)
}

// ---- rows, read

/// A value that stands in a row.
#[derive(Clone, Copy)]
enum Found<'a> {
    Null,
    Scalar(Kind, &'a [u8]),
    /// Content, and where it starts.
    Content(Content, usize, &'a [u8]),
    /// Content in chunks: how many bytes, and the chunks with their heads.
    Plp(Content, usize, &'a [u8]),
}

/// The value at a place of the row, and the next place.
fn find(form: Form, row: &[u8], at: usize) -> Answer<(Found<'_>, usize)> {
    match form {
        Form::Fixed(kind) => {
            let bytes = span(row, at, kind.width())?;
            Ok((Found::Scalar(kind, bytes), at + kind.width()))
        }
        Form::LengthByte(listed, declared) => {
            let width = byte(row, at)?;
            if width == 0 {
                return Ok((Found::Null, at + 1));
            }
            let kind = listed.kind_of(width).ok_or(Sequence)?;
            if u32::from(width) > declared {
                return Err(Long);
            }
            let bytes = span(row, at + 1, kind.width())?;
            Ok((Found::Scalar(kind, bytes), at + 1 + kind.width()))
        }
        Form::Short(kind, declared) => {
            let count = u16_at(row, at)?;
            if count == u16::MAX {
                return Ok((Found::Null, at + 2));
            }
            if u32::from(count) > declared {
                return Err(Long);
            }
            if kind == Content::String && count % 2 != 0 {
                return Err(Sequence);
            }
            let bytes = span(row, at + 2, count.into())?;
            Ok((Found::Content(kind, at + 2, bytes), at + 2 + bytes.len()))
        }
        Form::Plp(kind) => {
            let total = u64_at(row, at)?;
            if total == PLP_NULL {
                return Ok((Found::Null, at + 8));
            }
            if total != PLP_UNKNOWN && total > PLP_BOUND {
                return Err(Long);
            }
            let mut next = at + 8;
            let mut sum = 0;
            loop {
                let count = u32_at(row, next)?;
                next += 4;
                if count == 0 {
                    break;
                }
                sum += u64::from(count);
                if sum > PLP_BOUND {
                    return Err(Long);
                }
                if sum > total {
                    return Err(Sequence);
                }
                next += span(row, next, count as usize)?.len();
            }
            if total != PLP_UNKNOWN && sum != total || kind == Content::String && sum % 2 != 0 {
                return Err(Sequence);
            }
            Ok((Found::Plp(kind, sum as usize, &row[at + 8..next]), next))
        }
    }
}

/// The chunks that were judged, joined.
fn join(mut chunks: &[u8], to: &mut Writer) {
    while let Ok(count @ 1..) = u32_at(chunks, 0) {
        let (chunk, rest) = chunks[4..].split_at(count as usize);
        to.put(chunk);
        chunks = rest;
    }
}

/// What a row needs.
struct Needs {
    next: usize,
    joined: usize,
    normal: usize,
}

fn judge(table: &[u8], row: &[u8], at: usize) -> Answer<Needs> {
    if at > row.len() {
        return Err(Missing);
    }
    let records = table.chunks(16);
    if records.len() > 1024 {
        return Err(Rule);
    }
    let mut needs = Needs { next: at, joined: 0, normal: 0 };
    for record in records {
        let (found, next) = find(Form::of(record)?, row, needs.next)?;
        if let Found::Plp(_, count, _) = found {
            needs.joined += count;
            needs.normal += plp_size(count);
        } else {
            needs.normal += next - needs.next;
        }
        needs.next = next;
    }
    Ok(needs)
}

fn number(kind: Kind, bytes: &[u8]) -> Answer<[u64; 3]> {
    let (first, second) = match kind {
        Kind::Bit => (u64::from(bytes[0] != 0), 0),
        Kind::U8 => (bytes[0].into(), 0),
        Kind::I16 => (i64::from(u16_at(bytes, 0)? as i16) as u64, 0),
        Kind::I32 => (i64::from(u32_at(bytes, 0)? as i32) as u64, 0),
        Kind::F32 => (u32_at(bytes, 0)?.into(), 0),
        Kind::I64 | Kind::F64 => (u64_at(bytes, 0)?, 0),
        Kind::Guid => {
            let text = u128::from_be_bytes(guid_order(array(bytes, 0)?));
            ((text >> 64) as u64, text as u64)
        }
    };
    Ok([kind as u64, first, second])
}

/// The row's values, three numbers a column; what PLP content joins to, at the front of the room.
#[inline(never)]
pub fn row_read(table: &[u8], row: &[u8], at: usize, room: &mut [u8], values: &mut [u64]) -> Answer<usize> {
    let needs = judge(table, row, at)?;
    let records = table.chunks(16);
    let mut to = Writer { rest: room.get_mut(..needs.joined).ok_or(Room)? };
    let values = values.get_mut(..3 * records.len()).ok_or(Room)?;
    let (mut place, mut joined) = (at, 0);
    for (record, numbers) in records.zip(values.chunks_exact_mut(3)) {
        let (found, next) = find(Form::of(record)?, row, place)?;
        numbers.copy_from_slice(&match found {
            Found::Null => [0; 3],
            Found::Scalar(kind, bytes) => number(kind, bytes)?,
            Found::Content(kind, start, bytes) => [kind as u64, start as u64, bytes.len() as u64],
            Found::Plp(kind, count, chunks) => {
                join(chunks, &mut to);
                joined += count;
                [kind as u64 + 2, (joined - count) as u64, count as u64]
            }
        });
        place = next;
    }
    Ok(needs.next)
}

/// The normal form of the row at a place, at the front of the room; `next` is where the row ends.
#[inline(never)]
pub fn row_normal(table: &[u8], row: &[u8], at: usize, out: &mut [u8], next: &mut u64) -> Answer<usize> {
    let needs = judge(table, row, at)?;
    let mut to = Writer { rest: out.get_mut(..needs.normal).ok_or(Room)? };
    // Bytes that are normal already are copied in runs; `from` is where the run starts.
    let (mut from, mut place) = (at, at);
    for record in table.chunks(16) {
        let (found, behind) = find(Form::of(record)?, row, place)?;
        match found {
            Found::Plp(_, count, chunks) => {
                to.put(&row[from..place]);
                put_plp(&mut to, count);
                if count > 0 {
                    join(chunks, &mut to);
                    to.put(&[0; 4]);
                }
                from = behind;
            }
            Found::Scalar(Kind::Bit, bytes) if bytes[0] > 1 => {
                to.put(&row[from..behind - 1]);
                to.put(&[1]);
                from = behind;
            }
            _ => {}
        }
        place = behind;
    }
    to.put(&row[from..place]);
    *next = needs.next as u64;
    Ok(needs.normal)
}
