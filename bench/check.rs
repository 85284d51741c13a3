//! Both sides on generated questions, most of them near the edge: answers, and every lent byte afterwards, must be the same.
use crate::sides::{Calls, Codec, Outcome, Plain};
use crate::work::{record, Dice};
use std::collections::BTreeMap;

/// Every type byte of document 01, and one that is unknown.
#[rustfmt::skip]
const TYPES: [u8; 36] = [
    0x1F, 0x30, 0x32, 0x34, 0x38, 0x3A, 0x3B, 0x3C, 0x3D, 0x3E, 0x7A, 0x7F, 0x24, 0x26, 0x68, 0x6A, 0x6C, 0x6D, 0x6E, 0x6F, 0x29, 0x2A, 0x2B,
    0xA5, 0xA7, 0xAD, 0xAF, 0xE7, 0xEF, 0x22, 0x63, 0x28, 0xF1, 0xF0, 0x62, 0x01,
];
/// Those whose values are carried.
const CARRIED: [u8; 15] = [0x30, 0x32, 0x34, 0x38, 0x3B, 0x3E, 0x7F, 0x24, 0x26, 0x68, 0x6D, 0xA5, 0xAD, 0xE7, 0xEF];

fn pick<T: Copy>(dice: &mut Dice, list: &[T]) -> T {
    list[dice.below(list.len() as u64) as usize]
}

/// One time in n.
fn seldom(dice: &mut Dice, n: u64) -> bool {
    dice.below(n) == 0
}

fn column(dice: &mut Dice) -> [u8; 16] {
    let ty = if seldom(dice, 40) { pick(dice, &TYPES) } else { pick(dice, &CARRIED) };
    let length = match ty {
        0x24 => 16,
        0x26 | 0x6D => pick(dice, &[1, 2, 4, 8, 8, 8]),
        0x68 => 1,
        0xA5 | 0xAD | 0xE7 | 0xEF => pick(dice, &[0, 4, 20, 65534, 65535, 65535, 65535]),
        0x28 => 3,
        _ => 0,
    };
    let mut record = record(ty, length);
    if seldom(dice, 60) {
        record[dice.below(16) as usize] = pick(dice, &[0, 1, 2, 3, 255]);
    }
    record
}

fn value(dice: &mut Dice, column: &[u8; 16], buffer: &[u8]) -> [u64; 3] {
    let n = dice.next();
    let kind = match column[0] {
        _ if seldom(dice, 60) => dice.below(14),
        0x30 => 2,
        0x32 | 0x68 => 1,
        0x34 => 3,
        0x38 => 4,
        0x7F => 5,
        0x3B => 6,
        0x3E => 7,
        0x24 => 8,
        0x26 => pick(dice, &[0, 2, 3, 4, 5]),
        0x6D => pick(dice, &[0, 6, 7]),
        0xA5 | 0xAD => pick(dice, &[0, 9, 9, 9]),
        0xE7 | 0xEF => pick(dice, &[0, 10, 10, 10]),
        _ => dice.below(11),
    };
    let first = match kind {
        _ if seldom(dice, 100) => n,
        0 => 0,
        1 => n % 2,
        2 => n % 256,
        3 => i64::from(n as i16) as u64,
        4 => i64::from(n as i32) as u64,
        6 => n >> 32,
        9.. => n % (buffer.len() as u64 + 1),
        _ => n,
    };
    let limit = pick(dice, &[1, 5, 30, 300]);
    let second = match kind {
        8 => dice.next(),
        9.. if seldom(dice, 60) => dice.next(),
        9.. => dice.below(limit),
        _ if seldom(dice, 200) => 1,
        _ => 0,
    };
    [kind, first, second]
}

/// Mostly text: letters of one to four bytes, and now and then a stray byte.
fn buffer(dice: &mut Dice) -> Vec<u8> {
    let mut bytes = vec![];
    for _ in 0..dice.below(200) {
        match dice.below(12) {
            0 => bytes.extend("ö".bytes()),
            1 => bytes.extend("–".bytes()),
            2 => bytes.extend("🛩".bytes()),
            3 if seldom(dice, 40) => bytes.push(dice.next() as u8),
            _ => bytes.push(b'a' + dice.below(26) as u8),
        }
    }
    bytes
}

/// A room that is just right, or one byte short, or larger.
fn room(dice: &mut Dice, size: usize) -> Vec<u8> {
    let size = match dice.below(4) {
        0 => size,
        1 => size.saturating_sub(1),
        _ => size + dice.below(40) as usize,
    };
    vec![0xEE; size]
}

/// A byte or two are changed, or the end is cut off.
fn damage(dice: &mut Dice, bytes: &mut Vec<u8>) {
    for _ in 0..dice.below(3) {
        if !bytes.is_empty() {
            let at = dice.below(bytes.len() as u64) as usize;
            bytes[at] = match dice.below(4) {
                0 => 0,
                1 => 0xFF,
                2 => bytes[at].wrapping_add(1),
                _ => dice.next() as u8,
            };
        }
    }
    if seldom(dice, 3) {
        bytes.truncate(dice.below(bytes.len() as u64 + 1) as usize);
    }
}

/// Every PLP value of one chunk is cut into several; what a value of a PLP column begins with is looked for, not known.
fn cut(dice: &mut Dice, row: &[u8]) -> Vec<u8> {
    let mut cut = vec![];
    let mut at = 0;
    while at < row.len() {
        let head = row.get(at..at + 12);
        let count = head.map_or(0, |head| if head[..8] == [0xFE, 255, 255, 255, 255, 255, 255, 255] { u32_of(&head[8..]) } else { 0 });
        if count > 1 && at + 12 + count <= row.len() {
            let known = seldom(dice, 2);
            cut.extend(if known { (count as u64).to_le_bytes() } else { (u64::MAX - 1).to_le_bytes() });
            let first = 1 + dice.below(count as u64 - 1) as usize;
            let content = &row[at + 12..at + 12 + count];
            for part in [&content[..first], &content[first..]] {
                cut.extend((part.len() as u32).to_le_bytes());
                cut.extend(part);
            }
            at += 12 + count;
        } else {
            cut.push(row[at]);
            at += 1;
        }
    }
    cut
}

fn u32_of(bytes: &[u8]) -> usize {
    u32::from_le_bytes([bytes[0], bytes[1], bytes[2], bytes[3]]) as usize
}

/// One question's answer, and the lent bytes and numbers afterwards.
#[derive(PartialEq, Debug)]
struct Said {
    answer: Outcome,
    bytes: Vec<u8>,
    numbers: Vec<u64>,
}

fn row_write<C: Calls>(table: &[u8], values: &[u64], buffer: &[u8], mut out: Vec<u8>) -> Said {
    Said { answer: C::row_write(table, values, buffer, &mut out), bytes: out, numbers: vec![] }
}

fn row_read<C: Calls>(table: &[u8], row: &[u8], at: usize, mut room: Vec<u8>, mut values: Vec<u64>) -> Said {
    Said { answer: C::row_read(table, row, at, &mut room, &mut values), bytes: room, numbers: values }
}

fn row_normal<C: Calls>(table: &[u8], row: &[u8], at: usize, mut out: Vec<u8>) -> Said {
    let mut next = 7;
    Said { answer: C::row_normal(table, row, at, &mut out, &mut next), bytes: out, numbers: vec![next] }
}

fn to_utf16<C: Calls>(text: &[u8], mut out: Vec<u8>) -> Said {
    Said { answer: C::to_utf16(text, &mut out), bytes: out, numbers: vec![] }
}

fn to_utf8<C: Calls>(units: &[u8], mut out: Vec<u8>) -> Said {
    Said { answer: C::to_utf8(units, &mut out), bytes: out, numbers: vec![] }
}

fn column_read<C: Calls>(bytes: &[u8], at: usize) -> Said {
    let (mut column, mut names) = ([7; 16], [7; 6]);
    Said { answer: C::column_read(bytes, at, 513, &mut column, &mut names), bytes: column.to_vec(), numbers: names.to_vec() }
}

fn column_write<C: Calls>(column: &[u8; 16], names: &[u64; 6], buffer: &[u8], mut out: Vec<u8>) -> Said {
    Said { answer: C::column_write(column, names, buffer, &mut out), bytes: out, numbers: vec![] }
}

fn header_read<C: Calls>(bytes: &[u8], at: usize) -> Said {
    let mut fields = [7; 6];
    Said { answer: C::header_read(bytes, at, &mut fields), bytes: vec![], numbers: fields.map(u64::from).to_vec() }
}

fn header_write<C: Calls>(fields: &[u16; 6], mut out: Vec<u8>) -> Said {
    Said { answer: C::header_write(fields, &mut out), bytes: out, numbers: vec![] }
}

/// How often each call gave each answer; or the first question that the two sides answer otherwise.
pub fn check(count: u64, seed: u64) -> Result<BTreeMap<(&'static str, u64), u64>, String> {
    let mut dice = Dice(seed);
    let mut counts = BTreeMap::new();
    for i in 0..count {
        let mut same = |call: &'static str, codec: Said, plain: Said| {
            *counts.entry((call, codec.answer.err().unwrap_or(0))).or_insert(0) += 1;
            if codec == plain {
                Ok(codec)
            } else {
                Err(format!("question {i} of seed {seed}, {call}: the codec {codec:?}, plain Rust {plain:?}"))
            }
        };
        let d = &mut dice;
        let bytes = buffer(d);
        let columns: Vec<[u8; 16]> = (0..if seldom(d, 500) { 1025 } else { d.below(7) }).map(|_| column(d)).collect();
        let mut table = columns.concat();
        let mut values: Vec<u64> = columns.iter().flat_map(|column| value(d, column, &bytes)).collect();
        if seldom(d, 50) {
            table.truncate(d.below(table.len() as u64 + 1) as usize);
        }
        if seldom(d, 50) {
            values.truncate(d.below(values.len() as u64 + 1) as usize);
        }
        let large = vec![0xEE; 8192];
        let written = same(
            "row_write",
            row_write::<Codec>(&table, &values, &bytes, large.clone()),
            row_write::<Plain>(&table, &values, &bytes, large.clone()),
        )?;
        let size = written.answer.unwrap_or(20);
        let out = room(d, size);
        same("row_write", row_write::<Codec>(&table, &values, &bytes, out.clone()), row_write::<Plain>(&table, &values, &bytes, out))?;

        // Rows: what was written, cut, damaged, behind some bytes.
        let mut row = vec![0; d.below(3) as usize];
        let at = row.len();
        row.extend(cut(d, &written.bytes[..size.min(written.bytes.len())]));
        if seldom(d, 2) {
            damage(d, &mut row);
        }
        let at = if seldom(d, 60) { d.next() as usize } else { at };
        let numbers = vec![7; if seldom(d, 30) { d.below(20) as usize } else { 3 * columns.len() + 4 }];
        for room in [large.clone(), room(d, row.len() / 2)] {
            same(
                "row_read",
                row_read::<Codec>(&table, &row, at, room.clone(), numbers.clone()),
                row_read::<Plain>(&table, &row, at, room, numbers.clone()),
            )?;
        }
        let normal =
            same("row_normal", row_normal::<Codec>(&table, &row, at, large.clone()), row_normal::<Plain>(&table, &row, at, large))?;
        let out = room(d, normal.answer.unwrap_or(20));
        same("row_normal", row_normal::<Codec>(&table, &row, at, out.clone()), row_normal::<Plain>(&table, &row, at, out))?;

        // Text, both ways.
        let mut units: Vec<u8> = String::from_utf8_lossy(&bytes).encode_utf16().flat_map(u16::to_le_bytes).collect();
        if seldom(d, 4) {
            damage(d, &mut units);
        }
        let out = room(d, to_utf16::<Codec>(&bytes, vec![0; 1024]).answer.unwrap_or(9));
        same("to_utf16", to_utf16::<Codec>(&bytes, out.clone()), to_utf16::<Plain>(&bytes, out))?;
        let out = room(d, to_utf8::<Codec>(&units, vec![0; 1024]).answer.unwrap_or(9));
        same("to_utf8", to_utf8::<Codec>(&units, out.clone()), to_utf8::<Plain>(&units, out))?;

        // Descriptors.
        let ty = pick(d, &TYPES);
        let mut bytes = vec![ty, if seldom(d, 2) { 1 } else { d.next() as u8 }];
        bytes.extend((0..d.below(24)).map(|_| d.below(6) as u8));
        let at = d.below(2) as usize * d.below(30) as usize;
        let read = same("column_read", column_read::<Codec>(&bytes, at), column_read::<Plain>(&bytes, at))?;
        let mut column: [u8; 16] = read.bytes.try_into().map_err(|_| "a record".to_string())?;
        let mut names: [u64; 6] = read.numbers.try_into().map_err(|_| "names".to_string())?;
        if seldom(d, 4) {
            column[d.below(16) as usize] = pick(d, &[0, 1, 2, 3, 255]);
        }
        if seldom(d, 4) {
            names[d.below(6) as usize] = pick(d, &[0, 1, 255, 256, 65536, u64::MAX]);
        }
        let out = room(d, read.answer.unwrap_or(9));
        same(
            "column_write",
            column_write::<Codec>(&column, &names, &bytes, out.clone()),
            column_write::<Plain>(&column, &names, &bytes, out),
        )?;

        // Headers.
        let fields =
            [d.below(20) as u16, pick(d, &[0, 1, 2, 3, 8, 16]), d.next() as u16, d.next() as u16, d.below(256) as u16, d.below(256) as u16];
        let out = room(d, 8);
        let header = same("header_write", header_write::<Codec>(&fields, out.clone()), header_write::<Plain>(&fields, out))?.bytes;
        let at = d.below(2) as usize * d.below(3) as usize;
        same("header_read", header_read::<Codec>(&header, at), header_read::<Plain>(&header, at))?;
    }
    Ok(counts)
}
