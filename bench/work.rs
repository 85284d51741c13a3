//! The work: its inputs, and one pass over them by either side.
use crate::sides::{Calls, Outcome};

/// Numbers that look random and are the same in every run.
pub struct Dice(pub u64);

impl Dice {
    pub fn next(&mut self) -> u64 {
        self.0 = self.0.wrapping_add(0x9E37_79B9_7F4A_7C15);
        let mixed = (self.0 ^ self.0 >> 30).wrapping_mul(0xBF58_476D_1CE4_E5B9);
        let mixed = (mixed ^ mixed >> 27).wrapping_mul(0x94D0_49BB_1331_11EB);
        mixed ^ mixed >> 31
    }

    pub fn below(&mut self, n: u64) -> u64 {
        self.next() % n
    }
}

/// A column's record of a type and a length; a collation where the type has one.
pub fn record(ty: u8, length: u32) -> [u8; 16] {
    let [l0, l1, l2, l3] = length.to_le_bytes();
    let digits = if ty == 0x6A || ty == 0x6C { [18, 4] } else { [0, 0] };
    match ty {
        0x23 | 0x63 | 0xA7 | 0xAF | 0xE7 | 0xEF => [ty, 1, 0, 0, l0, l1, l2, l3, 9, 4, 0xD0, 0, 52, 0, 0, 0],
        _ => [ty, 0, digits[0], digits[1], l0, l1, l2, l3, 0, 0, 0, 0, 0, 0, 0, 0],
    }
}

/// What is done.
#[derive(Clone, Copy, PartialEq, Eq)]
pub enum Task {
    HeaderRead,
    HeaderWrite,
    ToUtf16,
    ToUtf8,
    ColumnRead,
    ColumnWrite,
    RowWrite,
    RowRead,
    RowNormal,
}

/// A piece of work: what is done to what. Fields that the task does not use are empty.
pub struct Work {
    pub name: String,
    pub task: Task,
    /// How many bytes a pass reads, or writes.
    pub size: usize,
    /// The bytes to be read, or the buffer of values to be written.
    pub bytes: Vec<u8>,
    /// How many calls a pass has.
    pub calls: usize,
    /// How long a text is.
    pub step: usize,
    pub headers: Vec<[u16; 6]>,
    /// A row's columns, or the columns to be written, a record each.
    pub table: Vec<u8>,
    /// The values of `SETS` rows to be written.
    pub values: Vec<u64>,
}

/// Rows are written from the values of so many rows, again and again.
pub const SETS: usize = 16;

/// Where a pass puts its answers; nothing of it is cleared between passes.
pub struct Lent {
    pub out: Vec<u8>,
    pub numbers: Vec<u64>,
    pub fields: [u16; 6],
    pub column: [u8; 16],
    pub names: [u64; 6],
    pub next: u64,
}

impl Lent {
    pub fn new(room: usize) -> Lent {
        // Not zero, so that the pages are there before anything is timed.
        Lent { out: vec![0xEE; room], numbers: vec![7; 3 * 1024], fields: [7; 6], column: [7; 16], names: [7; 6], next: 7 }
    }
}

/// One pass. `seen` is told each call's answer, what it was lent, and which part of the room it wrote.
pub fn pass<C: Calls>(work: &Work, lent: &mut Lent, mut seen: impl FnMut(Outcome, &Lent, usize, usize)) {
    let bytes = &work.bytes[..];
    match work.task {
        Task::HeaderRead => {
            for i in 0..work.calls {
                let answer = C::header_read(bytes, 8 * i, &mut lent.fields);
                seen(answer, lent, 0, 0);
            }
        }
        Task::HeaderWrite => {
            for (i, header) in work.headers.iter().enumerate() {
                let answer = C::header_write(header, &mut lent.out[8 * i..]);
                seen(answer, lent, 8 * i, 8);
            }
        }
        Task::ToUtf16 | Task::ToUtf8 => {
            let mut at = 0;
            for text in bytes.chunks_exact(work.step) {
                let out = &mut lent.out[at..];
                let answer = if work.task == Task::ToUtf16 { C::to_utf16(text, out) } else { C::to_utf8(text, out) };
                let count = answer.unwrap_or(0);
                seen(answer, lent, at, count);
                at += count;
            }
        }
        Task::ColumnRead => {
            let mut at = 0;
            for i in 0..work.calls {
                let answer = C::column_read(bytes, at, i as u16, &mut lent.column, &mut lent.names);
                at = answer.unwrap_or(0);
                seen(answer, lent, 0, 0);
            }
        }
        Task::ColumnWrite => {
            let mut at = 0;
            for record in work.table.chunks_exact(16) {
                lent.column.copy_from_slice(record);
                let answer = C::column_write(&lent.column, &[0; 6], &[], &mut lent.out[at..]);
                let count = answer.unwrap_or(0);
                seen(answer, lent, at, count);
                at += count;
            }
        }
        Task::RowWrite => {
            let row = work.values.len() / SETS;
            let mut at = 0;
            for i in 0..work.calls {
                let values = &work.values[i % SETS * row..][..row];
                let answer = C::row_write(&work.table, values, bytes, &mut lent.out[at..]);
                let count = answer.unwrap_or(0);
                seen(answer, lent, at, count);
                at += count;
            }
        }
        Task::RowRead => {
            let mut at = 0;
            for _ in 0..work.calls {
                let answer = C::row_read(&work.table, bytes, at, &mut lent.out, &mut lent.numbers);
                at = answer.unwrap_or(0);
                seen(answer, lent, 0, 0);
            }
        }
        Task::RowNormal => {
            let (mut from, mut at) = (0, 0);
            for _ in 0..work.calls {
                let answer = C::row_normal(&work.table, bytes, from, &mut lent.out[at..], &mut lent.next);
                let count = answer.unwrap_or(0);
                seen(answer, lent, at, count);
                (from, at) = (lent.next as usize, at + count);
            }
        }
    }
}

/// A pass that only works. No compiler sees through the calls: one side is an archive, the other a crate of its own whose calls are not inlined.
pub fn run<C: Calls>(work: &Work, lent: &mut Lent) {
    pass::<C>(work, lent, |_, _, _, _| {});
}

// ---- inputs

fn empty(name: String, task: Task, size: usize) -> Work {
    Work { name, task, size, bytes: vec![], calls: 0, step: 0, headers: vec![], table: vec![], values: vec![] }
}

fn headers(task: Task, size: usize) -> Work {
    let mut dice = Dice(1);
    let headers: Vec<[u16; 6]> = (0..size / 8)
        .map(|_| {
            let ty = [1, 2, 3, 4, 6, 7, 8, 14, 16, 17, 18][dice.below(11) as usize];
            let status = [0, 1, 3, 8, 16][dice.below(5) as usize];
            [ty, status, dice.next() as u16, dice.next() as u16, dice.below(256) as u16, dice.below(256) as u16]
        })
        .collect();
    let bytes = headers.iter().flat_map(|&[ty, status, length, spid, id, window]| {
        let ([l1, l0], [s1, s0]) = (length.to_be_bytes(), spid.to_be_bytes());
        [ty as u8, status as u8, l1, l0, s1, s0, id as u8, window as u8]
    });
    let name = if task == Task::HeaderRead { "header-read" } else { "header-write" };
    Work { bytes: bytes.collect(), calls: size / 8, headers, ..empty(name.to_string(), task, size) }
}

/// Text of so many bytes of UTF-8: plain letters, or letters of one, two, three and four bytes.
fn text(mixed: bool, length: usize) -> String {
    let mut dice = Dice(2);
    let mut text = String::new();
    while text.len() < length {
        let left = length - text.len();
        let letter = match dice.below(8) {
            0 if mixed && left >= 2 => 'ö',
            1 if mixed && left >= 3 => '–',
            2 if mixed && left >= 4 => '🛩',
            _ => char::from(b'a' + dice.below(26) as u8),
        };
        text.push(letter);
    }
    text
}

fn texts(task: Task, mixed: bool, length: usize, size: usize) -> Work {
    let one = text(mixed, length);
    let one = if task == Task::ToUtf16 { one.into_bytes() } else { one.encode_utf16().flat_map(u16::to_le_bytes).collect() };
    let calls = size / length;
    let kind = if mixed { "mixed" } else { "letters" };
    let way = if task == Task::ToUtf16 { "utf16" } else { "utf8" };
    Work { step: one.len(), bytes: one.repeat(calls), calls, ..empty(format!("{way}.{kind}-{length}"), task, size) }
}

/// A list of 100 columns.
fn list() -> Vec<[u8; 16]> {
    let kinds = [(0x26, 4), (0xE7, 80), (0x38, 0), (0x6D, 8), (0xA5, 65535), (0x24, 16), (0x6A, 9), (0x68, 1), (0xE7, 65535), (0x7F, 0)];
    (0..100).map(|i| record(kinds[i % 10].0, kinds[i % 10].1)).collect()
}

fn described(record: &[u8; 16]) -> Vec<u8> {
    let [ty, flags, precision, scale, l0, l1, _, _, collation @ .., _, _, _] = *record;
    let mut bytes = vec![ty];
    match ty {
        0x30..=0x3F | 0x7F => {}
        0xA5 | 0xE7 => bytes.extend([l0, l1]),
        _ => bytes.push(l0),
    }
    if ty == 0x6A {
        bytes.extend([precision, scale]);
    }
    if flags == 1 {
        bytes.extend(collation);
    }
    bytes
}

fn descriptors(task: Task, lists: usize) -> Work {
    let list = list().repeat(lists);
    let bytes: Vec<u8> = list.iter().flat_map(described).collect();
    let name = if task == Task::ColumnRead { "columns-read" } else { "columns-write" };
    Work { calls: list.len(), table: list.concat(), size: bytes.len(), bytes, ..empty(name.to_string(), task, 0) }
}

/// What a row is made of: its columns, the values of `SETS` rows, and the buffer that their content stands in.
struct Kind {
    name: String,
    table: Vec<u8>,
    values: Vec<u64>,
    buffer: Vec<u8>,
}

fn integers_and_plp(content: usize) -> Kind {
    let mut dice = Dice(3);
    let table = (0..20).flat_map(|_| record(0x26, 4)).chain(record(0xA5, 65535)).collect();
    let buffer = (0..content + SETS).map(|_| dice.next() as u8).collect();
    let mut values = vec![];
    for set in 0..SETS {
        for _ in 0..20 {
            values.extend([4, i64::from(dice.next() as i32) as u64, 0]);
        }
        values.extend([9, set as u64, content as u64]);
    }
    Kind { name: format!("plp-{content}"), table, values, buffer }
}

fn mixed_scalars() -> Kind {
    let mut dice = Dice(4);
    #[rustfmt::skip]
    let columns = [
        (0x30, 0, 2), (0x32, 0, 1), (0x34, 0, 3), (0x38, 0, 4), (0x7F, 0, 5), (0x3B, 0, 6), (0x3E, 0, 7), (0x26, 1, 2), (0x26, 2, 3), (0x26, 4, 4),
        (0x26, 8, 5), (0x68, 1, 1), (0x6D, 4, 6), (0x6D, 8, 7), (0x24, 16, 8), (0x26, 4, 0), (0x68, 1, 1), (0x24, 16, 8), (0x38, 0, 4), (0x26, 8, 5),
    ];
    let mut values = vec![];
    for _ in 0..SETS {
        for (_, _, kind) in columns {
            let n = dice.next();
            let first = match kind {
                0 => 0,
                1 => n % 2,
                2 => n % 256,
                3 => i64::from(n as i16) as u64,
                4 => i64::from(n as i32) as u64,
                6 => u64::from((n as u32 as f32).to_bits()),
                7 => (n as f64).to_bits(),
                _ => n,
            };
            values.extend([kind, first, if kind == 8 { dice.next() } else { 0 }]);
        }
    }
    let table = columns.iter().flat_map(|&(ty, length, _)| record(ty, length)).collect();
    Kind { name: "mixed".to_string(), table, values, buffer: vec![] }
}

/// One row's bytes, its PLP content in so many chunks; the last column is the PLP one.
fn in_chunks(row: &[u8], content: usize, chunks: usize) -> Vec<u8> {
    if content == 0 || chunks == 1 {
        return row.to_vec();
    }
    let end = row.len() - content - 8;
    let mut cut = row[..end].to_vec();
    let body = &row[end + 4..end + 4 + content];
    for chunk in body.chunks((content + chunks - 1) / chunks) {
        cut.extend((chunk.len() as u32).to_le_bytes());
        cut.extend(chunk);
    }
    cut.extend([0; 4]);
    cut
}

fn rows<C: Calls>(kind: &Kind, content: usize, chunks: usize, task: Task, size: usize) -> Work {
    let columns = kind.table.len() / 16;
    let mut room = vec![0; 16 * 1024];
    let mut all = vec![];
    let mut calls = 0;
    while all.len() < size {
        let values = &kind.values[calls % SETS * 3 * columns..][..3 * columns];
        let count = C::row_write(&kind.table, values, &kind.buffer, &mut room).expect("a row");
        all.extend(in_chunks(&room[..count], content, chunks));
        calls += 1;
    }
    let verb = match task {
        Task::RowWrite => "write",
        Task::RowRead => "read",
        _ => "normal",
    };
    let cut = if content > 0 && task != Task::RowWrite { format!("-in-{chunks}") } else { String::new() };
    let volume = if size < 1 << 20 { "64K" } else { "16M" };
    let name = format!("{verb}.{}{cut}.{volume}", kind.name);
    let bytes = if task == Task::RowWrite { kind.buffer.clone() } else { all.clone() };
    Work { bytes, calls, table: kind.table.clone(), values: kind.values.clone(), ..empty(name, task, all.len()) }
}

/// All the work. Rows to be read are made by the side `C`, and compared before anything is timed. `small`: passes of a few calls, to be counted.
pub fn all<C: Calls>(small: bool) -> Vec<Work> {
    let size = if small { 1 << 10 } else { 1 << 16 };
    let mut work = vec![headers(Task::HeaderRead, size), headers(Task::HeaderWrite, size)];
    for task in [Task::ToUtf16, Task::ToUtf8] {
        for mixed in [false, true] {
            work.extend([16, 4000].map(|length| texts(task, mixed, length, size.max(4000))));
        }
    }
    let lists = if small { 1 } else { 20 };
    work.extend([descriptors(Task::ColumnRead, lists), descriptors(Task::ColumnWrite, lists)]);
    for size in if small { vec![1] } else { vec![1 << 16, 1 << 24] } {
        for task in [Task::RowWrite, Task::RowRead, Task::RowNormal] {
            work.push(rows::<C>(&mixed_scalars(), 0, 1, task, size));
            for content in [0, 16, 1000, 8000] {
                for chunks in if content == 0 || task == Task::RowWrite { vec![1] } else { vec![1, 3] } {
                    work.push(rows::<C>(&integers_and_plp(content), content, chunks, task, size));
                }
            }
        }
    }
    work
}
