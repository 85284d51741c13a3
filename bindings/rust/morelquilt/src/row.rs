use crate::refusal::counted;
use crate::{place, sys, Column, Given, Read, Refusal, Units, Value};
use core::mem::{size_of, size_of_val};

/// What a row that was read fills, one for each column: lent by the caller, since nothing is allocated.
#[derive(Clone, Copy, Debug, PartialEq, Eq, Hash)]
#[repr(transparent)]
pub struct Slot(sys::Value);

impl Slot {
    /// One that nothing was read into.
    pub const EMPTY: Slot = Slot(sys::Value { kind: sys::NULL, first: 0, second: 0 });

    pub(crate) fn as_mut_ptr(&mut self) -> *mut sys::Value {
        &mut self.0
    }

    /// The value that an export filled in, reading from this row and this room. By its contract a number is within its
    /// kind's range, the higher bytes being its sign, and a span within the row or the room.
    pub(crate) fn value<'a>(&self, row: &'a [u8], room: &'a [u8]) -> Value<'a> {
        let Slot(sys::Value { kind, first, second }) = *self;
        let [a, b, c, d, ..] = first.to_le_bytes();
        match kind {
            sys::BIT => Value::Bit(first != 0),
            sys::U8 => Value::U8(a),
            sys::I16 => Value::I16(i16::from_le_bytes([a, b])),
            sys::I32 => Value::I32(i32::from_le_bytes([a, b, c, d])),
            sys::I64 => Value::I64(i64::from_le_bytes(first.to_le_bytes())),
            sys::F32 => Value::F32(f32::from_le_bytes([a, b, c, d])),
            sys::F64 => Value::F64(f64::from_bits(first)),
            sys::GUID => Value::Guid(guid(first, second)),
            sys::BINARY => Value::Binary(part(row, first, second)),
            sys::STRING => Value::String(Units::new(part(row, first, second))),
            sys::BINARY_IN_ROOM => Value::Binary(part(room, first, second)),
            sys::STRING_IN_ROOM => Value::String(Units::new(part(room, first, second))),
            _ => Value::Null,
        }
    }
}

fn guid(first: u64, second: u64) -> [u8; 16] {
    (u128::from(first) << 64 | u128::from(second)).to_be_bytes()
}

// The empty part where a span leaves the bytes: no span of a row that was read does.
fn part(bytes: &[u8], start: u64, count: u64) -> &[u8] {
    bytes.get(place(start)..).and_then(|rest| rest.get(..place(count))).unwrap_or(&[])
}

/// A row that was read. It was judged whole before it was handed out, so that its values are had without a refusal.
///
/// Rows that arrive in pieces: on `Refusal::Missing` wait for more bytes, and read again from the same place.
///
/// ```
/// use morelquilt::{Column, Refusal, Row, Slot, Value};
///
/// let table = [Column::intn(4), Column::bit()];
/// let bytes = [4, 0xFE, 0xFF, 0xFF, 0xFF, 1];
/// let mut slots = [Slot::EMPTY; 2];
/// assert_eq!(Row::read(&table, &bytes[..5], 0, &mut [], &mut slots).err(), Some(Refusal::Missing));
///
/// let row = Row::read(&table, &bytes, 0, &mut [], &mut slots)?;
/// assert!(row.iter().eq([Value::I32(-2), Value::Bit(true)]));
/// assert_eq!(row.next(), 6);
/// # Ok::<(), Refusal>(())
/// ```
#[derive(Clone, Copy, Debug)]
pub struct Row<'a> {
    row: &'a [u8],
    room: &'a [u8],
    slots: &'a [Slot],
    next: usize,
}

impl<'a> Row<'a> {
    /// The row at a place. Long content is joined in the room, column behind column: `row_needs` says how much that is.
    /// Fewer slots than columns are `Refusal::Room`.
    pub fn read(table: &[Column], row: &'a [u8], at: usize, room: &'a mut [u8], slots: &'a mut [Slot]) -> Result<Row<'a>, Refusal> {
        // SAFETY: four slices' own pointers and lengths, columns as the bytes and slots as the numbers that they are
        // made of, without padding; `room` and `slots` are lent to write, so that they overlap nothing.
        let next = counted(unsafe {
            sys::morelquilt_row_read(
                table.as_ptr().cast(),
                size_of_val(table),
                row.as_ptr(),
                row.len(),
                at,
                room.as_mut_ptr(),
                room.len(),
                slots.as_mut_ptr().cast(),
                numbers(slots),
            )
        })?;
        Ok(Row { row, room, slots: slots.get(..table.len()).unwrap_or(&[]), next })
    }

    /// How many columns it has.
    pub const fn len(&self) -> usize {
        self.slots.len()
    }

    /// Whether it has no columns.
    pub const fn is_empty(&self) -> bool {
        self.slots.is_empty()
    }

    /// The place behind it.
    pub const fn next(&self) -> usize {
        self.next
    }

    /// The value of a column, counted from 0; none behind the last.
    pub fn get(&self, column: usize) -> Option<Value<'a>> {
        self.slots.get(column).map(|slot| slot.value(self.row, self.room))
    }

    /// The values, from the left.
    pub fn iter(&self) -> impl DoubleEndedIterator<Item = Value<'a>> + ExactSizeIterator + 'a {
        let Row { row, room, slots, .. } = *self;
        slots.iter().map(move |slot| slot.value(row, room))
    }
}

// How many numbers a slice of values is made of.
fn numbers<T>(values: &[T]) -> usize {
    size_of_val(values) / size_of::<u64>()
}

/// How many bytes a row has.
pub fn row_size(table: &[Column], values: &[Given], buffer: &[u8]) -> Result<usize, Refusal> {
    // SAFETY: three slices' own pointers and lengths, columns as the bytes and values as the numbers that they are made of,
    // without padding.
    counted(unsafe {
        sys::morelquilt_row_size(
            table.as_ptr().cast(),
            size_of_val(table),
            values.as_ptr().cast(),
            numbers(values),
            buffer.as_ptr(),
            buffer.len(),
        )
    })
}

/// A row at the front of the room: how many bytes. The values' contents are spans of the buffer.
pub fn write_row(table: &[Column], values: &[Given], buffer: &[u8], out: &mut [u8]) -> Result<usize, Refusal> {
    // SAFETY: four slices' own pointers and lengths, columns as the bytes and values as the numbers that they are made of,
    // without padding; `out` is lent to write, so that it overlaps nothing.
    counted(unsafe {
        sys::morelquilt_row_write(
            table.as_ptr().cast(),
            size_of_val(table),
            values.as_ptr().cast(),
            numbers(values),
            buffer.as_ptr(),
            buffer.len(),
            out.as_mut_ptr(),
            out.len(),
        )
    })
}

/// What a row needs.
#[derive(Clone, Copy, Debug, PartialEq, Eq, Hash)]
pub struct Needs {
    /// Bytes of room that reading it takes.
    pub room: usize,
    /// Bytes of its normal form.
    pub normal: usize,
}

/// What the row at a place needs. Nothing is copied.
pub fn row_needs(table: &[Column], row: &[u8], at: usize) -> Read<Needs> {
    let mut needs = sys::Needs::default();
    // SAFETY: two slices' own pointers and lengths, columns as the bytes that they are made of, without padding; `needs` is
    // a local that nothing else sees.
    let answer = unsafe { sys::morelquilt_row_needs(table.as_ptr().cast(), size_of_val(table), row.as_ptr(), row.len(), at, &mut needs) };
    let next = counted(answer)?;
    Ok((Needs { room: place(needs.room), normal: place(needs.normal) }, next))
}

/// The normal form of the row at a place, at the front of the room: how many bytes. Two rows hold the same exactly when their
/// normal forms are the same bytes.
///
/// ```
/// use morelquilt::{normal_form, Column};
///
/// let table = [Column::varbinary_max()];
/// let two = [0xFE, 255, 255, 255, 255, 255, 255, 255, 1, 0, 0, 0, 0xAA, 2, 0, 0, 0, 0xBB, 0xCC, 0, 0, 0, 0];
/// let mut room = [0; 32];
/// assert_eq!(normal_form(&table, &two, 0, &mut room), Ok((19, 23)));
/// assert_eq!(room[8..19], [3, 0, 0, 0, 0xAA, 0xBB, 0xCC, 0, 0, 0, 0]);
/// ```
pub fn normal_form(table: &[Column], row: &[u8], at: usize, out: &mut [u8]) -> Read<usize> {
    let mut next = 0;
    // SAFETY: three slices' own pointers and lengths, columns as the bytes that they are made of, without padding; `out` is
    // lent to write, and `next` is a local, so that they overlap nothing.
    let n = counted(unsafe {
        sys::morelquilt_row_normal(
            table.as_ptr().cast(),
            size_of_val(table),
            row.as_ptr(),
            row.len(),
            at,
            out.as_mut_ptr(),
            out.len(),
            &mut next,
        )
    })?;
    Ok((n, place(next)))
}
