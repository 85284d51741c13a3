use crate::refusal::counted;
use crate::row::Slot;
use crate::{sys, wide, Column, Read, Refusal, Units};

/// A value that was read. Its content is borrowed: from the row, or from the room that long content was joined in.
#[derive(Clone, Copy, Debug, PartialEq)]
pub enum Value<'a> {
    /// Null.
    Null,
    /// A bit.
    Bit(bool),
    /// An unsigned 8-bit integer.
    U8(u8),
    /// A signed 16-bit integer.
    I16(i16),
    /// A signed 32-bit integer.
    I32(i32),
    /// A signed 64-bit integer.
    I64(i64),
    /// A 32-bit float.
    F32(f32),
    /// A 64-bit float.
    F64(f64),
    /// A GUID's sixteen bytes, in text order.
    Guid([u8; 16]),
    /// Bytes.
    Binary(&'a [u8]),
    /// Text, in UTF-16LE.
    String(Units<'a>),
}

impl<'a> Value<'a> {
    /// The value at a place of a row, under a column. Long content is joined at the front of the room.
    ///
    /// ```
    /// use morelquilt::{Column, Value};
    ///
    /// let row = [4, 0xFE, 0xFF, 0xFF, 0xFF];
    /// assert_eq!(Value::read(&Column::intn(4), &row, 0, &mut []), Ok((Value::I32(-2), 5)));
    /// ```
    pub fn read(column: &Column, row: &'a [u8], at: usize, room: &'a mut [u8]) -> Read<Value<'a>> {
        let mut slot = Slot::EMPTY;
        // SAFETY: a reference to a whole column; two slices' own pointers and lengths; `room` is lent to write, and
        // `slot` is a local, so that they overlap nothing.
        let next = counted(unsafe {
            sys::morelquilt_value_read(column.record(), row.as_ptr(), row.len(), at, room.as_mut_ptr(), room.len(), slot.as_mut_ptr())
        })?;
        Ok((slot.value(row, room), next))
    }
}

/// A value to be written. Content is a span of the buffer that is lent beside it, so that a row's values share one.
///
/// ```
/// use morelquilt::{Collation, Column, Given, Refusal};
///
/// let mut room = [0; 8];
/// let text = "é".as_bytes();
/// let nvarchar = Column::nvarchar(2, Collation::default());
/// assert_eq!(Given::string(0, 2).write(&nvarchar, text, &mut room), Ok(4));
/// assert_eq!(room[..4], [2, 0, 0xE9, 0]);
/// assert_eq!(Given::string(0, 3).write(&nvarchar, text, &mut room), Err(Refusal::Missing));
/// ```
#[derive(Clone, Copy, Debug, PartialEq, Eq, Hash)]
#[repr(transparent)]
pub struct Given(sys::Value);

impl Given {
    /// Null.
    pub const NULL: Given = Given::made(sys::NULL, 0, 0);

    const fn made(kind: u64, first: u64, second: u64) -> Given {
        Given(sys::Value { kind, first, second })
    }

    /// A bit.
    pub const fn bit(truth: bool) -> Given {
        Given::made(sys::BIT, truth as u64, 0)
    }

    /// An unsigned 8-bit integer.
    pub const fn u8(n: u8) -> Given {
        Given::made(sys::U8, n as u64, 0)
    }

    /// A signed 16-bit integer.
    pub const fn i16(n: i16) -> Given {
        Given::made(sys::I16, n as i64 as u64, 0)
    }

    /// A signed 32-bit integer.
    pub const fn i32(n: i32) -> Given {
        Given::made(sys::I32, n as i64 as u64, 0)
    }

    /// A signed 64-bit integer.
    pub const fn i64(n: i64) -> Given {
        Given::made(sys::I64, n as u64, 0)
    }

    /// A 32-bit float; a NaN keeps its bits.
    pub fn f32(x: f32) -> Given {
        Given::made(sys::F32, x.to_bits().into(), 0)
    }

    /// A 64-bit float; a NaN keeps its bits.
    pub fn f64(x: f64) -> Given {
        Given::made(sys::F64, x.to_bits(), 0)
    }

    /// A GUID of sixteen bytes in text order.
    pub const fn guid(text: [u8; 16]) -> Given {
        let [a, b, c, d, e, f, g, h, i, j, k, l, m, n, o, p] = text;
        Given::made(sys::GUID, u64::from_be_bytes([a, b, c, d, e, f, g, h]), u64::from_be_bytes([i, j, k, l, m, n, o, p]))
    }

    /// Bytes of the buffer: from `start` on, so many.
    pub const fn binary(start: usize, count: usize) -> Given {
        Given::made(sys::BINARY, wide(start), wide(count))
    }

    /// UTF-8 in the buffer: from `start` on, so many bytes.
    pub const fn string(start: usize, count: usize) -> Given {
        Given::made(sys::STRING, wide(start), wide(count))
    }

    /// How many bytes the value has under a column.
    pub fn size(&self, column: &Column, buffer: &[u8]) -> Result<usize, Refusal> {
        // SAFETY: references to whole structs; a slice's own pointer and length.
        counted(unsafe { sys::morelquilt_value_size(column.record(), &self.0, buffer.as_ptr(), buffer.len()) })
    }

    /// The value under a column at the front of the room: how many bytes.
    pub fn write(&self, column: &Column, buffer: &[u8], out: &mut [u8]) -> Result<usize, Refusal> {
        // SAFETY: references to whole structs; two slices' own pointers and lengths; `out` is lent to write, so that it
        // overlaps nothing.
        counted(unsafe {
            sys::morelquilt_value_write(column.record(), &self.0, buffer.as_ptr(), buffer.len(), out.as_mut_ptr(), out.len())
        })
    }

    /// How many bytes the value has with its own descriptor in front.
    pub fn untyped_size(&self, buffer: &[u8]) -> Result<usize, Refusal> {
        // SAFETY: a reference to a whole struct; a slice's own pointer and length.
        counted(unsafe { sys::morelquilt_untyped_size(&self.0, buffer.as_ptr(), buffer.len()) })
    }

    /// The value with its own descriptor in front, at the front of the room: how many bytes.
    pub fn write_untyped(&self, buffer: &[u8], out: &mut [u8]) -> Result<usize, Refusal> {
        // SAFETY: a reference to a whole struct; two slices' own pointers and lengths; `out` is lent to write, so that it
        // overlaps nothing.
        counted(unsafe { sys::morelquilt_untyped_write(&self.0, buffer.as_ptr(), buffer.len(), out.as_mut_ptr(), out.len()) })
    }
}
