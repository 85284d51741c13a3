//! The two sides behind one trait: the proved codec, by the exports of `crates/board`, and `plain.rs`.
use plain::Answer;

/// A count, or the number of a refusal.
pub type Outcome = Result<usize, u64>;

/// The calls that are measured.
pub trait Calls {
    fn header_read(bytes: &[u8], at: usize, fields: &mut [u16; 6]) -> Outcome;
    fn header_write(fields: &[u16; 6], out: &mut [u8]) -> Outcome;
    fn to_utf16(text: &[u8], out: &mut [u8]) -> Outcome;
    fn to_utf8(units: &[u8], out: &mut [u8]) -> Outcome;
    fn column_read(bytes: &[u8], at: usize, index: u16, column: &mut [u8; 16], names: &mut [u64; 6]) -> Outcome;
    fn column_write(column: &[u8; 16], names: &[u64; 6], buffer: &[u8], out: &mut [u8]) -> Outcome;
    fn row_write(table: &[u8], values: &[u64], buffer: &[u8], out: &mut [u8]) -> Outcome;
    fn row_read(table: &[u8], row: &[u8], at: usize, room: &mut [u8], values: &mut [u64]) -> Outcome;
    fn row_normal(table: &[u8], row: &[u8], at: usize, out: &mut [u8], next: &mut u64) -> Outcome;
}

// ---- the codec

/// Refusal 0 and a count, or a refusal and 0.
#[repr(C)]
struct Counted {
    refusal: u64,
    count: u64,
}

impl Counted {
    fn outcome(self) -> Outcome {
        match self.refusal {
            0 => Ok(self.count as usize),
            refusal => Err(refusal),
        }
    }
}

// A slice crosses as a pointer and a length, an array as a pointer.
#[rustfmt::skip]
extern "C" {
    fn morelquilt_header_read(bytes: *const u8, len: usize, at: usize, fields: *mut u16) -> Counted;
    fn morelquilt_header_write(ty: u8, status: u8, length: u16, spid: u16, id: u8, window: u8, out: *mut u8, room: usize) -> Counted;
    fn morelquilt_to_utf16(text: *const u8, len: usize, out: *mut u8, room: usize) -> Counted;
    fn morelquilt_to_utf8(units: *const u8, len: usize, out: *mut u8, room: usize) -> Counted;
    fn morelquilt_column_read(bytes: *const u8, len: usize, at: usize, index: u16, column: *mut u8, names: *mut u64) -> Counted;
    fn morelquilt_column_write(column: *const u8, names: *const u64, buffer: *const u8, len: usize, out: *mut u8, room: usize) -> Counted;
    fn morelquilt_row_write(table: *const u8, width: usize, values: *const u64, count: usize, buffer: *const u8, len: usize,
        out: *mut u8, room: usize) -> Counted;
    fn morelquilt_row_read(table: *const u8, width: usize, row: *const u8, len: usize, at: usize, out: *mut u8, room: usize,
        values: *mut u64, count: usize) -> Counted;
    fn morelquilt_row_normal(table: *const u8, width: usize, row: *const u8, len: usize, at: usize, out: *mut u8, room: usize,
        next: *mut u64) -> Counted;
}

/// The proved codec.
pub struct Codec;

// Safety: every pointer is a reference's, with its own length; a call keeps none of them (the exports' contracts).
#[rustfmt::skip]
impl Calls for Codec {
    fn header_read(bytes: &[u8], at: usize, fields: &mut [u16; 6]) -> Outcome {
        unsafe { morelquilt_header_read(bytes.as_ptr(), bytes.len(), at, fields.as_mut_ptr()) }.outcome()
    }
    fn header_write(&[ty, status, length, spid, id, window]: &[u16; 6], out: &mut [u8]) -> Outcome {
        unsafe { morelquilt_header_write(ty as u8, status as u8, length, spid, id as u8, window as u8, out.as_mut_ptr(), out.len()) }.outcome()
    }
    fn to_utf16(text: &[u8], out: &mut [u8]) -> Outcome {
        unsafe { morelquilt_to_utf16(text.as_ptr(), text.len(), out.as_mut_ptr(), out.len()) }.outcome()
    }
    fn to_utf8(units: &[u8], out: &mut [u8]) -> Outcome {
        unsafe { morelquilt_to_utf8(units.as_ptr(), units.len(), out.as_mut_ptr(), out.len()) }.outcome()
    }
    fn column_read(bytes: &[u8], at: usize, index: u16, column: &mut [u8; 16], names: &mut [u64; 6]) -> Outcome {
        unsafe { morelquilt_column_read(bytes.as_ptr(), bytes.len(), at, index, column.as_mut_ptr(), names.as_mut_ptr()) }.outcome()
    }
    fn column_write(column: &[u8; 16], names: &[u64; 6], buffer: &[u8], out: &mut [u8]) -> Outcome {
        unsafe { morelquilt_column_write(column.as_ptr(), names.as_ptr(), buffer.as_ptr(), buffer.len(), out.as_mut_ptr(), out.len()) }.outcome()
    }
    fn row_write(table: &[u8], values: &[u64], buffer: &[u8], out: &mut [u8]) -> Outcome {
        unsafe {
            morelquilt_row_write(table.as_ptr(), table.len(), values.as_ptr(), values.len(), buffer.as_ptr(), buffer.len(),
                out.as_mut_ptr(), out.len())
        }.outcome()
    }
    fn row_read(table: &[u8], row: &[u8], at: usize, room: &mut [u8], values: &mut [u64]) -> Outcome {
        unsafe {
            morelquilt_row_read(table.as_ptr(), table.len(), row.as_ptr(), row.len(), at, room.as_mut_ptr(), room.len(),
                values.as_mut_ptr(), values.len())
        }.outcome()
    }
    fn row_normal(table: &[u8], row: &[u8], at: usize, out: &mut [u8], next: &mut u64) -> Outcome {
        unsafe { morelquilt_row_normal(table.as_ptr(), table.len(), row.as_ptr(), row.len(), at, out.as_mut_ptr(), out.len(), next) }.outcome()
    }
}

// ---- plain Rust

/// The plain program.
pub struct Plain;

fn outcome(answer: Answer<usize>) -> Outcome {
    answer.map_err(|refusal| refusal as u64)
}

#[rustfmt::skip]
impl Calls for Plain {
    fn header_read(bytes: &[u8], at: usize, fields: &mut [u16; 6]) -> Outcome {
        outcome(plain::header_read(bytes, at, fields))
    }
    fn header_write(&[ty, status, length, spid, id, window]: &[u16; 6], out: &mut [u8]) -> Outcome {
        outcome(plain::header_write(ty as u8, status as u8, length, spid, id as u8, window as u8, out))
    }
    fn to_utf16(text: &[u8], out: &mut [u8]) -> Outcome {
        outcome(plain::to_utf16(text, out))
    }
    fn to_utf8(units: &[u8], out: &mut [u8]) -> Outcome {
        outcome(plain::to_utf8(units, out))
    }
    fn column_read(bytes: &[u8], at: usize, index: u16, column: &mut [u8; 16], names: &mut [u64; 6]) -> Outcome {
        outcome(plain::column_read(bytes, at, index, column, names))
    }
    fn column_write(column: &[u8; 16], names: &[u64; 6], buffer: &[u8], out: &mut [u8]) -> Outcome {
        outcome(plain::column_write(column, names, buffer, out))
    }
    fn row_write(table: &[u8], values: &[u64], buffer: &[u8], out: &mut [u8]) -> Outcome {
        outcome(plain::row_write(table, values, buffer, out))
    }
    fn row_read(table: &[u8], row: &[u8], at: usize, room: &mut [u8], values: &mut [u64]) -> Outcome {
        outcome(plain::row_read(table, row, at, room, values))
    }
    fn row_normal(table: &[u8], row: &[u8], at: usize, out: &mut [u8], next: &mut u64) -> Outcome {
        outcome(plain::row_normal(table, row, at, out, next))
    }
}
