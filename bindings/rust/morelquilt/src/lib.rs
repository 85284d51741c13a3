//! A proved codec for rows of Microsoft's TDS protocol: every call ends, on any bytes, any value and any room, with an answer
//! or one of nine refusals. A refused call has changed no lent byte. One that was not refused has written at the front of
//! the room, and nothing behind.
//!
//! The proofs reach to the calls of `morelquilt-sys`. This crate turns slices into pointers and lengths, and numbers into
//! enums. It allocates nothing, and no call of it panics.
//!
//! A row that is written, and read back:
//!
//! ```
//! use morelquilt::{write_row, Collation, Column, Given, Row, Slot, Value};
//!
//! # fn main() -> Result<(), morelquilt::Refusal> {
//! let table = [Column::intn(4), Column::nvarchar(40, Collation { info: 0x00D0_0409, sort: 52 })];
//! let name = "spår 2".as_bytes();
//! let mut out = [0; 64];
//! let n = write_row(&table, &[Given::i32(-2), Given::string(0, name.len())], name, &mut out)?;
//!
//! let mut slots = [Slot::EMPTY; 2];
//! let row = Row::read(&table, &out[..n], 0, &mut [], &mut slots)?;
//! assert_eq!(row.get(0), Some(Value::I32(-2)));
//! if let Some(Value::String(units)) = row.get(1) {
//!     assert_eq!(units.to_utf8(&mut [0; 64])?, "spår 2");
//! }
//! # Ok(())
//! # }
//! ```
#![no_std]
#![deny(missing_docs, unsafe_op_in_unsafe_fn)]

#[cfg(all(feature = "std", not(feature = "error")))]
extern crate std;

mod column;
mod number;
mod packet;
mod refusal;
mod row;
mod text;
mod value;
mod walk;

pub use column::{Collation, Column};
pub use morelquilt_sys::{Name, Names};
pub use number::{read_guid, read_high, read_low, write_guid};
pub use packet::{Header, Prelogin};
pub use refusal::Refusal;
pub use row::{normal_form, row_needs, row_size, write_row, Needs, Row, Slot};
pub use text::{to_utf16, to_utf8, utf16_size, utf8_size, Units};
pub use value::{Given, Value};
pub use walk::{Stand, Walk};

use morelquilt_sys as sys;

/// What was read, and the next place: the one behind it.
pub type Read<T> = Result<(T, usize), Refusal>;

// Neither cuts: `morelquilt-sys` compiles for 64-bit machines only.
const fn wide(n: usize) -> u64 {
    n as u64
}

const fn place(n: u64) -> usize {
    n as usize
}
