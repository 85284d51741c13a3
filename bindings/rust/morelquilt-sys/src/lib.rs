//! The calls of Morelquilt's archive, as they are exported. `bindings/c/morelquilt.h` says of each what it answers, and
//! what its caller owes; the crate `morelquilt` has the same calls, safe. The gate holds the declarations to the header and
//! to the proved source (`.ci/bindings.py`).
#![no_std]

#[cfg(not(all(target_endian = "little", target_pointer_width = "64")))]
compile_error!("morelquilt: a 64-bit machine that stores numbers low byte first");

/// Refusal 0 and a count, or a refusal and the count 0.
#[repr(C)]
#[derive(Clone, Copy, Debug, Default, PartialEq, Eq)]
pub struct Counted {
    pub refusal: u64,
    pub count: u64,
}

/// A packet header.
#[repr(C)]
#[derive(Clone, Copy, Debug, Default, PartialEq, Eq)]
pub struct Header {
    pub ty: u16,
    pub status: u16,
    pub length: u16,
    pub spid: u16,
    pub id: u16,
    pub window: u16,
}

/// A column: 16 bytes without padding, so that an array of them is a row's table.
#[repr(C)]
#[derive(Clone, Copy, Debug, Default, PartialEq, Eq, Hash)]
pub struct Column {
    pub ty: u8,
    pub flags: u8,
    pub precision: u8,
    pub scale: u8,
    pub length: u32,
    pub collation: u32,
    pub sort: u8,
    pub zero: u8,
    pub names: u16,
}

/// The bytes of a lent buffer that hold a name in UTF-16LE.
#[repr(C)]
#[derive(Clone, Copy, Debug, Default, PartialEq, Eq, Hash)]
pub struct Name {
    pub start: u64,
    pub units: u64,
}

/// The names of an Xml column's schema.
#[repr(C)]
#[derive(Clone, Copy, Debug, Default, PartialEq, Eq, Hash)]
pub struct Names {
    pub database: Name,
    pub owner: Name,
    pub collection: Name,
}

/// A value: its kind and two numbers.
#[repr(C)]
#[derive(Clone, Copy, Debug, Default, PartialEq, Eq, Hash)]
pub struct Value {
    pub kind: u64,
    pub first: u64,
    pub second: u64,
}

/// What a row needs.
#[repr(C)]
#[derive(Clone, Copy, Debug, Default, PartialEq, Eq, Hash)]
pub struct Needs {
    pub room: u64,
    pub normal: u64,
}

/// A walk over the chunks of long content.
#[repr(C)]
#[derive(Clone, Copy, Debug, Default, PartialEq, Eq, Hash)]
pub struct Walk {
    pub at: u64,
    pub sum: u64,
    pub known: u64,
    pub total: u64,
    pub text: u64,
    pub ended: u64,
}

// The refusals.
pub const OK: u64 = 0;
pub const MISSING: u64 = 1;
pub const UNKNOWN: u64 = 2;
pub const KIND: u64 = 3;
pub const ROOM: u64 = 4;
pub const LONG: u64 = 5;
pub const RULE: u64 = 6;
pub const NOT_CARRIED: u64 = 7;
pub const SEQUENCE: u64 = 8;
pub const NOT_TEXT: u64 = 9;

// The bits of a column's flags.
pub const HAS_COLLATION: u8 = 1;
pub const HAS_SCHEMA: u8 = 2;

// The kinds of a value.
pub const NULL: u64 = 0;
pub const BIT: u64 = 1;
pub const U8: u64 = 2;
pub const I16: u64 = 3;
pub const I32: u64 = 4;
pub const I64: u64 = 5;
pub const F32: u64 = 6;
pub const F64: u64 = 7;
pub const GUID: u64 = 8;
pub const BINARY: u64 = 9;
pub const STRING: u64 = 10;
pub const BINARY_IN_ROOM: u64 = 11;
pub const STRING_IN_ROOM: u64 = 12;

// The type bytes.
pub const TYPE_NULL: u8 = 0x1F;
pub const TYPE_INT1: u8 = 0x30;
pub const TYPE_BIT: u8 = 0x32;
pub const TYPE_INT2: u8 = 0x34;
pub const TYPE_INT4: u8 = 0x38;
pub const TYPE_DATETIME4: u8 = 0x3A;
pub const TYPE_FLOAT4: u8 = 0x3B;
pub const TYPE_MONEY: u8 = 0x3C;
pub const TYPE_DATETIME: u8 = 0x3D;
pub const TYPE_FLOAT8: u8 = 0x3E;
pub const TYPE_MONEY4: u8 = 0x7A;
pub const TYPE_INT8: u8 = 0x7F;
pub const TYPE_GUID: u8 = 0x24;
pub const TYPE_INTN: u8 = 0x26;
pub const TYPE_DATEN: u8 = 0x28;
pub const TYPE_TIMEN: u8 = 0x29;
pub const TYPE_DATETIME2: u8 = 0x2A;
pub const TYPE_DATETIMEOFFSETN: u8 = 0x2B;
pub const TYPE_BITN: u8 = 0x68;
pub const TYPE_DECIMALN: u8 = 0x6A;
pub const TYPE_NUMERICN: u8 = 0x6C;
pub const TYPE_FLOATN: u8 = 0x6D;
pub const TYPE_MONEYN: u8 = 0x6E;
pub const TYPE_DATETIMEN: u8 = 0x6F;
pub const TYPE_BIGVARBIN: u8 = 0xA5;
pub const TYPE_BIGVARCHAR: u8 = 0xA7;
pub const TYPE_BIGBINARY: u8 = 0xAD;
pub const TYPE_BIGCHAR: u8 = 0xAF;
pub const TYPE_NVARCHAR: u8 = 0xE7;
pub const TYPE_NCHAR: u8 = 0xEF;
pub const TYPE_IMAGE: u8 = 0x22;
pub const TYPE_TEXT: u8 = 0x23;
pub const TYPE_NTEXT: u8 = 0x63;
pub const TYPE_XML: u8 = 0xF1;
pub const TYPE_UDT: u8 = 0xF0;
pub const TYPE_SSVARIANT: u8 = 0x62;

#[rustfmt::skip]
extern "C" {
    pub fn morelquilt_header_read(bytes: *const u8, bytes_length: usize, at: usize, fields: *mut Header) -> Counted;
    pub fn morelquilt_header_write(ty: u8, status: u8, length: u16, spid: u16, id: u8, window: u8, out: *mut u8, out_length: usize) -> Counted;
    pub fn morelquilt_prelogin_write(version: u32, sub_build: u16, encryption: u8, thread_id: u32, mars: u8, fed_auth: u8, out: *mut u8, out_length: usize) -> Counted;
    pub fn morelquilt_number_read(bytes: *const u8, bytes_length: usize, at: usize, width: u8, high: u8, to: *mut u64) -> Counted;
    pub fn morelquilt_guid_read(bytes: *const u8, bytes_length: usize, at: usize, text: *mut [u8; 16]) -> Counted;
    pub fn morelquilt_guid_write(text: *const [u8; 16], out: *mut u8, out_length: usize) -> Counted;
    pub fn morelquilt_column_read(bytes: *const u8, bytes_length: usize, at: usize, index: u16, column: *mut Column, names: *mut Names) -> Counted;
    pub fn morelquilt_column_size(column: *const Column, names: *const Names, buffer: *const u8, buffer_length: usize) -> Counted;
    pub fn morelquilt_column_write(column: *const Column, names: *const Names, buffer: *const u8, buffer_length: usize, out: *mut u8, out_length: usize) -> Counted;
    pub fn morelquilt_value_size(column: *const Column, value: *const Value, buffer: *const u8, buffer_length: usize) -> Counted;
    pub fn morelquilt_value_write(column: *const Column, value: *const Value, buffer: *const u8, buffer_length: usize, out: *mut u8, out_length: usize) -> Counted;
    pub fn morelquilt_value_read(column: *const Column, row: *const u8, row_length: usize, at: usize, room: *mut u8, room_length: usize, value: *mut Value) -> Counted;
    pub fn morelquilt_untyped_size(value: *const Value, buffer: *const u8, buffer_length: usize) -> Counted;
    pub fn morelquilt_untyped_write(value: *const Value, buffer: *const u8, buffer_length: usize, out: *mut u8, out_length: usize) -> Counted;
    pub fn morelquilt_row_size(table: *const u8, table_length: usize, values: *const u64, values_length: usize, buffer: *const u8, buffer_length: usize) -> Counted;
    pub fn morelquilt_row_write(table: *const u8, table_length: usize, values: *const u64, values_length: usize, buffer: *const u8, buffer_length: usize, out: *mut u8, out_length: usize) -> Counted;
    pub fn morelquilt_row_needs(table: *const u8, table_length: usize, row: *const u8, row_length: usize, at: usize, needs: *mut Needs) -> Counted;
    pub fn morelquilt_row_read(table: *const u8, table_length: usize, row: *const u8, row_length: usize, at: usize, room: *mut u8, room_length: usize, values: *mut u64, values_length: usize) -> Counted;
    pub fn morelquilt_row_normal(table: *const u8, table_length: usize, row: *const u8, row_length: usize, at: usize, out: *mut u8, out_length: usize, next: *mut u64) -> Counted;
    pub fn morelquilt_walk_open(bytes: *const u8, bytes_length: usize, at: usize, text: u8, walk: *mut Walk) -> Counted;
    pub fn morelquilt_walk_step(bytes: *const u8, bytes_length: usize, allowed: u64, walk: *mut Walk) -> Counted;
    pub fn morelquilt_utf16_size(text: *const u8, text_length: usize) -> Counted;
    pub fn morelquilt_to_utf16(text: *const u8, text_length: usize, out: *mut u8, out_length: usize) -> Counted;
    pub fn morelquilt_utf8_size(units: *const u8, units_length: usize) -> Counted;
    pub fn morelquilt_to_utf8(units: *const u8, units_length: usize, out: *mut u8, out_length: usize) -> Counted;
}
