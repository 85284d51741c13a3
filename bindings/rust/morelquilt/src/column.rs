use crate::refusal::counted;
use crate::{sys, Names, Refusal};

/// A collation: its four bytes as a number, and its sort byte.
#[derive(Clone, Copy, Debug, Default, PartialEq, Eq, Hash)]
pub struct Collation {
    /// The four bytes, low byte first.
    pub info: u32,
    /// The sort byte.
    pub sort: u8,
}

/// A column: a record of 16 bytes, so that a slice of columns is a row's table, and nothing is copied.
///
/// A column that breaks a rule can be made; it is `Refusal::Rule` where it is used. Lengths are declared lengths in
/// bytes: an nvarchar(20) has 40.
///
/// ```
/// use morelquilt::{Column, Names, Refusal};
///
/// let (column, _names, next) = Column::read(&[0x26, 4], 0, 0)?;
/// assert_eq!((column, next), (Column::intn(4), 2));
///
/// let mut room = [0; 2];
/// assert_eq!(column.write(&Names::default(), &[], &mut room), Ok(2));
/// assert_eq!(room, [0x26, 4]);
/// # Ok::<(), Refusal>(())
/// ```
#[derive(Clone, Copy, Debug, PartialEq, Eq, Hash)]
#[repr(transparent)]
pub struct Column(sys::Column);

const MAX: u32 = 65535;

impl Column {
    /// A column of any type, by its type byte and declared length.
    pub const fn new(ty: u8, length: u32) -> Column {
        Column(sys::Column { ty, flags: 0, precision: 0, scale: 0, length, collation: 0, sort: 0, zero: 0, names: 0 })
    }

    /// The same column with a precision and a scale.
    pub const fn with_digits(self, precision: u8, scale: u8) -> Column {
        Column(sys::Column { precision, scale, ..self.0 })
    }

    /// The same column with a collation.
    pub const fn with_collation(self, collation: Collation) -> Column {
        Column(sys::Column { flags: self.0.flags | sys::HAS_COLLATION, collation: collation.info, sort: collation.sort, ..self.0 })
    }

    /// The same column with a schema, whose names the caller keeps under an index.
    pub const fn with_schema(self, index: u16) -> Column {
        Column(sys::Column { flags: self.0.flags | sys::HAS_SCHEMA, names: index, ..self.0 })
    }

    /// tinyint, not null.
    pub const fn int1() -> Column {
        Column::new(sys::TYPE_INT1, 0)
    }

    /// smallint, not null.
    pub const fn int2() -> Column {
        Column::new(sys::TYPE_INT2, 0)
    }

    /// int, not null.
    pub const fn int4() -> Column {
        Column::new(sys::TYPE_INT4, 0)
    }

    /// bigint, not null.
    pub const fn int8() -> Column {
        Column::new(sys::TYPE_INT8, 0)
    }

    /// bit, not null.
    pub const fn bit() -> Column {
        Column::new(sys::TYPE_BIT, 0)
    }

    /// real, not null.
    pub const fn float4() -> Column {
        Column::new(sys::TYPE_FLOAT4, 0)
    }

    /// float, not null.
    pub const fn float8() -> Column {
        Column::new(sys::TYPE_FLOAT8, 0)
    }

    /// An integer of up to 1, 2, 4 or 8 bytes, or null.
    pub const fn intn(length: u8) -> Column {
        Column::new(sys::TYPE_INTN, length as u32)
    }

    /// A bit, or null.
    pub const fn bitn() -> Column {
        Column::new(sys::TYPE_BITN, 1)
    }

    /// A float of up to 4 or 8 bytes, or null.
    pub const fn floatn(length: u8) -> Column {
        Column::new(sys::TYPE_FLOATN, length as u32)
    }

    /// uniqueidentifier.
    pub const fn guid() -> Column {
        Column::new(sys::TYPE_GUID, 16)
    }

    /// binary.
    pub const fn binary(length: u16) -> Column {
        Column::new(sys::TYPE_BIGBINARY, length as u32)
    }

    /// varbinary.
    pub const fn varbinary(length: u16) -> Column {
        Column::new(sys::TYPE_BIGVARBIN, length as u32)
    }

    /// varbinary(max).
    pub const fn varbinary_max() -> Column {
        Column::new(sys::TYPE_BIGVARBIN, MAX)
    }

    /// nchar.
    pub const fn nchar(length: u16, collation: Collation) -> Column {
        Column::new(sys::TYPE_NCHAR, length as u32).with_collation(collation)
    }

    /// nvarchar.
    pub const fn nvarchar(length: u16, collation: Collation) -> Column {
        Column::new(sys::TYPE_NVARCHAR, length as u32).with_collation(collation)
    }

    /// nvarchar(max).
    pub const fn nvarchar_max(collation: Collation) -> Column {
        Column::new(sys::TYPE_NVARCHAR, MAX).with_collation(collation)
    }

    /// The column of a record. One that no column packs to is `Refusal::Rule` where it is used.
    pub const fn from_record(r: [u8; 16]) -> Column {
        Column(sys::Column {
            ty: r[0],
            flags: r[1],
            precision: r[2],
            scale: r[3],
            length: u32::from_le_bytes([r[4], r[5], r[6], r[7]]),
            collation: u32::from_le_bytes([r[8], r[9], r[10], r[11]]),
            sort: r[12],
            zero: r[13],
            names: u16::from_le_bytes([r[14], r[15]]),
        })
    }

    /// The type byte.
    pub const fn ty(&self) -> u8 {
        self.0.ty
    }

    /// The declared length.
    pub const fn length(&self) -> u32 {
        self.0.length
    }

    /// The precision, 0 where the type has none.
    pub const fn precision(&self) -> u8 {
        self.0.precision
    }

    /// The scale, 0 where the type has none.
    pub const fn scale(&self) -> u8 {
        self.0.scale
    }

    /// The collation.
    pub const fn collation(&self) -> Option<Collation> {
        match self.0.flags & sys::HAS_COLLATION {
            0 => None,
            _ => Some(Collation { info: self.0.collation, sort: self.0.sort }),
        }
    }

    /// The index of the schema's names.
    pub const fn schema(&self) -> Option<u16> {
        match self.0.flags & sys::HAS_SCHEMA {
            0 => None,
            _ => Some(self.0.names),
        }
    }

    /// The descriptor at a place: the column, the names of its schema as spans of the bytes, and the next place. The column
    /// takes `index` where it has a schema.
    pub fn read(bytes: &[u8], at: usize, index: u16) -> Result<(Column, Names, usize), Refusal> {
        let (mut column, mut names) = (sys::Column::default(), Names::default());
        // SAFETY: a slice's own pointer and length; `column` and `names` are locals that nothing else sees.
        let next = counted(unsafe { sys::morelquilt_column_read(bytes.as_ptr(), bytes.len(), at, index, &mut column, &mut names) })?;
        Ok((Column(column), names, next))
    }

    /// How many bytes the descriptor has. The names, where the column has a schema, are spans of the buffer.
    pub fn size(&self, names: &Names, buffer: &[u8]) -> Result<usize, Refusal> {
        // SAFETY: references to whole structs; a slice's own pointer and length.
        counted(unsafe { sys::morelquilt_column_size(&self.0, names, buffer.as_ptr(), buffer.len()) })
    }

    /// The descriptor at the front of the room: how many bytes.
    pub fn write(&self, names: &Names, buffer: &[u8], out: &mut [u8]) -> Result<usize, Refusal> {
        // SAFETY: references to whole structs; two slices' own pointers and lengths; `out` is lent to write, so that it
        // overlaps nothing.
        counted(unsafe { sys::morelquilt_column_write(&self.0, names, buffer.as_ptr(), buffer.len(), out.as_mut_ptr(), out.len()) })
    }

    /// The record, for the exports.
    pub(crate) fn record(&self) -> *const sys::Column {
        &self.0
    }
}
