use crate::refusal::counted;
use crate::{place, sys, Name, Refusal};

/// How many bytes UTF-8 text has as UTF-16LE.
pub fn utf16_size(text: &[u8]) -> Result<usize, Refusal> {
    // SAFETY: a slice's own pointer and length.
    counted(unsafe { sys::morelquilt_utf16_size(text.as_ptr(), text.len()) })
}

/// UTF-8 text as UTF-16LE at the front of the room: how many bytes. Bytes are taken, since a file may hold any;
/// those that are no UTF-8 are `Refusal::NotText`.
///
/// ```
/// let mut room = [0; 8];
/// assert_eq!(morelquilt::to_utf16("é".as_bytes(), &mut room), Ok(2));
/// assert_eq!(room[..2], [0xE9, 0x00]);
/// ```
pub fn to_utf16(text: &[u8], out: &mut [u8]) -> Result<usize, Refusal> {
    // SAFETY: two slices' own pointers and lengths; `out` is lent to write, so that it overlaps nothing.
    counted(unsafe { sys::morelquilt_to_utf16(text.as_ptr(), text.len(), out.as_mut_ptr(), out.len()) })
}

/// How many bytes UTF-16LE text has as UTF-8.
pub fn utf8_size(units: &[u8]) -> Result<usize, Refusal> {
    // SAFETY: a slice's own pointer and length.
    counted(unsafe { sys::morelquilt_utf8_size(units.as_ptr(), units.len()) })
}

/// UTF-16LE text as UTF-8 at the front of the room: how many bytes.
pub fn to_utf8(units: &[u8], out: &mut [u8]) -> Result<usize, Refusal> {
    // SAFETY: two slices' own pointers and lengths; `out` is lent to write, so that it overlaps nothing.
    counted(unsafe { sys::morelquilt_to_utf8(units.as_ptr(), units.len(), out.as_mut_ptr(), out.len()) })
}

/// Text as it was read: UTF-16LE bytes. Surrogates are not judged before it is asked for as UTF-8.
#[derive(Clone, Copy, Debug, PartialEq, Eq, Hash)]
pub struct Units<'a>(&'a [u8]);

impl<'a> Units<'a> {
    /// Text in UTF-16LE bytes.
    pub const fn new(bytes: &'a [u8]) -> Units<'a> {
        Units(bytes)
    }

    /// The text of a name that was read from these bytes; none where its span leaves them.
    pub fn named(name: Name, bytes: &'a [u8]) -> Option<Units<'a>> {
        let count = name.units.checked_mul(2)?;
        bytes.get(place(name.start)..)?.get(..place(count)).map(Units)
    }

    /// The bytes.
    pub const fn as_bytes(self) -> &'a [u8] {
        self.0
    }

    /// How many bytes it has as UTF-8.
    pub fn utf8_size(self) -> Result<usize, Refusal> {
        utf8_size(self.0)
    }

    /// The text as UTF-8, at the front of the room.
    ///
    /// ```
    /// use morelquilt::{Refusal, Units};
    ///
    /// let mut room = [0; 8];
    /// assert_eq!(Units::new(&[0xE9, 0x00]).to_utf8(&mut room), Ok("é"));
    /// assert_eq!(Units::new(&[0x00, 0xD8]).to_utf8(&mut room), Err(Refusal::NotText));
    /// ```
    pub fn to_utf8(self, out: &mut [u8]) -> Result<&str, Refusal> {
        let n = to_utf8(self.0, out)?;
        // What was written is UTF-8: this is never refused, and asks for no trust.
        let text = out.get(..n).unwrap_or(&[]);
        core::str::from_utf8(text).map_err(|_| Refusal::NotText)
    }
}
