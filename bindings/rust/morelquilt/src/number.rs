use crate::refusal::counted;
use crate::{sys, Read, Refusal};

/// The number of `width` bytes at a place, low byte first. A width other than 1, 2, 4 and 8 is `Refusal::Unknown`.
///
/// ```
/// assert_eq!(morelquilt::read_low(&[0, 1, 2], 1, 2), Ok((0x0201, 3)));
/// ```
pub fn read_low(bytes: &[u8], at: usize, width: u8) -> Read<u64> {
    read(bytes, at, width, 0)
}

/// The number of `width` bytes at a place, high byte first. A width other than 1, 2, 4 and 8 is `Refusal::Unknown`.
///
/// ```
/// assert_eq!(morelquilt::read_high(&[0, 1, 2], 1, 2), Ok((0x0102, 3)));
/// ```
pub fn read_high(bytes: &[u8], at: usize, width: u8) -> Read<u64> {
    read(bytes, at, width, 1)
}

fn read(bytes: &[u8], at: usize, width: u8, high: u8) -> Read<u64> {
    let mut to = 0;
    // SAFETY: a slice's own pointer and length; `to` is a local that nothing else sees.
    let next = counted(unsafe { sys::morelquilt_number_read(bytes.as_ptr(), bytes.len(), at, width, high, &mut to) })?;
    Ok((to, next))
}

/// The GUID at a place: its sixteen bytes in text order.
pub fn read_guid(bytes: &[u8], at: usize) -> Read<[u8; 16]> {
    let mut text = [0; 16];
    // SAFETY: a slice's own pointer and length; `text` is a local that nothing else sees.
    let next = counted(unsafe { sys::morelquilt_guid_read(bytes.as_ptr(), bytes.len(), at, &mut text) })?;
    Ok((text, next))
}

/// A GUID of sixteen bytes in text order at the front of the room: 16 bytes, in the order of the wire.
pub fn write_guid(text: &[u8; 16], out: &mut [u8]) -> Result<usize, Refusal> {
    // SAFETY: a reference to sixteen bytes; a slice's own pointer and length, lent to write, so that it overlaps nothing.
    counted(unsafe { sys::morelquilt_guid_write(text, out.as_mut_ptr(), out.len()) })
}
