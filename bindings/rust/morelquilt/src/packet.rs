use crate::refusal::counted;
use crate::{sys, Read, Refusal};

/// A packet header. Types are 1, 2, 3, 4, 6, 7, 8, 14, 16, 17, 18, statuses 0, 1, 3, 8, 16; others are `Refusal::Unknown`. The
/// length is not judged.
///
/// ```
/// use morelquilt::{Header, Refusal};
///
/// let bytes = [4, 1, 0, 32, 0, 51, 1, 0];
/// let (header, next) = Header::read(&bytes, 0)?;
/// assert_eq!((header.ty, header.length, header.spid, next), (4, 32, 51, 8));
///
/// let mut room = [0; 8];
/// assert_eq!(header.write(&mut room), Ok(8));
/// assert_eq!(room, bytes);
/// assert_eq!(Header { status: 9, ..header }.write(&mut room), Err(Refusal::Unknown));
/// # Ok::<(), Refusal>(())
/// ```
#[derive(Clone, Copy, Debug, PartialEq, Eq, Hash)]
pub struct Header {
    /// The packet's type.
    pub ty: u8,
    /// Its status.
    pub status: u8,
    /// Its length, the header's eight bytes included.
    pub length: u16,
    /// The server's process id.
    pub spid: u16,
    /// The packet's number.
    pub id: u8,
    /// The window.
    pub window: u8,
}

impl Header {
    /// The header at a place.
    pub fn read(bytes: &[u8], at: usize) -> Read<Header> {
        let mut fields = sys::Header::default();
        // SAFETY: a slice's own pointer and length; `fields` is a local that nothing else sees.
        let next = counted(unsafe { sys::morelquilt_header_read(bytes.as_ptr(), bytes.len(), at, &mut fields) })?;
        // Type, status, id and window came out of a byte each.
        let ([ty, _], [status, _], [id, _], [window, _]) =
            (fields.ty.to_le_bytes(), fields.status.to_le_bytes(), fields.id.to_le_bytes(), fields.window.to_le_bytes());
        Ok((Header { ty, status, length: fields.length, spid: fields.spid, id, window }, next))
    }

    /// The header at the front of the room: 8 bytes.
    pub fn write(&self, out: &mut [u8]) -> Result<usize, Refusal> {
        // SAFETY: a slice's own pointer and length, lent to write.
        counted(unsafe {
            sys::morelquilt_header_write(self.ty, self.status, self.length, self.spid, self.id, self.window, out.as_mut_ptr(), out.len())
        })
    }
}

/// A prelogin message.
///
/// ```
/// let mut room = [0; 39];
/// let prelogin = morelquilt::Prelogin { encryption: 2, ..Default::default() };
/// assert_eq!(prelogin.write(&mut room), Ok(33));
/// ```
#[derive(Clone, Copy, Debug, Default, PartialEq, Eq, Hash)]
pub struct Prelogin {
    /// The version.
    pub version: u32,
    /// The sub-build.
    pub sub_build: u16,
    /// The encryption, 0 to 3; others are `Refusal::Unknown`.
    pub encryption: u8,
    /// The thread's id.
    pub thread_id: u32,
    /// Whether several results may be active.
    pub mars: bool,
    /// Whether federated authentication is required.
    pub fed_auth: bool,
}

impl Prelogin {
    /// The message at the front of the room: 33 bytes, or 39 where federated authentication is required.
    pub fn write(&self, out: &mut [u8]) -> Result<usize, Refusal> {
        // SAFETY: a slice's own pointer and length, lent to write.
        counted(unsafe {
            sys::morelquilt_prelogin_write(
                self.version,
                self.sub_build,
                self.encryption,
                self.thread_id,
                self.mars.into(),
                self.fed_auth.into(),
                out.as_mut_ptr(),
                out.len(),
            )
        })
    }
}
