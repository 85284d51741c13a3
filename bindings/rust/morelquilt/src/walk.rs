use crate::refusal::counted;
use crate::{place, sys, wide, Read, Refusal};

/// Where a walk stands. Any numbers may be given: what they lead to is refused by the rules of long content.
#[derive(Clone, Copy, Debug, PartialEq, Eq, Hash)]
pub struct Stand {
    /// The place of the next chunk's head.
    pub at: usize,
    /// Content bytes passed.
    pub sum: u64,
    /// The total, where it is known.
    pub total: Option<u64>,
    /// Whether it is a string, so that an even count of bytes is asked.
    pub text: bool,
    /// Whether the last head was taken.
    pub ended: bool,
}

/// A walk over the chunks of long (PLP) content. It copies nothing, and keeps the input and its place.
///
/// ```
/// use morelquilt::{Refusal, Walk};
///
/// // Of unknown length: one byte, then two.
/// let bytes = [0xFE, 255, 255, 255, 255, 255, 255, 255, 1, 0, 0, 0, 0xAA, 2, 0, 0, 0, 0xBB, 0xCC, 0, 0, 0, 0];
/// let (walk, next) = Walk::open(&bytes, 0, false)?;
/// let mut walk = walk.expect("null has no chunks");
/// assert_eq!(next, 8);
/// assert_eq!(walk.step(1), Ok(1));
/// assert_eq!((walk.stand().at, walk.stand().sum), (13, 1));
/// assert_eq!(walk.step(9), Ok(2));
/// assert!(walk.stand().ended);
/// # Ok::<(), Refusal>(())
/// ```
#[derive(Clone, Copy, Debug, PartialEq, Eq, Hash)]
pub struct Walk<'a> {
    bytes: &'a [u8],
    numbers: sys::Walk,
}

impl<'a> Walk<'a> {
    /// The walk behind the eight bytes at a place, and the place that they end at; none where the content is null.
    pub fn open(bytes: &'a [u8], at: usize, text: bool) -> Read<Option<Walk<'a>>> {
        let mut numbers = sys::Walk::default();
        // SAFETY: a slice's own pointer and length; `numbers` is a local that nothing else sees.
        let next = counted(unsafe { sys::morelquilt_walk_open(bytes.as_ptr(), bytes.len(), at, text.into(), &mut numbers) })?;
        Ok(((numbers.ended == 0).then_some(Walk { bytes, numbers }), next))
    }

    /// A walk that stands somewhere.
    pub fn standing(bytes: &'a [u8], stand: Stand) -> Walk<'a> {
        let numbers = sys::Walk {
            at: wide(stand.at),
            sum: stand.sum,
            known: stand.total.is_some().into(),
            total: stand.total.unwrap_or(0),
            text: stand.text.into(),
            ended: stand.ended.into(),
        };
        Walk { bytes, numbers }
    }

    /// Where it stands.
    pub fn stand(&self) -> Stand {
        let sys::Walk { at, sum, known, total, text, ended } = self.numbers;
        Stand { at: place(at), sum, total: (known != 0).then_some(total), text: text != 0, ended: ended != 0 }
    }

    /// Takes as many chunk heads as are allowed, or up to the last one: how many it took. A refused step leaves the walk where
    /// it stood.
    pub fn step(&mut self, allowed: u64) -> Result<u64, Refusal> {
        // SAFETY: a slice's own pointer and length; `numbers` is borrowed to write, and no part of the bytes.
        counted(unsafe { sys::morelquilt_walk_step(self.bytes.as_ptr(), self.bytes.len(), allowed, &mut self.numbers) }).map(wide)
    }
}
