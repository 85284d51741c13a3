use crate::{place, sys};
use core::fmt;

/// Why a call was refused, by document 01's number.
///
/// `Missing` is the only one that more bytes may cure: a reader that answered otherwise answers the same when bytes follow.
#[derive(Clone, Copy, Debug, PartialEq, Eq, PartialOrd, Ord, Hash)]
#[repr(u8)]
pub enum Refusal {
    /// A needed byte lies behind the input's end, or the content span of a value to be written leaves its buffer.
    Missing = 1,
    /// Unknown packet type, packet status or type byte.
    Unknown = 2,
    /// The value's kind does not fit the type, including null under a fixed type.
    Kind = 3,
    /// The whole output is longer than the room lent.
    Room = 4,
    /// Content is longer than allowed.
    Long = 5,
    /// The descriptor or column list breaks a rule.
    Rule = 6,
    /// Type Udt or SSVariant met as a descriptor; a value asked of a type that is not carried.
    NotCarried = 7,
    /// A length or chunk sequence that the type forbids.
    Sequence = 8,
    /// Text to be written is not UTF-8, or text out meets an unpaired surrogate.
    NotText = 9,
}

impl Refusal {
    /// Document 01's number, 1 to 9.
    pub const fn number(self) -> u8 {
        self as u8
    }

    /// The refusal in words.
    pub const fn words(self) -> &'static str {
        match self {
            Refusal::Missing => "a needed byte lies behind the input's end, or the content span of a value to be written leaves its buffer",
            Refusal::Unknown => "unknown packet type, packet status or type byte",
            Refusal::Kind => "the value's kind does not fit the type",
            Refusal::Room => "the whole output is longer than the room lent",
            Refusal::Long => "content is longer than allowed",
            Refusal::Rule => "the descriptor or column list breaks a rule",
            Refusal::NotCarried => "a type that is not carried",
            Refusal::Sequence => "a length or chunk sequence that the type forbids",
            Refusal::NotText => "text to be written is not UTF-8, or text out meets an unpaired surrogate",
        }
    }
}

impl fmt::Display for Refusal {
    fn fmt(&self, f: &mut fmt::Formatter<'_>) -> fmt::Result {
        f.write_str(self.words())
    }
}

#[cfg(feature = "error")]
impl core::error::Error for Refusal {}

#[cfg(all(feature = "std", not(feature = "error")))]
impl std::error::Error for Refusal {}

/// An export's answer: its count, or its refusal.
pub(crate) fn counted(answer: sys::Counted) -> Result<usize, Refusal> {
    Err(match answer.refusal {
        sys::OK => return Ok(place(answer.count)),
        sys::MISSING => Refusal::Missing,
        sys::UNKNOWN => Refusal::Unknown,
        sys::KIND => Refusal::Kind,
        sys::ROOM => Refusal::Room,
        sys::LONG => Refusal::Long,
        sys::RULE => Refusal::Rule,
        sys::NOT_CARRIED => Refusal::NotCarried,
        sys::SEQUENCE => Refusal::Sequence,
        // 9: no export answers with another number.
        _ => Refusal::NotText,
    })
}
