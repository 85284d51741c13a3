//! Stand-in for src/error.rs: the variants that the compiled files name.
//! Also the door to the driver, since tiberius's lib.rs has `pub mod error`.
pub mod oracle;
use std::borrow::Cow;
#[derive(Debug)]
pub enum Error {
    Io(std::io::ErrorKind, String),
    Protocol(Cow<'static, str>),
    Encoding(Cow<'static, str>),
    BulkInput(Cow<'static, str>),
}
impl From<std::io::Error> for Error {
    fn from(e: std::io::Error) -> Self {
        Error::Io(e.kind(), e.to_string())
    }
}
// These two for token_env_change.rs only (not carried).
impl From<std::string::FromUtf16Error> for Error {
    fn from(_: std::string::FromUtf16Error) -> Self {
        Error::Protocol("UTF-16".into())
    }
}
impl From<std::num::ParseIntError> for Error {
    fn from(_: std::num::ParseIntError) -> Self {
        Error::Protocol("number".into())
    }
}
