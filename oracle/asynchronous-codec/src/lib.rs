//! Stand-in for the crate asynchronous-codec (not packaged by Debian 12).
//! tiberius/src uses two names of it: the re-exported `bytes::BytesMut` and the
//! trait `Encoder`, which only `codec/encode.rs` implements, for `PacketCodec`.
pub use bytes::BytesMut;
pub trait Encoder {
    type Item;
    type Error: From<std::io::Error>;
    fn encode(&mut self, item: Self::Item, dst: &mut BytesMut) -> Result<(), Self::Error>;
}
