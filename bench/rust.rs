//! A door to tiberius's own code for the driver, laid into a copy of the crate as `error::bench`: its calls are not public. Not part of tiberius.
use crate::sql_read_bytes::SqlReadBytes;
use crate::tds::codec::*;
use crate::tds::{Collation, Context};
use bytes::BytesMut;
use futures_util::io::AsyncRead;
use std::borrow::Cow;
use std::convert::TryFrom;
use std::future::Future;
use std::pin::Pin;
use std::task::Poll;

/// Headers that were read.
pub struct Headers(Vec<PacketHeader>);

/// The headers of the bytes, one behind another.
pub fn headers_read(bytes: &[u8], headers: &mut Headers) {
    let mut src = BytesMut::from(bytes);
    headers.0.clear();
    while !src.is_empty() {
        headers.0.push(PacketHeader::decode(&mut src).expect("a header"));
    }
}

pub fn no_headers() -> Headers {
    Headers(Vec::new())
}

pub fn headers_written(headers: &Headers, out: &mut BytesMut) {
    out.clear();
    for header in &headers.0 {
        header.encode(out).expect("a header");
    }
}

fn type_of(record: &[u8]) -> TypeInfo {
    let ty = record[0];
    let length = u32::from_le_bytes([record[4], record[5], record[6], record[7]]) as usize;
    if let Ok(fixed) = FixedLenType::try_from(ty) {
        return TypeInfo::FixedLen(fixed);
    }
    let ty = VarLenType::try_from(ty).expect("a type");
    if record[2] != 0 {
        return TypeInfo::VarLenSizedPrecision { ty, size: length, precision: record[2], scale: record[3] };
    }
    let info = u32::from_le_bytes([record[8], record[9], record[10], record[11]]);
    let collation = if record[1] == 1 { Some(Collation::new(info, record[12])) } else { None };
    TypeInfo::VarLenSized(VarLenContext::new(ty, length, collation))
}

/// A list of columns.
pub struct Types(Vec<TypeInfo>);

pub fn types(table: &[u8]) -> Types {
    Types(table.chunks_exact(16).map(type_of).collect())
}

pub fn types_written(types: &Types, out: &mut BytesMut) {
    out.clear();
    for ty in &types.0 {
        ty.clone().encode(out).expect("a descriptor");
    }
}

pub fn types_read(bytes: &[u8], types: &mut Types) {
    types.0.clear();
    let mut src = Source { bytes, at: 0, context: Context };
    block_on(async {
        while src.at < bytes.len() {
            types.0.push(TypeInfo::decode(&mut src).await.expect("a descriptor"));
        }
    });
}

/// Values to be written, each under its type.
pub struct Values<'a>(Vec<(TypeInfo, ColumnData<'a>)>);

/// The values of rows under a table, three numbers each.
pub fn values<'a>(table: &[u8], values: &[u64], buffer: &'a [u8]) -> Values<'a> {
    let records = table.chunks_exact(16).cycle();
    Values(records.zip(values.chunks_exact(3)).map(|(record, value)| (type_of(record), value_of(record[0], value, buffer))).collect())
}

/// A text of so many bytes under NVarchar(8000), as often as the bytes have it.
pub fn texts(bytes: &[u8], step: usize) -> Values<'_> {
    let ty = TypeInfo::VarLenSized(VarLenContext::new(VarLenType::NVarchar, 8000, Some(Collation::new(0, 0))));
    let text = |part| std::str::from_utf8(part).expect("UTF-8");
    Values(bytes.chunks_exact(step).map(|part| (ty.clone(), ColumnData::String(Some(Cow::Borrowed(text(part)))))).collect())
}

fn value_of<'a>(ty: u8, value: &[u64], buffer: &'a [u8]) -> ColumnData<'a> {
    let (first, second) = (value[1], value[2]);
    match value[0] {
        0 if ty == 0x26 => ColumnData::I32(None),
        1 => ColumnData::Bit(Some(first == 1)),
        2 => ColumnData::U8(Some(first as u8)),
        3 => ColumnData::I16(Some(first as i16)),
        4 => ColumnData::I32(Some(first as i32)),
        5 => ColumnData::I64(Some(first as i64)),
        6 => ColumnData::F32(Some(f32::from_bits(first as u32))),
        7 => ColumnData::F64(Some(f64::from_bits(first))),
        8 => ColumnData::Guid(Some(uuid::Uuid::from_u64_pair(first, second))),
        9 => ColumnData::Binary(Some(Cow::Borrowed(&buffer[first as usize..][..second as usize]))),
        kind => panic!("no measured value has kind {}", kind),
    }
}

/// So many of the values, from the first again behind the last.
pub fn values_written(values: &Values, count: usize, out: &mut BytesMut) {
    out.clear();
    for (ty, value) in values.0.iter().cycle().take(count) {
        value.clone().encode(&mut BytesMutWithTypeInfo::new(out).with_type_info(ty)).expect("a value");
    }
}

// ---- an in-memory source and the least executor

struct Source<'a> {
    bytes: &'a [u8],
    at: usize,
    context: Context,
}

impl AsyncRead for Source<'_> {
    fn poll_read(mut self: Pin<&mut Self>, _: &mut std::task::Context<'_>, buf: &mut [u8]) -> Poll<std::io::Result<usize>> {
        let count = buf.len().min(self.bytes.len() - self.at);
        buf[..count].copy_from_slice(&self.bytes[self.at..self.at + count]);
        self.at += count;
        Poll::Ready(Ok(count))
    }
}

impl SqlReadBytes for Source<'_> {
    fn debug_buffer(&self) {}
    fn context(&self) -> &Context {
        &self.context
    }
    fn context_mut(&mut self) -> &mut Context {
        &mut self.context
    }
}

fn block_on<F: Future>(future: F) -> F::Output {
    let mut future = Box::pin(future);
    let waker = futures_util::task::noop_waker();
    let mut context = std::task::Context::from_waker(&waker);
    loop {
        if let Poll::Ready(done) = future.as_mut().poll(&mut context) {
            return done;
        }
    }
}

pub use bytes::BytesMut as Buffer;
