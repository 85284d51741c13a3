//! The driver. Not part of tiberius. Reads requests, one on a line, answers each on a line.
//! See README.md for the grammar.
use crate::sql_read_bytes::SqlReadBytes;
use crate::tds::codec::*;
use crate::tds::time::*;
use crate::tds::xml::XmlSchema;
use crate::tds::{Collation, Context, EncryptionLevel, Numeric};
use crate::Error;
use bytes::BytesMut;
use futures_util::io::AsyncRead;
use std::borrow::Cow;
use std::cell::RefCell;
use std::convert::TryFrom;
use std::fmt::Write as _;
use std::future::Future;
use std::io::{BufRead, Write};
use std::pin::Pin;
use std::sync::Arc;
use std::task::Poll;

// ---- bytes as text ------------------------------------------------------
// `.` is no bytes; pieces joined by `+`; a piece is HEX or HEX*COUNT.

pub fn text_of(b: &[u8]) -> String {
    if b.is_empty() {
        return ".".into();
    }
    let mut pieces: Vec<String> = Vec::new();
    let mut plain = String::new();
    let mut i = 0;
    'outer: while i < b.len() {
        for p in [1usize, 2, 3, 4, 6, 8] {
            if i + p > b.len() {
                break;
            }
            let mut n = 1;
            while i + (n + 1) * p <= b.len() && b[i + n * p..i + (n + 1) * p] == b[i..i + p] {
                n += 1;
            }
            if n >= 4 && n * p >= 32 {
                if !plain.is_empty() {
                    pieces.push(std::mem::take(&mut plain));
                }
                let mut s = String::new();
                for x in &b[i..i + p] {
                    write!(s, "{x:02X}").unwrap();
                }
                write!(s, "*{n}").unwrap();
                pieces.push(s);
                i += n * p;
                continue 'outer;
            }
        }
        write!(plain, "{:02X}", b[i]).unwrap();
        i += 1;
    }
    if !plain.is_empty() {
        pieces.push(plain);
    }
    pieces.join("+")
}

type Bad = String;

fn hex(s: &str) -> Result<Vec<u8>, Bad> {
    if s.len() % 2 != 0 {
        return Err(format!("odd hex {s}"));
    }
    (0..s.len() / 2)
        .map(|i| u8::from_str_radix(&s[2 * i..2 * i + 2], 16).map_err(|e| e.to_string()))
        .collect()
}

fn bytes_of(s: &str) -> Result<Vec<u8>, Bad> {
    let mut out = Vec::new();
    if s == "." {
        return Ok(out);
    }
    for piece in s.split('+') {
        match piece.split_once('*') {
            None => out.extend(hex(piece)?),
            Some((h, n)) => {
                let h = hex(h)?;
                let n: usize = n.parse().map_err(|_| "count".to_string())?;
                if h == [0] && out.is_empty() {
                    out = vec![0; n]; // lazily zeroed: the 4 GiB request needs it
                } else {
                    for _ in 0..n {
                        out.extend_from_slice(&h);
                    }
                }
            }
        }
    }
    Ok(out)
}

fn num<T: std::str::FromStr>(s: &str) -> Result<T, Bad> {
    s.parse().map_err(|_| format!("number {s}"))
}

// ---- an in-memory reader and the least executor --------------------------

struct Mem<'a> {
    data: &'a [u8],
    at: usize,
    drip: bool,
    turn: bool,
    ctx: Context,
}

impl<'a> Mem<'a> {
    fn new(data: &'a [u8], drip: bool) -> Self {
        Mem { data, at: 0, drip, turn: false, ctx: Context }
    }
}

impl AsyncRead for Mem<'_> {
    fn poll_read(
        mut self: Pin<&mut Self>,
        _: &mut std::task::Context<'_>,
        buf: &mut [u8],
    ) -> Poll<std::io::Result<usize>> {
        let mut n = buf.len().min(self.data.len() - self.at);
        if self.drip && n > 0 {
            // one byte, then one Pending, then one byte, ...
            self.turn = !self.turn;
            if !self.turn {
                return Poll::Pending;
            }
            n = 1;
        }
        buf[..n].copy_from_slice(&self.data[self.at..self.at + n]);
        self.at += n;
        Poll::Ready(Ok(n))
    }
}

impl SqlReadBytes for Mem<'_> {
    fn debug_buffer(&self) {}
    fn context(&self) -> &Context {
        &self.ctx
    }
    fn context_mut(&mut self) -> &mut Context {
        &mut self.ctx
    }
}

fn block_on<F: Future>(f: F) -> F::Output {
    let mut f = Box::pin(f);
    let waker = futures_util::task::noop_waker();
    let mut cx = std::task::Context::from_waker(&waker);
    loop {
        if let Poll::Ready(x) = f.as_mut().poll(&mut cx) {
            return x;
        }
    }
}

// ---- descriptors as text --------------------------------------------------

fn utf16le(s: &str) -> Vec<u8> {
    s.encode_utf16().flat_map(|u| u.to_le_bytes()).collect()
}

fn name_of(s: &str) -> Result<String, Bad> {
    let b = bytes_of(s)?;
    if b.len() % 2 != 0 {
        return Err("odd name".into());
    }
    let u: Vec<u16> = b.chunks(2).map(|c| u16::from_le_bytes([c[0], c[1]])).collect();
    String::from_utf16(&u).map_err(|_| "inexpressible: a Rust String holds no unpaired surrogate".into())
}

fn type_text(t: &TypeInfo) -> String {
    match t {
        TypeInfo::FixedLen(f) => format!("fixed:{:02X}", *f as u8),
        TypeInfo::VarLenSized(v) => match v.collation() {
            None => format!("var:{:02X}:{}", v.r#type() as u8, v.len()),
            Some(c) => format!(
                "var:{:02X}:{}:{:08X}:{}",
                v.r#type() as u8,
                v.len(),
                c.info(),
                c.sort_id()
            ),
        },
        TypeInfo::VarLenSizedPrecision { ty, size, precision, scale } => {
            format!("prec:{:02X}:{}:{}:{}", *ty as u8, size, precision, scale)
        }
        TypeInfo::Xml { schema: None, .. } => "xml:-".into(),
        TypeInfo::Xml { schema: Some(x), .. } => format!(
            "xml:{},{},{}",
            text_of(&utf16le(x.db_name())),
            text_of(&utf16le(x.owner())),
            text_of(&utf16le(x.collection()))
        ),
    }
}

fn var_type(s: &str) -> Result<VarLenType, Bad> {
    let b = u8::from_str_radix(s, 16).map_err(|e| e.to_string())?;
    VarLenType::try_from(b).map_err(|_| "inexpressible: no such VarLenType".into())
}

// Also sets the page that the stand-in Collation answers with, after an `@`.
fn type_of(s: &str) -> Result<TypeInfo, Bad> {
    let (s, page) = match s.split_once('@') {
        None => (s, None),
        Some((s, "1252")) => (s, Some(encoding_rs::WINDOWS_1252)),
        Some((s, "1250")) => (s, Some(encoding_rs::WINDOWS_1250)),
        Some(_) => return Err("page".into()),
    };
    crate::tds::PAGE.with(|p| p.set(page));
    let (kind, rest) = s.split_once(':').ok_or("type")?;
    let f: Vec<&str> = rest.split(':').collect();
    Ok(match (kind, f.as_slice()) {
        ("fixed", [b]) => {
            let b = u8::from_str_radix(b, 16).map_err(|e| e.to_string())?;
            TypeInfo::FixedLen(
                FixedLenType::try_from(b).map_err(|_| "inexpressible: no such FixedLenType".to_string())?,
            )
        }
        ("var", [b, len]) => TypeInfo::VarLenSized(VarLenContext::new(var_type(b)?, num(len)?, None)),
        ("var", [b, len, info, sort]) => TypeInfo::VarLenSized(VarLenContext::new(
            var_type(b)?,
            num(len)?,
            Some(Collation::new(
                u32::from_str_radix(info, 16).map_err(|e| e.to_string())?,
                num(sort)?,
            )),
        )),
        ("prec", [b, size, p, s]) => TypeInfo::VarLenSizedPrecision {
            ty: var_type(b)?,
            size: num(size)?,
            precision: num(p)?,
            scale: num(s)?,
        },
        ("xml", ["-"]) => TypeInfo::Xml { schema: None, size: 0xfffffffffffffffe_usize },
        ("xml", [names]) => {
            let n: Vec<&str> = names.split(',').collect();
            if n.len() != 3 {
                return Err("names".into());
            }
            TypeInfo::Xml {
                schema: Some(Arc::new(XmlSchema::new(name_of(n[0])?, name_of(n[1])?, name_of(n[2])?))),
                size: 0xfffffffffffffffe_usize,
            }
        }
        _ => return Err("type".into()),
    })
}

fn value_of(s: &str) -> Result<ColumnData<'static>, Bad> {
    let (kind, v) = s.split_once(':').ok_or("value")?;
    let f: Vec<&str> = v.split(':').collect();
    Ok(match (kind, f.as_slice()) {
        ("null", [k]) => match *k {
            "bit" => ColumnData::Bit(None),
            "u8" => ColumnData::U8(None),
            "i16" => ColumnData::I16(None),
            "i32" => ColumnData::I32(None),
            "i64" => ColumnData::I64(None),
            "f32" => ColumnData::F32(None),
            "f64" => ColumnData::F64(None),
            "guid" => ColumnData::Guid(None),
            "bin" => ColumnData::Binary(None),
            "str" => ColumnData::String(None),
            "numeric" => ColumnData::Numeric(None),
            "xml" => ColumnData::Xml(None),
            "datetime" => ColumnData::DateTime(None),
            "smalldatetime" => ColumnData::SmallDateTime(None),
            "time" => ColumnData::Time(None),
            "date" => ColumnData::Date(None),
            "datetime2" => ColumnData::DateTime2(None),
            "dto" => ColumnData::DateTimeOffset(None),
            _ => return Err("kind".into()),
        },
        ("bit", ["0"]) => ColumnData::Bit(Some(false)),
        ("bit", ["1"]) => ColumnData::Bit(Some(true)),
        ("u8", [n]) => ColumnData::U8(Some(num(n)?)),
        ("i16", [n]) => ColumnData::I16(Some(num(n)?)),
        ("i32", [n]) => ColumnData::I32(Some(num(n)?)),
        ("i64", [n]) => ColumnData::I64(Some(num(n)?)),
        ("f32", [h]) => ColumnData::F32(Some(f32::from_bits(
            u32::from_str_radix(h, 16).map_err(|e| e.to_string())?,
        ))),
        ("f64", [h]) => ColumnData::F64(Some(f64::from_bits(
            u64::from_str_radix(h, 16).map_err(|e| e.to_string())?,
        ))),
        ("guid", [h]) => {
            let b: [u8; 16] = bytes_of(h)?.try_into().map_err(|_| "guid".to_string())?;
            ColumnData::Guid(Some(uuid::Uuid::from_bytes(b)))
        }
        ("bin", [h]) => ColumnData::Binary(Some(Cow::Owned(bytes_of(h)?))),
        ("str", [h]) => {
            let b = bytes_of(h)?;
            // A long run of zero bytes is text; looking at 4 GiB of it is slow.
            let s = if b.len() > 1 << 30 {
                unsafe { String::from_utf8_unchecked(b) }
            } else {
                String::from_utf8(b).map_err(|_| "inexpressible: a Rust str is UTF-8".to_string())?
            };
            ColumnData::String(Some(Cow::Owned(s)))
        }
        ("numeric", [s]) => ColumnData::Numeric(Some(Numeric(num(s)?))),
        ("datetime", [d, t]) => ColumnData::DateTime(Some(DateTime::new(num(d)?, num(t)?))),
        ("smalldatetime", [d, t]) => ColumnData::SmallDateTime(Some(SmallDateTime::new(num(d)?, num(t)?))),
        ("date", [d]) => ColumnData::Date(Some(Date::new(num(d)?))),
        ("time", [i, s]) => ColumnData::Time(Some(Time::new(num(i)?, num(s)?))),
        ("datetime2", [d, i, s]) => ColumnData::DateTime2(Some(DateTime2::new(
            Date::new(num(d)?),
            Time::new(num(i)?, num(s)?),
        ))),
        ("dto", [d, i, s, o]) => ColumnData::DateTimeOffset(Some(DateTimeOffset::new(
            DateTime2::new(Date::new(num(d)?), Time::new(num(i)?, num(s)?)),
            num(o)?,
        ))),
        _ => return Err("value".into()),
    })
}

// ---- requests ---------------------------------------------------------------

fn err_text(e: &Error) -> String {
    let (k, m) = match e {
        Error::Io(k, _) => return format!("err io {k:?}"),
        Error::Protocol(m) => ("protocol", m),
        Error::Encoding(m) => ("encoding", m),
        Error::BulkInput(m) => ("bulk", m),
    };
    let m: String = m.chars().take(70).map(|c| if c.is_control() { ' ' } else { c }).collect();
    format!("err {k} | {m}")
}

fn written(r: crate::Result<()>, dst: &[u8]) -> String {
    match r {
        Ok(()) => format!("ok {}", text_of(dst)),
        // bytes already in the buffer when the Rust gave up
        Err(e) => {
            let t = err_text(&e);
            match t.split_once(" | ") {
                Some((a, b)) => format!("{a} left={} | {b}", dst.len()),
                None => format!("{t} left={}", dst.len()),
            }
        }
    }
}

fn field(debug: &str, name: &str) -> u64 {
    let i = debug.find(&format!(" {name}: ")).unwrap() + name.len() + 3;
    debug[i..].chars().take_while(|c| c.is_ascii_digit()).collect::<String>().parse().unwrap()
}

fn header_text(h: &PacketHeader) -> String {
    let d = format!("{h:?}"); // spid, id and window have no accessor
    format!(
        "type={} status={} length={} spid={} id={} window={}",
        h.r#type() as u8,
        h.status() as u8,
        h.length(),
        field(&d, "spid"),
        field(&d, "id"),
        field(&d, "window")
    )
}

fn answer(line: &str) -> Result<String, Bad> {
    let w: Vec<&str> = line.split_whitespace().collect();
    Ok(match w.as_slice() {
        ["header-read", h] => {
            let b = bytes_of(h)?;
            let mut src = BytesMut::from(&b[..]);
            match PacketHeader::decode(&mut src) {
                Ok(h) => format!("ok {} used={}", header_text(&h), b.len() - src.len()),
                Err(e) => err_text(&e),
            }
        }
        ["header-write", ty, st, len, spid, id, win] => {
            let (ty, st): (u8, u8) = (num(ty)?, num(st)?);
            let (len, spid, id, win): (u16, u16, u8, u8) = (num(len)?, num(spid)?, num(id)?, num(win)?);
            let (pt, ps) = match (PacketType::try_from(ty), PacketStatus::try_from(st)) {
                (Ok(pt), Ok(ps)) => (pt, ps),
                _ => return Ok("err enum".into()),
            };
            let want = format!("type={ty} status={st} length={len} spid={spid} id={id} window={win}");
            // By constructor where the fields without a setter are 0 ...
            let mut out = None;
            if spid == 0 && win == 0 {
                let mut h = PacketHeader::new(len as usize, id);
                h.set_type(pt);
                h.set_status(ps);
                assert_eq!(header_text(&h), want);
                let mut dst = BytesMut::new();
                h.encode(&mut dst).unwrap();
                out = Some(dst);
            }
            // ... and by reading them otherwise; Debug shows that the fields are the asked ones.
            let mut raw = vec![ty, st];
            raw.extend(len.to_be_bytes());
            raw.extend(spid.to_be_bytes());
            raw.extend([id, win]);
            let h = PacketHeader::decode(&mut BytesMut::from(&raw[..])).map_err(|e| err_text(&e))?;
            assert_eq!(header_text(&h), want);
            let mut dst = BytesMut::new();
            let r = h.encode(&mut dst);
            if let Some(o) = out {
                assert_eq!(o, dst);
            }
            written(r, &dst)
        }
        ["header-new", len, id] => {
            let mut dst = BytesMut::new();
            let r = PacketHeader::new(num(len)?, num(id)?).encode(&mut dst);
            written(r, &dst)
        }
        ["prelogin", version, sub, enc, thread, mars, fed] => {
            let encryption = match EncryptionLevel::try_from(num::<u8>(enc)?) {
                Ok(e) => e,
                Err(()) => return Ok("err enum".into()),
            };
            let mut m = PreloginMessage::new();
            m.version = num(version)?;
            m.sub_build = num(sub)?;
            m.encryption = encryption;
            m.thread_id = num(thread)?;
            m.mars = num::<u8>(mars)? != 0;
            m.fed_auth_required = num::<u8>(fed)? != 0;
            let mut dst = BytesMut::new();
            let r = m.encode(&mut dst);
            written(r, &dst)
        }
        ["prelogin-read", h] => {
            let mut src = BytesMut::from(&bytes_of(h)?[..]);
            match PreloginMessage::decode(&mut src) {
                Ok(m) => format!(
                    "ok version={} sub={} enc={} inst={:?} thread={} mars={} act={:?} fed={} nonce={:?}",
                    m.version,
                    m.sub_build,
                    m.encryption as u8,
                    m.instance_name,
                    m.thread_id,
                    m.mars as u8,
                    m.activity_id,
                    m.fed_auth_required as u8,
                    m.nonce.map(|n| text_of(&n))
                ),
                Err(e) => err_text(&e),
            }
        }
        ["negotiate", a, b] => {
            let mut m = PreloginMessage::new();
            m.encryption = EncryptionLevel::try_from(num::<u8>(a)?).map_err(|_| "enum".to_string())?;
            let want = EncryptionLevel::try_from(num::<u8>(b)?).map_err(|_| "enum".to_string())?;
            format!("ok {}", m.negotiated_encryption(want) as u8)
        }
        [op @ ("type-read" | "type-read-drip"), h] => {
            let b = bytes_of(h)?;
            let mut src = Mem::new(&b, *op == "type-read-drip");
            match block_on(TypeInfo::decode(&mut src)) {
                Ok(t) => format!("ok {} used={}", type_text(&t), src.at),
                Err(e) => format!("{} used={}", err_text(&e), src.at),
            }
        }
        ["type-write", t] => {
            let t = type_of(t)?;
            let mut dst = BytesMut::new();
            let r = t.encode(&mut dst);
            written(r, &dst)
        }
        ["value-write", "-", v] => {
            let v = value_of(v)?;
            let mut dst = BytesMut::new();
            let r = v.encode(&mut BytesMutWithTypeInfo::new(&mut dst));
            written(r, &dst)
        }
        ["value-write", t, v] => {
            let t = type_of(t)?;
            let v = value_of(v)?;
            let mut dst = BytesMut::new();
            let r = v.encode(&mut BytesMutWithTypeInfo::new(&mut dst).with_type_info(&t));
            written(r, &dst)
        }
        ["value-decode", t, h] => {
            // Reaches the stops of ColumnData::decode and var_len::decode; the decoders
            // themselves are stand-ins.
            let t = type_of(t)?;
            let b = bytes_of(h)?;
            match block_on(ColumnData::decode(&mut Mem::new(&b, false), &t)) {
                Ok(v) => format!("ok {v:?}"),
                Err(e) => err_text(&e),
            }
        }
        ["row-write", rest @ ..] if rest.len() % 2 == 0 => {
            let mut cols = Vec::new();
            let mut row = TokenRow::new();
            for p in rest.chunks(2) {
                if p[0] != "-" {
                    cols.push(MetaDataColumn { base: BaseMetaDataColumn { ty: type_of(p[0])? }, col_name: "".into() });
                }
                if p[1] != "-" {
                    row.push(value_of(p[1])?);
                }
            }
            let mut dst = BytesMut::new();
            let r = row.encode(&mut BytesMutWithDataColumns::new(&mut dst, &cols));
            written(r, &dst)
        }
        ["plp-read", len, h] => {
            let b = bytes_of(h)?;
            let mut src = Mem::new(&b, false);
            let r = block_on(BytesMutWithTypeInfo::plp_decode(&mut src, num(len)?));
            match r {
                Ok(None) => format!("ok null used={}", src.at),
                Ok(Some(v)) => format!("ok {} used={}", text_of(&v), src.at),
                Err(e) => format!("{} used={}", err_text(&e), src.at),
            }
        }
        ["row-read"] => match block_on(TokenRow::decode(&mut Mem::new(&[], false))) {
            Ok(_) => "ok".into(),
            Err(e) => err_text(&e),
        },
        ["row-read-nbc"] => match block_on(TokenRow::decode_nbc(&mut Mem::new(&[], false))) {
            Ok(_) => "ok".into(),
            Err(e) => err_text(&e),
        },
        ["env-read", h] => {
            let b = bytes_of(h)?;
            match block_on(TokenEnvChange::decode(&mut Mem::new(&b, false))) {
                Ok(t) => format!("ok {t}"),
                Err(e) => err_text(&e),
            }
        }
        // Speed of tiberius's writer: rows of 20 Intn 4 columns and one BigVarBin 65535 column,
        // into one buffer that is cleared after every 64 KiB. Not in vectors.txt.
        ["bench", rows, plp] => {
            let (rows, plp): (usize, usize) = (num(rows)?, num(plp)?);
            let int = type_of("var:26:4")?;
            let bin = type_of("var:A5:65535")?;
            let body = vec![0xA7u8; plp];
            let mut dst = BytesMut::with_capacity(1 << 17);
            let mut total = 0usize;
            let start = std::time::Instant::now();
            for r in 0..rows {
                for c in 0..20 {
                    let v = ColumnData::I32(Some((r * 31 + c) as i32));
                    v.encode(&mut BytesMutWithTypeInfo::new(&mut dst).with_type_info(&int)).unwrap();
                }
                let v = ColumnData::Binary(Some(Cow::Borrowed(&body[..])));
                v.encode(&mut BytesMutWithTypeInfo::new(&mut dst).with_type_info(&bin)).unwrap();
                if dst.len() >= 65536 {
                    total += dst.len();
                    unsafe { std::ptr::read_volatile(&dst[0]) };
                    dst.clear();
                }
            }
            total += dst.len();
            let ns = start.elapsed().as_nanos();
            format!("ok rows={rows} bytes={total} ns={ns} ns/row={} MB/s={}", ns / rows.max(1) as u128, total as u128 * 1000 / ns.max(1))
        }
        _ => return Err("request".into()),
    })
}

thread_local!(static LAST: RefCell<String> = const { RefCell::new(String::new()) });

pub fn main() {
    std::panic::set_hook(Box::new(|info| {
        let msg = info
            .payload()
            .downcast_ref::<String>()
            .map(|s| s.as_str())
            .or_else(|| info.payload().downcast_ref::<&str>().copied())
            .unwrap_or("?");
        let place = info
            .location()
            .map(|l| {
                let f = l.file();
                let f = f.rsplit_once("/registry/").map(|x| x.1).unwrap_or(f);
                let f = f.rsplit_once("/library/").map(|x| x.1).unwrap_or(f);
                format!("{}:{}", f, l.line())
            })
            .unwrap_or_default();
        let msg: String = msg.chars().take(100).map(|c| if c.is_control() { ' ' } else { c }).collect();
        LAST.with(|m| *m.borrow_mut() = format!("{place} | {msg}"));
    }));
    let stdin = std::io::stdin().lock();
    let mut out = std::io::BufWriter::new(std::io::stdout().lock());
    for line in stdin.lines() {
        let line = line.expect("stdin");
        if line.is_empty() || line.starts_with('#') {
            writeln!(out, "{line}").unwrap();
            continue;
        }
        let a = match std::panic::catch_unwind(|| answer(&line)) {
            Ok(Ok(a)) => a,
            Ok(Err(b)) => format!("bad {b}"),
            Err(_) => format!("panic: {}", LAST.with(|m| m.borrow().clone())),
        };
        writeln!(out, "{a}").unwrap();
        out.flush().unwrap();
    }
}
