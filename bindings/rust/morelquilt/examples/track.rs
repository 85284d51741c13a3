//! How a Rust program uses the codec: it writes a row, reads it back, and asks whether two rows hold the same.
use morelquilt::{normal_form, row_needs, write_row, Collation, Column, Given, Refusal, Row, Slot, Value};

/// A limit and the name of its track.
const TRACK: [Column; 2] = [Column::intn(4), Column::nvarchar(40, Collation { info: 0x00D0_0409, sort: 52 })];
/// Long binary content.
const POINTS: [Column; 1] = [Column::varbinary_max()];

/// Writes a limit and a name, whose UTF-8 is the buffer.
fn write_track(limit: i32, name: &[u8], out: &mut [u8]) -> Result<usize, Refusal> {
    write_row(&TRACK, &[Given::i32(limit), Given::string(0, name.len())], name, out)
}

/// Reads them, and prints them.
fn print_track(bytes: &[u8]) -> Result<(), Refusal> {
    let (mut slots, mut room) = ([Slot::EMPTY; 2], [0; 64]);
    let row = Row::read(&TRACK, bytes, 0, &mut [], &mut slots)?;
    if let (Some(Value::I32(limit)), Some(Value::String(name))) = (row.get(0), row.get(1)) {
        println!("limit {limit} on {}", name.to_utf8(&mut room)?);
    }
    Ok(())
}

/// The normal form of a row.
fn form(bytes: &[u8]) -> Result<Vec<u8>, Refusal> {
    let (needs, _) = row_needs(&POINTS, bytes, 0)?;
    let mut out = vec![0; needs.normal];
    normal_form(&POINTS, bytes, 0, &mut out)?;
    Ok(out)
}

fn main() -> Result<(), Refusal> {
    let mut room = [0; 64];
    let n = write_track(-2, "spår 2".as_bytes(), &mut room)?;
    print_track(&room[..n])?;
    if let Err(refusal) = write_track(-2, b"sp\xC3", &mut room) {
        println!("half a name is refused: {}, {refusal}", refusal.number());
    }
    // The bytes AA BB CC, long content of unknown length: in two chunks, and in one.
    let two = b"\xFE\xFF\xFF\xFF\xFF\xFF\xFF\xFF\x01\0\0\0\xAA\x02\0\0\0\xBB\xCC\0\0\0\0";
    let one = b"\xFE\xFF\xFF\xFF\xFF\xFF\xFF\xFF\x03\0\0\0\xAA\xBB\xCC\0\0\0\0";
    if form(two)? == form(one)? {
        println!("the same");
    }
    Ok(())
}
