//! The driver. It compares both sides on generated inputs and on the work itself, and then times the work.
//!
//!     drive check N [SEED]    compares N generated questions
//!     drive compare           compares the work
//!     drive time ROUNDS       compares the work, then times it; a line for each piece of work and other
//!     drive count             (built with --cfg count) one pass of each side between marks, for the emulator
mod check;
#[cfg(count)]
mod count;
#[cfg(not(count))]
mod old;
mod sides;
#[cfg(not(count))]
mod time;
mod work;

use sides::{Calls, Codec, Plain};
use std::process::exit;
use work::{Lent, Work};

/// The answers and lent bytes of every call of a pass, one behind another.
fn answers<C: Calls>(work: &Work, lent: &mut Lent) -> Vec<u8> {
    let mut all = vec![];
    work::pass::<C>(work, lent, |answer, lent, at, count| {
        let (refusal, number) = match answer {
            Ok(number) => (0, number as u64),
            Err(refusal) => (refusal, 0),
        };
        all.extend([refusal, number].map(u64::to_le_bytes).concat());
        all.extend(&lent.out[at..at + count]);
        match work.task {
            work::Task::HeaderRead => all.extend(lent.fields.map(u16::to_le_bytes).concat()),
            work::Task::ColumnRead => {
                all.extend(lent.column);
                all.extend(lent.names.map(u64::to_le_bytes).concat());
            }
            work::Task::RowRead => {
                let columns = work.table.len() / 16;
                for number in &lent.numbers[..3 * columns] {
                    all.extend(number.to_le_bytes());
                }
                // The content of the row's last column, which may stand in the room.
                let last = &lent.numbers[3 * columns - 3..];
                if last[0] == 11 {
                    all.extend(&lent.out[last[1] as usize..][..last[2] as usize]);
                }
            }
            work::Task::RowNormal => all.extend(lent.next.to_le_bytes()),
            _ => {}
        }
    });
    all
}

fn differ(name: &str, who: &str) -> ! {
    println!("{}: {} answers otherwise than the codec", name, who);
    exit(1)
}

/// Every call is answered, and all sides answer alike. The bytes that the codec wrote.
fn compare(work: &Work) -> Vec<u8> {
    let room = work.size + (1 << 17);
    let (mut codec, mut plain) = (Lent::new(room), Lent::new(room));
    let mut written = 0;
    work::pass::<Codec>(work, &mut codec, |answer, _, at, count| {
        if let Err(refusal) = answer {
            println!("{}: the codec refuses it: {}", work.name, refusal);
            exit(1)
        }
        written = at + count;
    });
    let mut codec = Lent::new(room);
    if answers::<Codec>(work, &mut codec) != answers::<Plain>(work, &mut plain) || codec.out != plain.out {
        differ(&work.name, "plain Rust");
    }
    codec.out.truncate(written);
    #[cfg(not(count))]
    if !old::same(work, &codec.out) {
        differ(&work.name, "tiberius");
    }
    codec.out
}

fn number(arg: Option<String>, otherwise: u64) -> u64 {
    arg.map_or(otherwise, |arg| arg.parse().expect("a number"))
}

fn main() {
    let mut args = std::env::args().skip(1);
    match (args.next().as_deref(), args.next(), args.next()) {
        (Some("check"), count, seed) => match check::check(number(count, 10_000), number(seed, 1)) {
            Ok(counts) => counts.iter().for_each(|((call, refusal), count)| println!("{call} {refusal} {count}")),
            Err(difference) => {
                println!("{}", difference);
                exit(1)
            }
        },
        (Some("compare"), _, _) => {
            let work = work::all::<Codec>(false);
            work.iter().for_each(|work| drop(compare(work)));
            println!("{} pieces of work, all sides alike", work.len());
        }
        #[cfg(not(count))]
        (Some("time"), rounds, _) => time::all(number(rounds, 11) as usize),
        #[cfg(count)]
        (Some("count"), _, _) => count::all(),
        _ => {
            println!("drive check N [SEED] | compare | time ROUNDS | count");
            exit(2)
        }
    }
}
