//! Times the work. A round goes through all of it, so that what else the machine does meets few rounds of a piece of work; within a round the sides take
//! their turns one behind another, and what counts is the median of the rounds' ratios.
use crate::old::Old;
use crate::sides::{Codec, Plain};
use crate::work::{self, Lent, Work};
use std::time::Instant;

/// A turn takes at least so many nanoseconds.
const TURN: f64 = 2e6;

/// A side's name, and one pass by it.
type Side<'a> = (&'static str, Box<dyn FnMut() + 'a>);

/// Nanoseconds a pass, over so many passes.
fn turn(pass: &mut dyn FnMut(), passes: u32) -> f64 {
    let start = Instant::now();
    for _ in 0..passes {
        pass();
    }
    start.elapsed().as_nanos() as f64 / f64::from(passes)
}

/// How many passes a turn takes. Finding it out warms the caches.
fn passes(pass: &mut dyn FnMut()) -> u32 {
    let mut count = 1;
    while count < 1 << 20 && turn(pass, count) * f64::from(count) < TURN {
        count *= 2;
    }
    count
}

fn median(mut numbers: Vec<f64>) -> f64 {
    numbers.sort_by(f64::total_cmp);
    numbers[numbers.len() / 2]
}

/// The sides that can do the work. All of them write into rooms that are not cleared between passes.
fn sides<'a>(work: &'a Work, bytes: &'a [u8]) -> Vec<Side<'a>> {
    let room = work.size + (1 << 17);
    let (mut codec, mut plain) = (Lent::new(room), Lent::new(room));
    let mut sides: Vec<Side> = vec![
        ("codec", Box::new(move || work::run::<Codec>(work, &mut codec))),
        ("plain", Box::new(move || work::run::<Plain>(work, &mut plain))),
    ];
    if let Some(mut old) = Old::of(work) {
        sides.push(("tiberius", Box::new(move || old.run())));
    }
    let mut copy = vec![0xEE; bytes.len()];
    sides.push(("copy", Box::new(move || copy.copy_from_slice(bytes))));
    sides
}

/// What is known of a piece of work: its sides, the times that each took for a pass, the calls and bytes of a pass.
struct Timed {
    name: String,
    sides: Vec<&'static str>,
    rounds: Vec<Vec<f64>>,
    calls: usize,
    size: usize,
}

impl Timed {
    fn print(&self) {
        for (i, side) in self.sides.iter().enumerate() {
            let time = median(self.rounds.iter().map(|round| round[i]).collect());
            println!("time {} {} {:.0} {} {}", self.name, side, time, self.calls, self.size);
            if i > 0 {
                println!("ratio {} {} {:.3}", self.name, side, median(self.rounds.iter().map(|round| round[0] / round[i]).collect()));
            }
        }
    }
}

/// Compares all the work, and times it.
pub fn all(rounds: usize) {
    let work = work::all::<Codec>(false);
    let written: Vec<Vec<u8>> = work.iter().map(crate::compare).collect();
    let mut timed: Vec<Timed> = vec![];
    for round in 0..rounds {
        for (i, (work, written)) in work.iter().zip(&written).enumerate() {
            // A block copy of what is written; of what is read where nothing is.
            let bytes = if written.is_empty() { &work.bytes } else { written };
            let mut sides = sides(work, bytes);
            let times = sides.iter_mut().map(|(_, pass)| {
                let passes = passes(pass);
                turn(pass, passes)
            });
            let times = times.collect();
            if round == 0 {
                let sides = sides.iter().map(|(side, _)| *side).collect();
                timed.push(Timed { name: work.name.clone(), sides, rounds: vec![], calls: work.calls, size: bytes.len() });
            }
            timed[i].rounds.push(times);
        }
    }
    timed.iter().for_each(Timed::print);
}
