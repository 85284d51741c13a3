//! One pass of each side between marks. Under an emulator that logs every instruction, `report.py` counts those between two marks.
use crate::sides::{Codec, Plain};
use crate::work::{self, Lent};
use std::sync::atomic::{AtomicU32, Ordering};

static MARK: AtomicU32 = AtomicU32::new(0);

/// What begins, or ends: the log shows that this is called.
#[inline(never)]
#[no_mangle]
pub extern "C" fn bench_mark() {
    MARK.fetch_add(1, Ordering::Relaxed);
}

pub fn all() {
    let mut lent = Lent::new(1 << 17);
    for work in work::all::<Codec>(true) {
        // Once before, so that nothing is bound while it counts.
        work::run::<Codec>(&work, &mut lent);
        work::run::<Plain>(&work, &mut lent);
        bench_mark();
        work::run::<Codec>(&work, &mut lent);
        bench_mark();
        work::run::<Plain>(&work, &mut lent);
        bench_mark();
        println!("{} {}", work.name, work.calls);
    }
}
