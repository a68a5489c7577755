//! Medians of interleaved runs, by the processor time of this thread, so that what else the machine does counts little.

use std::hint::black_box;

pub const ROUNDS: usize = 15;

pub type Side<'a> = &'a mut dyn FnMut() -> usize;

#[repr(C)]
struct Timespec {
    seconds: i64,
    nanoseconds: i64,
}

unsafe extern "C" {
    fn clock_gettime(clock: i32, time: *mut Timespec) -> i32;
}

const THREAD_CPUTIME: i32 = 3;

fn now() -> f64 {
    let mut time = Timespec { seconds: 0, nanoseconds: 0 };
    // SAFETY: the struct is C's on 64-bit Linux.
    unsafe { clock_gettime(THREAD_CPUTIME, &mut time) };
    time.seconds as f64 + time.nanoseconds as f64 / 1e9
}

/// Each side in turn, `ROUNDS` times, each time `times` runs; the median of the seconds that one run took
pub fn medians<const N: usize>(mut sides: [Side; N], times: usize) -> [f64; N] {
    let mut taken = [(); N].map(|()| vec![]);
    for round in 0..=ROUNDS {
        for (side, taken) in sides.iter_mut().zip(&mut taken) {
            let start = now();
            for _ in 0..times {
                black_box(side());
            }
            // The first round only warms up.
            if round > 0 {
                taken.push((now() - start) / times as f64);
            }
        }
    }
    taken.map(|mut taken| {
        taken.sort_by(f64::total_cmp);
        taken[taken.len() / 2]
    })
}
