//! Times of the processor, taken by turns: what else the machine does counts for nothing, and
//! what disturbs one thing disturbs what it is compared with.

/// Rounds for a small set of names; a large one takes fewer, its times being steadier.
#[derive(Clone, Copy)]
pub struct Rounds(pub u32);

impl Rounds {
    pub fn of(self, count: u32) -> u32 {
        (self.0.saturating_mul(1_000) / count).max(5)
    }
}

/// The shortest of some rounds for each of several things, in nanoseconds.
pub fn shortest<T: Copy>(rounds: u32, things: &[T], mut run: impl FnMut(T)) -> Vec<f64> {
    let mut best = vec![f64::INFINITY; things.len()];
    // One round more, which isn't counted: it fills the caches and touches fresh memory.
    for round in 0..=rounds {
        for (thing, best) in things.iter().zip(&mut best) {
            let start = processor_time();
            run(*thing);
            let taken = processor_time() - start;
            if round > 0 {
                *best = best.min(taken as f64);
            }
        }
    }
    best
}

#[repr(C)]
struct Timespec {
    seconds: i64,
    nanoseconds: i64,
}

extern "C" {
    fn clock_gettime(clock: i32, time: *mut Timespec) -> i32;
}

/// CLOCK_THREAD_CPUTIME_ID; the standard library has the wall clock only.
const OF_THIS_THREAD: i32 = 3;

/// Nanoseconds that this thread has run.
#[allow(unsafe_code)]
fn processor_time() -> i64 {
    let mut time = Timespec {
        seconds: 0,
        nanoseconds: 0,
    };
    // SAFETY: the struct is lent for the call and has the layout that 64-bit Linux gives it.
    let failed = unsafe { clock_gettime(OF_THIS_THREAD, &mut time) };
    assert_eq!(failed, 0, "the clock of the thread can be read");
    1_000_000_000 * time.seconds + time.nanoseconds
}
