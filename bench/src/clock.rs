//! Times two sides by alternating batches. A batch is timed by the processor's time of this thread, so that other processes on the
//! machine count little; a single call by the clock, whose reading is cheaper.
use std::hint::black_box;
use std::time::Instant;

/// The C library's time of a clock, on a machine of 64 bits.
#[repr(C)]
struct Timespec {
    seconds: i64,
    nanoseconds: i64,
}

/// Linux's clock of the calling thread's processor time.
const THREAD_TIME: i32 = 3;

extern "C" {
    fn clock_gettime(clock: i32, time: *mut Timespec) -> i32;
}

/// Nanoseconds of processor time that this thread has used.
fn thread_time() -> f64 {
    let mut time = Timespec { seconds: 0, nanoseconds: 0 };
    // SAFETY: the C library writes one Timespec to a place that is ours.
    let failed = unsafe { clock_gettime(THREAD_TIME, &mut time) } != 0;
    assert!(!failed, "there is no clock of a thread's time");
    time.seconds as f64 * 1e9 + time.nanoseconds as f64
}

/// A batch lasts at least this long, in nanoseconds.
const BATCH: f64 = 20_000.0;
/// A call that lasts this long is measured once: a second.
const LONG: f64 = 1e9;

/// Nanoseconds of one call on each side: the least of all batches. The other side is the Rust, or an earlier build of the library.
#[derive(Clone, Copy)]
pub struct Times {
    pub library: f64,
    pub other: f64,
}

impl Times {
    /// How many times as fast as the other side the library is.
    pub fn ratio(self) -> f64 {
        self.other / self.library
    }
}

/// Nanoseconds of one call in a batch of so many.
fn batch<T>(calls: usize, call: &mut impl FnMut() -> T) -> f64 {
    let start = thread_time();
    for _ in 0..calls {
        black_box(call());
    }
    (thread_time() - start) / calls as f64
}

/// How many calls make a batch, and the nanoseconds of one in the first that was long enough.
fn calls_for<T>(call: &mut impl FnMut() -> T) -> (usize, f64) {
    let mut calls = 1;
    loop {
        let ns = batch(calls, call);
        if ns * calls as f64 >= BATCH {
            return (calls, ns);
        }
        calls *= 2;
    }
}

/// Both sides, in turns. Where a call is long, the first batch is all.
pub fn alternate<A, B>(rounds: usize, mut library: impl FnMut() -> A, mut other: impl FnMut() -> B) -> Times {
    let (library_calls, library_first) = calls_for(&mut library);
    let (other_calls, other_first) = calls_for(&mut other);
    let mut least = Times { library: library_first, other: other_first };
    if least.library + least.other > LONG {
        return least;
    }
    for _ in 0..rounds {
        least.library = least.library.min(batch(library_calls, &mut library));
        least.other = least.other.min(batch(other_calls, &mut other));
    }
    least
}

/// One side alone: the least of some batches.
pub fn alone<T>(rounds: usize, mut call: impl FnMut() -> T) -> f64 {
    let (calls, first) = calls_for(&mut call);
    (0..rounds).map(|_| batch(calls, &mut call)).fold(first, f64::min)
}

/// Nanoseconds of one call, timed by itself.
pub fn once<T>(call: impl FnOnce() -> T) -> f64 {
    let start = Instant::now();
    black_box(call());
    start.elapsed().as_nanos() as f64
}

/// Nanoseconds of timing nothing, which a call timed by itself is charged for: the median, since a mean would hold the time of other
/// processes.
pub fn of_nothing() -> f64 {
    let mut times: Vec<f64> = (0..10_001).map(|_| once(|| ())).collect();
    times.sort_by(f64::total_cmp);
    times[times.len() / 2]
}
