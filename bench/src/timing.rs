//! Timing: the sides of one case run alternately, so that noise of a shared machine falls on all of them, and the best batch counts.
//!
//! The clock is the processor time of this thread: time in which other programs have the processor does not count. Linux only.

use std::hint::black_box;
use std::time::Duration;

#[repr(C)]
struct Timespec {
    seconds: i64,
    nanoseconds: i64,
}

unsafe extern "C" {
    fn clock_gettime(clock: i32, time: *mut Timespec) -> i32;
}

const CLOCK_THREAD_CPUTIME_ID: i32 = 3;

fn processor_time() -> Duration {
    let mut time = Timespec { seconds: 0, nanoseconds: 0 };
    // SAFETY: `time` has the layout of C's timespec on 64-bit Linux and outlives the call.
    let failed = unsafe { clock_gettime(CLOCK_THREAD_CPUTIME_ID, &mut time) };
    assert_eq!(failed, 0);
    Duration::new(time.seconds as u64, time.nanoseconds as u32)
}

/// The answer of a call and what it writes, as words, so that the sides can be compared before they are timed.
pub type Answer = Vec<u64>;

/// One side of a case: the same work done by one of the programs compared.
pub trait Side {
    /// Makes one call and returns its answer.
    fn answer(&mut self) -> Answer;
    /// Makes `calls` calls and returns the time that they took.
    fn batch(&mut self, calls: u64) -> Duration;
}

fn timed(calls: u64, mut call: impl FnMut()) -> Duration {
    let began = processor_time();
    for _ in 0..calls {
        call();
    }
    processor_time() - began
}

struct Stateful<S, R, A> {
    state: S,
    run: R,
    answer: A,
}

impl<S, O, R: FnMut(&mut S) -> O, A: FnMut(&mut S, O) -> Answer> Side for Stateful<S, R, A> {
    fn answer(&mut self) -> Answer {
        let out = (self.run)(&mut self.state);
        (self.answer)(&mut self.state, out)
    }

    fn batch(&mut self, calls: u64) -> Duration {
        timed(calls, || {
            black_box((self.run)(black_box(&mut self.state)));
        })
    }
}

/// Returns a side with a state that the call may change, such as the output lent to it.
pub fn side<'a, S: 'a, O: 'a>(
    state: S, run: impl FnMut(&mut S) -> O + 'a, answer: impl FnMut(&mut S, O) -> Answer + 'a,
) -> Box<dyn Side + 'a> {
    Box::new(Stateful { state, run, answer })
}

/// Returns a side that answers one number.
pub fn number<'a, T>(input: &'a T, mut call: impl FnMut(&T) -> usize + 'a) -> Box<dyn Side + 'a> {
    side(input, move |input| call(input), |_, n| vec![n as u64])
}

struct Walk<'a, T, M> {
    input: &'a T,
    make: M,
}

impl<'a, T, I: Iterator<Item = u64>, M: FnMut(&'a T) -> (u64, I)> Side for Walk<'a, T, M> {
    fn answer(&mut self) -> Answer {
        let (first, items) = (self.make)(self.input);
        std::iter::once(first).chain(items).collect()
    }

    fn batch(&mut self, calls: u64) -> Duration {
        timed(calls, || {
            let (mut sum, items) = (self.make)(black_box(self.input));
            for item in items {
                sum = sum.wrapping_add(item);
            }
            black_box(sum);
        })
    }
}

/// Returns a side that takes all items of an iterator, after a first number: timed with their sum, compared item by item.
pub fn walk<'a, T, I: Iterator<Item = u64> + 'a>(input: &'a T, make: impl FnMut(&'a T) -> (u64, I) + 'a) -> Box<dyn Side + 'a> {
    Box::new(Walk { input, make })
}

/// The least time of a batch, and how many batches there are of each side.
#[derive(Clone, Copy)]
pub struct Effort {
    pub batch: Duration,
    pub batches: u32,
}

/// Returns the nanoseconds per call of each side, the best of its batches.
pub fn measure(sides: &mut [Box<dyn Side + '_>], effort: Effort) -> Vec<f64> {
    let calls: Vec<u64> = sides.iter_mut().map(|s| calls_for(s.as_mut(), effort.batch)).collect();
    let mut best = vec![f64::INFINITY; sides.len()];
    for _ in 0..effort.batches {
        for ((side, calls), best) in sides.iter_mut().zip(&calls).zip(&mut best) {
            let each = side.batch(*calls).as_secs_f64() * 1e9 / *calls as f64;
            *best = best.min(each);
        }
    }
    best
}

/// The place at which callgrind writes what it has counted, and begins anew (`bench/instructions`).
#[unsafe(no_mangle)]
#[inline(never)]
pub extern "C" fn bench_mark() {
    black_box(());
}

/// Makes `calls` calls of each side, with a mark before them and after.
pub fn count(sides: &mut [Box<dyn Side + '_>], calls: u64) {
    for side in sides {
        bench_mark();
        black_box(side.batch(calls));
        bench_mark();
    }
}

/// Returns the number of calls that fill a batch; finding it warms the side up.
fn calls_for(side: &mut dyn Side, batch: Duration) -> u64 {
    let mut calls = 1;
    loop {
        let took = side.batch(calls);
        if took >= batch {
            return calls;
        }
        let wanted = batch.as_secs_f64() / took.as_secs_f64().max(1e-9) * 1.1;
        calls = (calls as f64 * wanted.clamp(1.5, 16.0)).ceil() as u64;
    }
}
