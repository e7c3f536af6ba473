//! The times of phases, and what each phase made.
//!
//! A phase of more than a millisecond has the processor time of its thread, so that the turns of other programs do not
//! count; a shorter one that of a clock, which costs less to read.
use std::cell::RefCell;
use std::collections::BTreeMap;
use std::time::Instant;

/// What one run of a side leaves.
#[derive(Default)]
pub struct Log {
    checks: bool,
    began: Option<Moment>,
    last: u32,
    /// The least nanoseconds of each phase.
    pub times: BTreeMap<u32, u64>,
    /// What each phase made, if that is compared: pieces of bytes, each behind its length.
    pub made: BTreeMap<u32, Vec<u8>>,
    /// Why the side came to no end.
    pub refused: Option<String>,
}

/// A clock, and the processor time of the thread in nanoseconds.
#[derive(Clone, Copy)]
pub struct Moment {
    clock: Instant,
    processor: u64,
}

/// Below this the clock is taken: one millisecond.
const SHORT: u64 = 1_000_000;

impl Moment {
    pub fn now() -> Moment {
        let processor = processor_time();
        Moment { clock: Instant::now(), processor }
    }

    /// The nanoseconds since then.
    pub fn elapsed(self) -> u64 {
        let time = self.clock.elapsed().as_nanos() as u64;
        if time > SHORT { processor_time() - self.processor } else { time }
    }
}

unsafe extern "C" {
    fn clock_gettime(clock: i32, time: *mut [i64; 2]) -> i32;
}

fn processor_time() -> u64 {
    const THREAD: i32 = 3;
    let mut time = [0; 2];
    // SAFETY: a `timespec` of Linux on 64 bits is two numbers: seconds and nanoseconds.
    unsafe { clock_gettime(THREAD, &mut time) };
    let [seconds, nanoseconds] = time;
    seconds as u64 * 1_000_000_000 + nanoseconds as u64
}

thread_local! {
    static LOG: RefCell<Log> = RefCell::default();
}

/// Runs a side of a job.
pub fn run(checks: bool, side: &mut dyn FnMut()) -> Log {
    LOG.set(Log { checks, ..Log::default() });
    side();
    LOG.take()
}

/// A phase begins.
pub fn begin() {
    LOG.with_borrow_mut(|log| log.began = Some(Moment::now()));
}

/// The phase with this number ends.
pub fn end(phase: u32) {
    LOG.with_borrow_mut(|log| {
        let time = log.began.take().expect("a phase ends that has begun").elapsed();
        let least = log.times.entry(phase).or_insert(time);
        *least = time.min(*least);
        log.last = phase;
        // Of several rounds the last one is compared.
        log.made.remove(&phase);
    });
}

/// Whether what both sides make is compared.
pub fn checks() -> bool {
    LOG.with_borrow(|log| log.checks)
}

/// Some bytes that the phase made which ended last.
pub fn show(bytes: &[u8]) {
    LOG.with_borrow_mut(|log| {
        if log.checks {
            let made = log.made.entry(log.last).or_default();
            made.extend((bytes.len() as u64).to_le_bytes());
            made.extend(bytes);
        }
    });
}

/// A number that the phase made which ended last.
pub fn show_number(number: u64) {
    show(&number.to_le_bytes());
}

/// The side comes to no end.
pub fn refuse(reason: &str) {
    LOG.with_borrow_mut(|log| {
        log.refused.get_or_insert_with(|| reason.to_string());
    });
}
