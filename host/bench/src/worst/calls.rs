//! The calls that ask once and give one number, and a clock of this thread's own.

use std::ffi::{c_int, c_long};
use std::hint::black_box;
use std::time::Duration;

/// The number of the refusal, or 0.
#[inline(never)]
pub fn check(layout: &[u8], message: &[u8]) -> u64 {
    u64::from(cartwhisker::check_number(black_box(layout), black_box(message)))
}

/// Lists, and gives the number of the refusal, or 0.
#[inline(never)]
pub fn list(layout: &[u8], message: &[u8], records: &mut [u8]) -> u64 {
    u64::from(cartwhisker::list_number(black_box(layout), black_box(message), records))
}

/// The records of an accepted message.
pub fn records(layout: &[u8], message: &[u8]) -> u64 {
    cartwhisker::record_count(layout, message).expect("an accepted message") as u64
}

#[repr(C)]
struct Time {
    seconds: i64,
    nanoseconds: c_long,
}

extern "C" {
    fn clock_gettime(clock: c_int, time: *mut Time) -> c_int;
}

/// Linux's number of the clock that counts while this thread runs.
const THREAD_CLOCK: c_int = 3;

/// How long this thread has run, the times left out in which others had the processor.
pub fn thread_time() -> Duration {
    let mut time = Time { seconds: 0, nanoseconds: 0 };
    // SAFETY: the call writes one time to the place that it is given.
    let told = unsafe { clock_gettime(THREAD_CLOCK, &mut time) };
    assert_eq!(told, 0, "there is such a clock");
    Duration::new(time.seconds as u64, time.nanoseconds as u32)
}
