//! How much stack a call takes, by painting: a thread gets a stack of ours, every byte of which was
//! painted before, and the lowest byte that changed says how deep it went.

use super::calls;
use std::ffi::{c_int, c_void};

const STACK: usize = 1 << 20;
const PAINT: u8 = 0xa5;

#[derive(Clone, Copy, Debug, PartialEq, Eq)]
pub enum Side {
    Check,
    Listing,
}

/// Room for a `pthread_attr_t`, which has 56 or 64 bytes where this was tried.
#[repr(C, align(16))]
struct Attributes([u8; 256]);

type Thread = usize;

// POSIX; the standard library links it.
extern "C" {
    fn pthread_attr_init(attributes: *mut Attributes) -> c_int;
    fn pthread_attr_setstack(attributes: *mut Attributes, stack: *mut c_void, size: usize)
        -> c_int;
    fn pthread_create(
        thread: *mut Thread,
        attributes: *const Attributes,
        start: extern "C" fn(*mut c_void) -> *mut c_void,
        argument: *mut c_void,
    ) -> c_int;
    fn pthread_join(thread: Thread, result: *mut *mut c_void) -> c_int;
    fn pthread_attr_destroy(attributes: *mut Attributes) -> c_int;
}

/// A page, as stacks are to start on one.
#[repr(C, align(4096))]
#[derive(Clone, Copy)]
struct Page([u8; 4096]);

struct Job<'a> {
    layout: &'a [u8],
    message: &'a [u8],
    records: Vec<u8>,
    side: Side,
    /// An address within the frame that makes the call.
    from: usize,
    number: u64,
}

extern "C" fn run(job: *mut c_void) -> *mut c_void {
    let here = 0_u64;
    // SAFETY: `used` hands its own job to this thread and does not touch it before the join.
    let job = unsafe { &mut *job.cast::<Job>() };
    job.from = std::hint::black_box(&here) as *const u64 as usize;
    job.number = match job.side {
        Side::Check => calls::check(job.layout, job.message),
        Side::Listing => calls::list(job.layout, job.message, &mut job.records),
    };
    std::ptr::null_mut()
}

/// Runs the job in a thread on this stack.
fn run_on(stack: &mut [Page], job: &mut Job) {
    let mut attributes = Attributes([0; 256]);
    let mut thread: Thread = 0;
    // SAFETY: the stack is borrowed alone until the thread has ended, is aligned to pages and as
    // long as is said; the job likewise. Each call's result is tested before the next.
    unsafe {
        assert_eq!(pthread_attr_init(&mut attributes), 0);
        let size = std::mem::size_of_val(stack);
        assert_eq!(pthread_attr_setstack(&mut attributes, stack.as_mut_ptr().cast(), size), 0);
        let argument = (job as *mut Job).cast();
        assert_eq!(pthread_create(&mut thread, &attributes, run, argument), 0);
        assert_eq!(pthread_join(thread, std::ptr::null_mut()), 0);
        assert_eq!(pthread_attr_destroy(&mut attributes), 0);
    }
}

/// Bytes of stack below the caller's frame that a call on an accepted message takes.
pub fn used(layout: &[u8], message: &[u8], side: Side) -> usize {
    let room = calls::records(layout, message) as usize * cartwhisker::RECORD_BYTES;
    let records = vec![0; room];
    let mut job = Job { layout, message, records, side, from: 0, number: 1 };
    let mut stack = vec![Page([PAINT; 4096]); STACK / 4096];
    run_on(&mut stack, &mut job);
    assert_eq!(job.number, 0, "the message is accepted");
    let bottom = stack.as_ptr() as usize;
    let untouched = stack.iter().flat_map(|page| &page.0).take_while(|byte| **byte == PAINT);
    job.from - (bottom + untouched.count())
}
