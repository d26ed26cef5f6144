//! The two C calls, and all that is unsafe here.
//!
//! The names, the order and the widths of the arguments are those of include/cartwhisker.h. A lent
//! slice passes as its address and its length.

#![allow(unsafe_code)]

/// Which of an answer's five numbers a call returns.
#[derive(Clone, Copy)]
pub enum Which {
    Number = 0,
    A = 1,
    B = 2,
    Type = 3,
    Start = 4,
}

// The archive defines both under these very names with C's calling rules: build.rs links no other,
// and a missing name is an error of the linker.
extern "C" {
    fn cartwhisker_check(
        layout: *const u8,
        layout_len: usize,
        message: *const u8,
        message_len: usize,
        which: u32,
    ) -> u64;

    fn cartwhisker_list(
        layout: *const u8,
        layout_len: usize,
        message: *const u8,
        message_len: usize,
        records: *mut u8,
        records_len: usize,
        which: u32,
    ) -> u64;
}

pub fn check(layout: &[u8], message: &[u8], which: Which) -> u64 {
    // SAFETY: each address and length are those of one slice, so they are valid for reading, not
    // null and unchanged while the slice is borrowed, which is until the call is over. The call is
    // proved to read nothing outside of the two slices, to write nothing, to end and to keep no
    // address. It has no `requires`: it may be asked about any bytes.
    unsafe {
        cartwhisker_check(
            layout.as_ptr(),
            layout.len(),
            message.as_ptr(),
            message.len(),
            which as u32,
        )
    }
}

pub fn list(layout: &[u8], message: &[u8], records: &mut [u8], which: Which) -> u64 {
    // SAFETY: as above for the two slices that are read. `records` is valid for reading and writing
    // for its length, and as it is borrowed alone it overlaps neither of the others. The call is
    // proved to write nothing outside of it. Bytes have no invalid value, so whatever is written
    // leaves a proper slice.
    unsafe {
        cartwhisker_list(
            layout.as_ptr(),
            layout.len(),
            message.as_ptr(),
            message.len(),
            records.as_mut_ptr(),
            records.len(),
            which as u32,
        )
    }
}
