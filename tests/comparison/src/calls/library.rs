//! The C boundary of the library, as `include/wosthile.h` declares it.

#![allow(unsafe_code, reason = "a call of C is unsafe")]

/// The answer of an operation that writes a file.
#[repr(C)]
#[derive(Clone, Copy, Debug, PartialEq, Eq)]
pub struct Written {
    /// 0, or the number of the first fault.
    pub number: u32,
    /// The bytes at the front of the lent buffer.
    pub written: usize,
}

/// The answer of Admit.
#[repr(C)]
#[derive(Clone, Copy, Debug, PartialEq, Eq)]
pub struct Admitted {
    /// 0, or the number of the first fault.
    pub number: u32,
    /// 1 if the slice is complete.
    pub complete: u32,
    /// The cues and levels that came in the slice.
    pub arrived: u32,
}

/// The answer of Feed.
#[repr(C)]
#[derive(Clone, Copy, Debug, PartialEq, Eq)]
pub struct Fed {
    /// 0, or the number of the first fault.
    pub number: u32,
    /// The bytes at the front of the output buffer.
    pub output: usize,
    /// The bytes at the front of the buffer for the patch left.
    pub patch: usize,
    /// The cues and levels that came in the slice.
    pub arrived: u32,
    /// Those in the slice sent.
    pub sent: u32,
}

/// The binary interface that these declarations are of.
pub const ABI: u32 = 3;

extern "C" {
    fn wosthile_abi() -> u32;
    fn wosthile_check(
        patch: *const u8,
        patch_length: usize,
        type_file: *mut u8,
        type_length: usize,
    ) -> Written;
    fn wosthile_admit(
        type_file: *const u8,
        type_length: usize,
        slice: *const u8,
        slice_length: usize,
    ) -> Admitted;
    fn wosthile_left(
        type_file: *const u8,
        type_length: usize,
        slice: *const u8,
        slice_length: usize,
        left: *mut u8,
        left_length: usize,
    ) -> Written;
    fn wosthile_join(
        type_file: *const u8,
        type_length: usize,
        first: *const u8,
        first_length: usize,
        second: *const u8,
        second_length: usize,
        joined: *mut u8,
        joined_length: usize,
    ) -> Written;
    fn wosthile_feed(
        patch: *const u8,
        patch_length: usize,
        slice: *const u8,
        slice_length: usize,
        output: *mut u8,
        output_length: usize,
        left: *mut u8,
        left_length: usize,
    ) -> Fed;
    fn wosthile_longest(
        type_file: *const u8,
        type_length: usize,
        slice: *mut u8,
        slice_length: usize,
    ) -> Written;
}

/// Bytes of length 0 go as NULL, which the header allows.
fn start(bytes: &[u8]) -> *const u8 {
    if bytes.is_empty() {
        std::ptr::null()
    } else {
        bytes.as_ptr()
    }
}

fn start_mut(bytes: &mut [u8]) -> *mut u8 {
    if bytes.is_empty() {
        std::ptr::null_mut()
    } else {
        bytes.as_mut_ptr()
    }
}

/// Calls `wosthile_abi`: the interface that the archive was built for.
pub fn abi() -> u32 {
    // SAFETY: it takes nothing and touches nothing.
    unsafe { wosthile_abi() }
}

/// Calls `wosthile_check`.
pub fn check(patch: &[u8], type_file: &mut [u8]) -> Written {
    // SAFETY: each pointer is good for its length, or NULL with length 0; the exclusive borrow
    // keeps the lent buffer apart from the file.
    unsafe {
        wosthile_check(
            start(patch),
            patch.len(),
            start_mut(type_file),
            type_file.len(),
        )
    }
}

/// Calls `wosthile_admit`.
pub fn admit(type_file: &[u8], slice: &[u8]) -> Admitted {
    // SAFETY: as for Check; nothing is written.
    unsafe { wosthile_admit(start(type_file), type_file.len(), start(slice), slice.len()) }
}

/// Calls `wosthile_left`.
pub fn left(type_file: &[u8], slice: &[u8], left: &mut [u8]) -> Written {
    // SAFETY: as for Check.
    unsafe {
        wosthile_left(
            start(type_file),
            type_file.len(),
            start(slice),
            slice.len(),
            start_mut(left),
            left.len(),
        )
    }
}

/// Calls `wosthile_join`.
pub fn join(type_file: &[u8], first: &[u8], second: &[u8], joined: &mut [u8]) -> Written {
    // SAFETY: as for Check.
    unsafe {
        wosthile_join(
            start(type_file),
            type_file.len(),
            start(first),
            first.len(),
            start(second),
            second.len(),
            start_mut(joined),
            joined.len(),
        )
    }
}

/// Calls `wosthile_feed`.
pub fn feed(patch: &[u8], slice: &[u8], output: &mut [u8], left: &mut [u8]) -> Fed {
    // SAFETY: as for Check; the two lent buffers are borrowed exclusively, so they are apart.
    unsafe {
        wosthile_feed(
            start(patch),
            patch.len(),
            start(slice),
            slice.len(),
            start_mut(output),
            output.len(),
            start_mut(left),
            left.len(),
        )
    }
}

/// Calls `wosthile_longest`.
pub fn longest(type_file: &[u8], slice: &mut [u8]) -> Written {
    // SAFETY: as for Check.
    unsafe {
        wosthile_longest(
            start(type_file),
            type_file.len(),
            start_mut(slice),
            slice.len(),
        )
    }
}
