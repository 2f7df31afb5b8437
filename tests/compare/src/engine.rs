//! crates/entries, called. No function of it has a precondition.

mod foreign {
    extern "C" {
        pub fn trial_run(script: *const u8, length: usize, out: *mut u8, room: usize) -> usize;
        pub fn trial_read_many(frames: *const u8, length: usize, size: usize, times: usize) -> u64;
        pub fn trial_handle_many(
            creation: *const u8,
            creation_length: usize,
            frames: *const u8,
            length: usize,
            size: usize,
            times: usize,
        ) -> u64;
        pub fn trial_handle_alone(
            creation: *const u8,
            creation_length: usize,
            frames: *const u8,
            length: usize,
            size: usize,
            times: usize,
        ) -> u64;
        pub fn trial_write_many(
            creation: *const u8,
            creation_length: usize,
            times: usize,
            out: *mut u8,
            room: usize,
        ) -> u64;
        pub fn trial_write_alone(
            creation: *const u8,
            creation_length: usize,
            times: usize,
            out: *mut u8,
            room: usize,
        ) -> u64;
    }
}

/// Runs a script; gives the octets written.
pub fn run<'a>(script: &[u8], out: &'a mut [u8]) -> &'a [u8] {
    // SAFETY: a slice goes over as its pointer and its length.
    let written =
        unsafe { foreign::trial_run(script.as_ptr(), script.len(), out.as_mut_ptr(), out.len()) };
    assert!(written < out.len(), "the output is full");
    &out[..written]
}

/// Reads frames of one size in turn.
pub fn read_many(frames: &[u8], size: usize, times: usize) -> u64 {
    // SAFETY: as above.
    unsafe { foreign::trial_read_many(frames.as_ptr(), frames.len(), size, times) }
}

/// Handles frames of one size in turn, at ports 1, 2, 3, 4 in turn, all made by a creation step.
pub fn handle_many(creation: &[u8], frames: &[u8], size: usize, times: usize) -> u64 {
    // SAFETY: as above.
    unsafe {
        foreign::trial_handle_many(
            creation.as_ptr(),
            creation.len(),
            frames.as_ptr(),
            frames.len(),
            size,
            times,
        )
    }
}

/// The same at one port without three beside it.
pub fn handle_alone(creation: &[u8], frames: &[u8], size: usize, times: usize) -> u64 {
    // SAFETY: as above.
    unsafe {
        foreign::trial_handle_alone(
            creation.as_ptr(),
            creation.len(),
            frames.as_ptr(),
            frames.len(),
            size,
            times,
        )
    }
}

/// Writes the frames of ports 1, 2, 3, 4 in turn, all made by a creation step.
pub fn write_many(creation: &[u8], times: usize, out: &mut [u8]) -> u64 {
    // SAFETY: as above.
    unsafe {
        foreign::trial_write_many(
            creation.as_ptr(),
            creation.len(),
            times,
            out.as_mut_ptr(),
            out.len(),
        )
    }
}

/// The same of one port without three beside it.
pub fn write_alone(creation: &[u8], times: usize, out: &mut [u8]) -> u64 {
    // SAFETY: as above.
    unsafe {
        foreign::trial_write_alone(
            creation.as_ptr(),
            creation.len(),
            times,
            out.as_mut_ptr(),
            out.len(),
        )
    }
}
