//! The two functions of the C interface; without the feature `office` there is nothing to ask.

#[cfg(feature = "office")]
mod library {
    unsafe extern "C" {
        pub fn board_file_check(bytes: *const u8, len: usize) -> u32;
        pub fn board_file_free(bytes: *const u8, len: usize, minute: u32) -> u32;
    }
}

/// Whether the library is linked in.
pub const LINKED: bool = cfg!(feature = "office");

/// What the library says of a file, if it is linked in.
#[cfg(feature = "office")]
pub fn check(bytes: &[u8]) -> Option<u32> {
    // SAFETY: the pointer and the length are of one slice, which is only read.
    Some(unsafe { library::board_file_check(bytes.as_ptr(), bytes.len()) })
}

/// The units that the library says are free, if it is linked in.
#[cfg(feature = "office")]
pub fn free(bytes: &[u8], minute: u32) -> Option<u32> {
    // SAFETY: the pointer and the length are of one slice, which is only read.
    Some(unsafe { library::board_file_free(bytes.as_ptr(), bytes.len(), minute) })
}

#[cfg(not(feature = "office"))]
pub fn check(_: &[u8]) -> Option<u32> {
    None
}

#[cfg(not(feature = "office"))]
pub fn free(_: &[u8], _: u32) -> Option<u32> {
    None
}
