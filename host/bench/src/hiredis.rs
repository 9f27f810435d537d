//! hiredis's reader, told to build no reply objects: it reads a reply's bytes and says whether they are one.

use std::ffi::{c_char, c_int, c_void};
use std::ptr;

/// hiredis's `redisReader`, of which nothing is looked at.
#[repr(C)]
struct Opaque {
    _private: [u8; 0],
}

unsafe extern "C" {
    fn redisReaderCreateWithFunctions(functions: *mut c_void) -> *mut Opaque;
    fn redisReaderFeed(reader: *mut Opaque, bytes: *const c_char, length: usize) -> c_int;
    fn redisReaderGetReply(reader: *mut Opaque, reply: *mut *mut c_void) -> c_int;
    fn redisReaderFree(reader: *mut Opaque);
}

/// A reader that builds nothing.
pub struct Reader(*mut Opaque);

impl Reader {
    /// A new reader.
    pub fn new() -> Self {
        // SAFETY: no functions, so no objects are built and a reply is a mark that is not to be freed.
        let reader = unsafe { redisReaderCreateWithFunctions(ptr::null_mut()) };
        assert!(!reader.is_null());
        Reader(reader)
    }

    /// Feeds the bytes and reads one reply off them; whether that went well and there was one.
    pub fn reads(&mut self, bytes: &[u8]) -> bool {
        let mut reply = ptr::null_mut();
        // SAFETY: the reader lives as long as this value, and copies the bytes that it is fed.
        unsafe {
            redisReaderFeed(self.0, bytes.as_ptr().cast(), bytes.len()) == 0
                && redisReaderGetReply(self.0, &mut reply) == 0
                && !reply.is_null()
        }
    }
}

impl Drop for Reader {
    fn drop(&mut self) {
        // SAFETY: made in `new`, freed here alone.
        unsafe { redisReaderFree(self.0) }
    }
}
