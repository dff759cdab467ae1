//! How much memory the proved agent has: all that it takes and gives back goes through these three functions.

use std::ffi::c_void;
use std::sync::atomic::{AtomicBool, AtomicI64, Ordering::Relaxed};

static COUNTS: AtomicBool = AtomicBool::new(false);
static HAS: AtomicI64 = AtomicI64::new(0);
static MOST: AtomicI64 = AtomicI64::new(0);

unsafe extern "C" {
    fn __real_malloc(size: usize) -> *mut c_void;
    fn __real_realloc(block: *mut c_void, size: usize) -> *mut c_void;
    fn __real_free(block: *mut c_void);
    fn malloc_usable_size(block: *mut c_void) -> usize;
}

/// Bytes of a block, as the C library made it.
unsafe fn size(block: *mut c_void) -> i64 {
    unsafe { malloc_usable_size(block) as i64 }
}

fn count(change: i64) {
    if COUNTS.load(Relaxed) {
        let has = HAS.fetch_add(change, Relaxed) + change;
        MOST.fetch_max(has, Relaxed);
    }
}

// Sound: each hands its arguments on to the function that it wraps, and only counts beside it.
#[unsafe(no_mangle)]
unsafe extern "C" fn __wrap_malloc(bytes: usize) -> *mut c_void {
    unsafe {
        let block = __real_malloc(bytes);
        count(size(block));
        block
    }
}

#[unsafe(no_mangle)]
unsafe extern "C" fn __wrap_realloc(block: *mut c_void, bytes: usize) -> *mut c_void {
    unsafe {
        let before = size(block);
        let again = __real_realloc(block, bytes);
        // While it is moved there are two of it.
        if again != block {
            count(size(again));
            count(-before);
        } else {
            count(size(again) - before);
        }
        again
    }
}

#[unsafe(no_mangle)]
unsafe extern "C" fn __wrap_free(block: *mut c_void) {
    unsafe {
        count(-size(block));
        __real_free(block);
    }
}

/// What a call answers, the most memory that it had at once, and what it didn't give back, in bytes. Nothing else may run beside it.
pub fn counted<A>(call: impl FnOnce() -> A) -> (A, i64, i64) {
    HAS.store(0, Relaxed);
    MOST.store(0, Relaxed);
    COUNTS.store(true, Relaxed);
    let answer = call();
    COUNTS.store(false, Relaxed);
    (answer, MOST.load(Relaxed), HAS.load(Relaxed))
}
