//! How much memory is taken at most. Each request for memory of the program comes here, those of the libraries too.

use std::ffi::c_void;
use std::sync::atomic::{AtomicBool, AtomicIsize, Ordering::Relaxed};

static IS_WATCHED: AtomicBool = AtomicBool::new(false);
/// The bytes that are taken, and the most that were.
static TAKEN: AtomicIsize = AtomicIsize::new(0);
static MOST: AtomicIsize = AtomicIsize::new(0);

// glibc has its functions under these names too.
extern "C" {
    fn __libc_malloc(size: usize) -> *mut c_void;
    fn __libc_calloc(count: usize, size: usize) -> *mut c_void;
    fn __libc_realloc(block: *mut c_void, size: usize) -> *mut c_void;
    fn __libc_free(block: *mut c_void);
    fn malloc_usable_size(block: *mut c_void) -> usize;
}

/// The most bytes that are taken at once while this runs.
pub fn of(run: impl FnOnce()) -> Option<isize> {
    TAKEN.store(0, Relaxed);
    MOST.store(0, Relaxed);
    IS_WATCHED.store(true, Relaxed);
    run();
    IS_WATCHED.store(false, Relaxed);
    Some(MOST.load(Relaxed))
}

/// The bytes of a block, with the word that glibc has before it. 0 if nobody watches.
unsafe fn bytes(block: *mut c_void) -> isize {
    if block.is_null() || !IS_WATCHED.load(Relaxed) {
        return 0;
    }
    (malloc_usable_size(block) + size_of::<usize>()) as isize
}

fn add(bytes: isize) {
    if bytes != 0 {
        MOST.fetch_max(TAKEN.fetch_add(bytes, Relaxed) + bytes, Relaxed);
    }
}

#[no_mangle]
unsafe extern "C" fn malloc(size: usize) -> *mut c_void {
    let block = __libc_malloc(size);
    add(bytes(block));
    block
}

#[no_mangle]
unsafe extern "C" fn calloc(count: usize, size: usize) -> *mut c_void {
    let block = __libc_calloc(count, size);
    add(bytes(block));
    block
}

#[no_mangle]
unsafe extern "C" fn realloc(block: *mut c_void, size: usize) -> *mut c_void {
    let less = bytes(block);
    let moved = __libc_realloc(block, size);
    // While a block moves, it is there twice.
    let rest = if moved == block { less } else { 0 };
    add(bytes(moved) - rest);
    add(rest - less);
    moved
}

#[no_mangle]
unsafe extern "C" fn free(block: *mut c_void) {
    add(-bytes(block));
    __libc_free(block);
}
