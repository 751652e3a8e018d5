//! Counts the blocks that the program asks the C library for, whoever asks: gix-filter, the library, or this program.
use std::ffi::c_void;
use std::sync::atomic::{AtomicUsize, Ordering::Relaxed};

static BLOCKS: AtomicUsize = AtomicUsize::new(0);

extern "C" {
    fn __libc_malloc(n: usize) -> *mut c_void;
    fn __libc_calloc(n: usize, size: usize) -> *mut c_void;
    fn __libc_realloc(p: *mut c_void, n: usize) -> *mut c_void;
    fn __libc_memalign(align: usize, n: usize) -> *mut c_void;
}

/// One block more; a plain load and store, which costs next to nothing, since the program has one thread.
fn note() {
    BLOCKS.store(BLOCKS.load(Relaxed) + 1, Relaxed);
}

/// How many blocks were asked for until now.
pub fn blocks() -> usize {
    BLOCKS.load(Relaxed)
}

// They stand in the place of the C library's own, in the whole program.
#[no_mangle]
unsafe extern "C" fn malloc(n: usize) -> *mut c_void {
    note();
    __libc_malloc(n)
}

#[no_mangle]
unsafe extern "C" fn calloc(n: usize, size: usize) -> *mut c_void {
    note();
    __libc_calloc(n, size)
}

#[no_mangle]
unsafe extern "C" fn realloc(p: *mut c_void, n: usize) -> *mut c_void {
    note();
    __libc_realloc(p, n)
}

#[no_mangle]
unsafe extern "C" fn aligned_alloc(align: usize, n: usize) -> *mut c_void {
    note();
    __libc_memalign(align, n)
}

#[no_mangle]
unsafe extern "C" fn posix_memalign(out: *mut *mut c_void, align: usize, n: usize) -> i32 {
    note();
    *out = __libc_memalign(align, n);
    0
}
