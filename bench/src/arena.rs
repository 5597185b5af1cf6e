//! What counts are taken over in the place of the C library's allocator, whose cost changes from run to run: a block of its own
//! for each run, of which each request takes the next bytes and nothing is given back. The linker sends `malloc` and the like
//! here (`--wrap`), for both gateways alike; outside a counted run they go on to the C library.
use std::cell::UnsafeCell;
use std::ptr;
use std::sync::atomic::{AtomicBool, AtomicUsize, Ordering::Relaxed};

const SIZE: usize = 1 << 20;

#[repr(align(64))]
struct Block(UnsafeCell<[u8; SIZE]>);

// SAFETY: the program has one thread.
unsafe impl Sync for Block {}

static BLOCK: Block = Block(UnsafeCell::new([0; SIZE]));
static NEXT: AtomicUsize = AtomicUsize::new(0);
static ON: AtomicBool = AtomicBool::new(false);

unsafe extern "C" {
    fn __real_malloc(size: usize) -> *mut u8;
    fn __real_calloc(count: usize, size: usize) -> *mut u8;
    fn __real_realloc(at: *mut u8, size: usize) -> *mut u8;
    fn __real_free(at: *mut u8);
}

// The next bytes of the block; nothing where it is used up.
fn take(size: usize) -> *mut u8 {
    let at = NEXT.load(Relaxed);
    let end = at.saturating_add(size).saturating_add(15) & !15;
    if end > SIZE {
        return ptr::null_mut();
    }
    NEXT.store(end, Relaxed);
    BLOCK.0.get().cast::<u8>().wrapping_add(at)
}

fn is_of_block(at: *mut u8) -> bool {
    let start = BLOCK.0.get() as usize;
    (start..start + SIZE).contains(&(at as usize))
}

#[unsafe(no_mangle)]
unsafe extern "C" fn __wrap_malloc(size: usize) -> *mut u8 {
    if ON.load(Relaxed) {
        return take(size);
    }
    // SAFETY: as the caller of `malloc` has it; likewise below.
    unsafe { __real_malloc(size) }
}

#[unsafe(no_mangle)]
unsafe extern "C" fn __wrap_calloc(count: usize, size: usize) -> *mut u8 {
    if ON.load(Relaxed) {
        let at = take(count.saturating_mul(size));
        if !at.is_null() {
            unsafe { ptr::write_bytes(at, 0, count * size) };
        }
        return at;
    }
    unsafe { __real_calloc(count, size) }
}

#[unsafe(no_mangle)]
unsafe extern "C" fn __wrap_realloc(at: *mut u8, size: usize) -> *mut u8 {
    if is_of_block(at) || (ON.load(Relaxed) && at.is_null()) {
        let new = take(size);
        if !new.is_null() && !at.is_null() {
            // what follows the old bytes is of the block too, and is not read before it is written
            let rest = BLOCK.0.get() as usize + SIZE - at as usize;
            unsafe { ptr::copy(at, new, size.min(rest)) };
        }
        return new;
    }
    unsafe { __real_realloc(at, size) }
}

#[unsafe(no_mangle)]
unsafe extern "C" fn __wrap_free(at: *mut u8) {
    if !is_of_block(at) {
        unsafe { __real_free(at) }
    }
}

/// Runs the work, which keeps nothing that it allocates, over the whole block.
pub fn over_block(work: impl FnOnce()) {
    NEXT.store(0, Relaxed);
    ON.store(true, Relaxed);
    work();
    ON.store(false, Relaxed);
}
