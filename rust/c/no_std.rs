//! What Rust requires of a library without the standard one.

use core::alloc::{GlobalAlloc, Layout};
use core::panic::PanicInfo;

#[cfg_attr(unix, link(name = "c"))]
unsafe extern "C" {
    safe fn abort() -> !;
}

/// The functions for C allocate nothing.
struct NoMemory;

// SAFETY: it returns no memory.
unsafe impl GlobalAlloc for NoMemory {
    unsafe fn alloc(&self, _: Layout) -> *mut u8 {
        abort()
    }

    unsafe fn dealloc(&self, _: *mut u8, _: Layout) {
        abort()
    }
}

#[global_allocator]
static MEMORY: NoMemory = NoMemory;

#[panic_handler]
fn panicked(_: &PanicInfo) -> ! {
    abort()
}
