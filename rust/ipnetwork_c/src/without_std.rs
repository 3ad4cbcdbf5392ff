//! What a library without std has of its own: what a panic does, and an allocator. So it links with what another Rust
//! compiler makes. Where panics unwind, as in tests, or nothing of this was tried, std has both.

#[cfg(any(test, panic = "unwind", not(any(target_os = "linux", target_family = "wasm"))))]
extern crate std;

#[cfg(not(any(test, panic = "unwind", not(any(target_os = "linux", target_family = "wasm")))))]
fosibegan_core::without_std! {
    use core::alloc::{GlobalAlloc, Layout};

    /// Ends the process.
    #[cfg(not(target_family = "wasm"))]
    fn ended() -> ! {
        #[link(name = "c")]
        extern "C" {
            fn abort() -> !;
        }
        // SAFETY: C's `abort` may be called at any time.
        unsafe { abort() }
    }

    /// Traps.
    #[cfg(target_family = "wasm")]
    fn ended() -> ! {
        core::arch::wasm32::unreachable()
    }

    #[panic_handler]
    fn panicked(_: &core::panic::PanicInfo<'_>) -> ! {
        ended()
    }

    /// Has no memory: nothing here allocates, and rustc asks for an allocator where `alloc` is linked.
    struct NoMemory;

    // SAFETY: a null pointer says that there is no memory, so that nothing is ever freed.
    unsafe impl GlobalAlloc for NoMemory {
        unsafe fn alloc(&self, _: Layout) -> *mut u8 {
            core::ptr::null_mut()
        }

        unsafe fn dealloc(&self, _: *mut u8, _: Layout) {}
    }

    #[global_allocator]
    static NO_MEMORY: NoMemory = NoMemory;
}
