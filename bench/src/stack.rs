//! The peak stack of a call: the stack below it is painted first, and what was overwritten is looked for afterwards.

const STACK: usize = 8 << 20;
const PAINTED: usize = 7 << 20;
const PAINT: u8 = 0xC5;

/// Runs the call in a thread with 8 MiB of stack and gives the most bytes of it that the call took.
pub fn peak(call: impl FnOnce() + Send + 'static) -> usize {
    let thread = std::thread::Builder::new().stack_size(STACK).spawn(move || measured(call)).expect("a thread");
    thread.join().expect("the call returns")
}

#[inline(never)]
fn measured(call: impl FnOnce()) -> usize {
    let here = 0u8;
    let top = std::ptr::addr_of!(here) as usize - 4096;
    let bottom = top - PAINTED;
    // SAFETY: the thread's stack reaches well below `bottom`, and nothing of this function stands there.
    unsafe {
        for at in (bottom..top).rev() {
            std::ptr::write_volatile(at as *mut u8, PAINT);
        }
        call();
        (bottom..top).find(|&at| std::ptr::read_volatile(at as *const u8) != PAINT).map_or(0, |at| top - at)
    }
}
