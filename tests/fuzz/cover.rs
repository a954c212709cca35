//! Which blocks of the archive have run. Its object comes without instrumentation, so the first octet of every block is a
//! breakpoint until the block runs for the first time: from then on it costs nothing. tests/fuzz/blocks finds the blocks.
//!
//! The numbers are x86-64 Linux's, and the program has to be linked at fixed addresses.

use std::ptr::null_mut;
use std::sync::atomic::{AtomicPtr, AtomicUsize, Ordering::Relaxed};

#[repr(C)]
struct Action {
    handler: extern "C" fn(i32, *mut u8, *mut u8),
    mask: [u64; 16],
    flags: i32,
    restorer: usize,
}

extern "C" {
    fn mprotect(start: *mut u8, length: usize, protection: i32) -> i32;
    fn sigaction(signal: i32, action: *const Action, old: *mut Action) -> i32;
}

const PAGE: usize = 4096;
const BREAKPOINT: u8 = 0xcc;
const TRAP: i32 = 5;
const WITH_CONTEXT: i32 = 4;
/// Where a signal's context has the address at which the program goes on.
const GOES_ON: usize = 168;

/// The octets as they were, from FIRST on.
static ORIGINAL: AtomicPtr<u8> = AtomicPtr::new(null_mut());
static FIRST: AtomicUsize = AtomicUsize::new(0);
static LENGTH: AtomicUsize = AtomicUsize::new(0);
static REACHED: AtomicUsize = AtomicUsize::new(0);

extern "C" fn reached(_: i32, _: *mut u8, context: *mut u8) {
    // SAFETY: the kernel lends the context; the block's octet was made writable by `watch`.
    unsafe {
        let goes_on = context.add(GOES_ON).cast::<usize>();
        let block = *goes_on - 1;
        let offset = block.wrapping_sub(FIRST.load(Relaxed));
        // A breakpoint that is not ours is a fault.
        if offset >= LENGTH.load(Relaxed) || *(block as *const u8) != BREAKPOINT {
            std::process::abort();
        }
        *(block as *mut u8) = *ORIGINAL.load(Relaxed).add(offset);
        *goes_on = block;
    }
    REACHED.fetch_add(1, Relaxed);
}

/// How many blocks have run.
pub fn count() -> usize {
    REACHED.load(Relaxed)
}

/// Sets a breakpoint at each of these addresses.
pub fn watch(blocks: &[usize]) {
    let (Some(&first), Some(&last)) = (blocks.iter().min(), blocks.iter().max()) else { panic!("no blocks") };
    let start = first / PAGE * PAGE;
    let length = (last + 1 - start).next_multiple_of(PAGE);
    // SAFETY: the addresses are those of instructions of this program.
    unsafe {
        let original: &'static mut [u8] = std::slice::from_raw_parts(first as *const u8, last + 1 - first).to_vec().leak();
        ORIGINAL.store(original.as_mut_ptr(), Relaxed);
        FIRST.store(first, Relaxed);
        LENGTH.store(original.len(), Relaxed);
        let action = Action { handler: reached, mask: [0; 16], flags: WITH_CONTEXT, restorer: 0 };
        assert_eq!(sigaction(TRAP, &action, null_mut()), 0);
        assert_eq!(mprotect(start as *mut u8, length, 7), 0, "the code cannot be made writable");
        blocks.iter().for_each(|&block| *(block as *mut u8) = BREAKPOINT);
    }
}

/// Those that have not run.
pub fn unreached(blocks: &[usize]) -> Vec<usize> {
    // SAFETY: as above.
    blocks.iter().copied().filter(|&block| unsafe { *(block as *const u8) } == BREAKPOINT).collect()
}
