//! How much of the stack a call uses: it runs on a thread whose stack is memory
//! of ours, painted beforehand; afterwards the paint shows how deep it went.

use crate::black_box::black_box;
use std::ffi::c_void;
use std::os::raw::c_int;

/// The stack of the measuring thread.
const STACK: usize = 8 << 20;
const PAGE: usize = 4096;
const PAINT: u8 = 0xA5;

/// Between the thread's own beginnings and the call, so that what the thread
/// did before is not taken for the call's.
const MARGIN: usize = 64 << 10;

/// Room for a `pthread_attr_t`, which is smaller on every Linux.
#[repr(C, align(16))]
struct Attributes([u8; 128]);

extern "C" {
    fn pthread_attr_init(attributes: *mut Attributes) -> c_int;
    fn pthread_attr_setstack(attributes: *mut Attributes, low: *mut c_void, size: usize) -> c_int;
    fn pthread_create(
        thread: *mut usize,
        attributes: *const Attributes,
        start: extern "C" fn(*mut c_void) -> *mut c_void,
        argument: *mut c_void,
    ) -> c_int;
    fn pthread_join(thread: usize, result: *mut *mut c_void) -> c_int;
}

/// What the thread is told, and the address that it tells back.
struct Job<'a> {
    call: &'a mut dyn FnMut(),
    /// The lowest byte in use when the call begins, or a little below.
    before: usize,
}

/// The thread's first function.
extern "C" fn start(argument: *mut c_void) -> *mut c_void {
    // SAFETY: `depth` lends its job until the thread has ended.
    run(unsafe { &mut *argument.cast::<Job>() });
    argument
}

/// Calls from below the margin.
#[inline(never)]
fn run(job: &mut Job) {
    let mut margin = [0u8; MARGIN];
    job.before = black_box(&mut margin).as_ptr() as usize;
    (job.call)();
    black_box(&mut margin);
}

/// How many bytes of stack a call uses, with the few of calling it.
pub fn depth(call: &mut dyn FnMut()) -> usize {
    let mut memory = vec![PAINT; STACK + PAGE];
    let skip = memory.as_ptr().align_offset(PAGE);
    let stack = &mut memory[skip..skip + STACK];
    let low = stack.as_mut_ptr();
    let mut job = Job { call, before: 0 };
    run_on(low, &mut job);
    // SAFETY: the thread has ended; the memory is all ours again.
    let stack = unsafe { std::slice::from_raw_parts(low, STACK) };
    let untouched = stack.iter().take_while(|&&byte| byte == PAINT).count();
    job.before - (low as usize + untouched)
}

/// Runs the job to its end on a thread with that stack.
fn run_on(low: *mut u8, job: &mut Job) {
    let mut attributes = Attributes([0; 128]);
    let (mut thread, mut result) = (0, std::ptr::null_mut());
    // SAFETY: the attributes have room enough; the stack is writable memory of
    // that size that nothing else uses until the thread is joined.
    unsafe {
        assert_eq!(pthread_attr_init(&mut attributes), 0);
        assert_eq!(pthread_attr_setstack(&mut attributes, low.cast(), STACK), 0);
        assert_eq!(
            pthread_create(&mut thread, &attributes, start, (job as *mut Job).cast()),
            0
        );
        assert_eq!(pthread_join(thread, &mut result), 0);
    }
}

#[cfg(test)]
mod tests {
    use super::*;

    #[test]
    fn an_array_on_the_stack_shows() {
        let array = depth(&mut || _ = black_box([1u8; 100_000]));
        assert!(array >= 100_000, "{array}");
        assert!(depth(&mut || ()) < 1_000);
    }
}
