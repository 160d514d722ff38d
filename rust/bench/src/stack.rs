//! Bytes of stack that a call touches.
//!
//! A thread is given a stack of our own, filled with a pattern; after it ends, the lowest byte that
//! changed tells how deep it went. The same without the call is subtracted. A frame of some
//! kilobytes above the call keeps what the thread's start and end need out of the figure.

use std::ffi::{c_int, c_void};
use std::hint::black_box;

const STACK: usize = 256 * 1024;
const ALIGN: usize = 4096;
const ABOVE: usize = 32 * 1024;
const PATTERN: u8 = 0x5A;

/// Room for what the C library keeps in a `pthread_attr_t` (56 bytes on x86-64).
#[repr(C, align(16))]
struct Attributes([u8; 128]);

extern "C" {
    fn pthread_attr_init(attributes: *mut Attributes) -> c_int;
    fn pthread_attr_setstack(attributes: *mut Attributes, stack: *mut c_void, size: usize)
        -> c_int;
    fn pthread_attr_destroy(attributes: *mut Attributes) -> c_int;
    fn pthread_create(
        thread: *mut usize,
        attributes: *const Attributes,
        start: extern "C" fn(*mut c_void) -> *mut c_void,
        argument: *mut c_void,
    ) -> c_int;
    fn pthread_join(thread: usize, result: *mut *mut c_void) -> c_int;
}

type Job<'a> = &'a mut dyn FnMut();

extern "C" fn begin(argument: *mut c_void) -> *mut c_void {
    let mut above = [0u8; ABOVE];
    black_box(&mut above);
    // SAFETY: `touched` passes a pointer to a `Job` that lives until the thread is joined.
    let job = unsafe { &mut *argument.cast::<Job>() };
    job();
    black_box(&mut above);
    std::ptr::null_mut()
}

/// The bytes that a thread with this job touched of its stack; none if no thread could be started.
fn touched(mut job: Job) -> Option<usize> {
    let mut memory = vec![PATTERN; STACK + ALIGN];
    let offset = memory.as_ptr().align_offset(ALIGN);
    let stack = &mut memory[offset..offset + STACK];
    let argument: *mut Job = &mut job;
    let mut attributes = Attributes([0; 128]);
    let mut thread = 0;
    // SAFETY: `attributes` has room and is set up before use; the stack is ours, aligned, and
    // outlives the thread, as does the job: the thread is joined before anything is read or freed.
    let started = unsafe {
        let good = pthread_attr_init(&mut attributes) == 0
            && pthread_attr_setstack(&mut attributes, stack.as_mut_ptr().cast(), STACK) == 0
            && pthread_create(&mut thread, &attributes, begin, argument.cast()) == 0;
        if good {
            pthread_join(thread, std::ptr::null_mut());
        }
        pthread_attr_destroy(&mut attributes);
        good
    };
    let untouched = stack.iter().take_while(|&&byte| byte == PATTERN).count();
    started.then_some(STACK - untouched)
}

/// The bytes of stack that a call touches, its frames and those of all that it calls.
pub fn used(mut call: impl FnMut()) -> Option<usize> {
    call();
    let with = touched(&mut call)?;
    let without = touched(&mut || {})?;
    Some(with.saturating_sub(without))
}
