//! A thread whose stack is lent memory: afterwards one can see how much of it was used, and a step below its end stops the process.

use crate::guard::Guarded;
use std::ffi::c_void;
use std::ptr;

/// What the stack holds where nothing was written.
const PAINT: u8 = 0xa5;

/// Room for the C library's pthread_attr_t, which has 56 bytes.
#[repr(C)]
struct Attributes([u64; 16]);

// of the C library, which std links on Linux
extern "C" {
    fn pthread_attr_init(attributes: *mut Attributes) -> i32;
    fn pthread_attr_setstack(attributes: *mut Attributes, address: *mut c_void, size: usize) -> i32;
    fn pthread_attr_destroy(attributes: *mut Attributes) -> i32;
    fn pthread_create(thread: *mut usize, attributes: *const Attributes, run: extern "C" fn(*mut c_void) -> *mut c_void, given: *mut c_void) -> i32;
    fn pthread_join(thread: usize, answer: *mut *mut c_void) -> i32;
}

extern "C" fn begin(given: *mut c_void) -> *mut c_void {
    let run = unsafe { &mut *given.cast::<&mut dyn FnMut()>() };
    run();
    ptr::null_mut()
}

/// Runs something in a thread with a stack of so many bytes, a multiple of the page size, and gives how many of them were used. The thread's own beginning is
/// among them.
pub fn stack_used(bytes: usize, mut run: &mut dyn FnMut()) -> usize {
    let mut stack = Guarded::new(&vec![PAINT; bytes], true);
    let mut attributes = Attributes([0; 16]);
    let mut thread = 0;
    let given: *mut &mut dyn FnMut() = &mut run;
    unsafe {
        assert_eq!(pthread_attr_init(&mut attributes), 0);
        assert_eq!(pthread_attr_setstack(&mut attributes, stack.bytes_mut().as_mut_ptr().cast(), bytes), 0, "a stack of {bytes} bytes");
        assert_eq!(pthread_create(&mut thread, &attributes, begin, given.cast()), 0, "no thread");
        assert_eq!(pthread_join(thread, ptr::null_mut()), 0);
        pthread_attr_destroy(&mut attributes);
    }
    bytes - stack.bytes().iter().take_while(|&&byte| byte == PAINT).count()
}
