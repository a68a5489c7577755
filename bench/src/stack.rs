//! How deep a call's stack reaches: it runs on a thread whose stack was filled with a pattern, and then the lowest changed byte is sought.

use std::ffi::c_void;

const SIZE: usize = 1 << 20;
const PATTERN: u8 = 0xA5;

/// Room for glibc's `pthread_attr_t`, which has 56 bytes on x86-64
#[repr(C, align(8))]
struct Attributes([u8; 64]);

unsafe extern "C" {
    fn pthread_attr_init(attributes: *mut Attributes) -> i32;
    fn pthread_attr_setstack(attributes: *mut Attributes, stack: *mut c_void, size: usize) -> i32;
    fn pthread_create(
        thread: *mut u64,
        attributes: *const Attributes,
        start: extern "C" fn(*mut c_void) -> *mut c_void,
        argument: *mut c_void,
    ) -> i32;
    fn pthread_join(thread: u64, value: *mut *mut c_void) -> i32;
}

/// The call, and the address of a local of the function that makes it
struct Task<'a> {
    call: &'a mut dyn FnMut() -> usize,
    frame: usize,
}

extern "C" fn start(task: *mut c_void) -> *mut c_void {
    // SAFETY: `used` hands over its task and waits for the thread.
    let task = unsafe { &mut *task.cast::<Task>() };
    let here = 0u8;
    task.frame = std::ptr::from_ref(&here) as usize;
    (task.call)();
    std::ptr::null_mut()
}

pub fn used(call: &mut dyn FnMut() -> usize) -> usize {
    #[repr(align(4096))]
    #[derive(Clone)]
    struct Page([u8; 4096]);
    let mut stack = vec![Page([PATTERN; 4096]); SIZE / 4096];
    let bottom = stack.as_mut_ptr();
    let mut task = Task { call, frame: 0 };
    let (mut attributes, mut thread) = (Attributes([0; 64]), 0);
    // SAFETY: the stack and the task outlive the thread, which is joined here.
    unsafe {
        assert_eq!(pthread_attr_init(&mut attributes), 0);
        assert_eq!(pthread_attr_setstack(&mut attributes, bottom.cast(), SIZE), 0);
        assert_eq!(pthread_create(&mut thread, &attributes, start, (&raw mut task).cast()), 0);
        assert_eq!(pthread_join(thread, std::ptr::null_mut()), 0);
    }
    let lowest = stack.iter().flat_map(|page| &page.0).position(|&byte| byte != PATTERN).unwrap_or(SIZE);
    task.frame - (bottom as usize + lowest)
}
