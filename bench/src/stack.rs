//! How much stack a call needs: it is made on a stack of known bytes, and those that changed are counted.

use std::ffi::c_void;

const SIZE: usize = 1 << 20;
const MARK: u8 = 0xa5;

#[repr(C, align(16))]
struct Attributes([u64; 16]);

extern "C" {
    fn pthread_attr_init(attributes: *mut Attributes) -> i32;
    fn pthread_attr_setstack(attributes: *mut Attributes, stack: *mut c_void, size: usize) -> i32;
    fn pthread_create(
        thread: *mut usize,
        attributes: *const Attributes,
        start: extern "C" fn(*mut c_void) -> *mut c_void,
        argument: *mut c_void,
    ) -> i32;
    fn pthread_join(thread: usize, result: *mut *mut c_void) -> i32;
}

extern "C" fn start(argument: *mut c_void) -> *mut c_void {
    let call = unsafe { &mut *(argument as *mut &mut dyn FnMut()) };
    call();
    std::ptr::null_mut()
}

fn changed(call: &mut dyn FnMut()) -> usize {
    let mut stack = vec![MARK; SIZE + 4096];
    let skip = stack.as_ptr().align_offset(4096);
    let part = &mut stack[skip..skip + SIZE];
    let mut call = call;
    unsafe {
        let mut attributes = Attributes([0; 16]);
        assert_eq!(pthread_attr_init(&mut attributes), 0);
        assert_eq!(
            pthread_attr_setstack(&mut attributes, part.as_mut_ptr() as *mut c_void, SIZE),
            0
        );
        let mut thread = 0;
        let argument = &mut call as *mut &mut dyn FnMut() as *mut c_void;
        assert_eq!(pthread_create(&mut thread, &attributes, start, argument), 0);
        assert_eq!(pthread_join(thread, std::ptr::null_mut()), 0);
    }
    SIZE - part.iter().take_while(|&&byte| byte == MARK).count()
}

/// The bytes of stack that the call uses, less those of a call that does nothing.
pub fn used(mut call: impl FnMut()) -> usize {
    changed(&mut call).saturating_sub(changed(&mut || {}))
}
