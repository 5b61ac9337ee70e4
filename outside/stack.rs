//! The deepest stack of the library's functions: each is called in a thread whose
//! stack is painted beforehand, and what has lost its paint is measured.

use std::ffi::c_void;

extern "C" {
    fn mmap(
        at: *mut c_void,
        length: usize,
        allow: i32,
        flags: i32,
        file: i32,
        from: i64,
    ) -> *mut c_void;
    fn pthread_attr_init(attributes: *mut Attributes) -> i32;
    fn pthread_attr_setstack(attributes: *mut Attributes, stack: *mut c_void, length: usize)
        -> i32;
    fn pthread_create(
        thread: *mut usize,
        attributes: *const Attributes,
        start: extern "C" fn(*mut c_void) -> *mut c_void,
        argument: *mut c_void,
    ) -> i32;
    fn pthread_join(thread: usize, result: *mut *mut c_void) -> i32;
}

/// Room for the C library's pthread_attr_t.
#[repr(C, align(16))]
struct Attributes([u8; 128]);

const LENGTH: usize = 1 << 18;
const PAINT: u8 = 0xa5;

extern "C" fn start(call: *mut c_void) -> *mut c_void {
    let call = unsafe { &mut *(call as *mut &mut dyn FnMut()) };
    call();
    std::ptr::null_mut()
}

/// A painted stack, for one thread after the other.
pub struct Stack {
    memory: *mut c_void,
    attributes: Attributes,
    /// What a thread that does nothing uses.
    idle: usize,
}

impl Stack {
    pub fn new() -> Stack {
        let mut stack = unsafe {
            let memory = mmap(std::ptr::null_mut(), LENGTH, 3, 0x22, -1, 0);
            assert!(memory as isize != -1, "no memory");
            std::ptr::write_bytes(memory as *mut u8, PAINT, LENGTH);
            let mut attributes = Attributes([0; 128]);
            assert_eq!(pthread_attr_init(&mut attributes), 0);
            assert_eq!(pthread_attr_setstack(&mut attributes, memory, LENGTH), 0);
            Stack { memory, attributes, idle: 0 }
        };
        stack.idle = stack.used(&mut || {});
        stack
    }

    /// How many bytes of stack a call uses by itself.
    pub fn of(&mut self, call: &mut dyn FnMut()) -> usize {
        self.used(call) - self.idle
    }

    /// With what the thread uses. What has lost its paint is painted again.
    fn used(&mut self, mut call: &mut dyn FnMut()) -> usize {
        let bytes = unsafe {
            let mut thread = 0;
            let argument = &mut call as *mut &mut dyn FnMut() as *mut c_void;
            assert_eq!(pthread_create(&mut thread, &self.attributes, start, argument), 0);
            assert_eq!(pthread_join(thread, std::ptr::null_mut()), 0);
            std::slice::from_raw_parts_mut(self.memory as *mut u8, LENGTH)
        };
        let kept = bytes.iter().position(|byte| *byte != PAINT).expect("the thread used its stack");
        bytes[kept..].fill(PAINT);
        LENGTH - kept
    }
}
