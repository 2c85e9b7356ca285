//! A thread on a stack of our own, painted beforehand, so that it shows how deep a call went.

use std::ffi::{c_int, c_void};
use std::hint::black_box;
use std::ptr;

const PAGE: usize = 1 << 12;
/// Of a stack, 1 MiB: far more than a call takes.
const PAGES: usize = 1 << 8;
/// Not zero, so that memory that a call clears is seen to have changed.
const PAINT: u8 = 0xa5;

/// Aligned as a thread's stack must be.
#[derive(Clone)]
#[repr(C, align(4096))]
struct Page([u8; PAGE]);

const PAINTED: Page = Page([PAINT; PAGE]);

pub struct Stack {
    pages: Vec<Page>,
    /// Bytes that a thread takes which does nothing: its own records at the upper end, its start and its end.
    idle: usize,
}

impl Stack {
    pub fn new() -> Stack {
        let mut stack = Stack {
            pages: vec![PAINTED; PAGES],
            idle: 0,
        };
        stack.idle = stack.depth(&mut || {});
        stack
    }

    /// Bytes that a call takes, within some dozens: a thread's end goes a little deeper than its start, from
    /// which the call is made. Room that is reserved and never written counts if anything beneath it is written.
    pub fn taken(&mut self, mut call: impl FnMut()) -> usize {
        self.depth(&mut call) - self.idle
    }

    /// Bytes from the lowest one that a thread changes up to the upper end.
    fn depth(&mut self, call: &mut dyn FnMut()) -> usize {
        self.pages.fill(PAINTED);
        self.run(call);
        // The compiler knows of no write to the pages; black_box has it look.
        let mut bytes = black_box(&self.pages).iter().flat_map(|page| &page.0);
        let untouched = bytes.position(|&byte| byte != PAINT);
        let untouched = untouched.expect("a thread writes to its stack");
        assert!(untouched >= PAGE, "the stack is too small");
        size_of_val(&self.pages[..]) - untouched
    }

    /// Makes a call from a thread on the pages, and waits for its end.
    fn run(&mut self, mut call: &mut dyn FnMut()) {
        let mut attributes = Attributes([0; 16]);
        let mut thread = 0;
        let bytes = size_of_val(&self.pages[..]);
        let pages = self.pages.as_mut_ptr().cast();
        let call: *mut Call = &mut call;
        // SAFETY: the pages and the call are borrowed until the thread has ended, and by it alone.
        unsafe {
            assert_eq!(pthread_attr_init(&mut attributes), 0);
            assert_eq!(pthread_attr_setstack(&mut attributes, pages, bytes), 0);
            let created = pthread_create(&mut thread, &attributes, start, call.cast());
            assert_eq!(created, 0);
            assert_eq!(pthread_join(thread, ptr::null_mut()), 0);
            assert_eq!(pthread_attr_destroy(&mut attributes), 0);
        }
    }
}

/// What a thread is given a pointer to, since it is given one word.
type Call<'a> = &'a mut dyn FnMut();

extern "C" fn start(call: *mut c_void) -> *mut c_void {
    // SAFETY: `run` gives a Call, and waits.
    unsafe { (*call.cast::<Call>())() };
    ptr::null_mut()
}

/// `pthread_attr_t`, and more: glibc's and musl's have 56 bytes.
#[repr(C)]
struct Attributes([u64; 16]);

/// `pthread_t`: an unsigned long or a pointer.
type Thread = usize;

// As pthread.h has them.
extern "C" {
    fn pthread_attr_init(attributes: *mut Attributes) -> c_int;
    fn pthread_attr_destroy(attributes: *mut Attributes) -> c_int;
    fn pthread_attr_setstack(attributes: *mut Attributes, low: *mut c_void, bytes: usize) -> c_int;
    fn pthread_create(
        thread: *mut Thread,
        attributes: *const Attributes,
        start: extern "C" fn(*mut c_void) -> *mut c_void,
        argument: *mut c_void,
    ) -> c_int;
    fn pthread_join(thread: Thread, result: *mut *mut c_void) -> c_int;
}
