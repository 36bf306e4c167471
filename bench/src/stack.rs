//! How much stack a call takes: of a thread whose stack is painted before it starts, how far down the paint is gone. Linux.

use crate::models::sized;
use crate::refused::{GOOD, Lent};
use proved::streams::{self, Line, MAX_PAYLOAD};
use std::ffi::{c_int, c_void};

const PAINT: u64 = 0x5AC3_5AC3_5AC3_5AC3;
const WORDS: usize = 1 << 19;

/// Room for glibc's and musl's `pthread_attr_t`, which have 56 bytes on machines of 64 bits.
#[repr(C, align(16))]
struct Attributes([u8; 128]);

unsafe extern "C" {
    fn pthread_attr_init(attributes: *mut Attributes) -> c_int;
    fn pthread_attr_setstack(a: *mut Attributes, lowest: *mut c_void, size: usize) -> c_int;
    fn pthread_attr_destroy(attributes: *mut Attributes) -> c_int;
    fn pthread_create(
        thread: *mut usize,
        attributes: *const Attributes,
        start: extern "C" fn(*mut c_void) -> *mut c_void,
        with: *mut c_void,
    ) -> c_int;
    fn pthread_join(thread: usize, answer: *mut *mut c_void) -> c_int;
}

type Body<'a> = &'a mut (dyn FnMut() + Send);

extern "C" fn start(body: *mut c_void) -> *mut c_void {
    // What `used` hands over, which waits for this thread.
    let body = unsafe { &mut *body.cast::<Body>() };
    body();
    std::ptr::null_mut()
}

/// The bytes of stack that a thread takes which does this, its own ones among them.
fn used(mut body: Body) -> usize {
    let mut stack = vec![PAINT; WORDS];
    let mut attributes = Attributes([0; 128]);
    let mut thread = 0;
    unsafe {
        let with = (&raw mut body).cast::<c_void>();
        let lowest = stack.as_mut_ptr().cast::<c_void>();
        assert_eq!(pthread_attr_init(&mut attributes), 0);
        assert_eq!(pthread_attr_setstack(&mut attributes, lowest, WORDS * 8), 0);
        assert_eq!(pthread_create(&mut thread, &attributes, start, with), 0);
        assert_eq!(pthread_join(thread, std::ptr::null_mut()), 0);
        assert_eq!(pthread_attr_destroy(&mut attributes), 0);
    }
    let kept = stack.iter().take_while(|&&word| word == PAINT).count();
    (WORDS - kept) * 8
}

/// The calls, each with the bytes that it takes beyond those of a thread that does nothing: the greater of a small model and a large.
pub fn run() -> Vec<(&'static str, usize)> {
    let nothing = used(&mut || {});
    let mut rows = Vec::new();
    for &(call, ask) in GOOD {
        let most = [512, 131_072].map(|edges| {
            let mut lent = Lent::of(sized(edges));
            used(&mut || assert_eq!(ask(&mut lent), Ok(()))) - nothing
        });
        let most = most.into_iter().max().unwrap_or(0);
        rows.push((call, most));
    }
    rows.push(("take", used(&mut read) - nothing));
    rows
}

/// A session over a stream with a surface code's shots.
fn read() {
    let mut session = streams::session_new();
    let mut lists = vec![0; 2 * MAX_PAYLOAD + 512];
    let (payload, rest) = lists.split_at_mut(MAX_PAYLOAD);
    let (model, line) = rest.split_at_mut(MAX_PAYLOAD);
    let line: &mut Line = line.try_into().expect("512 bytes");
    for &byte in include_bytes!("../../examples/surface.stream") {
        streams::take(&mut session, byte, payload, model, line);
    }
}
