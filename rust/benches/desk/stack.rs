//! How much stack each call takes: it runs in a thread whose stack is filled with a pattern, and what changed shows.
//!
//! `unsafe` is here for a thread on a stack of one's own. The stack outlives the thread, which is joined before the
//! stack is looked at; the thread is handed the closure's own pointer and is the only one to use it meanwhile.
#![allow(unsafe_code)]
use crate::plans::{octets, open, plan, Both};
use ghritpoma::{Desk, Port, Stream, MOST_OCTETS};
use std::ffi::c_void;
use std::hint::black_box;
use std::ptr;

const WORDS: usize = 1 << 17;
const PATTERN: u64 = 0xA5C3_96E1_5A3C_691E;

/// `pthread_attr_t` of Linux on x86-64: 56 octets.
#[repr(C, align(8))]
struct Attributes([u64; 7]);

unsafe extern "C" {
    fn pthread_attr_init(a: *mut Attributes) -> i32;
    fn pthread_attr_setstack(a: *mut Attributes, stack: *mut c_void, size: usize) -> i32;
    fn pthread_attr_destroy(a: *mut Attributes) -> i32;
    fn pthread_create(
        thread: *mut u64,
        a: *const Attributes,
        start: extern "C" fn(*mut c_void) -> *mut c_void,
        argument: *mut c_void,
    ) -> i32;
    fn pthread_join(thread: u64, value: *mut *mut c_void) -> i32;
}

/// What is run, the place on the stack from which it was called, and whether it was accepted.
struct Job<'a> {
    call: &'a mut dyn FnMut() -> bool,
    from: usize,
    accepted: bool,
}

extern "C" fn start(argument: *mut c_void) -> *mut c_void {
    // SAFETY: the argument is the job that `depth` lends until this thread is joined.
    let job = unsafe { &mut *argument.cast::<Job<'_>>() };
    let mark = 0_u64;
    job.from = ptr::from_ref(black_box(&mark)) as usize;
    job.accepted = (job.call)();
    ptr::null_mut()
}

#[repr(C, align(4096))]
struct Stack([u64; WORDS]);

/// The octets of stack below its caller that a call changed, up to the furthest one.
fn depth(call: &mut dyn FnMut() -> bool) -> usize {
    let mut stack = Box::new(Stack([PATTERN; WORDS]));
    let mut job = Job { call, from: 0, accepted: false };
    let (mut attributes, mut thread) = (Attributes([0; 7]), 0);
    let stack_start = ptr::from_mut(&mut *stack).cast::<c_void>();
    // SAFETY: see the head of this file. The closures do not panic, or the program ends there.
    unsafe {
        assert_eq!(pthread_attr_init(&mut attributes), 0);
        assert_eq!(pthread_attr_setstack(&mut attributes, stack_start, size_of::<Stack>()), 0);
        assert_eq!(pthread_create(&mut thread, &attributes, start, ptr::from_mut(&mut job).cast()), 0);
        assert_eq!(pthread_join(thread, ptr::null_mut()), 0);
        pthread_attr_destroy(&mut attributes);
    }
    let untouched = stack.0.iter().take_while(|&&word| word == PATTERN).count();
    assert!(untouched > 0, "the stack was too short");
    assert!(job.accepted, "a refused call goes less deep");
    job.from - (stack_start as usize + untouched * 8)
}

fn row(what: &str, call: &mut dyn FnMut() -> bool) {
    println!("| {what} | {} |", depth(call));
}

pub fn table() {
    let plan = octets(plan(32, 64));
    let both = Both::read(&plan);
    let core = &both.core;
    let slot = *open(&both.model).slots.last().expect("a slot");
    let id = open(&both.model).streams.iter().map(|s| s.id).find(|&id| core.response(id).is_ok());
    let id = id.expect("a stream in time");
    let mut room = vec![0; MOST_OCTETS];
    // edited desks stand on the heap, so that they don't count
    let mut desk = Box::new(Desk::bare());
    let port = Port { rate: 2, cycle: 100_000, guard: 1, header: 0 };
    let stream = Stream { id: 1, priority: 0, octets: 64, period: 10_000, jitter: 0, deadline: 1 };
    println!("\n| call | octets of stack |\n|---|---|");
    row("bare", &mut || *black_box(&Desk::bare()) == *desk);
    row("open_port", &mut || desk.open_port(port).is_ok());
    row("add_stream", &mut || desk.add_stream(stream).is_ok());
    row("remove_stream", &mut || desk.remove_stream(1).is_ok());
    *desk = core.clone();
    row("remove_slot", &mut || desk.remove_slot(slot.start).is_ok());
    row("add_slot", &mut || desk.add_slot(slot.start, slot.end).is_ok());
    row("runs", &mut || core.runs().is_ok());
    row("stairs", &mut || core.stairs().is_ok());
    row("interference", &mut || core.interference(34_567_890).is_ok());
    row("response", &mut || core.response(id).is_ok());
    row("read", &mut || Desk::read(&plan).is_ok());
    row("write", &mut || core.write(&mut room).is_ok());
}
