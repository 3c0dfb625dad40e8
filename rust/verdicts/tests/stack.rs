//! The stack that each call takes, where it is accepted, is within what `include/lomvuze.h` states: at the
//! greatest sizes, without points and with lent ones, and for the calls but the sheet reader at random sizes too. To see it:
//! `cargo test --release --offline -p lomvuze-verdicts --test stack -- --nocapture`.
//!
//! A thread runs the call on a stack of our own that is painted before: the deepest word that has changed says
//! how far the call came. Counted from the frame that makes the call, so passing the arguments is included.

use lomvuze_reference::sheet::{write, MOST_BYTES};
use lomvuze_trials::sheet::{of_length, Buffers, GREATEST};
use lomvuze_trials::{library, points, Call, Honest, Library, Name, Random, NAMES};
use lomvuze_verdicts as calls;
use std::ffi::c_void;
use std::hint::black_box;
use std::mem::size_of;
use std::ptr::null_mut;

const PROVED: Library = library!(calls);

/// No call, the sheet reader included, may state as much.
const MOST: usize = 64 * 1024;

// ---- POSIX threads, with the sizes of 64-bit Linux

#[repr(C, align(16))]
struct Attributes([u8; 64]);

extern "C" {
    fn pthread_attr_init(attributes: *mut Attributes) -> i32;
    fn pthread_attr_setstack(attributes: *mut Attributes, lowest: *mut c_void, bytes: usize) -> i32;
    fn pthread_create(
        thread: *mut usize,
        attributes: *const Attributes,
        start: extern "C" fn(*mut c_void) -> *mut c_void,
        argument: *mut c_void,
    ) -> i32;
    fn pthread_join(thread: usize, result: *mut *mut c_void) -> i32;
}

// ---- The painted stack

const PAINT: u64 = 0x9e37_79b9_7f4a_7c15;
const STACK_BYTES: usize = 1 << 20;

#[derive(Clone, Copy)]
#[repr(C, align(4096))]
struct Page([u64; 512]);

struct Run<'a> {
    work: &'a mut dyn FnMut() -> u64,
    answer: u64,
    /// Where the frame stands that makes the call.
    frame: usize,
}

extern "C" fn run(argument: *mut c_void) -> *mut c_void {
    let run = unsafe { &mut *argument.cast::<Run>() };
    let local = 0u64;
    run.frame = black_box(&local) as *const u64 as usize;
    run.answer = (run.work)();
    null_mut()
}

/// The bytes of stack that a call takes, and its answer.
fn depth(work: &mut dyn FnMut() -> u64) -> (usize, u64) {
    let mut stack = vec![Page([PAINT; 512]); STACK_BYTES / size_of::<Page>()];
    let mut run_of = Run { work, answer: u64::MAX, frame: 0 };
    let (mut attributes, mut thread) = (Attributes([0; 64]), 0);
    unsafe {
        let lowest = stack.as_mut_ptr().cast();
        assert_eq!(pthread_attr_init(&mut attributes), 0);
        assert_eq!(pthread_attr_setstack(&mut attributes, lowest, STACK_BYTES), 0);
        assert_eq!(pthread_create(&mut thread, &attributes, run, (&mut run_of as *mut Run).cast()), 0);
        assert_eq!(pthread_join(thread, null_mut()), 0);
    }
    let painted = stack.iter().flat_map(|page| page.0).take_while(|word| *word == PAINT).count();
    (run_of.frame - (stack.as_ptr() as usize + 8 * painted), run_of.answer)
}

// ---- What the header states

/// From the line `Stack: N bytes.` of the comment that stands before the call's prototype.
fn stated(name: &str) -> usize {
    let header = include_str!("../../../include/lomvuze.h");
    let (before, _) = header.split_once(&format!("_t lomvuze_{name}(")).unwrap();
    let (_, comment) = before.rsplit_once("/*").unwrap();
    let (_, stack) = comment.split_once("\n * Stack: ").unwrap_or_else(|| {
        panic!("the comment of lomvuze_{name} in include/lomvuze.h has no line `Stack: N bytes.`")
    });
    stack.split_once(" bytes.\n").unwrap().0.replace(',', "").parse().unwrap()
}

/// Runs a call that is accepted, with this answer.
fn measure(name: &str, accepted: u64, work: &mut dyn FnMut() -> u64) -> usize {
    let (bytes, answer) = depth(work);
    let stated = stated(name);
    assert_eq!(answer, accepted, "{name}");
    assert!(bytes <= stated, "{name} takes {bytes} bytes of stack");
    assert!(stated < MOST, "{name} states {stated} bytes of stack");
    bytes
}

fn test(name: Name, mut call: Call) -> usize {
    let accepted = call.accepted();
    let inputs: Vec<&[u8]> = call.inputs.iter().map(|input| &input[..]).collect();
    let mut outputs: Vec<&mut [u8]> = call.outputs.iter_mut().map(|output| &mut output[..]).collect();
    measure(name.exported(), accepted, &mut || (PROVED.call)(name, &call.numbers, &inputs, &mut outputs))
}

#[test]
#[cfg_attr(debug_assertions, ignore = "a caller that is not optimised takes more stack itself")]
fn at_the_greatest_sizes() {
    let mut random = Random::new(1);
    let list = Honest::greatest(&mut random);
    let lent = list.clone().lent(points::different(&mut random, list.k));
    for name in NAMES {
        let [bytes, lent] =
            [&list, &lent].map(|list| test(name, Call::over(&mut random, name, list.clone(), 256)));
        println!("{name:?} {bytes}, with lent points {lent}");
    }
}

#[test]
#[cfg_attr(debug_assertions, ignore = "a caller that is not optimised takes more stack itself")]
fn at_other_sizes() {
    let mut random = Random::new(2);
    for name in NAMES {
        for _ in 0..100 {
            test(name, Call::honest(&mut random, name));
        }
    }
}

#[test]
#[cfg_attr(debug_assertions, ignore = "a caller that is not optimised takes more stack itself")]
fn of_the_sheet_reader() {
    let text = write(&of_length(&mut Random::new(3), &GREATEST, MOST_BYTES));
    let [mut a, mut b, mut c, mut items, mut wits] = Buffers::LENGTHS.map(|length| vec![0; length]);
    let mut sizes = [0; 7];
    let work = &mut || {
        lomvuze_verdicts::read_sheet(&text, &mut a, &mut b, &mut c, &mut items, &mut wits, &mut sizes).into()
    };
    println!("read_sheet {}", measure("read_sheet", 0, work));
}
