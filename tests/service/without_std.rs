//! A program without the standard library: it brings an allocator and a panic handler of its own, so that it is refused
//! by the compiler where the crate or one below it links the standard one. Ends with 0 where 2 × 3 = 6 is decided, and
//! 2 × 3 = 7 refused.

#![no_std]
#![no_main]

use core::alloc::{GlobalAlloc, Layout};
use core::error::Error;
use core::panic::PanicInfo;
use lomvuze::{cast, decide, Circuit, Points, PublicInputs, Refusal, Sizes, Witness, R};

#[link(name = "c")]
extern "C" {
    fn malloc(bytes: usize) -> *mut u8;
    fn free(at: *mut u8);
    fn abort() -> !;
}

struct FromC;

// What malloc gives is aligned for every number.
unsafe impl GlobalAlloc for FromC {
    unsafe fn alloc(&self, layout: Layout) -> *mut u8 {
        malloc(layout.size())
    }

    unsafe fn dealloc(&self, at: *mut u8, _: Layout) {
        free(at);
    }
}

#[global_allocator]
static ALLOCATOR: FromC = FromC;

#[panic_handler]
fn panic(_: &PanicInfo) -> ! {
    unsafe { abort() }
}

fn run() -> Result<(), &'static dyn Error> {
    let sizes = Sizes { m: 0, n: 2, k: 2 };
    let circuit = Circuit::new([(0, 2, 1)], [(0, 3, 1)], [(0, 1, 1)]);
    let (points, r, witness) = (Points::built_in(), R::default(), Witness::from([2, 3]));
    let cast_x = |x: [u32; 2]| cast(sizes, &points, &circuit, &r, &PublicInputs::from(x), &witness);
    match cast_x([1, 7]) {
        Err(Refusal::Claim) => {}
        _ => return Err(&Refusal::Claim),
    }
    match cast_x([1, 6]).and_then(|item| decide(sizes, &points, &circuit, &item, &witness)) {
        Ok(()) => Ok(()),
        Err(_) => Err(&Refusal::Root),
    }
}

#[no_mangle]
extern "C" fn main() -> i32 {
    i32::from(run().is_err())
}
