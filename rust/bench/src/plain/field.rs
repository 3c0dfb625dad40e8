//! The field, in numbers of 32 bits below p. The reference divides for every sum and difference too, and has to test a
//! number before it is an element.

pub use lomvuze_reference::field::P;

pub fn mul(a: u32, b: u32) -> u32 {
    (a as u64 * b as u64 % P as u64) as u32
}

pub fn add(a: u32, b: u32) -> u32 {
    let sum = a + b;
    sum - (P <= sum) as u32 * P
}

pub fn sub(a: u32, b: u32) -> u32 {
    add(a, P - b)
}

#[inline(never)]
pub fn chain_mul(x: u32, y: u32, n: u32) -> u32 {
    (0..n).fold(x, |product, _| mul(product, y))
}

#[inline(never)]
pub fn chain_add(x: u32, y: u32, n: u32) -> u32 {
    (0..n).fold(x, |sum, _| add(sum, y))
}
