//! The proved field beside the reference.

use lomvuze_proved as proved;
use lomvuze_reference::field::{Element, P};
use lomvuze_trials::Random;

/// The element that a number stands for.
fn element(number: u32) -> Element {
    Element::reduce(number as u64)
}

/// Sum, difference, opposite and product agree.
fn compare(a: u32, b: u32) {
    let (x, y) = (element(a), element(b));
    assert_eq!(proved::add(a, b), (x + y).number(), "{a} + {b}");
    assert_eq!(proved::sub(a, b), (x - y).number(), "{a} - {b}");
    assert_eq!(proved::neg(a), (-x).number(), "-{a}");
    assert_eq!(proved::mul(a, b), (x * y).number(), "{a} * {b}");
}

#[test]
fn sums_differences_products() {
    let mut random = Random::new(1);
    for _ in 0..100_000 {
        compare(random.number(), random.number());
    }
}

/// Where p begins to be taken off: sums of p - 1, p and p + 1, and the least and greatest elements.
#[test]
fn sums_around_p() {
    let mut random = Random::new(4);
    for _ in 0..100_000 {
        let a = random.element().number();
        for b in [P - 1 - a, P - a, P + 1 - a] {
            compare(a, b);
        }
    }
    let edges = [0, 1, 2, P / 2, P / 2 + 1, P - 2, P - 1, P, P + 1, 2 * P - 1, 2 * P, u32::MAX];
    for a in edges {
        for b in edges {
            compare(a, b);
        }
    }
}

#[test]
fn powers() {
    let mut random = Random::new(2);
    for _ in 0..20_000 {
        let (a, e) = (random.number(), random.number());
        assert_eq!(proved::pow(a, e), element(a).pow(e as u64).number(), "{a} ^ {e}");
    }
    for e in 0..100 {
        assert_eq!(proved::pow(31, e), element(31).pow(e as u64).number(), "31 ^ {e}");
    }
}

#[test]
fn small_inverses() {
    assert_eq!(proved::inverse(0), 0);
    for n in 1..64 {
        assert_eq!(proved::inverse(n), element(n).inverse().number(), "1 / {n}");
        assert_eq!(proved::inverse(n + 64), proved::inverse(n));
    }
}

#[test]
fn chains() {
    let mut random = Random::new(3);
    for _ in 0..2_000 {
        let (x, y, n) = (random.number(), random.number(), random.below(300) as u32);
        assert_eq!(proved::chain_mul(x, y, n), (element(x) * element(y).pow(n as u64)).number());
        assert_eq!(proved::chain_add(x, y, n), (element(x) + element(n) * element(y)).number());
    }
}
