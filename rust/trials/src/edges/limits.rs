//! Check 2, for every call: each number at its limits and beside them, with buffers that fit it and with others.

use super::fold::{refusals_after, those_that};
use super::{calls_that, refused, verdict_of, Refusals};
use crate::name::description;
use crate::{Call, Honest, Library, Name, Random, NAMES};

/// A call that is accepted, of these sizes.
fn sample(random: &mut Random, name: Name, [m, n, k, l, t]: [u32; 5]) -> Call {
    let list = Honest::random(random, m, n, k, l);
    Call::over(random, name, list, t as usize)
}

/// Each number at its least and at its greatest value, and k at every one, the others small; and all of them at once.
pub fn at_the_limits(by: &Library) {
    let mut random = Random::new(61);
    let sizes = [
        [0, 2, 4, 2, 2],
        [6, 2, 4, 2, 2],
        [1, 1, 4, 2, 2],
        [1, 64, 4, 2, 2],
        [1, 2, 2, 2, 2],
        [1, 2, 8, 2, 2],
        [1, 2, 16, 2, 2],
        [1, 2, 32, 2, 2],
        [1, 2, 64, 2, 2],
        [1, 2, 4, 1, 2],
        [1, 2, 4, 8, 2],
        [1, 2, 4, 2, 1],
        [1, 2, 4, 2, 16],
        [0, 1, 2, 1, 1],
        [6, 64, 64, 8, 256],
    ];
    for name in NAMES {
        for sizes in sizes {
            let call = sample(&mut random, name, sizes);
            for (number, value) in name.numbers().iter().zip(&call.numbers) {
                let (least, greatest) = call.limits(number);
                assert!((least..=greatest).contains(value), "{name:?}: {number} = {value}");
            }
            assert_eq!(verdict_of(by, &call), 0, "{name:?} at {sizes:?}");
        }
    }
}

/// Beside the limits, with buffers that fit: the least number below and above them, and for k every number up to 300 that is
/// no power of two from 2 to 64.
pub fn beside_the_limits(by: &Library) {
    let mut random = Random::new(62);
    for name in NAMES {
        for size in name.sizes() {
            let call = sample(&mut random, name, [1, 2, 4, 2, 2]);
            let (least, greatest) = call.limits(size);
            let powers_of_two = description().number(size).unwrap().powers_of_two;
            let refused = |number: &u32| {
                !(least..=greatest).contains(number) || powers_of_two && !number.is_power_of_two()
            };
            let tried: Vec<u32> =
                if powers_of_two { (0..300).collect() } else { (0..=greatest + 3).collect() };
            for number in tried.into_iter().filter(refused) {
                let mut call = call.clone();
                call.set(size, number);
                call.fit();
                assert_eq!(verdict_of(by, &call), 2, "{name:?}: {size} = {number}");
            }
        }
    }
}

/// Every count of positions beside 4k, for every k.
pub fn counts_of_positions(by: &Library) {
    let mut random = Random::new(63);
    for name in calls_that(|name| name.numbers().contains(&"t")) {
        for k in [2, 4, 8, 16, 32, 64] {
            let mut call = sample(&mut random, name, [0, 1, k, 1, 4 * k]);
            assert_eq!(verdict_of(by, &call), 0, "{name:?}: k = {k}");
            call.set("t", 4 * k + 1);
            call.fit();
            assert_eq!(verdict_of(by, &call), 2, "{name:?}: k = {k}");
        }
    }
}

/// The calls that a number of the fold is for, where they are refused by check 2.
fn of_size(size: &str) -> Refusals {
    refused(2, &those_that(|name| name.numbers().contains(&size)))
}

/// Other numbers beside the same buffers: of the fold, which has m = 0, n = 2, k = 2, l = 2 and t = 3. A number of 2^30 more
/// gives the same lengths modulo 2^32.
pub fn beside_other_buffers(by: &Library) {
    for m in [1, 7, 1 << 30, 1 << 31, u32::MAX] {
        assert_eq!(refusals_after(by, |all| all.m = m), of_size("m"), "m = {m}");
    }
    for n in [0, 1, 3, 65, 2 + (1 << 30), 2 + (1 << 31), u32::MAX] {
        assert_eq!(refusals_after(by, |all| all.n = n), of_size("n"), "n = {n}");
    }
    for k in [0, 1, 3, 128, 2 + (1 << 30), 1 << 31, u32::MAX] {
        assert_eq!(refusals_after(by, |all| all.k = k), of_size("k"), "k = {k}");
    }
    for t in [0, 2, 4, 9, 3 + (1 << 30), 3 + (1 << 31), u32::MAX] {
        assert_eq!(refusals_after(by, |all| all.t = t), of_size("t"), "t = {t}");
    }
    for l in [0, 9, 2 + (1 << 30), u32::MAX] {
        assert_eq!(refusals_after(by, |all| all.l = l), of_size("l"), "l = {l}");
    }
    // No length of drawing positions depends on l, and none of drawing depends on k.
    for (l, also) in [(1, None), (3, Some((Name::DrawPositions, 5)))] {
        let mut expected = of_size("l");
        expected.remove(&Name::DrawPositions);
        expected.extend(also);
        assert_eq!(refusals_after(by, |all| all.l = l), expected, "l = {l}");
    }
    let mut expected = of_size("k");
    expected.retain(|name, _| ![Name::DrawChallenge, Name::DrawPositions].contains(name));
    assert_eq!(refusals_after(by, |all| all.k = 64), expected);
}
