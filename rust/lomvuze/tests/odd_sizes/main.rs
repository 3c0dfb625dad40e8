//! Sizes, counts and lengths that are not permitted or do not fit each other, in every call: all are refused
//! by check 2, or a sheet that is too long by check 1; none makes a call panic, and none makes it allocate a
//! long buffer.

mod arguments;
mod lists;
mod longest;

use arguments::{
    answer, by_sizes, change, refusals, Arguments, CALLS, TAKE_K, TAKE_M_AND_N, WITH_BUFFERS_OF_K,
};
use lomvuze::{draw_positions, read_sheet, Challenge, Opening, Refusal, Sizes};

const PAGE: &str = include_str!("../../src/lib.rs");

/// The description's calls are those that are tried here, and each has a line on the page of the crate.
#[test]
fn every_call_is_here() {
    let described = lomvuze_calls::CALLS.lines().filter_map(|line| line.strip_prefix("call "));
    let mut described: Vec<&str> = described.filter_map(|line| line.split_whitespace().next()).collect();
    for name in &described {
        assert!(PAGE.contains(&format!("//! - [`{name}`]: ")), "{name} is not on the page of the crate");
    }
    let mut tried: Vec<&str> = CALLS.iter().map(|(name, _)| *name).chain(["read_sheet"]).collect();
    described.sort();
    tried.sort();
    assert_eq!(tried, described);
}

#[test]
fn all_are_accepted_before_a_change() {
    assert_eq!(refusals(|_| ()), by_sizes(&[]));
}

// ---- Sizes that are not permitted, or not those of the buffers

#[test]
fn sizes() {
    for k in [0, 1, 3, 5, 65, 128, 1 << 16, 1 << 30, 1 << 31, u32::MAX] {
        assert_eq!(refusals(|all| all.sizes.k = k), by_sizes(TAKE_K), "k = {k}");
    }
    // No buffer of a call that draws depends on k, and that of r alone depends on m.
    for k in [2, 8, 64] {
        assert_eq!(refusals(|all| all.sizes.k = k), by_sizes(WITH_BUFFERS_OF_K), "k = {k}");
    }
    for m in [0, 2, 6] {
        let mut expected = by_sizes(TAKE_M_AND_N);
        expected.remove("draw_r");
        assert_eq!(refusals(|all| all.sizes.m = m), expected, "m = {m}");
    }
    for m in [7, 31, 64, 1 << 30, u32::MAX] {
        assert_eq!(refusals(|all| all.sizes.m = m), by_sizes(TAKE_M_AND_N), "m = {m}");
    }
    for n in [0, 1, 3, 64, 65, 1 << 30, u32::MAX] {
        assert_eq!(refusals(|all| all.sizes.n = n), by_sizes(TAKE_M_AND_N), "n = {n}");
    }
    for size in [0, u32::MAX] {
        let sizes = Sizes { m: size, n: size, k: size };
        let all_calls = by_sizes(&[TAKE_K, TAKE_M_AND_N].concat());
        assert_eq!(refusals(|all| all.sizes = sizes), all_calls, "{sizes:?}");
    }
}

/// Counts that no list has: those above 32 bits are not taken modulo 2^32.
#[test]
fn counts() {
    let all = Arguments::new().unwrap();
    let (root, challenge) = (&all.folded.item.root, Challenge::from(100));
    let draw = |l, t| answer(|| draw_positions(all.sizes, l, t, challenge, &all.seed, root).map(drop));
    assert_eq!(draw(1, 1), Ok(()));
    assert_eq!(draw(8, 16), Ok(()));
    for count in [0, 17, 1 << 30, 1 << 32, (1 << 32) + 1, usize::MAX] {
        assert_eq!(draw(count, 1), Err(Refusal::Sizes), "l = {count}");
        assert_eq!(draw(1, count), Err(Refusal::Sizes), "t = {count}");
    }
}

// ---- Sizes that are not permitted, and lists of the lengths that they give

#[test]
fn lists_fitting_k() {
    for k in [0, 1, 3, 65, 128, 1 << 18] {
        let changed = |all: &mut Arguments| {
            all.sizes.k = k;
            for witness in [&mut all.witness, &mut all.folded.witness].into_iter().chain(&mut all.witnesses) {
                change(witness, |numbers| numbers.resize(k as usize, 1));
            }
            let opening = Opening { value: 0, path: vec![[0; 32]; all.sizes.depth()] };
            all.points = (0..4 * k).collect();
            all.positions = [0; 256].into();
            all.openings = vec![vec![opening; 256]; 3];
        };
        assert_eq!(refusals(changed), by_sizes(TAKE_K), "k = {k}");
    }
}

#[test]
fn lists_fitting_m_and_n() {
    for m in [7, 64, 1 << 18] {
        let changed = |all: &mut Arguments| {
            all.sizes.m = m;
            for r in
                all.items.iter_mut().chain([&mut all.folded.item]).map(|item| &mut item.r).chain([&mut all.r])
            {
                change(r, |numbers| numbers.resize(m as usize, 1));
            }
            change(&mut all.folded.quotient, |numbers| numbers.resize(m as usize + 1, 0));
        };
        assert_eq!(refusals(changed), by_sizes(TAKE_M_AND_N), "m = {m}");
    }
    for n in [0, 65, 1 << 18] {
        let changed = |all: &mut Arguments| {
            all.sizes.n = n;
            for x in
                all.items.iter_mut().chain([&mut all.folded.item]).map(|item| &mut item.x).chain([&mut all.x])
            {
                change(x, |numbers| numbers.resize(n as usize, 1));
            }
        };
        assert_eq!(refusals(changed), by_sizes(TAKE_M_AND_N), "n = {n}");
    }
}

#[test]
fn lists_fitting_t() {
    for t in [0, 17, 257, 1 << 12] {
        let changed = |all: &mut Arguments| {
            let opening = all.openings[0][0].clone();
            change(&mut all.positions, |numbers| numbers.resize(t, 0));
            all.openings.iter_mut().for_each(|of_one| of_one.resize(t, opening.clone()));
        };
        let expected = by_sizes(&["open", "interleave", "verify", "draw_positions"]);
        assert_eq!(refusals(changed), expected, "t = {t}");
    }
}

// ---- Sheets

#[test]
fn sheets() {
    let sheet = |Sizes { m, n, k }, pairs: u32| {
        let root = "0".repeat(64);
        answer(|| {
            let text = format!("size\t{m}\t{n}\t{k}\nitem\t0\t1\t{root}\nwit\t0\t0\nend\t{pairs}\n");
            read_sheet(text.as_bytes()).map(drop)
        })
    };
    let right = Sizes { m: 0, n: 1, k: 2 };
    assert_eq!(sheet(right, 1), Ok(()));
    for size in [3, 64, 1 << 30, u32::MAX] {
        let all = Sizes { m: size, n: size, k: size };
        for sizes in [Sizes { m: size, ..right }, Sizes { n: size, ..right }, Sizes { k: size, ..right }, all]
        {
            assert_eq!(sheet(sizes, 1), Err(Refusal::Sizes), "{sizes:?}");
        }
    }
    for pairs in [0, 2, 64, 1 << 30, u32::MAX] {
        assert_eq!(sheet(right, pairs), Err(Refusal::Sizes), "{pairs} pairs");
    }
    let long = vec![b'\n'; 1 << 24];
    assert_eq!(answer(|| read_sheet(&long).map(drop)), Err(Refusal::Sheet));
}
