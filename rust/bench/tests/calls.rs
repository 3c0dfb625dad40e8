//! The plain calls beside the proved ones: without points and with points that are lent; with points that check 12 refuses,
//! and first inputs that check 13 refuses, alone and with later checks failing too; drawing with each check failing. And the
//! running hash and the plain reader of sheets beside the reference.

use bench::plain::{calls, points::differ, running};
use bench::rows::{read_sheet, PLAIN, PROVED};
use lomvuze_reference::sheet::{self, write, Reading};
use lomvuze_reference::{sha256, tree};
use lomvuze_trials::sheet::damage::failing;
use lomvuze_trials::sheet::{accepted, Buffers, Shape};
use lomvuze_trials::{points, Call, Comparison, Honest, Name, Random, NAMES};

#[test]
fn points_and_first_inputs() {
    let mut random = Random::new(1);
    let mut comparison = Comparison::new(&PLAIN, &PROVED);
    for name in NAMES {
        for lent in [vec![], points::built_in(64), points::different(&mut random, 64)] {
            let list = Honest::random(&mut random, 2, 3, 64, 2).lent(lent);
            let call = Call::over(&mut random, name, list, 3);
            assert_eq!(comparison.compare(&call), call.accepted(), "{name:?}");
            let checks = name.checks();
            for (i, check) in checks.iter().enumerate().filter(|(_, check)| [12, 13].contains(*check)) {
                for last in [i + 1, checks.len()] {
                    let mut call = call.clone();
                    checks[i..last].iter().rev().for_each(|check| call.fail(&mut random, *check));
                    assert_eq!(comparison.compare(&call), *check as u64, "{name:?}");
                }
            }
        }
    }
}

/// Drawing, of the least and the greatest sizes and of others.
#[test]
fn draws() {
    let mut random = Random::new(5);
    for name in [Name::DrawChallenge, Name::DrawPositions, Name::DrawR] {
        let mut comparison = Comparison::new(&PLAIN, &PROVED);
        for (m, n, l, t) in [(0, 1, 1, 1), (1, 2, 2, 3), (2, 4, 5, 64), (3, 17, 7, 255), (6, 64, 8, 256)] {
            for _ in 0..20 {
                let list = Honest::random(&mut random, m, n, 64, l);
                let call = Call::over(&mut random, name, list, t);
                comparison.compare_checks(&mut random, &call);
            }
        }
        comparison.finish(name, 100);
    }
}

/// Digests of messages that are fed in by pieces.
#[test]
fn running_hashes() {
    let mut random = Random::new(4);
    for length in (0..=200).chain([1000, 4096, 65_537]) {
        let message = random.bytes(length);
        let digest = sha256::digest(&message);
        for step in [1, 31, 32, 63, 64, 65, 100, 128, 129, length + 1] {
            assert_eq!(running::hash(&message, step), digest, "{length} bytes by {step}");
        }
    }
    let (left, right) = (random.digest(), random.digest());
    assert_eq!(running::node(&left, &right), tree::node(&left, &right));
}

#[test]
fn sheets() {
    let mut random = Random::new(2);
    for _ in 0..200 {
        let shape = Shape::small(&mut random);
        let says = accepted(&mut random, &shape);
        let refused = [&[2][..], &[3], &[4], &[13], &[4, 13], &[3, 13]];
        let texts = refused.map(|checks| failing(&mut random, &says, checks));
        for text in [write(&says)].iter().chain(&texts) {
            let mut by_plain = Buffers::new(Buffers::LENGTHS);
            let mut by_reference = by_plain.clone();
            let Reading { answer, m, n, k, a, b, c, pairs } = by_reference.read(sheet::read, text);
            let plain = read_sheet(calls::read_sheet, text, &mut by_plain);
            assert_eq!(plain, (answer, [m, n, k, a, b, c, pairs]), "{}", text.escape_ascii());
            assert!(by_plain == by_reference, "{}", text.escape_ascii());
        }
    }
}

#[test]
fn differing_points() {
    let points: Vec<u32> = (0..256).map(|i| 5 * i).collect();
    assert!(differ(&points));
    for (at, number) in [(255, 0), (0, 1275), (17, 80), (16, 85), (255, 2013265921), (0, u32::MAX)] {
        let mut changed = points.clone();
        changed[at] = number;
        assert!(!differ(&changed), "{number} at {at}");
    }
}
