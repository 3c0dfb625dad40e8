//! Random calls: honest ones are accepted, damaged ones answer with checks of their own, and refusals write
//! nothing. Verifying counts as many blocks as its verdict permits.

use lomvuze_trials::answer::verdict;
use lomvuze_trials::{Call, Random, NAMES, REFERENCE};
use std::collections::BTreeSet;

#[test]
fn honest_calls_are_accepted() {
    let mut random = Random::new(1);
    for name in NAMES {
        for _ in 0..100 {
            let mut call = Call::honest(&mut random, name);
            assert_eq!(call.run(&REFERENCE), call.accepted(), "{name:?}");
        }
    }
}

/// Damage reaches every check of every call.
#[test]
fn damaged_calls() {
    let mut random = Random::new(2);
    for name in NAMES {
        let mut verdicts = BTreeSet::new();
        for _ in 0..1000 {
            let mut call = Call::honest(&mut random, name);
            for _ in 0..random.below(3) {
                call.damage(&mut random);
            }
            let before = call.clone();
            let answer = call.run(&REFERENCE);
            let verdict = verdict(answer);
            assert_eq!(call.inputs, before.inputs);
            assert!(call.permits(answer), "{name:?} answered {answer}");
            assert!(verdict == 0 || call == before, "{name:?} wrote and answered {answer}");
            verdicts.insert(verdict);
        }
        let expected: BTreeSet<u32> = name.checks().iter().copied().chain([0]).collect();
        assert_eq!(verdicts, expected, "{name:?}");
    }
}

/// Each check answers when it is the first that fails.
#[test]
fn failing_checks() {
    let mut random = Random::new(3);
    for name in NAMES {
        for _ in 0..50 {
            let call = Call::honest(&mut random, name);
            for (i, check) in name.checks().iter().enumerate() {
                let mut alone = call.clone();
                alone.fail(&mut random, *check);
                assert_eq!(verdict(alone.run(&REFERENCE)), *check, "{name:?}");
                let mut with_later = call.clone();
                for check in name.checks()[i..].iter().rev() {
                    with_later.fail(&mut random, *check);
                }
                assert_eq!(verdict(with_later.run(&REFERENCE)), *check, "{name:?}");
            }
        }
    }
}
