//! Random calls by two implementations: the same answer, the same bytes in every buffer after it, and nothing
//! written by a refusal.

use crate::{answer, Call, Library, Name, Random};
use std::collections::{BTreeMap, BTreeSet};

/// Runs calls by a library that is tested and by another one.
pub struct Comparison {
    tested: &'static Library,
    other: &'static Library,
    /// How many calls had which verdict.
    verdicts: BTreeMap<u32, usize>,
    /// How many blocks were processed where check 8 refused.
    blocks: BTreeSet<u64>,
}

impl Comparison {
    pub fn new(tested: &'static Library, other: &'static Library) -> Comparison {
        Comparison { tested, other, verdicts: BTreeMap::new(), blocks: BTreeSet::new() }
    }

    /// Runs a call by both, compares, and gives the answer.
    pub fn compare(&mut self, call: &Call) -> u64 {
        let (mut by_other, mut by_tested) = (call.clone(), call.clone());
        let answer = by_other.run(self.other);
        let verdict = answer::verdict(answer);
        assert_eq!(by_tested.run(self.tested), answer, "{call:?}");
        assert!(call.permits(answer), "{answer} for verdict {verdict}: {call:?}");
        assert!(by_tested == by_other, "other bytes after verdict {verdict}: {call:?}");
        assert!(verdict == 0 || by_tested == *call, "a refusal wrote: {call:?}");
        *self.verdicts.entry(verdict).or_default() += 1;
        if verdict == 8 {
            self.blocks.insert(answer::blocks(answer));
        }
        answer
    }

    /// The call itself; with each check failing first, alone and together with some of the later ones.
    pub fn compare_checks(&mut self, random: &mut Random, call: &Call) {
        assert_eq!(self.compare(call), call.accepted());
        let checks = call.name.checks();
        for (i, check) in checks.iter().enumerate() {
            for with_later in [false, true] {
                let mut call = call.clone();
                for later in checks[i + 1..].iter().rev() {
                    if with_later && random.below(2) == 0 {
                        call.fail(random, *later);
                    }
                }
                let passing = call.clone();
                call.fail(random, *check);
                assert_eq!(self.compare(&call), call.refusal(&passing, *check), "{call:?}");
            }
        }
    }

    /// The call with one to three random changes, as often as it has checks.
    pub fn compare_damage(&mut self, random: &mut Random, call: &Call) {
        for _ in call.name.checks() {
            let mut call = call.clone();
            for _ in 0..1 + random.below(3) {
                call.damage(random);
            }
            self.compare(&call);
        }
    }

    /// At least `count` calls of a name, honest and damaged, of which `each` or more give each verdict. A call
    /// that counts blocks is refused by check 8 after many different counts.
    pub fn random_calls(mut self, name: Name, count: usize, each: usize) {
        let mut random = Random::new(name as u64);
        while self.verdicts.values().sum::<usize>() < count {
            let call = Call::honest(&mut random, name);
            self.compare_checks(&mut random, &call);
            self.compare_damage(&mut random, &call);
        }
        self.finish(name, each);
        assert!(name.description().bits == 32 || self.blocks.len() >= 50, "{:?}", self.blocks);
    }

    /// Every verdict of the call was given often, and no other one.
    pub fn finish(&self, name: Name, each: usize) {
        let verdicts = &self.verdicts;
        println!("{name:?}: {} calls, by verdict {verdicts:?}", verdicts.values().sum::<usize>());
        let given: BTreeSet<u32> = verdicts.keys().copied().collect();
        assert_eq!(given, name.checks().iter().copied().chain([0]).collect());
        assert!(verdicts.values().all(|count| *count >= each), "{name:?}: {verdicts:?}");
    }
}
