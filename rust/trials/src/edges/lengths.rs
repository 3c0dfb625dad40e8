//! Check 2, for every call: each buffer shorter and longer than its length.

use super::verdict_of;
use crate::{bytes, Call, Honest, Library, Name, Part, Random, NAMES};
use lomvuze_calls::description::Length;

/// Calls that are accepted: two items, without points and with lent ones, and the least sizes, at which r and the quotient
/// are empty.
fn samples(random: &mut Random, name: Name) -> Vec<Call> {
    let two = Honest::random(random, 1, 2, 4, 2);
    let points = crate::points::different(random, 4);
    let lists = [two.clone(), two.lent(points), Honest::random(random, 0, 1, 2, 1)];
    lists.into_iter().zip([3, 2, 1]).map(|(list, t)| Call::over(random, name, list, t)).collect()
}

/// Buffer i of the call, counted over those that it reads and those that it writes.
fn buffer(call: &mut Call, i: usize) -> &mut Vec<u8> {
    call.inputs.iter_mut().chain(&mut call.outputs).nth(i).unwrap()
}

/// Every buffer of every call, a byte and four bytes short, where it is as long, and a byte and four bytes long; empty, where
/// it is not and may not be.
pub fn every_buffer(by: &Library) {
    let mut random = Random::new(60);
    for name in NAMES {
        for call in samples(&mut random, name) {
            assert_eq!(verdict_of(by, &call), 0, "{name:?}");
            for (i, part) in name.parts().into_iter().enumerate() {
                for length in other_lengths(&call, i, part) {
                    let mut changed = call.clone();
                    buffer(&mut changed, i).resize(length, 0);
                    let from = buffer(&mut call.clone(), i).len();
                    assert_eq!(
                        verdict_of(by, &changed),
                        2,
                        "{name:?}, buffer {i}: {length} bytes for {from}"
                    );
                }
            }
        }
    }
}

/// The lengths that a buffer may not have, beside the one that it has.
fn other_lengths(call: &Call, i: usize, part: Part) -> Vec<usize> {
    let length = buffer(&mut call.clone(), i).len();
    let beside = [length.checked_sub(1), length.checked_sub(4), Some(0), Some(length + 1), Some(length + 4)];
    let mut lengths: Vec<usize> = beside.into_iter().flatten().filter(|other| *other != length).collect();
    match part.length() {
        Length::Numbers(_) => lengths.clear(),
        // Entries of twelve bytes, or a text of any length.
        Length::UpTo(_, bytes) => {
            lengths.retain(|length| !(*length as u64).is_multiple_of(bytes.value(&|_| 0)))
        }
        Length::NoneOr(_) => lengths.retain(|length| *length != 0),
        Length::Bytes(_) => (),
    }
    lengths
}

/// A list of 1,024 entries passes and one of 1,025 gives 2: in 64 rows of 66 columns, all with value 0.
pub fn entry_counts(by: &Library) {
    let cast = |entries: [u32; 3]| {
        let [a, b, c] =
            entries.map(|count| bytes(&(0..count).flat_map(|i| [i / 66, i % 66, 0]).collect::<Vec<_>>()));
        let layout = lomvuze_calls::layout::ItemLayout { m: 6, n: 64 };
        let (mut item, mut x) = (vec![0; layout.bytes()], vec![0; layout.x().len()]);
        x[0] = 1;
        by.cast(6, 64, 2, &[], &a, &b, &c, &[0; 24], &x, &[0; 8], &mut item)
    };
    assert_eq!(cast([1024, 1024, 1024]), 0);
    assert_eq!([cast([1025, 0, 0]), cast([0, 1025, 0]), cast([0, 0, 1025])], [2, 2, 2]);
}

/// Without entries of A the circuit is another one: it passes check 2.
pub fn no_entries(by: &Library) {
    let empty = super::fold::refusals_after(by, |all| all["a"].clear());
    assert_eq!(empty, super::refused(11, &[Name::Cast, Name::Quotient, Name::Fold, Name::Decide]));
}
