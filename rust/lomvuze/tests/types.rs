//! What the types can do, as users expect it.

use lomvuze::{draw_challenge, Drawn, Seed};
use lomvuze::{Challenge, Circuit, Encoded, Entry, Folded, Item, NoCheck, Opening, Refusal, Sheet, Sizes};
use lomvuze::{Points, Positions, PublicInputs, Quotient, Verified, Witness, R};
use std::error::Error;
use std::fmt::{Debug, Display};
use std::hash::Hash;

fn value<T: Clone + Eq + Hash + Debug + Send + Sync + 'static>() {}

fn list<T>()
where
    T: Clone + Eq + Ord + Hash + Debug + Display + Default + Send + Sync + 'static,
    T: From<Vec<u32>> + From<[u32; 2]> + FromIterator<u32> + AsRef<[u32]> + Into<Vec<u32>>,
    T: PartialEq<[u32]> + PartialEq<[u32; 2]> + PartialEq<Vec<u32>> + IntoIterator<Item = u32>,
    T: for<'a> From<&'a [u32]> + for<'a> From<&'a [u32; 2]> + for<'a> TryFrom<&'a [u8], Error = Refusal>,
{
    let list = T::from([258, 3]);
    let equal =
        [T::from(vec![258, 3]), T::from(&[258, 3][..]), T::from(&[258, 3]), [258, 3].into_iter().collect()];
    assert!(equal.iter().all(|other| *other == list));
    assert!(list == [258, 3] && list == vec![258, 3] && list != [3, 258]);
    assert_eq!(list.as_ref(), [258, 3]);
    assert_eq!(list.to_string(), "[258, 3]");
    assert_eq!(T::try_from(&[2, 1, 0, 0, 3, 0, 0, 0][..]), Ok(list.clone()));
    assert_eq!(T::try_from(&[2, 1, 0][..]), Err(Refusal::Sizes));
    assert_eq!(T::default().as_ref(), []);
    assert_eq!(list.clone().into_iter().sum::<u32>(), 261);
    assert_eq!(Into::<Vec<u32>>::into(list), [258, 3]);
}

#[test]
fn lists() {
    list::<Points>();
    list::<R>();
    list::<PublicInputs>();
    list::<Witness>();
    list::<Quotient>();
    list::<Positions>();
}

#[test]
fn values() {
    value::<Challenge>();
    value::<Circuit>();
    value::<Drawn>();
    value::<Encoded>();
    value::<Entry>();
    value::<Folded>();
    value::<Item>();
    value::<NoCheck>();
    value::<Opening>();
    value::<Refusal>();
    value::<Seed>();
    value::<Sheet>();
    value::<Sizes>();
    value::<Verified>();
}

/// Verdict and blocks are read by name, and both count.
#[test]
fn verified() {
    let accepted = Verified { verdict: Ok(()), blocks: 63 };
    let copy = accepted;
    let Verified { verdict, blocks } = copy;
    assert_eq!((verdict, blocks), (Ok(()), 63));
    assert_eq!(accepted, copy);
    assert_ne!(accepted, Verified { blocks: 62, ..accepted });
    assert_ne!(accepted, Verified { verdict: Err(Refusal::Combination), ..accepted });
}

/// A seed is read as bytes and as text, and is one of its own for other items.
#[test]
fn seeds() {
    let seed = |x| {
        let item = Item::new(R::default(), PublicInputs::from([1, x]), [7; 32]);
        draw_challenge(Sizes { m: 0, n: 2, k: 2 }, &[item], &Quotient::default()).unwrap().seed
    };
    let (one, other) = (seed(6), seed(7));
    assert_eq!(one, seed(6));
    assert_ne!(one, other);
    assert_ne!(one.as_bytes(), other.as_bytes());
    let text = one.to_string();
    let read = |i: usize| u8::from_str_radix(&text[2 * i..2 * i + 2], 16).unwrap();
    assert_eq!(text.len(), 64);
    assert_eq!(*one.as_bytes(), std::array::from_fn(read));
}

#[test]
fn conversions() {
    let opening = Opening { value: 5, path: vec![[7; 32]; 3] };
    assert_eq!(Opening::from_bytes(Sizes { m: 0, n: 1, k: 2 }, &opening.to_bytes()), Ok(opening));
    let entry = Entry::from((1, 2, 3));
    assert_eq!(Entry::try_from(&entry.to_bytes()[..]), Ok(entry));
    assert!(Entry::from((0, 9, 9)) < entry && Entry::from((1, 1, 9)) < entry);
    assert_eq!(u32::from(Challenge::from(7)), 7);
    assert_eq!(Circuit::default(), Circuit::new::<Entry>([], [], []));
    let error: Box<dyn Error> = Refusal::try_from(14).unwrap_err().into();
    assert_eq!(error.to_string(), "no check has the number 14");
}
