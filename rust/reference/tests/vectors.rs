//! The vectors of FIPS 180-4 and of RFC 6962 trees, and trees over values, whose entries name their positions.

use lomvuze_reference::code::{built_in_points, codeword, entries, entry};
use lomvuze_reference::field::{Element, P, ZERO};
use lomvuze_reference::sha256::{digest, hash, initial_value, round_constants, Digest};
use lomvuze_reference::tree::{leads_to, leaf, node, path, root};

fn hex(bytes: &[u8]) -> String {
    bytes.iter().map(|byte| format!("{byte:02x}")).collect()
}

/// Digest and count of blocks of a message.
fn hashed(message: &[u8]) -> (String, u64) {
    let hashed = hash(message);
    assert_eq!(hashed.digest, digest(message));
    (hex(&hashed.digest), hashed.blocks)
}

fn bytes(hex: &str) -> Vec<u8> {
    (0..hex.len() / 2).map(|i| u8::from_str_radix(&hex[2 * i..2 * i + 2], 16).unwrap()).collect()
}

#[test]
fn constants() {
    let k = round_constants();
    assert_eq!((k[0], k[1], k[62], k[63]), (0x428a2f98, 0x71374491, 0xbef9a3f7, 0xc67178f2));
    let h = initial_value();
    assert_eq!((h[0], h[7]), (0x6a09e667, 0x5be0cd19));
}

#[test]
fn empty_message() {
    let expected = "e3b0c44298fc1c149afbf4c8996fb92427ae41e4649b934ca495991b7852b855";
    assert_eq!(hashed(b""), (expected.to_string(), 1));
}

#[test]
fn one_block() {
    let expected = "ba7816bf8f01cfea414140de5dae2223b00361a396177a9cb410ff61f20015ad";
    assert_eq!(hashed(b"abc"), (expected.to_string(), 1));
}

#[test]
fn two_blocks() {
    let message = b"abcdbcdecdefdefgefghfghighijhijkijkljklmklmnlmnomnopnopq";
    let expected = "248d6a61d20638b8e5c026930c3e6039a33ce45964ff2167f6ecedd419db06c1";
    assert_eq!(hashed(message), (expected.to_string(), 2));
}

#[test]
fn a_million_times_a() {
    let expected = "cdc76e5c9914fb9281a1c7e284d73e67f1809a48a497200e046d39ccc7112cd0";
    assert_eq!(hashed(&vec![b'a'; 1_000_000]), (expected.to_string(), 15_626));
}

/// The entries and roots that are published for RFC 6962 trees of 0 to 8 entries.
const ENTRIES: [&str; 8] =
    ["", "00", "10", "2021", "3031", "40414243", "5051525354555657", "606162636465666768696a6b6c6d6e6f"];
const ROOTS: [&str; 9] = [
    "e3b0c44298fc1c149afbf4c8996fb92427ae41e4649b934ca495991b7852b855",
    "6e340b9cffb37a989ca544e6bb780a2c78901d3fb33738768511a30617afa01d",
    "fac54203e7cc696cf0dfcb42c92a1d9dbaf70ad9e621f4bd8d98662f00e3c125",
    "aeb6bcfe274b70a14fb067a5e5578264db0fa9b51af5e0ba159158f329e06e77",
    "d37ee418976dd95753c1c73862b9398fa2a2cf9b4ff0fdfe8b30cd95209614b7",
    "4e3bbb1f7b478dcfe71fb631631519a3bca12c9aefca1612bfce4c13a86264d4",
    "76e67dadbcdf1e10e1b74ddc608abd2f98dfb16fbce75277b5232a127f2087ef",
    "ddb89be403809e325750d3d263cd78929c2942b7942a34b77e122c9594a74c8c",
    "5dc9da79a70659a9ad559cb701ded9a2ab9d823aad2f4960cfe370eff4604328",
];

#[test]
fn published_roots() {
    let entries: Vec<Vec<u8>> = ENTRIES.iter().map(|entry| bytes(entry)).collect();
    for n in 0..=8 {
        assert_eq!(hex(&root(&entries[..n])), ROOTS[n], "{n} entries");
    }
}

/// A published path: that of entry 5 in the tree over all eight.
#[test]
fn published_path() {
    let entries: Vec<Vec<u8>> = ENTRIES.iter().map(|entry| bytes(entry)).collect();
    let expected = [
        "bc1a0643b12e4d2d7c77918f44e0f4f79a838b6cf9ec5b5c283e1f4d88599e6b",
        "ca854ea128ed050b41b35ffc1b87b8eb2bde461e9e3b5596ece6b9d5975a0ae0",
        "d37ee418976dd95753c1c73862b9398fa2a2cf9b4ff0fdfe8b30cd95209614b7",
    ];
    assert_eq!(path(5, &entries).iter().map(|digest| hex(digest)).collect::<Vec<_>>(), expected);
}

// ---- Trees over values

fn element(number: u32) -> Element {
    Element::new(number).unwrap()
}

/// Position and value take four bytes each, lowest first.
#[test]
fn entries_by_hand() {
    assert_eq!(entry(0, element(5)), [0, 0, 0, 0, 5, 0, 0, 0]);
    assert_eq!(entry(258, element(P - 1)), [2, 1, 0, 0, 0, 0, 0, 0x78]);
    assert_eq!(entry(0x01020304, element(0x05060708)), [4, 3, 2, 1, 8, 7, 6, 5]);
    let w = [vec![element(7)], vec![ZERO; 63]].concat();
    let all = entries(&codeword(&built_in_points(64), &w));
    assert_eq!(all.len(), 256);
    assert_eq!([all[0], all[255]], [[0, 0, 0, 0, 7, 0, 0, 0], [255, 0, 0, 0, 7, 0, 0, 0]]);
}

/// Trees over two and four values, with each hashed string written out.
#[test]
fn trees_by_hand() {
    let entries = entries(&[1, 2, 3, P - 1].map(element));
    let leaves: Vec<Digest> = vec![
        digest(&[0x00, 0, 0, 0, 0, 1, 0, 0, 0]),
        digest(&[0x00, 1, 0, 0, 0, 2, 0, 0, 0]),
        digest(&[0x00, 2, 0, 0, 0, 3, 0, 0, 0]),
        digest(&[0x00, 3, 0, 0, 0, 0, 0, 0, 0x78]),
    ];
    let joined = |left: &Digest, right: &Digest| {
        let mut message = vec![0x01];
        message.extend(left);
        message.extend(right);
        digest(&message)
    };
    let left = joined(&leaves[0], &leaves[1]);
    let right = joined(&leaves[2], &leaves[3]);
    assert_eq!(root(&entries[..2]), left);
    assert_eq!(root(&entries), joined(&left, &right));
    assert_eq!(leaf(&entries[3]), leaves[3]);
    assert_eq!(node(&left, &right), joined(&left, &right));
    assert_eq!(path(1, &entries), [leaves[0], right]);
    assert_eq!(path(2, &entries), [leaves[3], left]);
}

/// An opening leads to the root at its own position, and elsewhere at every other one: also where all values are
/// equal, and also at a position that gives the same sides.
#[test]
fn openings_lead_to_the_root() {
    for values in [[7; 16].map(element), std::array::from_fn(|i| element(77 * i as u32))] {
        let entries = entries(&values);
        for (position, value) in values.into_iter().enumerate() {
            let path = path(position, &entries);
            for other in 0..32 {
                let led = leads_to(&entry(other, value), other, &path);
                assert_eq!(led.digest == root(&entries), other == position, "{position} at {other}");
            }
            let another = value + element(1);
            assert_ne!(leads_to(&entry(position, another), position, &path).digest, root(&entries));
        }
    }
}

/// One block for the leaf of nine bytes and two for each inner node of 65, wherever the opening leads.
#[test]
fn blocks_of_openings() {
    for depth in 0..=8 {
        let values: Vec<Element> = (0..1 << depth).map(element).collect();
        let (entries, blocks) = (entries(&values), 1 + 2 * depth as u64);
        for (position, own) in values.iter().enumerate() {
            let path = path(position, &entries);
            assert_eq!(path.len(), depth);
            for value in [*own, element(P - 1)] {
                assert_eq!(leads_to(&entry(position, value), position, &path).blocks, blocks);
            }
        }
    }
}
