//! The SHA-256 of the example `fold_sheet`: vectors of FIPS 180-4, and the reference beside it.

#[path = "../examples/fold_sheet/sha256.rs"]
mod sha256;

/// The examples of FIPS 180-4 with one block and with two, and the message of no bytes.
#[test]
fn vectors() {
    let hex = |message: &str| -> String {
        sha256::digest(message.as_bytes()).iter().map(|byte| format!("{byte:02x}")).collect()
    };
    assert_eq!(hex("abc"), "ba7816bf8f01cfea414140de5dae2223b00361a396177a9cb410ff61f20015ad");
    assert_eq!(
        hex("abcdbcdecdefdefgefghfghighijhijkijkljklmklmnlmnomnopnopq"),
        "248d6a61d20638b8e5c026930c3e6039a33ce45964ff2167f6ecedd419db06c1"
    );
    assert_eq!(hex(""), "e3b0c44298fc1c149afbf4c8996fb92427ae41e4649b934ca495991b7852b855");
}

/// Each length of up to four blocks, so that the padding begins at each place of a block.
#[test]
fn beside_the_reference() {
    let message: Vec<u8> = (0..=255).collect();
    for length in 0..=message.len() {
        let message = &message[..length];
        assert_eq!(sha256::digest(message), lomvuze_reference::sha256::digest(message), "{length} bytes");
    }
}
