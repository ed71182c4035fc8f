//! The build script's SHA-256 against the standard's own examples (FIPS 180-4) and the lengths around a block.

#[path = "../build/sha256.rs"]
mod sha256;

#[test]
fn examples_of_the_standard() {
    let two_blocks = "abcdbcdecdefdefgefghfghighijhijkijkljklmklmnlmnomnopnopq";
    for (message, digest) in [
        ("", "e3b0c44298fc1c149afbf4c8996fb92427ae41e4649b934ca495991b7852b855"),
        ("abc", "ba7816bf8f01cfea414140de5dae2223b00361a396177a9cb410ff61f20015ad"),
        (two_blocks, "248d6a61d20638b8e5c026930c3e6039a33ce45964ff2167f6ecedd419db06c1"),
    ] {
        assert_eq!(sha256::digest(message.as_bytes()), digest);
    }
}

#[test]
fn a_million_letters() {
    let expected = "cdc76e5c9914fb9281a1c7e284d73e67f1809a48a497200e046d39ccc7112cd0";
    assert_eq!(sha256::digest(&[b'a'; 1_000_000]), expected);
}
