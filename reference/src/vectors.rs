//! Messages whose digests are known from elsewhere.

/// A message and its digest in hexadecimal digits.
pub struct Vector {
    pub name: &'static str,
    pub message: Vec<u8>,
    pub digest: &'static str,
}

/// Five that NIST has published with their digests.
pub fn published() -> Vec<Vector> {
    vec![
        Vector {
            name: "the empty message",
            message: Vec::new(),
            digest: "e3b0c44298fc1c149afbf4c8996fb92427ae41e4649b934ca495991b7852b855",
        },
        Vector {
            name: "abc",
            message: b"abc".to_vec(),
            digest: "ba7816bf8f01cfea414140de5dae2223b00361a396177a9cb410ff61f20015ad",
        },
        Vector {
            name: "448 bits",
            message: b"abcdbcdecdefdefgefghfghighijhijkijkljklmklmnlmnomnopnopq".to_vec(),
            digest: "248d6a61d20638b8e5c026930c3e6039a33ce45964ff2167f6ecedd419db06c1",
        },
        Vector {
            name: "896 bits",
            message: b"abcdefghbcdefghicdefghijdefghijkefghijklfghijklmghijklmn\
                hijklmnoijklmnopjklmnopqklmnopqrlmnopqrsmnopqrstnopqrstu"
                .to_vec(),
            digest: "cf5b16a778af8380036ce59e7b0492370b249b11e8f07a51afac45037afee9d1",
        },
        Vector {
            name: "one million times a",
            message: vec![b'a'; 1_000_000],
            digest: "cdc76e5c9914fb9281a1c7e284d73e67f1809a48a497200e046d39ccc7112cd0",
        },
    ]
}

/// Lengths at which the padding just fits into a block or just doesn't; digests by Python's hashlib.
pub fn at_block_edges() -> Vec<Vector> {
    [
        ("55 bytes", 55, "8aa994584139d128848eeebc4e815639ba5ab6e6e39574195a63ac4f14f7c43b"),
        ("56 bytes", 56, "ad574708f75c044c9b85de64cb568ee7711ff4f36448c6242f053ba8f6cc2b63"),
        ("63 bytes", 63, "280ed3e8ff1df845b2e7dfe6ac6cee817bef20e783cc65abc41b818b4d2fe076"),
        ("64 bytes", 64, "c6ab9724ade5b6a7a1edfffb12f3aa9181351355af8fd08c919952ad211339dd"),
        ("119 bytes", 119, "3d610547d68216dedf7435a4fb6260353911f6b3fd3f18805ddb8be285d726fe"),
        ("120 bytes", 120, "1f80156a804cb7862ad113e8200e9d74499723e7c7854d5f48776d3148e09656"),
        ("127 bytes", 127, "192409cd280e14b743642ad1343fbd3e82d9305de72c078117745a679210cc3d"),
        ("128 bytes", 128, "cc548ca2dec1f6fe4f58b2e27aa9c7521607df1130d140b55a4dad0665302356"),
    ]
    .map(|(name, length, digest)| Vector { name, message: pattern(length), digest })
    .into()
}

/// `length` bytes of which byte i is 31 i + 7, modulo 256.
pub fn pattern(length: usize) -> Vec<u8> {
    (0..length).map(|i| (i * 31 + 7) as u8).collect()
}
