//! FNV-1a of 64 bits, over bytes and over the little-endian bytes of words; and of a generator's own parts.

use vrd_original::{Random, RngBackend};

pub struct Digest(u64);

impl Digest {
    pub fn new() -> Self {
        Self(0xCBF2_9CE4_8422_2325)
    }

    pub fn byte(&mut self, byte: u8) {
        self.0 = (self.0 ^ u64::from(byte)).wrapping_mul(0x0000_0100_0000_01B3);
    }

    pub fn word(&mut self, word: u32) {
        for byte in word.to_le_bytes() {
            self.byte(byte);
        }
    }

    pub fn words(words: impl IntoIterator<Item = u32>) -> u64 {
        let mut digest = Self::new();
        for word in words {
            digest.word(word);
        }
        digest.0
    }

    pub fn bytes(bytes: &[u8]) -> u64 {
        let mut digest = Self::new();
        for &byte in bytes {
            digest.byte(byte);
        }
        digest.0
    }
}

/// Of the kind, the four small words (low half first), the twister's position, and for the twister its table.
pub fn of_generator(g: &Random) -> u64 {
    let (kind, small, position, table): (u32, [u64; 4], usize, &[u32]) = match g.backend() {
        RngBackend::Xoshiro256PlusPlus(x) => (0, x.parts(), 0, &[]),
        RngBackend::MersenneTwister(t) => (1, [0; 4], t.mti, &t.mt),
        RngBackend::Pcg32(p) => (2, [p.parts().0, p.parts().1, 0, 0], 0, &[]),
        RngBackend::Pcg64(p) => {
            let (state, inc) = p.parts();
            (3, [(state >> 64) as u64, state as u64, (inc >> 64) as u64, inc as u64], 0, &[])
        }
        _ => unreachable!("the original is built with four kinds"),
    };
    let position = u32::try_from(position).expect("positions are set to 32-bit numbers only");
    let halves = small.into_iter().flat_map(|word| [word as u32, (word >> 32) as u32]);
    Digest::words([kind].into_iter().chain(halves).chain([position]).chain(table.iter().copied()))
}

#[cfg(test)]
mod tests {
    use super::Digest;

    /// The authors' test vectors of FNV-1a, 64 bits.
    #[test]
    fn published_digests() {
        for (text, digest) in [("", 0xCBF2_9CE4_8422_2325), ("a", 0xAF63_DC4C_8601_EC8C), ("foobar", 0x8594_4171_F739_67E8)] {
            assert_eq!(Digest::bytes(text.as_bytes()), digest);
        }
        assert_eq!(Digest::words([u32::from_le_bytes(*b"foob")]), Digest::bytes(b"foob"));
    }
}
