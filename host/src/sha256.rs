//! SHA-256 as FIPS 180-4 has it, so that `sha256sum` can test what this program wrote.

/// Bytes that are taken at a time.
const BLOCK: usize = 64;

/// A sum in the making.
pub struct Sha256 {
    state: [u32; 8],
    /// Bytes that came so far, those that wait in `rest` included.
    length: u64,
    /// The bytes after the last whole block, in its front.
    rest: [u8; BLOCK],
}

/// The sum of these bytes.
pub fn sum(bytes: &[u8]) -> [u8; 32] {
    let mut sum = Sha256::new();
    sum.update(bytes);
    sum.finish()
}

/// A sum as `sha256sum` prints it.
pub fn hex(sum: &[u8; 32]) -> String {
    sum.iter().map(|byte| format!("{byte:02x}")).collect()
}

impl Sha256 {
    pub fn new() -> Sha256 {
        Sha256 {
            state: FIRST,
            length: 0,
            rest: [0; BLOCK],
        }
    }

    pub fn update(&mut self, mut bytes: &[u8]) {
        let waiting = (self.length % BLOCK as u64) as usize;
        self.length += bytes.len() as u64;
        if waiting > 0 {
            let taken = bytes.len().min(BLOCK - waiting);
            self.rest[waiting..waiting + taken].copy_from_slice(&bytes[..taken]);
            bytes = &bytes[taken..];
            if waiting + taken < BLOCK {
                return;
            }
            compress(&mut self.state, &self.rest);
        }
        let whole = bytes.len() - bytes.len() % BLOCK;
        compress(&mut self.state, &bytes[..whole]);
        self.rest[..bytes.len() - whole].copy_from_slice(&bytes[whole..]);
    }

    /// Closes the sum by a bit, zeros and the number of bits.
    pub fn finish(mut self) -> [u8; 32] {
        let bits = self.length.wrapping_mul(8).to_be_bytes();
        let waiting = (self.length % BLOCK as u64) as usize;
        let zeros = (2 * BLOCK - 9 - waiting) % BLOCK;
        self.update(&[0x80]);
        self.update(&[0; BLOCK][..zeros]);
        self.update(&bits);
        let mut sum = [0; 32];
        for (bytes, word) in sum.chunks_exact_mut(4).zip(self.state) {
            bytes.copy_from_slice(&word.to_be_bytes());
        }
        sum
    }
}

impl Default for Sha256 {
    fn default() -> Sha256 {
        Sha256::new()
    }
}

/// Takes whole blocks in, by the processor's own instructions where it has them.
fn compress(state: &mut [u32; 8], blocks: &[u8]) {
    #[cfg(target_arch = "x86_64")]
    if fast::available() {
        // SAFETY: the processor has what the function is compiled for.
        return unsafe { fast::compress(state, blocks) };
    }
    plain(state, blocks);
}

/// The same without such instructions.
fn plain(state: &mut [u32; 8], blocks: &[u8]) {
    for block in blocks.chunks_exact(BLOCK) {
        let words = schedule(block);
        let mut now = *state;
        for (word, key) in words.iter().zip(KEYS) {
            now = round(now, word.wrapping_add(key));
        }
        for (word, more) in state.iter_mut().zip(now) {
            *word = word.wrapping_add(more);
        }
    }
}

/// The 64 words that a block gives.
fn schedule(block: &[u8]) -> [u32; 64] {
    let mut words = [0; 64];
    for (word, bytes) in words.iter_mut().zip(block.chunks_exact(4)) {
        *word = u32::from_be_bytes(bytes.try_into().expect("four bytes"));
    }
    for t in 16..64 {
        let (x, y) = (words[t - 15], words[t - 2]);
        let low = x.rotate_right(7) ^ x.rotate_right(18) ^ (x >> 3);
        let high = y.rotate_right(17) ^ y.rotate_right(19) ^ (y >> 10);
        let sum = low.wrapping_add(words[t - 7]).wrapping_add(high);
        words[t] = words[t - 16].wrapping_add(sum);
    }
    words
}

/// One of the 64 rounds, with its word and key added up.
fn round([a, b, c, d, e, f, g, h]: [u32; 8], added: u32) -> [u32; 8] {
    let high = e.rotate_right(6) ^ e.rotate_right(11) ^ e.rotate_right(25);
    let chosen = (e & f) ^ (!e & g);
    let one = h
        .wrapping_add(high)
        .wrapping_add(chosen)
        .wrapping_add(added);
    let low = a.rotate_right(2) ^ a.rotate_right(13) ^ a.rotate_right(22);
    let most = (a & b) ^ (a & c) ^ (b & c);
    let two = low.wrapping_add(most);
    [one.wrapping_add(two), a, b, c, d.wrapping_add(one), e, f, g]
}

/// The instructions that x86-64 processors have for this sum.
#[cfg(target_arch = "x86_64")]
mod fast {
    use super::{BLOCK, KEYS};
    use std::arch::x86_64::*;

    pub fn available() -> bool {
        is_x86_feature_detected!("sha")
            && is_x86_feature_detected!("ssse3")
            && is_x86_feature_detected!("sse4.1")
    }

    #[target_feature(enable = "sha,ssse3,sse4.1")]
    pub fn compress(state: &mut [u32; 8], blocks: &[u8]) {
        let [a, b, c, d, e, f, g, h] = state.map(u32::cast_signed);
        // The instructions take the state in this order.
        let mut now = [_mm_set_epi32(a, b, e, f), _mm_set_epi32(c, d, g, h)];
        for block in blocks.chunks_exact(BLOCK) {
            let after = rounds(now, block);
            now = [0, 1].map(|half| _mm_add_epi32(now[half], after[half]));
        }
        let [[a, b, e, f], [c, d, g, h]] = now.map(|half| words(half));
        *state = [a, b, c, d, e, f, g, h];
    }

    /// The 64 rounds, four at a time, with the words of later rounds made on the way.
    #[target_feature(enable = "sha,ssse3,sse4.1")]
    fn rounds([mut abef, mut cdgh]: [__m128i; 2], block: &[u8]) -> [__m128i; 2] {
        let mut w = [0, 1, 2, 3].map(|n| loaded(&block[16 * n..16 * n + 16]));
        for four in 0..16 {
            let [w0, w1, w2, w3] = [0, 1, 2, 3].map(|n| w[(four + n) % 4]);
            let added = _mm_add_epi32(w0, keys(four));
            cdgh = _mm_sha256rnds2_epu32(cdgh, abef, added);
            abef = _mm_sha256rnds2_epu32(abef, cdgh, _mm_shuffle_epi32::<0x0e>(added));
            let sum = _mm_add_epi32(_mm_sha256msg1_epu32(w0, w1), _mm_alignr_epi8::<4>(w3, w2));
            w[four % 4] = _mm_sha256msg2_epu32(sum, w3);
        }
        [abef, cdgh]
    }

    /// Four words of a block, the first in the lowest lane.
    #[target_feature(enable = "sha,ssse3,sse4.1")]
    fn loaded(bytes: &[u8]) -> __m128i {
        let half = |n: usize| i64::from_le_bytes(bytes[n..n + 8].try_into().expect("eight bytes"));
        let turned = _mm_set_epi64x(0x0c0d_0e0f_0809_0a0b, 0x0405_0607_0001_0203);
        _mm_shuffle_epi8(_mm_set_epi64x(half(8), half(0)), turned)
    }

    /// The keys of four rounds, the first in the lowest lane.
    #[target_feature(enable = "sha,ssse3,sse4.1")]
    fn keys(four: usize) -> __m128i {
        let [a, b, c, d] = [0, 1, 2, 3].map(|n| KEYS[4 * four + n].cast_signed());
        _mm_set_epi32(d, c, b, a)
    }

    /// The four lanes, the highest first.
    #[target_feature(enable = "sha,ssse3,sse4.1")]
    fn words(half: __m128i) -> [u32; 4] {
        [
            _mm_extract_epi32::<3>(half),
            _mm_extract_epi32::<2>(half),
            _mm_extract_epi32::<1>(half),
            _mm_extract_epi32::<0>(half),
        ]
        .map(i32::cast_unsigned)
    }
}

/// The state before the first block.
const FIRST: [u32; 8] = [
    0x6a09e667, 0xbb67ae85, 0x3c6ef372, 0xa54ff53a, 0x510e527f, 0x9b05688c, 0x1f83d9ab, 0x5be0cd19,
];

/// A number for each round.
const KEYS: [u32; 64] = [
    0x428a2f98, 0x71374491, 0xb5c0fbcf, 0xe9b5dba5, 0x3956c25b, 0x59f111f1, 0x923f82a4, 0xab1c5ed5,
    0xd807aa98, 0x12835b01, 0x243185be, 0x550c7dc3, 0x72be5d74, 0x80deb1fe, 0x9bdc06a7, 0xc19bf174,
    0xe49b69c1, 0xefbe4786, 0x0fc19dc6, 0x240ca1cc, 0x2de92c6f, 0x4a7484aa, 0x5cb0a9dc, 0x76f988da,
    0x983e5152, 0xa831c66d, 0xb00327c8, 0xbf597fc7, 0xc6e00bf3, 0xd5a79147, 0x06ca6351, 0x14292967,
    0x27b70a85, 0x2e1b2138, 0x4d2c6dfc, 0x53380d13, 0x650a7354, 0x766a0abb, 0x81c2c92e, 0x92722c85,
    0xa2bfe8a1, 0xa81a664b, 0xc24b8b70, 0xc76c51a3, 0xd192e819, 0xd6990624, 0xf40e3585, 0x106aa070,
    0x19a4c116, 0x1e376c08, 0x2748774c, 0x34b0bcb5, 0x391c0cb3, 0x4ed8aa4a, 0x5b9cca4f, 0x682e6ff3,
    0x748f82ee, 0x78a5636f, 0x84c87814, 0x8cc70208, 0x90befffa, 0xa4506ceb, 0xbef9a3f7, 0xc67178f2,
];

#[cfg(test)]
mod tests {
    use super::*;

    /// The published examples: those of FIPS 180-4, and the sum of nothing.
    #[test]
    fn published_examples() {
        let two_blocks = b"abcdbcdecdefdefgefghfghighijhijkijkljklmklmnlmnomnopnopq";
        for (bytes, published) in [
            (
                &b""[..],
                "e3b0c44298fc1c149afbf4c8996fb92427ae41e4649b934ca495991b7852b855",
            ),
            (
                b"abc",
                "ba7816bf8f01cfea414140de5dae2223b00361a396177a9cb410ff61f20015ad",
            ),
            (
                two_blocks,
                "248d6a61d20638b8e5c026930c3e6039a33ce45964ff2167f6ecedd419db06c1",
            ),
            (
                &[b'a'; 1_000_000],
                "cdc76e5c9914fb9281a1c7e284d73e67f1809a48a497200e046d39ccc7112cd0",
            ),
        ] {
            assert_eq!(hex(&sum(bytes)), published);
        }
    }

    /// Bytes that differ from place to place.
    fn various(length: usize) -> Vec<u8> {
        (0..length).map(|n| (n * n / 7 + n) as u8).collect()
    }

    #[test]
    fn the_sum_does_not_depend_on_how_the_bytes_come() {
        let bytes = various(300);
        for length in 0..bytes.len() {
            for part in [1, 7, 63, 64, 65, 128] {
                let mut parts = Sha256::new();
                bytes[..length]
                    .chunks(part)
                    .for_each(|part| parts.update(part));
                assert_eq!(parts.finish(), sum(&bytes[..length]), "{length} by {part}");
            }
        }
    }

    #[test]
    fn both_ways_to_take_blocks_are_one() {
        let bytes = various(64 * 20);
        let (mut one, mut other) = (FIRST, FIRST);
        plain(&mut one, &bytes);
        compress(&mut other, &bytes);
        assert_eq!(one, other);
    }
}
