// The hash step of RFC 2289 with SHA-1 (RFC 3174), in plain Rust.

const FIRST: [u32; 5] = [0x67452301, 0xefcdab89, 0x98badcfe, 0x10325476, 0xc3d2e1f0];

/// What is added in each of the four rounds.
const ADDED: [u32; 4] = [0x5a827999, 0x6ed9eba1, 0x8f1bbcdc, 0xca62c1d6];

#[inline(always)]
fn mixed(round: usize, b: u32, c: u32, d: u32) -> u32 {
    match round {
        0 => (b & c) | (!b & d),
        2 => (b & c) | (b & d) | (c & d),
        _ => b ^ c ^ d,
    }
}

/// The 80 words of a block.
fn stretched(block: [u32; 16]) -> [u32; 80] {
    let mut words = [0; 80];
    words[..16].copy_from_slice(&block);
    for i in 16..80 {
        words[i] = (words[i - 3] ^ words[i - 8] ^ words[i - 14] ^ words[i - 16]).rotate_left(1);
    }
    words
}

/// The SHA-1 of a block that is the whole message with what stands after it, folded to eight bytes. The first byte is
/// the most significant.
pub fn folded(block: [u32; 16]) -> u64 {
    let words = stretched(block);
    let [mut a, mut b, mut c, mut d, mut e] = FIRST;
    for round in 0..4 {
        for word in &words[20 * round..20 * round + 20] {
            let sum = a
                .rotate_left(5)
                .wrapping_add(mixed(round, b, c, d))
                .wrapping_add(e)
                .wrapping_add(*word)
                .wrapping_add(ADDED[round]);
            (a, b, c, d, e) = (sum, a, b.rotate_left(30), c, d);
        }
    }
    let behind = [a, b, c, d, e];
    let hash: [u32; 5] = std::array::from_fn(|place| FIRST[place].wrapping_add(behind[place]));
    let halves = [hash[0] ^ hash[2] ^ hash[4], hash[1] ^ hash[3]].map(|half| u64::from(half.swap_bytes()));
    halves[0] << 32 | halves[1]
}

/// The password that follows from a password: the SHA-1 of its eight bytes, folded to eight.
pub fn step(password: u64) -> u64 {
    let mut block = [0; 16];
    block[0] = (password >> 32) as u32;
    block[1] = password as u32;
    block[2] = 1 << 31;
    block[15] = 64;
    folded(block)
}
