// The hash step of RFC 2289 with MD5 (RFC 1321), in plain Rust. MD5's 64 steps are written out by a macro: the compiler
// doesn't unroll a loop over them, and it takes six times the instructions.

const SHIFTS: [[u32; 4]; 4] = [[7, 12, 17, 22], [5, 9, 14, 20], [4, 11, 16, 23], [6, 10, 15, 21]];

/// What is added in each step: the whole part of 2^32 times the sine of 1 to 64.
const SINES: [u32; 64] = [
    0xd76aa478, 0xe8c7b756, 0x242070db, 0xc1bdceee, 0xf57c0faf, 0x4787c62a, 0xa8304613, 0xfd469501,
    0x698098d8, 0x8b44f7af, 0xffff5bb1, 0x895cd7be, 0x6b901122, 0xfd987193, 0xa679438e, 0x49b40821,
    0xf61e2562, 0xc040b340, 0x265e5a51, 0xe9b6c7aa, 0xd62f105d, 0x02441453, 0xd8a1e681, 0xe7d3fbc8,
    0x21e1cde6, 0xc33707d6, 0xf4d50d87, 0x455a14ed, 0xa9e3e905, 0xfcefa3f8, 0x676f02d9, 0x8d2a4c8a,
    0xfffa3942, 0x8771f681, 0x6d9d6122, 0xfde5380c, 0xa4beea44, 0x4bdecfa9, 0xf6bb4b60, 0xbebfbc70,
    0x289b7ec6, 0xeaa127fa, 0xd4ef3085, 0x04881d05, 0xd9d4d039, 0xe6db99e5, 0x1fa27cf8, 0xc4ac5665,
    0xf4292244, 0x432aff97, 0xab9423a7, 0xfc93a039, 0x655b59c3, 0x8f0ccc92, 0xffeff47d, 0x85845dd1,
    0x6fa87e4f, 0xfe2ce6e0, 0xa3014314, 0x4e0811a1, 0xf7537e82, 0xbd3af235, 0x2ad7d2bb, 0xeb86d391,
];

const FIRST: [u32; 4] = [0x67452301, 0xefcdab89, 0x98badcfe, 0x10325476];

#[inline(always)]
fn mixed(round: usize, b: u32, c: u32, d: u32) -> u32 {
    match round {
        0 => (b & c) | (!b & d),
        1 => (b & d) | (c & !d),
        2 => b ^ c ^ d,
        _ => c ^ (b | !d),
    }
}

#[inline(always)]
fn word_of(round: usize, step: usize) -> usize {
    match round {
        0 => step,
        1 => (5 * step + 1) % 16,
        2 => (3 * step + 5) % 16,
        _ => 7 * step % 16,
    }
}

/// The state after a step of a round.
#[inline(always)]
fn turned([a, b, c, d]: [u32; 4], words: &[u32; 16], round: usize, step: usize) -> [u32; 4] {
    let sum = a
        .wrapping_add(mixed(round, b, c, d))
        .wrapping_add(SINES[16 * round + step])
        .wrapping_add(words[word_of(round, step)]);
    [d, b.wrapping_add(sum.rotate_left(SHIFTS[round][step % 4])), b, c]
}

macro_rules! turn {
    ($state:ident, $words:ident, $round:literal) => {
        turn!($state, $words, $round, 0 1 2 3 4 5 6 7 8 9 10 11 12 13 14 15)
    };
    ($state:ident, $words:ident, $round:literal, $($step:literal)*) => {
        $($state = turned($state, &$words, $round, $step);)*
    };
}

/// The MD5 of a block that is the whole message with what stands after it, folded to eight bytes. The first byte is
/// the most significant.
#[inline(always)]
pub fn folded(words: [u32; 16]) -> u64 {
    let mut state = FIRST;
    turn!(state, words, 0);
    turn!(state, words, 1);
    turn!(state, words, 2);
    turn!(state, words, 3);
    let [a, b, c, d] = [0, 1, 2, 3].map(|place| u64::from(FIRST[place].wrapping_add(state[place])));
    ((a | b << 32) ^ (c | d << 32)).swap_bytes()
}

/// The password that follows from a password: the MD5 of its eight bytes, folded to eight.
pub fn step(password: u64) -> u64 {
    let bytes = password.swap_bytes();
    let mut words = [0u32; 16];
    words[0] = bytes as u32;
    words[1] = (bytes >> 32) as u32;
    words[2] = 0x80;
    words[14] = 64;
    folded(words)
}
