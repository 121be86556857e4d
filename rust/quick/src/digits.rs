//! Hexadecimal digits that are written.

/// The digits of a word, all eight at once: each half of a byte gets a byte of its own, and all of
/// them become characters. The lowest byte of the sums is the first digit, so that nothing is turned
/// round after them and the compiler can do two words side by side.
pub fn digits(word: u32) -> [u8; 8] {
    const EACH: u64 = 0x0101_0101_0101_0101;
    let mut halves = u64::from(word.swap_bytes());
    halves = (halves << 16 | halves) & 0x0000_FFFF_0000_FFFF;
    halves = (halves << 8 | halves) & 0x00FF_00FF_00FF_00FF;
    halves = (halves << 8 | halves >> 4) & (15 * EACH);
    // 1 for each letter: 10 and above reach 16 by 6.
    let letters = (halves + 6 * EACH) >> 4 & EACH;
    let from_9_to_a = u64::from(b'A' - b'9' - 1);
    (halves + u64::from(b'0') * EACH + from_9_to_a * letters).to_le_bytes()
}
