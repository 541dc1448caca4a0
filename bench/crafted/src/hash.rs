//! The hashes of keys under the seed 0, and back from a hash to the word that has it.

const FIRST: u64 = 0xBF58_476D_1CE4_E5B9;
const SECOND: u64 = 0x94D0_49BB_1331_11EB;
const FIRST_BACK: u64 = inverse(FIRST);
const SECOND_BACK: u64 = inverse(SECOND);
const NULL_MARK: u64 = 3_188_347_919;

/// The number whose product with an odd one is 1. Each step doubles how many low bits are right.
const fn inverse(odd: u64) -> u64 {
    let mut found = odd;
    let mut right_bits = 3;
    while right_bits < 64 {
        found = found.wrapping_mul(2u64.wrapping_sub(odd.wrapping_mul(found)));
        right_bits *= 2;
    }
    found
}

fn folded(word: u64, bits: u32) -> u64 {
    word ^ (word >> bits)
}

fn unfolded(word: u64, bits: u32) -> u64 {
    (0..64 / bits).fold(word, |found, _| word ^ (found >> bits))
}

/// The mixing function of the hashes.
pub fn mixed(word: u64) -> u64 {
    let first = folded(word, 30).wrapping_mul(FIRST);
    folded(folded(first, 27).wrapping_mul(SECOND), 31)
}

/// The word that is mixed to this one.
pub fn unmixed(word: u64) -> u64 {
    let second = unfolded(word, 31).wrapping_mul(SECOND_BACK);
    unfolded(unfolded(second, 27).wrapping_mul(FIRST_BACK), 30)
}

/// The hash once a word more is told.
pub fn with_word(before: u64, word: u64) -> u64 {
    mixed(before ^ mixed(word))
}

/// The word that leads from one hash to another.
pub fn word_between(before: u64, after: u64) -> u64 {
    unmixed(unmixed(after) ^ before)
}

/// The hash of a null, from which texts begin.
pub fn null_hash() -> u64 {
    with_word(0, with_word(0, NULL_MARK))
}
