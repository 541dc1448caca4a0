//! Keys whose hashes share bits, and keys of the same form by chance. A key is its cells.

use crate::draw::{is_plain, Draw};
use crate::hash::{mixed, null_hash, unmixed, with_word, word_between};

/// What keys are crafted for.
#[derive(Clone, Copy)]
pub enum Kind {
    /// Numbers whose hashes are these, each for its place.
    Numbers(fn(u64) -> u64),
    /// Texts of so many words of eight bytes whose hashes share their low 22 bits.
    Texts(usize),
    /// Two numbers whose bytes as a row share the low 32 bits of their hashes.
    Pairs,
    /// Texts of 16 bytes that share one hash of a product that is folded, as maps with a fixed seed have it.
    FoldedTexts,
}

/// The words that name the kinds, with the header of the keys.
pub const KINDS: [(&str, &str, Kind); 9] = [
    ("low", "k:i64", Kind::Numbers(low)),
    ("high", "k:i64", Kind::Numbers(high)),
    ("ends", "k:i64", Kind::Numbers(ends)),
    ("text1", "k:str", Kind::Texts(1)),
    ("text2", "k:str", Kind::Texts(2)),
    ("text3", "k:str", Kind::Texts(3)),
    ("pairs", "k:i64,j:i64", Kind::Pairs),
    ("categories", "k:cat", Kind::Texts(2)),
    ("folded", "k:cat", Kind::FoldedTexts),
];

/// Hashes that share their low 32 bits.
fn low(place: u64) -> u64 {
    place << 32 | 0x9ABC_DEF0
}

/// Hashes that share their high bits.
fn high(place: u64) -> u64 {
    0x1234_5678 << 32 | place
}

/// Hashes that share all but their middle bits.
fn ends(place: u64) -> u64 {
    place << 22 | 0x3C_DEF0
}

/// So many crafted keys, all different.
pub fn crafted(kind: Kind, count: usize, draw: &mut Draw) -> Vec<Vec<u8>> {
    match kind {
        Kind::Numbers(hash) => (0..count as u64).map(|place| number(hash(place))).collect(),
        Kind::Texts(words) => texts(count, words, draw),
        Kind::Pairs => (0..).filter_map(pair).take(count).collect(),
        Kind::FoldedTexts => std::iter::repeat_with(|| folded_text(draw))
            .flatten()
            .take(count)
            .collect(),
    }
}

/// So many keys of the same form by chance.
pub fn by_chance(kind: Kind, count: usize, draw: &mut Draw) -> Vec<Vec<u8>> {
    let one = |_| match kind {
        Kind::Numbers(_) => cells(&[draw.word() as i64]),
        Kind::Texts(words) => draw.text(8 * words),
        Kind::Pairs => cells(&[(draw.word() & 0xFF) as i64, draw.word() as i64]),
        Kind::FoldedTexts => draw.text(16),
    };
    (0..count).map(one).collect()
}

fn cells(numbers: &[i64]) -> Vec<u8> {
    let texts: Vec<String> = numbers.iter().map(i64::to_string).collect();
    texts.join(",").into_bytes()
}

/// The number with a hash.
fn number(hash: u64) -> Vec<u8> {
    cells(&[word_between(0, hash) as i64])
}

fn is_text(word: u64) -> bool {
    word.to_le_bytes().into_iter().all(is_plain)
}

/// Texts that differ in their last word alone.
fn texts(count: usize, words: usize, draw: &mut Draw) -> Vec<Vec<u8>> {
    let front = draw.text(8 * (words - 1));
    let before = front
        .chunks_exact(8)
        .fold(null_hash(), |hash, word| with_word(hash, word_of(word)));
    let length = mixed(8 * words as u64);
    let last_word = |place: u64| unmixed(unmixed(unmixed(ends(place)) ^ length) ^ before);
    let words = (0..).map(last_word).filter(|word| is_text(*word));
    words
        .take(count)
        .map(|word| [front.as_slice(), &word.to_le_bytes()].concat())
        .collect()
}

fn word_of(bytes: &[u8]) -> u64 {
    bytes
        .iter()
        .rev()
        .fold(0, |word, byte| word << 8 | u64::from(*byte))
}

/// A pair of numbers with the low bits of a hash, unless their bytes are those of no row. A row has a byte of 1
/// and the eight bytes of the number from the greatest on, its sign turned, for each: 18 in three words, of which
/// the last is 0 where the second number ends so.
fn pair(place: u64) -> Option<Vec<u8>> {
    let before = with_word(null_hash(), u64::from_le_bytes([1, 0x80, 0, 0, 0, 0, 0, 0]));
    let third = unmixed(unmixed(low(place)) ^ mixed(18)) ^ mixed(0);
    let second = unmixed(unmixed(third) ^ before);
    let is_row = second & 0xFF00 == 0x0100;
    let right = (second.swap_bytes() << 16) ^ 1 << 63;
    is_row.then(|| cells(&[(second & 0xFF) as i64, right as i64]))
}

/// A text of 16 bytes of that one hash, where what is drawn gives one.
fn folded_text(draw: &mut Draw) -> Option<Vec<u8>> {
    let front = draw.word() & 0x7F7F_7F7F_7F7F_7F7F;
    let product = u128::from(front ^ 0x243F_6A88_85A3_08D3) * 0x9E37_79B9_7F4A_7C15;
    let back = (product as u64) ^ (product >> 64) as u64 ^ 0x1234_5678_9ABC_DEF0;
    (is_text(front) && is_text(back)).then(|| [front.to_le_bytes(), back.to_le_bytes()].concat())
}
