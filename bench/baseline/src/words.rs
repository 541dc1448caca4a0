//! Words of eight bytes of a text, by which the end of a field is sought, and texts are told apart.

/// The bytes of a word.
pub const WORD: usize = 8;
const LOWEST_BITS: u64 = 0x0101_0101_0101_0101;
const HIGHEST_BITS: u64 = 0x8080_8080_8080_8080;
const MULTIPLIER: u64 = 0x9E37_79B9_7F4A_7C15;
const OTHER_MULTIPLIER: u64 = 0x8EBC_6AF0_9C88_C6E3;
/// A text of so many bytes is longer than its key holds.
const LONG: usize = 16;
const LONG_MARK: u64 = 0xFF << 56;

/// The eight bytes from a place on; line ends stand for those behind the end of the text.
#[inline(always)]
pub fn word_at(text: &[u8], place: usize) -> u64 {
    match text.get(place..place + 8) {
        Some(bytes) => u64::from_le_bytes(bytes.try_into().expect("eight bytes")),
        None => last_word(text, place),
    }
}

#[cold]
fn last_word(text: &[u8], place: usize) -> u64 {
    let rest = text.get(place..).unwrap_or_default();
    let mut bytes = [b'\n'; 8];
    bytes[..rest.len()].copy_from_slice(rest);
    u64::from_le_bytes(bytes)
}

/// The first bytes of a word, up to eight, and zeros in place of the others.
#[inline(always)]
fn first_bytes(word: u64, count: usize) -> u64 {
    word & u64::MAX.checked_shr(64 - 8 * count as u32).unwrap_or(0)
}

#[inline(always)]
pub fn ends_field(byte: u8) -> bool {
    matches!(byte, b',' | b'\n' | b'\r')
}

/// The end of the field without quotes that begins at a place, and whether a byte of it is not ASCII.
#[inline(always)]
pub fn field_end(text: &[u8], begin: usize) -> (usize, bool) {
    let mut place = begin;
    let mut bits = 0;
    loop {
        let word = word_at(text, place);
        if let Some(end) = end_within(word) {
            bits |= word & (end - 1);
            return (place + byte_of(end), bits & HIGHEST_BITS != 0);
        }
        bits |= word;
        place += 8;
    }
}

/// The highest bit of the first byte in a word that ends a field. No such byte is above a comma, and of the
/// others at or below it few stand in most texts: those are found first, all at once.
#[inline(always)]
fn end_within(word: u64) -> Option<u64> {
    let above = LOWEST_BITS * (b',' as u64 + 1);
    let mut found = word.wrapping_sub(above) & !word & HIGHEST_BITS;
    while found != 0 {
        let first = found & found.wrapping_neg();
        if ends_field((word >> (8 * byte_of(first))) as u8) {
            return Some(first);
        }
        found ^= first;
    }
    None
}

/// The place in a word of the byte of a bit.
#[inline(always)]
fn byte_of(bit: u64) -> usize {
    bit.trailing_zeros() as usize / 8
}

/// The end of the field at a place, if it is empty or a number of a few digits. Where a minus is allowed, one
/// may stand before them.
#[inline(always)]
pub fn short_number_end(text: &[u8], place: usize, with_minus: bool) -> Option<usize> {
    let word = word_at(text, place);
    let sign = usize::from(with_minus && word as u8 == b'-');
    let word = word >> (8 * sign);
    // A digit becomes its number, and a byte above 9 gets or keeps its highest bit. What is carried from one
    // changes only those behind it.
    let numbers = word ^ (LOWEST_BITS * b'0' as u64);
    let others = (numbers.wrapping_add(LOWEST_BITS * (0x7F - 9)) | numbers) & HIGHEST_BITS;
    if others == 0 {
        return None;
    }
    let count = byte_of(others);
    let is_whole = ends_field((word >> (8 * count)) as u8) && (count > 0 || sign == 0);
    is_whole.then_some(place + sign + count)
}

/// The key of the text between two places: its bytes with their number, or of a long one the first eight
/// and a hash of all. Keys of texts that are not long are equal only where the texts are.
#[inline(always)]
pub fn key_of_text(text: &[u8], begin: usize, end: usize) -> u128 {
    let length = end - begin;
    let low = word_at(text, begin);
    let (low, high) = if length < LONG {
        let high = first_bytes(word_at(text, begin + 8), length.saturating_sub(8));
        (
            first_bytes(low, length.min(8)),
            high | (length as u64) << 56,
        )
    } else {
        (low, hash_of_text(&text[begin..end]) | LONG_MARK)
    };
    u128::from(low) | u128::from(high) << 64
}

#[inline(always)]
pub fn is_long(key: u128) -> bool {
    (key >> 64) as u64 >= LONG_MARK
}

/// The bytes of a text that is not long, and their number.
pub fn short_text(key: u128) -> ([u8; 16], usize) {
    let bytes = key.to_le_bytes();
    (bytes, bytes[15].into())
}

/// Appends the first bytes of sixteen, all of which are copied, which needs no loop.
#[inline(always)]
pub fn append_first(count: usize, block: &[u8; 16], bytes: &mut Vec<u8>) {
    let end = bytes.len() + count;
    bytes.extend_from_slice(block);
    bytes.truncate(end);
}

fn hash_of_text(text: &[u8]) -> u64 {
    let words = (0..text.len()).step_by(8);
    words.fold(text.len() as u64, |hash, place| {
        folded(hash ^ word_at(text, place), MULTIPLIER)
    })
}

/// A hash of bytes that are whole words, two of them at a time. A last product ends it, since texts that are much
/// alike are not spread well by one alone.
#[inline(always)]
pub fn hash_of_words(bytes: &[u8]) -> u64 {
    let mut pairs = bytes.chunks_exact(2 * WORD);
    let hash = pairs.by_ref().fold(bytes.len() as u64, |hash, pair| {
        folded(word_at(pair, 0) ^ MULTIPLIER, word_at(pair, WORD) ^ hash)
    });
    let last = match pairs.remainder() {
        [] => 0,
        word => word_at(word, 0),
    };
    folded(hash ^ last, OTHER_MULTIPLIER)
}

#[inline(always)]
pub fn hash_of_key(key: u128) -> u64 {
    folded(
        key as u64 ^ MULTIPLIER,
        (key >> 64) as u64 ^ OTHER_MULTIPLIER,
    )
}

/// The product of two words, its high half folded into the low one.
#[inline(always)]
fn folded(left: u64, right: u64) -> u64 {
    let product = u128::from(left) * u128::from(right);
    product as u64 ^ (product >> 64) as u64
}
