//! What is drawn by chance, the same in every run.

use crate::hash::mixed;

/// The bytes that stand in a table without quotes.
pub fn is_plain(byte: u8) -> bool {
    (1..128).contains(&byte) && !b",\"\r\n".contains(&byte)
}

pub struct Draw {
    state: u64,
    plain: Vec<u8>,
}

impl Draw {
    pub fn new(seed: u64) -> Draw {
        let plain = (0..=255).filter(|byte| is_plain(*byte)).collect();
        Draw { state: seed, plain }
    }

    pub fn word(&mut self) -> u64 {
        self.state = self.state.wrapping_add(0x9E37_79B9_7F4A_7C15);
        mixed(self.state)
    }

    /// A text of so many bytes, none of which wants quotes.
    pub fn text(&mut self, length: usize) -> Vec<u8> {
        (0..length).map(|_| self.plain_byte()).collect()
    }

    fn plain_byte(&mut self) -> u8 {
        let place = self.word() % self.plain.len() as u64;
        self.plain[place as usize]
    }
}
