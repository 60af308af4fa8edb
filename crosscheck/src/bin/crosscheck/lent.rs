//! Memory lent for one call, between guard zones and prefilled, so that every
//! byte a call writes, and every byte it should have left, can be compared.

use std::sync::OnceLock;

const GUARD: usize = 32;

/// Never zero, and different from place to place.
fn byte_pattern() -> &'static [u8] {
    static PATTERN: OnceLock<Vec<u8>> = OnceLock::new();
    PATTERN.get_or_init(|| {
        (0..2_000_000).map(|at: usize| ((at * 151 + at / 255) % 255 + 1) as u8).collect()
    })
}

/// Odd, so never zero, and different from place to place.
fn word_pattern() -> &'static [u32] {
    static PATTERN: OnceLock<Vec<u32>> = OnceLock::new();
    PATTERN.get_or_init(|| (1..400_000).map(|at: u32| at.wrapping_mul(0x9E37_79B9) | 1).collect())
}

/// Lent bytes (room or output), lent words (places, first or work) and a lent state.
#[derive(Default, PartialEq, Eq)]
pub struct Lent {
    bytes: Vec<u8>,
    words: Vec<u32>,
    state: Vec<u8>,
    /// Where the lent bytes and the lent state begin, at any alignment.
    from: usize,
}

/// The parts that a call is lent, without their guard zones.
pub struct Parts<'a> {
    pub bytes: &'a mut [u8],
    pub words: &'a mut [u32],
    pub state: &'a mut [u8],
}

impl Lent {
    /// Guard zones around `bytes` bytes, `words` words and no state, all prefilled.
    pub fn prepare(&mut self, bytes: usize, words: usize) {
        self.from = GUARD + bytes % 8;
        self.bytes.clear();
        self.bytes.extend_from_slice(&byte_pattern()[..self.from + bytes + GUARD]);
        self.words.clear();
        self.words.extend_from_slice(&word_pattern()[..words + 2 * GUARD]);
        self.hold_state(&[]);
    }

    /// Guard zones around a state that holds these bytes.
    pub fn hold_state(&mut self, state: &[u8]) {
        self.state.clear();
        self.state.extend_from_slice(&byte_pattern()[..self.from + state.len() + GUARD]);
        self.state[self.from..][..state.len()].copy_from_slice(state);
    }

    /// The lent bytes, without the guard zones.
    pub fn bytes(&mut self) -> &mut [u8] {
        self.parts().bytes
    }

    /// The lent words, without the guard zones.
    pub fn words(&mut self) -> &mut [u32] {
        self.parts().words
    }

    pub fn parts(&mut self) -> Parts<'_> {
        let (bytes, words) = (self.bytes.len() - GUARD, self.words.len() - GUARD);
        let state = self.state.len() - GUARD;
        Parts {
            bytes: &mut self.bytes[self.from..bytes],
            words: &mut self.words[GUARD..words],
            state: &mut self.state[self.from..state],
        }
    }

    /// Holds a program's text instead of lent bytes.
    pub fn put_text(&mut self, text: &[u8]) {
        self.prepare(text.len(), 0);
        self.bytes().copy_from_slice(text);
    }

    /// Puts numbers of eight bytes each into the lent bytes, as many as fit. Returns the last.
    pub fn put_numbers(&mut self, numbers: &[u64]) -> u64 {
        let places = self.bytes().chunks_exact_mut(8);
        places
            .zip(numbers)
            .for_each(|(place, number)| place.copy_from_slice(&number.to_le_bytes()));
        numbers.last().copied().unwrap_or_default()
    }

    /// The lent bytes as numbers of eight bytes each.
    pub fn numbers(&mut self) -> Vec<u64> {
        let number = |place: &[u8]| place.try_into().map_or(0, u64::from_le_bytes);
        self.bytes().chunks_exact(8).map(number).collect()
    }

    /// Where and how two memories first differ, with places counted from the lent slice.
    pub fn first_difference(&self, other: &Lent) -> Option<String> {
        let at = |place: usize, from: usize| place as isize - from as isize;
        let byte = self.bytes.iter().zip(&other.bytes).position(|(a, b)| a != b);
        let word = self.words.iter().zip(&other.words).position(|(a, b)| a != b);
        let state = self.state.iter().zip(&other.state).position(|(a, b)| a != b);
        if let Some(place) = byte {
            let (a, b) = (self.bytes[place], other.bytes[place]);
            return Some(format!("byte {}: {a:02X} and {b:02X}", at(place, self.from)));
        }
        if let Some(place) = word {
            let (a, b) = (self.words[place], other.words[place]);
            return Some(format!("word {}: {a:08X} and {b:08X}", at(place, GUARD)));
        }
        if let Some(place) = state {
            let (a, b) = (self.state[place], other.state[place]);
            return Some(format!(
                "byte {} of the state: {a:02X} and {b:02X}",
                at(place, self.from)
            ));
        }
        let lengths = (self.bytes.len(), other.bytes.len());
        (lengths.0 != lengths.1).then(|| format!("lengths {} and {}", lengths.0, lengths.1))
    }
}
