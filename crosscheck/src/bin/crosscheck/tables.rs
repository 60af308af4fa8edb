//! Tables for romaji typing: an image whose keys have few letters, a kana table
//! for its values, and texts to type.

use crate::keysets::{keys_over, EDGE_LABELS, NO_SCALARS};
use crate::placer::{any_code_order, place, Pairs};
use crosscheck::answers::romaji_type;
use crosscheck::common::{query_of, KEY_LABELS};
use crosscheck::keylist::Key;
use crosscheck::random::Random;
use crosscheck::romaji::{Lent, STATE_BYTES};
use crosscheck::rules::Rules;

/// An image with its keys, and a kana table with the number of labels of its longest text.
pub struct RomajiTable {
    pub image: Vec<u8>,
    pub keys: Vec<Key>,
    pub kana: Vec<u8>,
    longest_text: usize,
}

impl RomajiTable {
    pub fn new(image: Vec<u8>, keys: Vec<Key>, texts: &[Key]) -> RomajiTable {
        let longest_text = texts.iter().map(Vec::len).max().unwrap_or(0);
        RomajiTable { image, keys, kana: kana_of(texts), longest_text }
    }

    /// Has texts for all values, unless one is huge.
    pub fn any(random: &mut Random) -> RomajiTable {
        let pairs = any_pairs(random);
        let rows = pairs.values().max().map_or(0, |value| *value as usize + 1).min(50);
        let rows = rows + random.pick(&[0, 0, 1, 4]);
        RomajiTable::of(random, &pairs, rows)
    }

    /// Any image of these pairs, and so many texts.
    pub fn of(random: &mut Random, pairs: &Pairs, rows: usize) -> RomajiTable {
        let labels = any_code_order(random, pairs);
        let spare = random.pick(&[0, 0, 3]);
        let image = place(random, pairs, labels, spare).to_bytes();
        RomajiTable::new(image, pairs.keys().cloned().collect(), &any_texts(random, rows))
    }

    /// Of at least `length` bytes; mostly keys and front parts of keys, one after the other.
    pub fn any_text(&self, random: &mut Random, length: usize) -> Vec<u8> {
        let mut text = Vec::new();
        while text.len() < length {
            text.extend(self.any_piece(random));
        }
        text
    }

    fn any_piece(&self, random: &mut Random) -> Vec<u8> {
        if self.keys.is_empty() || random.one_in(6) {
            return vec![random.pick(&[b'-', b'a', b'n', 0, 0x80, 0xFF])];
        }
        let mut piece = low_bytes(&self.keys[random.below(self.keys.len())]);
        match random.below(4) {
            0 => piece.truncate(random.below(piece.len() + 1)),
            1 => piece.push(random.pick(b"kyan")),
            _ => {}
        }
        piece
    }

    /// Bytes of room that are enough for so many bytes of text.
    pub fn enough(&self, text: usize) -> usize {
        4 * text * self.longest_text.max(1)
    }

    /// The bytes that go out; 0 if typing is refused.
    pub fn needed(&self, state: &[u8], typed: &[u8]) -> usize {
        let mut state = state.to_vec();
        let mut room = vec![0; self.enough(STATE_BYTES + typed.len())];
        let lent = Lent { state: &mut state, room: &mut room };
        let answer = romaji_type(Rules::DOCUMENT, &self.image, &self.kana, typed, lent);
        4 * (answer as u32) as usize
    }
}

/// A state in which these bytes are kept, which are not more than a state can keep.
pub fn state_of(kept: &[u8]) -> Vec<u8> {
    let mut state = [&[kept.len() as u8], kept].concat();
    state.resize(STATE_BYTES, 0);
    state
}

/// The lowest byte of each label.
pub fn low_bytes(key: &[u32]) -> Vec<u8> {
    key.iter().map(|label| *label as u8).collect()
}

/// The kana table of these texts.
pub fn kana_of(texts: &[Key]) -> Vec<u8> {
    texts.iter().flat_map(|text| [&[text.len() as u8], &query_of(text)[..]].concat()).collect()
}

/// Texts of few labels, and now and then of the most that a table can have.
pub fn any_texts(random: &mut Random, rows: usize) -> Vec<Key> {
    let text = |random: &mut Random| {
        let length = if random.one_in(200) { 255 } else { random.pick(&[0, 1, 1, 1, 2, 3]) };
        (0..length).map(|_| any_number(random)).collect()
    };
    (0..rows).map(|_| text(random)).collect()
}

/// A number in a text, which need not be a scalar value.
fn any_number(random: &mut Random) -> u32 {
    match random.below(10) {
        0 => random.pick(&NO_SCALARS),
        1 => random.pick(&EDGE_LABELS),
        2 => random.word(),
        _ => 0x3041 + random.below(86) as u32,
    }
}

/// Values in order, or few different ones with gaps; now and then huge ones.
fn any_pairs(random: &mut Random) -> Pairs {
    let limit = random.pick(&[1, 3, 40]);
    let (in_order, huge) = (random.one_in(3), random.one_in(20));
    let keys = any_keys(random);
    let value = |at: usize| match at {
        _ if huge && random.one_in(4) => random.word() >> 1,
        _ if in_order => at as u32,
        _ => random.below(limit) as u32,
    };
    let values: Vec<u32> = (0..keys.len()).map(value).collect();
    keys.into_iter().zip(values).collect()
}

/// Keys over few letters; the empty key is rarely among them.
fn any_keys(random: &mut Random) -> Vec<Key> {
    let letters = any_letters(random);
    let count = random.pick(&[0, 1, 2, 3, 5, 8, 13, 20]);
    let longest = random.pick(&[1, 2, 2, 3, 3, 4, 4, KEY_LABELS]);
    let mut keys = keys_over(random, &letters, count, longest);
    if !random.one_in(12) {
        keys.retain(|key| !key.is_empty());
    }
    keys
}

/// Labels above 255 cannot be typed; the lowest byte of one of them is a letter.
fn any_letters(random: &mut Random) -> Vec<u32> {
    let mut letters: Vec<u32> = match random.below(4) {
        0 => vec![0x6E, 0x61],
        1 => "kyan".chars().map(u32::from).collect(),
        2 => "aiueoknstmyr".chars().map(u32::from).collect(),
        _ => vec![0, 1, 0x61, 0x7F, 0x80, 0xFF],
    };
    if random.one_in(3) {
        letters.extend([0x100, 0x161, 0x3042]);
    }
    letters
}
