//! What is measured of romaji typing: one key beside a check of the same image,
//! and texts of two lengths. What waits after a call is passed to the next one.

use crate::calls;
use crate::contestant::{Call, Lent};
use crate::dictionary::Dictionary;
use crate::measure::{Contestants, Plan};
use crate::operations::{check, three};
use crate::random::Random;
use crate::romaji::Romaji;
use crate::table::grouped;
use crosscheck::answers;
use crosscheck::romaji::STATE_BYTES;
use crosscheck::rules::Rules;

const SEED: u64 = 3;
/// The number of keys that are typed one by one, and the bytes of room for each.
const KEYS: usize = 2_000;
const KEY_ROOM: usize = 64;
/// The lengths of the texts, and how many there are of each length.
const TEXTS: [(usize, usize); 2] = [(1_000, 200), (100_000, 2)];
/// The most labels of a text of the kana table.
const LABELS: usize = 2;

pub struct Typing {
    pub dictionary: Dictionary,
    kana: Vec<u8>,
    /// A text that is typed byte by byte.
    keys: Vec<u8>,
    /// Texts that are typed in one call each, by their length.
    texts: Vec<(usize, Vec<Vec<u8>>)>,
}

impl Typing {
    /// An error says what refused the table.
    pub fn new() -> Result<Typing, String> {
        let (romaji, random) = (Romaji::new(), &mut Random::new(SEED));
        let keys = romaji.text(random, KEYS);
        let mut texts = Vec::new();
        for (length, count) in TEXTS {
            texts.push((length, (0..count).map(|_| romaji.text(random, length)).collect()));
        }
        Ok(Typing { dictionary: Dictionary::of(romaji.keys)?, kana: romaji.kana, keys, texts })
    }

    /// A check of the image, and one key.
    pub fn one_key(&self) -> Vec<Plan<'_>> {
        let bytes = self.dictionary.image.len() as f64;
        let keys: Vec<Call> = self.keys.chunks(1).map(|key| self.call(key)).collect();
        vec![
            Plan::new("check", ("B", bytes), check(&[self.call(&[])])),
            Plan::new("one key", ("B", 1.0), self.typed(&keys, KEY_ROOM)),
        ]
    }

    /// A row for each length.
    pub fn whole_texts(&self) -> Vec<Plan<'_>> {
        let mut plans = Vec::new();
        for (length, texts) in &self.texts {
            let calls: Vec<Call> = texts.iter().map(|text| self.call(text)).collect();
            let typed = self.typed(&calls, 4 * LABELS * (STATE_BYTES + length));
            plans.push(Plan::new(grouped(*length), ("B", *length as f64), typed));
        }
        plans
    }

    fn call<'a>(&'a self, typed: &'a [u8]) -> Call<'a> {
        Call { of: &self.dictionary, query: typed }
    }

    fn typed<'a>(&'a self, calls: &[Call<'a>], room: usize) -> Contestants<'a> {
        let state = vec![0; STATE_BYTES];
        three(
            calls,
            &Lent { bytes: vec![0; room], state, ..Lent::default() },
            |call, lent| {
                let Lent { state, bytes: room, .. } = lent;
                calls::romaji_type(&call.of.image, &self.kana, state, call.query, room)
            },
            |call, lent| {
                let (image, lent) = (&call.of.image, lent.for_typing());
                answers::romaji_type(Rules::DOCUMENT, image, &self.kana, call.query, lent)
            },
            |call, lent| call.of.parsed.romaji_type(&self.kana, call.query, lent.for_typing()),
        )
    }
}
