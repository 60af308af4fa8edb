//! A dictionary: its keys, its key list, its image and a table of entries for it.

use crate::calls;
use crate::goods::Goods;
use crate::keys::Readings;
use crate::parsed::Parsed;
use crate::table::grouped;
use crosscheck::common::big_endian;
use crosscheck::keylist::{self, Key};
use std::collections::HashSet;

/// Work words that allow the builder all slots.
pub const WORK_WORDS: usize = 131_072;
/// The size of the largest image in bytes.
pub const IMAGE_BYTES: usize = 1_064_981;

/// Where the header of an image has the number of slots, and of used slots from 2 up.
const SLOTS_AT: usize = 8;
const EDGES_AT: usize = 12;

pub struct Dictionary {
    pub keys: Vec<Key>,
    pub list: Vec<u8>,
    pub image: Vec<u8>,
    pub parsed: Parsed,
    pub goods: Goods,
}

impl Dictionary {
    /// The dictionary of `count` readings; an error says what refused it.
    pub fn new(seed: u64, count: usize) -> Result<Dictionary, String> {
        Dictionary::of(Readings::new(seed).list(count))
    }

    /// The dictionary of these keys, which ascend.
    pub fn of(keys: Vec<Key>) -> Result<Dictionary, String> {
        let list = keylist::to_bytes(&keys);
        let image = image_of(&list)?;
        let parsed = Parsed::of(&image).map_err(|refusal| format!("parsing: {refusal:?}"))?;
        let goods = Goods::new(keys.len());
        Ok(Dictionary { keys, list, image, parsed, goods })
    }

    /// Bytes of room that are enough to list all pairs.
    pub fn room(&self) -> usize {
        5 + self.keys.iter().map(|key| 5 + 4 * key.len()).sum::<usize>()
    }

    /// Its sizes, as a line of text.
    pub fn describe(&self) -> String {
        let labels: usize = self.keys.iter().map(Vec::len).sum();
        let listed: HashSet<u32> = self.keys.iter().flatten().copied().collect();
        let number = |at: usize| big_endian(&self.image[at..]).swap_bytes() as usize;
        format!(
            "{} keys: {:.1} labels a key, {} different ones; {} slots, {} used; image {} bytes",
            grouped(self.keys.len()),
            labels as f64 / self.keys.len() as f64,
            listed.len(),
            grouped(number(SLOTS_AT)),
            grouped(number(EDGES_AT) + 1),
            grouped(self.image.len()),
        )
    }
}

fn image_of(list: &[u8]) -> Result<Vec<u8>, String> {
    let mut image = vec![0; IMAGE_BYTES];
    let built = calls::build(list, &mut vec![0; WORK_WORDS], &mut image);
    if built >> 40 != 0 {
        return Err(format!("building: refusal {}", built >> 40));
    }
    image.truncate(built as usize);
    Ok(image)
}
