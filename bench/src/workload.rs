//! The calls that are made on dictionaries of one size.
//!
//! A processor learns the branches of a short run that is repeated, so small
//! dictionaries would look faster than they are. Therefore every size has the
//! same number of queries, and there are several small dictionaries, which
//! together have as many keys as a large one.

use crate::dictionary::Dictionary;
use crate::keys::Readings;
use crate::random::Random;
use crosscheck::common::query_of;
use crosscheck::keylist::Key;

/// The seed of the first dictionary; the others have the seeds after it.
const KEY_SEED: u64 = 1_000;
const OTHER_SEED: u64 = 1;
const QUERY_SEED: u64 = 2;

/// The number of keys of all dictionaries together, and of queries of each search.
const TOTAL: usize = 20_000;
/// The least number of labels of a text.
const TEXT_LABELS: usize = 32;
/// The number of prefixes that are completed, over all dictionaries, and of labels of each.
const PREFIXES: usize = 20;
const PREFIX_LABELS: usize = 2;

pub struct Workload {
    pub dictionaries: Vec<Dictionary>,
    /// Queries to the first dictionary: keys of it.
    pub present: Vec<Vec<u8>>,
    /// Readings that are not keys of it.
    pub absent: Vec<Vec<u8>>,
    /// Front parts of keys, as they are typed label by label.
    pub typed: Vec<Vec<u8>>,
    /// Texts of keys joined together.
    pub texts: Vec<Vec<u8>>,
    /// Prefixes of keys, taken from each dictionary in turn.
    pub prefixes: Vec<Vec<u8>>,
}

impl Workload {
    /// For dictionaries of `size` keys; an error says what refused one.
    pub fn new(size: usize) -> Result<Workload, String> {
        let seeds = (KEY_SEED..).take(TOTAL / size);
        let dictionaries: Vec<Dictionary> =
            seeds.map(|seed| Dictionary::new(seed, size)).collect::<Result<_, _>>()?;
        let keys = &dictionaries[0].keys;
        let absent = Readings::new(OTHER_SEED).others(TOTAL, keys);
        let random = &mut Random::new(QUERY_SEED);
        Ok(Workload {
            present: (0..TOTAL).map(|_| query_of(random.pick::<Key>(keys))).collect(),
            absent: absent.iter().map(|key| query_of(key)).collect(),
            typed: typed(random, keys),
            texts: texts(random, keys),
            prefixes: prefixes(random, &dictionaries),
            dictionaries,
        })
    }

    /// The queries of a search in texts: from each position to the end of the text.
    pub fn positions(&self) -> Vec<&[u8]> {
        let positions = |text: &'_ Vec<u8>| (0..text.len()).step_by(4);
        let behind = self.texts.iter().flat_map(|text| positions(text).map(|at| &text[at..]));
        behind.take(TOTAL).collect()
    }
}

fn typed(random: &mut Random, keys: &[Key]) -> Vec<Vec<u8>> {
    let mut queries = Vec::new();
    while queries.len() < TOTAL {
        let key = random.pick(keys);
        queries.extend((1..=key.len()).map(|length| query_of(&key[..length])));
    }
    queries.truncate(TOTAL);
    queries
}

/// Texts with at least TOTAL positions.
fn texts(random: &mut Random, keys: &[Key]) -> Vec<Vec<u8>> {
    let (mut texts, mut positions) = (Vec::new(), 0);
    while positions < TOTAL {
        let mut text = Key::new();
        while text.len() < TEXT_LABELS {
            text.extend(random.pick(keys));
        }
        positions += text.len();
        texts.push(query_of(&text));
    }
    texts
}

fn prefixes(random: &mut Random, dictionaries: &[Dictionary]) -> Vec<Vec<u8>> {
    let in_turn = dictionaries.iter().cycle().take(PREFIXES);
    in_turn.map(|of| query_of(&random.pick(&of.keys)[..PREFIX_LABELS])).collect()
}
