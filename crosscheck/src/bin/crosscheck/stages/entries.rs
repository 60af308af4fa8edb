//! Goods entries over images of random sets: tables of random lists, whose parts have
//! to be those lists; the same tables damaged; images of other kinds; large tables.

use super::placed::placed;
use super::wild::wild;
use crate::call::Call;
use crate::comparison::Comparison;
use crate::damage::damaged;
use crate::keysets;
use crate::placer::Pairs;
use crate::queries::{any_query, walk};
use crosscheck::common::query_of;
use crosscheck::entries::{to_bytes, Entry, ENTRY_BYTES, HEAD_BYTES};
use crosscheck::image::Image;
use crosscheck::keylist::Key;
use crosscheck::random::Random;

pub fn run(comparison: &mut Comparison, random: &mut Random, amount: usize) {
    for _ in 0..1_200 * amount {
        let goods = Goods::any(random);
        goods.look_up_all(comparison);
        for _ in 0..4 {
            goods.any_lookup(comparison, random, &goods.table);
        }
        for _ in 0..10 {
            let table = damaged_table(random, &goods.table);
            goods.any_lookup(comparison, random, &table);
        }
        other_images(comparison, random, &goods);
    }
    large(comparison, random);
}

/// An image, the list of entries of each value, and their table.
struct Goods {
    image: Image,
    bytes: Vec<u8>,
    pairs: Pairs,
    keys: Vec<Key>,
    lists: Vec<Vec<Entry>>,
    table: Vec<u8>,
}

impl Goods {
    /// Mostly with a list for each value.
    fn any(random: &mut Random) -> Goods {
        let pairs = any_pairs(random);
        let needed = pairs.values().max().map_or(0, |value| *value as usize + 1);
        let values = match random.below(8) {
            0 => random.below(needed.min(50) + 1),
            1 => needed.min(50) + random.below(300),
            _ => needed.min(50) + random.pick(&[0, 0, 0, 1, 2, 5]),
        };
        Goods::of(random, pairs, values)
    }

    /// Any image of these pairs, and so many lists.
    fn of(random: &mut Random, pairs: Pairs, values: usize) -> Goods {
        let image = placed(random, &pairs);
        let lists = any_lists(random, values);
        let keys = pairs.keys().cloned().collect();
        Goods { bytes: image.to_bytes(), table: to_bytes(&lists), image, pairs, keys, lists }
    }

    /// Accepted exactly if each value has a list; then each key has the list of its value.
    fn look_up_all(&self, comparison: &mut Comparison) {
        let (image, table) = (&self.bytes[..], &self.table[..]);
        comparison.image(image);
        let answer = comparison.call(Call::TableCheck { image, table });
        let has_list = |value: &u32| (*value as usize) < self.lists.len();
        let entries: usize = self.lists.iter().map(Vec::len).sum();
        let expected = if self.pairs.values().all(has_list) { entries as u64 } else { 27 << 40 };
        comparison.require(answer == expected, "a table of lists has another answer");
        for (key, value) in self.pairs.iter().filter(|(_, value)| has_list(value)).take(20) {
            let query = &query_of(key);
            let answer = comparison.call(Call::Entries { image, query, table, first: 1 });
            let part = self.part(answer, comparison.left_word().unwrap_or_default());
            let same = part.is_some_and(|part| part == self.lists[*value as usize].concat());
            comparison.require(same, "a part is not the list that the table was made from");
        }
    }

    /// The bytes of the part that an answer tells. The entries are at the end of the table.
    fn part(&self, answer: u64, place: u32) -> Option<&[u8]> {
        let entries: usize = self.lists.iter().map(Vec::len).sum();
        let from = self.table.len() - ENTRY_BYTES * (entries - place as usize);
        let length = ENTRY_BYTES * answer as u32 as usize;
        self.table.get(from..from + length).filter(|_| answer >> 32 == 1)
    }

    /// The check of a table, and a lookup of any query.
    fn any_lookup(&self, comparison: &mut Comparison, random: &mut Random, table: &[u8]) {
        let (image, query) = (&self.bytes, &any_query(random, &self.image, &self.keys));
        comparison.call(Call::TableCheck { image, table });
        comparison.call(Call::Entries { image, query, table, first: random.below(4) });
    }
}

/// Values in order, or with gaps and more than once; now and then huge ones.
fn any_pairs(random: &mut Random) -> Pairs {
    let keys = keysets::small(random);
    let limit = random.pick(&[1, 3, 12, 40]);
    let (in_order, huge) = (random.one_in(3), random.one_in(12));
    let value = |at: usize| match at {
        _ if huge && random.one_in(3) => random.word() >> random.pick(&[1, 8, 16]),
        _ if in_order => at as u32,
        _ => random.below(limit) as u32,
    };
    let values: Vec<u32> = (0..keys.len()).map(value).collect();
    keys.into_iter().zip(values).collect()
}

/// Lists of few entries, many of them empty; some entries are in several lists.
fn any_lists(random: &mut Random, values: usize) -> Vec<Vec<Entry>> {
    let common: [Entry; 3] = [(); 3].map(|()| random.next().to_be_bytes());
    let entry = |random: &mut Random| match random.below(3) {
        0 => random.pick(&common),
        _ => random.next().to_be_bytes(),
    };
    let longest = random.pick(&[1, 2, 4, 9]);
    let list = |random: &mut Random| match random.below(3) {
        0 => Vec::new(),
        _ => (0..random.below(longest + 1)).map(|_| entry(random)).collect(),
    };
    (0..values).map(|_| list(random)).collect()
}

/// A table with one or two faults.
fn damaged_table(random: &mut Random, table: &[u8]) -> Vec<u8> {
    let mut table = table.to_vec();
    for _ in 0..random.pick(&[1, 1, 2]) {
        damage(random, &mut table);
    }
    table
}

fn damage(random: &mut Random, table: &mut Vec<u8>) {
    let len = table.len();
    match random.below(8) {
        0 => table.truncate(random.below(len + 1)),
        1 => table.truncate(len.saturating_sub(random.pick(&[1, 4, 8, 16]))),
        2 => table.resize(len + random.pick(&[1, 4, 8, 16]), 3),
        3 => change_word(random, table, 1),
        4 if len > 0 => table[0] = random.pick(&[0, 2, 0xFF]),
        5 if len > 0 => {
            let at = random.below(len);
            table[at] = table[at].wrapping_add(1 << random.below(8));
        }
        _ => {
            let words = len.saturating_sub(HEAD_BYTES) / 4;
            let place = random.below(words.max(1));
            change_word(random, table, HEAD_BYTES + 4 * place);
        }
    }
}

/// V or an offset becomes a neighbour, a number near the entry count, or any number.
fn change_word(random: &mut Random, table: &mut [u8], at: usize) {
    let entries = (table.len() / ENTRY_BYTES) as u32;
    let near = random.below(12) as u32;
    if let Some(Ok(bytes)) = table.get_mut(at..at + 4).map(<&mut [u8; 4]>::try_from) {
        let word = u32::from_be_bytes(*bytes);
        let word = match random.below(6) {
            0 => word.wrapping_add(1),
            1 => word.wrapping_sub(1),
            2 => word.wrapping_add(1 << random.below(32)),
            3 => entries.saturating_sub(near),
            4 => near,
            _ => random.word(),
        };
        *bytes = word.to_be_bytes();
    }
}

/// The same table beside a damaged image, and beside one that passes 1 to 8 and little else.
fn other_images(comparison: &mut Comparison, random: &mut Random, goods: &Goods) {
    let spoilt = damaged(random, &goods.image);
    let query = any_query(random, &goods.image, &goods.keys);
    check_and_look_up(comparison, random, &spoilt, &query, &goods.table);
    let other = wild(random);
    let length = random.below(6);
    let query = query_of(&walk(random, &other, length));
    check_and_look_up(comparison, random, &other.to_bytes(), &query, &goods.table);
}

fn check_and_look_up(
    comparison: &mut Comparison,
    random: &mut Random,
    image: &[u8],
    query: &[u8],
    table: &[u8],
) {
    comparison.image(image);
    comparison.call(Call::TableCheck { image, table });
    comparison.call(Call::Entries { image, query, table, first: random.below(4) });
}

/// More values, and more entries, than fit into 16 bits; whole, damaged at the far end, and with a
/// value that is the last or the first without a list.
fn large(comparison: &mut Comparison, random: &mut Random) {
    const VALUES: u32 = 70_000;
    for highest in [VALUES - 1, VALUES] {
        let keys = [vec![0x61], vec![0x62], vec![0x63]];
        let pairs: Pairs = keys.into_iter().zip([0, 65_537, highest]).collect();
        let goods = Goods::of(random, pairs, VALUES as usize);
        goods.look_up_all(comparison);
        goods.any_lookup(comparison, random, &goods.table[..goods.table.len() - 1]);
        goods.any_lookup(comparison, random, &goods.table[..goods.table.len() - ENTRY_BYTES]);
        let mut table = goods.table.clone();
        table[HEAD_BYTES + 4 * 69_000] = 1;
        goods.any_lookup(comparison, random, &table);
    }
}
