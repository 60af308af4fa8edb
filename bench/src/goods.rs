//! A table of entries for the values of a dictionary.

use crate::random::Random;
use crosscheck::entries::{to_bytes, Entry, Table};
use crosscheck::rules::Rules;

const SEED: u64 = 5;
/// The most entries of a value. Each number of them from 0 is equally likely.
const MOST: usize = 4;

pub struct Goods {
    pub table: Vec<u8>,
    pub parsed: Table,
}

impl Goods {
    /// Entries for so many values.
    pub fn new(values: usize) -> Goods {
        let random = &mut Random::new(SEED);
        let mut entries = (1..).map(u64::to_be_bytes);
        let list = |_| entries.by_ref().take(random.below(MOST + 1)).collect();
        let lists: Vec<Vec<Entry>> = (0..values).map(list).collect();
        let table = to_bytes(&lists);
        let parsed =
            Table::parse(Rules::DOCUMENT, &table).expect("a table of lists is well formed");
        Goods { table, parsed }
    }
}

/// What the tables have, as a line of text.
pub fn describe() -> String {
    format!("entry tables, 0 to {MOST} entries for each key")
}
