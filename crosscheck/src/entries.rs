//! Goods entries, request 7 of document 02: the check of an entry table, and the
//! lookup of a word's entries. A table is cut into words and entries, so no length
//! is computed: there are words for all offsets, or there are not. A value has a part
//! of the entries, or its offsets do not bound one.

use crate::check::accept;
use crate::common::{big_endian, labels_in, Refusal};
use crate::image::Image;
use crate::oracle;
use crate::rules::{Rules, Wrong};
use crate::search::open;
use std::ops::Range;

/// The bytes of the version and V.
pub const HEAD_BYTES: usize = 5;
pub const ENTRY_BYTES: usize = 8;

pub type Entry = [u8; ENTRY_BYTES];

/// The causes of 26.
#[derive(Clone, Copy, Debug, PartialEq, Eq)]
pub enum Malformed {
    /// The table is too short for version and V.
    Head,
    Version,
    /// It is too short for its offsets.
    Short,
    /// What follows the offsets is no whole number of entries.
    Rest,
    FirstOffset,
    FallingOffset,
    LastOffset,
    FallingPair,
    PassingPair,
}

impl Malformed {
    /// The number of causes.
    pub const COUNT: usize = 9;
    pub const BY_CHECK: [Malformed; 7] = [
        Malformed::Head,
        Malformed::Version,
        Malformed::Short,
        Malformed::Rest,
        Malformed::FirstOffset,
        Malformed::FallingOffset,
        Malformed::LastOffset,
    ];
    pub const BY_LOOKUP: [Malformed; 6] = [
        Malformed::Head,
        Malformed::Version,
        Malformed::Short,
        Malformed::Rest,
        Malformed::FallingPair,
        Malformed::PassingPair,
    ];
}

/// Why a call is refused.
#[derive(Clone, Copy, Debug, PartialEq, Eq)]
pub enum Refused {
    /// By image or query.
    Before(Refusal),
    Malformed(Malformed),
    /// A value is not below V.
    Beyond,
}

impl Refused {
    pub fn refusal(self) -> Refusal {
        match self {
            Refused::Before(refusal) => refusal,
            Refused::Malformed(_) => Refusal(26),
            Refused::Beyond => Refusal(27),
        }
    }
}

impl From<Refusal> for Refused {
    fn from(refusal: Refusal) -> Refused {
        Refused::Before(refusal)
    }
}

impl From<Malformed> for Refused {
    fn from(cause: Malformed) -> Refused {
        Refused::Malformed(cause)
    }
}

fn malformed_if(fault: bool, cause: Malformed) -> Result<(), Malformed> {
    if fault {
        Err(cause)
    } else {
        Ok(())
    }
}

/// Places among the entries, for a query that has a value.
pub type Part = Option<Range<usize>>;

/// Refusals 1 to 12, 26 and 27, or the number of entries.
pub fn check(rules: Rules, image: &[u8], table: &[u8]) -> Result<usize, Refused> {
    if rules.breaks(Wrong::TableBeforeImage) {
        Table::parse(rules, table)?;
    }
    let image = Image::parse(rules, image)?;
    match accept(rules, &image) {
        Err(Refusal(12)) if rules.breaks(Wrong::TablePasses12) => {}
        accepted => accepted?,
    }
    let values = Values::of(rules, &image);
    let early = rules.breaks(Wrong::BeyondBeforeMalformed);
    if early && values_told(table).is_some_and(|told| values.reach(rules, told)) {
        return Err(Refused::Beyond);
    }
    let table = Table::parse(rules, table)?;
    table.check(rules, &values)
}

/// Refusals 1 to 8, 13, 26 and 27, or the part of the query's value.
pub fn lookup(rules: Rules, image: &[u8], query: &[u8], table: &[u8]) -> Result<Part, Refused> {
    let query_first = Rules::breaking(Wrong::QueryBeforeImage);
    let opening = rules.either(rules, Wrong::EntriesTest13First, query_first);
    if rules.breaks(Wrong::FormBeforeQuery) {
        Image::parse(rules, image)?;
        Table::parse(rules, table)?;
    }
    let (image, labels) = open(opening, image, query)?;
    if rules.breaks(Wrong::EntriesTest9To12) {
        accept(rules, &image)?;
    }
    let value = image.lookup(rules, &labels).value();
    let early = rules.breaks(Wrong::BeyondBeforeForm);
    if early && value.zip(values_told(table)).is_some_and(|(value, told)| value >= told) {
        return Err(Refused::Beyond);
    }
    Table::parse(rules, table)?.part(rules, value)
}

/// V, of a table that need not be whole.
fn values_told(table: &[u8]) -> Option<u32> {
    table.get(1..HEAD_BYTES).map(big_endian)
}

/// The values of an accepted image.
pub struct Values(Vec<u32>);

impl Values {
    pub fn of(rules: Rules, image: &Image) -> Values {
        let values: Vec<u32> = oracle::candidate(image).iter().map(|pair| pair.value).collect();
        let in_order = (0..values.len() as u32).collect();
        Values(rules.either(values, Wrong::TableForEachPair, in_order))
    }

    /// Whether one of them is not below V.
    fn reach(&self, rules: Rules, values: u32) -> bool {
        let equal_passes = rules.breaks(Wrong::CheckTakesV);
        self.0.iter().any(|value| *value > values || *value == values && !equal_passes)
    }
}

/// A table whose version and length are right.
pub struct Table {
    /// V.
    values: u32,
    offsets: Vec<u32>,
    entries: Vec<Entry>,
}

impl Table {
    pub fn parse(rules: Rules, bytes: &[u8]) -> Result<Table, Malformed> {
        let (head, behind) = bytes.split_at_checked(HEAD_BYTES).ok_or(Malformed::Head)?;
        malformed_if(head[0] != 1, Malformed::Version)?;
        let values = big_endian(&head[1..]);
        let count = offset_count(rules, values);
        let mut offsets = labels_in(behind);
        malformed_if(offsets.len() < count, Malformed::Short)?;
        offsets.truncate(count);
        if rules.breaks(Wrong::OffsetsLittleEndian) {
            offsets.iter_mut().for_each(|offset| *offset = offset.swap_bytes());
        }
        let entries = behind[4 * count..].chunks_exact(ENTRY_BYTES);
        let whole = entries.remainder().is_empty() || rules.breaks(Wrong::RestMayBeCut);
        malformed_if(!whole, Malformed::Rest)?;
        let entry = |bytes: &[u8]| bytes.try_into().expect("a chunk has the bytes of an entry");
        Ok(Table { values, offsets, entries: entries.map(entry).collect() })
    }

    /// What the checker confirms besides; the number of entries.
    pub fn check(&self, rules: Rules, values: &Values) -> Result<usize, Refused> {
        self.confirm(rules)?;
        if values.reach(rules, self.values) {
            return Err(Refused::Beyond);
        }
        let entries = self.entries.len();
        Ok(rules.either(entries, Wrong::TableBytesCounted, ENTRY_BYTES * entries))
    }

    /// Offsets start at 0, never fall and end at the entry count.
    fn confirm(&self, rules: Rules) -> Result<(), Malformed> {
        let first = self.offsets.first().is_none_or(|first| *first == 0);
        let last = self.offsets.last().is_none_or(|last| *last as usize == self.entries.len());
        malformed_if(!first && rules.keeps(Wrong::FirstOffsetFree), Malformed::FirstOffset)?;
        let sorted = self.offsets.is_sorted() || rules.breaks(Wrong::OffsetsMayFall);
        malformed_if(!sorted, Malformed::FallingOffset)?;
        malformed_if(!last && rules.keeps(Wrong::LastOffsetFree), Malformed::LastOffset)
    }

    /// What the lookup tests besides; the part of a value, if the query has one.
    pub fn part(&self, rules: Rules, value: Option<u32>) -> Result<Part, Refused> {
        let tested = value.or(rules.either(None, Wrong::NoValueIsValue0, Some(0)));
        let equal_passes = rules.breaks(Wrong::LookupTakesV);
        let beyond = |value: u32| value > self.values || value == self.values && !equal_passes;
        if tested.is_some_and(beyond) {
            return Err(Refused::Beyond);
        }
        if rules.breaks(Wrong::LookupTestsAllOffsets) {
            self.confirm(rules)?;
        }
        Ok(value.map(|value| self.bounded(rules, value)).transpose()?)
    }

    /// The places that the offset pair of a value bounds, if there are entries at all of them.
    fn bounded(&self, rules: Rules, value: u32) -> Result<Range<usize>, Malformed> {
        let count = self.entries.len();
        // Only wrong variants ask for an offset that is not there.
        let offset = |at: usize| self.offsets.get(at).map_or(count, |offset| *offset as usize);
        let (from, to) = (offset(value as usize), offset(value as usize + 1));
        let cut = from.min(count)..to.min(count);
        match self.entries.get(from..to) {
            Some(part) => {
                let to_the_end = part.len() == count - from && !part.is_empty();
                let refused = to_the_end && rules.breaks(Wrong::LastEntryPasses);
                malformed_if(refused, Malformed::PassingPair)?;
                Ok(from..to)
            }
            None if from > to && rules.breaks(Wrong::FallingPairIsEmpty) => Ok(from..from),
            None if from > to => Err(Malformed::FallingPair),
            None if rules.breaks(Wrong::PairNotCompared) => Ok(from..to),
            None if rules.breaks(Wrong::PassingPairIsCut) => Ok(cut),
            None if from <= count && rules.breaks(Wrong::PairStartCompared) => Ok(from..to),
            None => Err(Malformed::PassingPair),
        }
    }
}

/// V+1.
fn offset_count(rules: Rules, values: u32) -> usize {
    // The bytes of V+1 offsets in 32 bits, as offsets again.
    let wrapped = values.wrapping_add(1).wrapping_mul(4) / 4;
    let count = values as usize + rules.either(1, Wrong::NoLastOffset, 0);
    rules.either(count, Wrong::TableSumIn32Bits, wrapped as usize)
}

/// The table of a list of entries for each value from 0.
pub fn to_bytes(lists: &[Vec<Entry>]) -> Vec<u8> {
    let mut bytes = vec![1];
    bytes.extend((lists.len() as u32).to_be_bytes());
    let mut offset = 0;
    bytes.extend(u32::to_be_bytes(offset));
    for list in lists {
        offset += list.len() as u32;
        bytes.extend(offset.to_be_bytes());
    }
    bytes.extend(lists.iter().flatten().flatten());
    bytes
}
