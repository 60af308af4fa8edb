//! The independent implementation over an image that is already parsed: the
//! functions of `crosscheck::answers` without their first step.

use crosscheck::answers::{
    exact_number, part_number, probe_number, put_place, romaji_number, table_number, value_number,
    why_number,
};
use crosscheck::check::accept;
use crosscheck::common::{labels_in, Refusal};
use crosscheck::entries::{Table, Values};
use crosscheck::image::Image;
use crosscheck::position::{Move, Position};
use crosscheck::romaji::{Lent, Press};
use crosscheck::rules::Rules;

const RULES: Rules = Rules::DOCUMENT;
const MORE: u64 = 1 << 33;

pub struct Parsed(Image);

impl Parsed {
    pub fn of(bytes: &[u8]) -> Result<Parsed, Refusal> {
        Image::parse(RULES, bytes).map(Parsed)
    }

    pub fn check(&self) -> u64 {
        if let Some(refused) = self.refusal() {
            return refused;
        }
        self.0.nodes.iter().filter(|node| node.is_leaf()).count() as u64
    }

    pub fn highest(&self) -> u64 {
        self.refusal().unwrap_or_else(|| value_number(self.0.highest(RULES)))
    }

    /// The table is parsed too.
    pub fn table_check(&self, table: &Table) -> u64 {
        let checked = || table_number(table.check(RULES, &Values::of(RULES, &self.0)));
        self.refusal().unwrap_or_else(checked)
    }

    /// The table is parsed too.
    pub fn entries(&self, query: &[u8], table: &Table, first: &mut [u32]) -> u64 {
        let value = self.0.lookup(RULES, &labels_in(query)).value();
        let found = table.part(RULES, value);
        put_place(RULES, &found, first);
        part_number(RULES, found)
    }

    pub fn exact(&self, query: &[u8]) -> u64 {
        exact_number(self.0.lookup(RULES, &labels_in(query)))
    }

    pub fn probe(&self, query: &[u8]) -> u64 {
        probe_number(self.0.lookup(RULES, &labels_in(query)))
    }

    pub fn why(&self, query: &[u8]) -> u64 {
        why_number(self.0.why(RULES, &labels_in(query)))
    }

    /// The position after a move.
    pub fn moved(&self, from: &Position, next: Move) -> Position {
        let mut position = from.clone();
        position.make_in(RULES, &self.0, next);
        position
    }

    pub fn position_probe(&self, position: &Position) -> u64 {
        position.lookup_in(RULES, &self.0).map_or_else(refused, probe_number)
    }

    pub fn longest(&self, query: &[u8]) -> u64 {
        self.0.longest(RULES, &labels_in(query)) as u64
    }

    /// `places` has the words for all 65 places.
    pub fn prefixes(&self, query: &[u8], places: &mut [u32]) -> u64 {
        let matches = self.0.prefixes(RULES, &labels_in(query));
        places.fill(0);
        for (pair, (length, value)) in places.chunks_exact_mut(2).zip(&matches) {
            pair.copy_from_slice(&[*length as u32, *value]);
        }
        matches.len() as u64
    }

    /// Checks the image too, as each completion has to.
    pub fn complete(&self, prefix: &[u8], room: &mut [u8]) -> u64 {
        if let Some(refused) = self.refusal() {
            return refused;
        }
        let completed = self.0.complete(RULES, &labels_in(prefix), room);
        let more = if completed.stopped { MORE } else { 0 };
        more + u64::from(completed.count)
    }

    pub fn romaji_type(&self, kana: &[u8], typed: &[u8], lent: Lent) -> u64 {
        romaji_number(self.0.press(RULES, kana, Press::Type(typed), lent))
    }

    /// The answer for the first of refusals 9 to 12 that holds, if one does.
    fn refusal(&self) -> Option<u64> {
        accept(RULES, &self.0).err().map(refused)
    }
}

fn refused(Refusal(number): Refusal) -> u64 {
    u64::from(number) << 40
}
