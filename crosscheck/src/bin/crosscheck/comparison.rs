//! Runs calls through both implementations and keeps the score: differences,
//! refusals, their causes, cases and reasons seen, and which wrong variants were
//! noticed.

use crate::archive::{Answered, Archive};
use crate::call::{Call, Function, Images};
use crate::lent::{Lent, Parts};
use crosscheck::answers::{
    exact_number, part_number, probe_number, table_number, value_number, why_number,
};
use crosscheck::common::{labels_in, query_of, Refusal};
use crosscheck::entries::{Entry, Malformed, Part, Refused};
use crosscheck::image::Image;
use crosscheck::oracle::{self, Pair};
use crosscheck::position::{replay, Move};
use crosscheck::rules::{Rules, Wrong};
use crosscheck::why::Reason;
use std::collections::HashMap;

const SHOWN_DIFFERENCES: u64 = 10;
/// One more than the highest number of a refusal.
const REFUSALS: usize = 30;
/// One more than the highest number that an answer has bits for, of a part of rule 11 or of a reason.
const PARTS: usize = 8;
/// The cases of lookup, by bits 32 and 33 of what probe answers.
const CASES: [&str; 4] = ["nothing", "exact", "prefix", "exact and prefix"];
/// The functions that give 26, each with its causes.
const MALFORMED_BY: [(Function, &[Malformed]); 2] =
    [(Function::TableCheck, &Malformed::BY_CHECK), (Function::Entries, &Malformed::BY_LOOKUP)];
/// What a lookup of entries finds by a set and the lists of a table.
const PARTS_FOUND: [&str; 3] = ["no value", "no entries", "entries"];

/// A wrong variant, and the comparison that distinguished it from the documents.
struct Variant {
    wrong: Wrong,
    noticed: Option<(u64, Function)>,
}

pub struct Comparison {
    seed: u64,
    archive: Archive,
    real: Lent,
    expected: Lent,
    stage: &'static str,
    pub compared: u64,
    different: u64,
    /// Requirements beyond the comparisons that did not hold.
    unmet: u64,
    /// How often each function gave each refusal, 0 for none.
    seen: [[u64; REFUSALS]; Function::ALL.len()],
    /// How often a fault lay in each part of rule 11, 0 for other rules.
    list_faults: [u64; PARTS],
    /// How often probe gave each case of lookup.
    cases: [u64; CASES.len()],
    /// How often each reason why a word is missing was given, 0 for none.
    reasons: [u64; PARTS],
    /// How often each of the functions met each cause of 26.
    malformed: [[u64; Malformed::COUNT]; MALFORMED_BY.len()],
    variants: Vec<Variant>,
    oracle: OracleScore,
    last_set: Option<LastSet>,
}

/// Images compared with the set oracle.
#[derive(Default)]
struct OracleScore {
    images: u64,
    with_set: u64,
    /// How often a set gave each case of lookup.
    cases: [u64; CASES.len()],
    /// How often a set gave each reason.
    reasons: [u64; PARTS],
    /// How often a table was the form of lists, and how often it was not.
    tables: [u64; 2],
    /// How often a set and lists gave each kind of part.
    parts: [u64; PARTS_FOUND.len()],
}

/// The last image with a set, its listed labels, and the set.
struct LastSet {
    image: Vec<u8>,
    listed: Vec<u32>,
    set: Vec<Pair>,
}

impl LastSet {
    /// Whether each value has one of the lists.
    fn has_lists(&self, lists: &[Vec<Entry>]) -> bool {
        self.set.iter().all(|pair| (pair.value as usize) < lists.len())
    }
}

impl Comparison {
    pub fn new(seed: u64) -> Comparison {
        let variant = |wrong: &Wrong| Variant { wrong: *wrong, noticed: None };
        Comparison {
            seed,
            archive: Archive::default(),
            real: Lent::default(),
            expected: Lent::default(),
            stage: "",
            compared: 0,
            different: 0,
            unmet: 0,
            seen: [[0; REFUSALS]; Function::ALL.len()],
            list_faults: [0; PARTS],
            cases: [0; CASES.len()],
            reasons: [0; PARTS],
            malformed: [[0; Malformed::COUNT]; MALFORMED_BY.len()],
            variants: Wrong::ALL.iter().map(variant).collect(),
            oracle: OracleScore::default(),
            last_set: None,
        }
    }

    /// Begins a stage. Returns how many comparisons were made before it.
    pub fn enter(&mut self, stage: &'static str) -> u64 {
        self.stage = stage;
        self.compared
    }

    /// Compares one call in its answer and all lent memory, and its answer with the one that the
    /// set gives, if it gives one. Returns the archive's answer.
    pub fn call(&mut self, call: Call) -> u64 {
        let answered = self.archive.answer(&call, &mut self.real);
        let expected = call.by_rules(Rules::DOCUMENT, &mut self.expected);
        if self.score(&call, &answered, expected) {
            self.try_variants(&call, answered.answer);
        }
        let answer = answered.answer;
        if let Some(by_set) = self.by_set(&call).filter(|by_set| *by_set != answer) {
            self.require(false, "the set gives another answer");
            self.show(&call, answer, by_set);
        }
        answer
    }

    /// What the archive left in the state and the room of the last call.
    pub fn left(&mut self) -> (Vec<u8>, Vec<u8>) {
        let Parts { bytes, state, .. } = self.real.parts();
        (state.to_vec(), bytes.to_vec())
    }

    /// What the archive left in the first lent word of the last call.
    pub fn left_word(&mut self) -> Option<u32> {
        self.real.words().first().copied()
    }

    /// Counts a comparison and shows it if it failed. Returns whether everything was the same.
    fn score(&mut self, call: &Call, answered: &Answered, expected: u64) -> bool {
        let answer = answered.answer;
        let same = answered.inputs_intact && answer == expected && self.real == self.expected;
        match call {
            Call::Moves { moves, .. } => self.count_moves(moves),
            _ => self.count(call.function(), answer),
        }
        let part = (answer >> 34) as usize % PARTS;
        match call {
            Call::Fault { .. } => self.list_faults[part] += 1,
            Call::Probe { .. } => count_case(&mut self.cases, answer),
            Call::Why { .. } => self.reasons[part] += 1,
            _ => {}
        }
        if let Some(cause) = call.malformed().filter(|_| answer >> 40 == 26) {
            let by_lookup = matches!(call, Call::Entries { .. });
            self.malformed[usize::from(by_lookup)][cause as usize] += 1;
        }
        if !same {
            self.different += 1;
            self.show(call, answer, expected);
        }
        same
    }

    /// Counts one answer.
    fn count(&mut self, function: Function, answer: u64) {
        self.compared += 1;
        self.see(function, answer);
    }

    fn see(&mut self, function: Function, answer: u64) {
        if let Some(count) = self.seen[function as usize].get_mut((answer >> 40) as usize) {
            *count += 1;
        }
    }

    /// Counts the answers after the moves of a call, and what each of them says of its move.
    fn count_moves(&mut self, moves: &[(usize, Move)]) {
        let mut answers = self.real.numbers().into_iter();
        self.count(Function::Position, answers.next().unwrap_or_default());
        for ((_, next), answer) in moves.iter().zip(answers) {
            self.count(Function::Position, answer);
            match next {
                Move::Push(_) => self.see(Function::Push, answer),
                Move::Back => self.see(Function::Back, answer),
            }
        }
    }

    /// Counts and shows a requirement on the archive's answers, besides equality,
    /// that does not hold.
    pub fn require(&mut self, holds: bool, else_say: &str) {
        if holds {
            return;
        }
        self.unmet += 1;
        if self.different + self.unmet <= SHOWN_DIFFERENCES {
            println!("UNMET: {else_say} ({}, seed {})", self.stage, self.seed);
        }
    }

    fn show(&self, call: &Call, answer: u64, expected: u64) {
        if self.different + self.unmet > SHOWN_DIFFERENCES {
            return;
        }
        let place = self.real.first_difference(&self.expected);
        println!("DIFFERENCE in {}: {}, seed {}", call.function().name(), self.stage, self.seed);
        println!("  input: {}", call.describe());
        println!("  answers: {answer:#x}, expected {expected:#x}");
        println!("  memory: {}", place.as_deref().unwrap_or("no difference, or an input changed"));
    }

    /// Compares the wrong variants that were not noticed yet with the archive's answer.
    fn try_variants(&mut self, call: &Call, answer: u64) {
        for variant in self.variants.iter_mut().filter(|variant| variant.noticed.is_none()) {
            let wrong = call.by_rules(Rules::breaking(variant.wrong), &mut self.expected);
            if wrong != answer || self.expected != self.real {
                variant.noticed = Some((self.compared, call.function()));
            }
        }
    }

    /// Compares the answers of a typing position before moves and after each of them. Moves that
    /// leave the same labels must lead to the same position.
    pub fn moves(&mut self, images: Images, moves: &[(usize, Move)]) {
        self.call(Call::Moves { images, moves });
        let images = images.map(|image| Image::parse(Rules::DOCUMENT, image));
        let positions = replay(Rules::DOCUMENT, &images, moves);
        let mut numbers = HashMap::new();
        let mut known =
            |labels: Vec<u32>, number: u64| *numbers.entry(labels).or_insert(number) == number;
        let mut both = positions.iter().zip(&self.archive.positions);
        let same = both.all(|(position, number)| known(position.labels().to_vec(), *number));
        self.require(same, "moves that leave the same labels lead to different positions");
    }

    /// The archive's position after the last moves.
    pub fn last_position(&self) -> u64 {
        self.archive.positions.last().copied().unwrap_or_default()
    }

    /// Any number as a typing position has to be answered, and a refused image must not change it.
    pub fn any_position(&mut self, image: &[u8], number: u64, label: u32) {
        let moved = self.archive.any_position(image, number, label);
        self.require(moved.inputs_intact, "an image changes under a typing position");
        if let Err(Refusal(refusal)) = Image::parse(Rules::DOCUMENT, image) {
            let stays = moved.pushed == number && moved.back == number;
            self.require(stays, "a refused move changes the position");
            let told = moved.probed == u64::from(refusal) << 40;
            self.require(told, "a typing position gives another refusal");
        }
    }

    /// Compares the place of an image's fault, its check and its highest value. Returns the check's
    /// answer.
    pub fn check(&mut self, image: &[u8]) -> u64 {
        self.call(Call::Fault { image });
        let answer = self.call(Call::Check { image });
        self.call(Call::Highest { image });
        answer
    }

    /// Compares the check of an image, and then its answer with the set oracle.
    pub fn image(&mut self, image: &[u8]) -> u64 {
        let answer = self.check(image);
        let Ok(parsed) = Image::parse(Rules::DOCUMENT, image) else {
            return answer;
        };
        self.oracle.images += 1;
        match oracle::set_of(&parsed) {
            Some(set) if answer == set.len() as u64 => {
                self.oracle.with_set += 1;
                self.whole_set(image, &set);
                self.last_set =
                    Some(LastSet { image: image.to_vec(), listed: parsed.map.labels, set });
            }
            None if answer >> 40 != 0 => {}
            set => {
                self.require(false, "the set oracle decides otherwise");
                self.show(
                    &Call::Check { image },
                    answer,
                    set.map_or(u64::MAX, |set| set.len() as u64),
                );
            }
        }
        answer
    }

    /// The highest value must be that of the set, and completing the empty prefix with enough room
    /// must list exactly the set.
    fn whole_set(&mut self, image: &[u8], set: &[Pair]) {
        let call = Call::Highest { image };
        let answered = self.archive.answer(&call, &mut self.real);
        call.prepare(&mut self.expected);
        self.score(&call, &answered, value_number(set.iter().map(|pair| pair.value).max()));
        let mut records = vec![1];
        records.extend(query_of(&[set.len() as u32]));
        for pair in set {
            records.push(pair.labels.len() as u8);
            records.extend(query_of(&pair.labels));
            records.extend(query_of(&[pair.value]));
        }
        let call = Call::Complete { image, prefix: &[], room: records.len() };
        let answered = self.archive.answer(&call, &mut self.real);
        call.prepare(&mut self.expected);
        self.expected.bytes().copy_from_slice(&records);
        self.score(&call, &answered, set.len() as u64);
    }

    /// What the functions that a set decides have to answer, over the last image with a set.
    fn by_set(&mut self, call: &Call) -> Option<u64> {
        match *call {
            Call::TableCheck { image, table } => self.table_by_set(image, table),
            Call::Entries { image, query, table, .. } => self.entries_by_set(image, query, table),
            _ => self.query_by_set(call),
        }
    }

    /// The check of a table: by its lists and the values of the set.
    fn table_by_set(&mut self, image: &[u8], table: &[u8]) -> Option<u64> {
        let last = self.last_set.as_ref().filter(|last| last.image == image)?;
        let Some(lists) = oracle::lists_of(table) else {
            self.oracle.tables[1] += 1;
            return Some(table_number(Err(Refused::Malformed(Malformed::Head))));
        };
        self.oracle.tables[0] += 1;
        let entries = lists.iter().map(Vec::len).sum();
        Some(table_number(if last.has_lists(&lists) { Ok(entries) } else { Err(Refused::Beyond) }))
    }

    /// The lookup of entries: the list of the query's value, if every value of the set has a list.
    /// The place in the lent memory is compared too.
    fn entries_by_set(&mut self, image: &[u8], query: &[u8], table: &[u8]) -> Option<u64> {
        let whole = query.len().is_multiple_of(4);
        let last = self.last_set.as_ref().filter(|last| whole && last.image == image)?;
        let lists = oracle::lists_of(table).filter(|lists| last.has_lists(lists))?;
        let value = oracle::lookup(&last.set, &labels_in(query)).value();
        let part: Part = value.map(|value| {
            let before: usize = lists[..value as usize].iter().map(Vec::len).sum();
            before..before + lists[value as usize].len()
        });
        let found = part.as_ref().map_or(0, |part| 1 + usize::from(!part.is_empty()));
        self.oracle.parts[found] += 1;
        let place =
            part.clone().filter(|part| !part.is_empty()).map_or(0, |part| part.start as u32);
        let same = self.left_word().is_none_or(|word| word == place);
        self.require(same, "the lists give another place");
        Some(part_number(Rules::DOCUMENT, Ok(part)))
    }

    /// Exact, probe and why.
    fn query_by_set(&mut self, call: &Call) -> Option<u64> {
        let (Call::Exact { image, query }
        | Call::Probe { image, query }
        | Call::Why { image, query }) = *call
        else {
            return None;
        };
        let whole = query.len().is_multiple_of(4);
        let last = self.last_set.as_ref().filter(|last| whole && last.image == image)?;
        let labels = labels_in(query);
        if let Call::Why { .. } = call {
            let why = oracle::why(&last.set, &last.listed, &labels);
            self.oracle.reasons[why.reason as usize] += 1;
            return Some(why_number(why));
        }
        let case = oracle::lookup(&last.set, &labels);
        if let Call::Exact { .. } = call {
            return Some(exact_number(case));
        }
        count_case(&mut self.oracle.cases, probe_number(case));
        Some(probe_number(case))
    }

    /// Prints the tables. Returns how many comparisons and variants came out right and wrong.
    pub fn report(&self) -> (u64, u64) {
        self.print_refusals();
        println!("faults in the parts of rule 11: {:?}", &self.list_faults[1..=5]);
        println!("set oracle: {} images, {} with a set", self.oracle.images, self.oracle.with_set);
        println!("cases of lookup ({}) from probe: {:?}", CASES.join(", "), self.cases);
        println!("cases of lookup from the set oracle: {:?}", self.oracle.cases);
        let last = Reason::ALL.len();
        println!("reasons from why: {:?}", &self.reasons[1..=last]);
        println!("reasons from the set oracle: {:?}", &self.oracle.reasons[1..=last]);
        self.print_entries();
        let never = self.never_seen();
        let unnoticed = self.print_variants();
        let right = self.compared - self.different + (self.variants.len() as u64 - unnoticed);
        println!(
            "comparisons: {}, different: {}, unmet: {}",
            self.compared, self.different, self.unmet
        );
        (right, self.different + self.unmet + unnoticed + never)
    }

    fn print_refusals(&self) {
        println!("how often each refusal (0: none) came from each function, - where it cannot");
        let names: String =
            Function::ALL.iter().map(|function| format!("{:>9}", function.name())).collect();
        println!("   {names}");
        let given = |number: &usize| Function::ALL.iter().any(|it| it.can_refuse(*number));
        for number in (0..REFUSALS).filter(|number| *number == 0 || given(number)) {
            let cell = |function: &Function| match self.seen[*function as usize][number] {
                0 if number > 0 && !function.can_refuse(number) => format!("{:>9}", "-"),
                count => format!("{count:>9}"),
            };
            println!("{number:>3}{}", Function::ALL.iter().map(cell).collect::<String>());
        }
    }

    fn print_entries(&self) {
        for ((function, causes), seen) in MALFORMED_BY.iter().zip(&self.malformed) {
            let text = |cause: &Malformed| format!("{cause:?} {}", seen[*cause as usize]);
            let texts: Vec<String> = causes.iter().map(text).collect();
            println!("causes of 26 from {}: {}", function.name(), texts.join(", "));
        }
        println!("tables that are the form of lists, and others: {:?}", self.oracle.tables);
        println!("parts ({}) from the lists: {:?}", PARTS_FOUND.join(", "), self.oracle.parts);
    }

    /// Prints and counts the refusals, parts of rule 11, cases and reasons that a
    /// function can give but never gave.
    fn never_seen(&self) -> u64 {
        let mut never = 0;
        for part in (1..=5).filter(|part| self.list_faults[*part] == 0) {
            println!("NEVER SEEN: part {part} of rule 11 from fault");
            never += 1;
        }
        for (seen, from) in [(self.cases, "probe"), (self.oracle.cases, "the set oracle")] {
            for (_, case) in seen.iter().zip(CASES).filter(|(count, _)| **count == 0) {
                println!("NEVER SEEN: case {case} from {from}");
                never += 1;
            }
        }
        for (seen, from) in [(self.reasons, "why"), (self.oracle.reasons, "the set oracle")] {
            for reason in Reason::ALL.iter().filter(|reason| seen[**reason as usize] == 0) {
                println!("NEVER SEEN: reason {reason:?} from {from}");
                never += 1;
            }
        }
        never += self.entries_never_seen();
        for function in Function::ALL {
            for number in (1..REFUSALS).filter(|number| function.can_refuse(*number)) {
                if self.seen[function as usize][number] == 0 {
                    println!("NEVER SEEN: refusal {number} from {}", function.name());
                    never += 1;
                }
            }
        }
        never
    }

    /// The same for causes of 26, tables and parts.
    fn entries_never_seen(&self) -> u64 {
        let mut never = 0;
        for ((function, causes), seen) in MALFORMED_BY.iter().zip(&self.malformed) {
            for cause in causes.iter().filter(|cause| seen[**cause as usize] == 0) {
                println!("NEVER SEEN: 26 by {cause:?} from {}", function.name());
                never += 1;
            }
        }
        let found = self.oracle.parts.iter().zip(PARTS_FOUND);
        let tables = self.oracle.tables.iter().zip(["a table of lists", "another table"]);
        for (_, what) in found.chain(tables).filter(|(count, _)| **count == 0) {
            println!("NEVER SEEN: {what} from the lists");
            never += 1;
        }
        never
    }

    /// Prints the wrong variants; counts those that were not noticed.
    fn print_variants(&self) -> u64 {
        for variant in &self.variants {
            let (wrong, what) = (format!("{:?}", variant.wrong), variant.wrong.what());
            match variant.noticed {
                Some((after, function)) => {
                    println!("{wrong:<22} noticed at {after:>7} in {:<8}  {what}", function.name());
                }
                None => println!("{wrong:<22} NOT NOTICED  {what}"),
            }
        }
        let noticed = self.variants.iter().filter(|variant| variant.noticed.is_some()).count();
        println!("wrong variants: {noticed} of {} noticed", self.variants.len());
        (self.variants.len() - noticed) as u64
    }
}

/// Counts the case that an answer of probe gives; a refusal gives none.
fn count_case(cases: &mut [u64; CASES.len()], answer: u64) {
    if let Some(count) = cases.get_mut((answer >> 32) as usize) {
        *count += 1;
    }
}
