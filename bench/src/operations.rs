//! The operations that are measured, and the contestants of each: the product's
//! function, the Rust function from the same bytes to the same answer, and that
//! function over an image that is already parsed.

use crate::calls;
use crate::contestant::{By, Call, Lent, Query};
use crate::dictionary::{Dictionary, IMAGE_BYTES, WORK_WORDS};
use crate::measure::{Contestants, Plan};
use crate::workload::Workload;
use crosscheck::answers::{self, PLACE_WORDS};
use crosscheck::rules::Rules;

const RULES: Rules = Rules::DOCUMENT;
const PRODUCT: &str = "product";
const RUST: &str = "Rust";
const PARSED: &str = "Rust, image parsed before";

#[derive(Clone, Copy)]
pub enum Operation {
    Check,
    Highest,
    TableCheck,
    ExactPresent,
    EntriesPresent,
    ExactAbsent,
    EntriesAbsent,
    Prefixes,
    Longest,
    Probe,
    WhyFound,
    WhyMissing,
    CompleteAll,
    CompleteTwo,
    Build,
}

impl Operation {
    pub const ALL: [Operation; 15] = [
        Operation::Check,
        Operation::Highest,
        Operation::TableCheck,
        Operation::ExactPresent,
        Operation::EntriesPresent,
        Operation::ExactAbsent,
        Operation::EntriesAbsent,
        Operation::Prefixes,
        Operation::Longest,
        Operation::Probe,
        Operation::WhyFound,
        Operation::WhyMissing,
        Operation::CompleteAll,
        Operation::CompleteTwo,
        Operation::Build,
    ];

    /// The operation, and what one call does.
    pub fn title(self) -> &'static str {
        match self {
            Operation::Check => "check: a call checks the image",
            Operation::Highest => "highest: a call checks the image and finds its highest value",
            Operation::TableCheck => "entries, check: a call checks the image and an entry table",
            Operation::ExactPresent => "exact, present: a call looks up a key of the list",
            Operation::EntriesPresent => {
                "entries, present: a call looks up a key of the list and its entries"
            }
            Operation::ExactAbsent => "exact, absent: a call looks up a reading that is no key",
            Operation::EntriesAbsent => {
                "entries, absent: a call looks up the entries of a reading that is no key"
            }
            Operation::Prefixes => "prefixes: a call finds all keys at a position of a text",
            Operation::Longest => "longest: a call finds the longest key at a position of a text",
            Operation::Probe => "probe: a call looks up a prefix of a key",
            Operation::WhyFound => "why, found: a call tells that a key of the list is found",
            Operation::WhyMissing => "why, missing: a call tells why a reading is no key",
            Operation::CompleteAll => "complete, all: a call checks the image and lists all keys",
            Operation::CompleteTwo => {
                "complete, two labels: a call checks the image and lists the keys of a prefix"
            }
            Operation::Build => "build: a call builds the image",
        }
    }

    /// What is counted for the throughput, and how much of it a call handles.
    pub fn amount(self, on: &Workload) -> (&'static str, f64) {
        let mean = |size: fn(&Dictionary) -> usize| {
            on.dictionaries.iter().map(size).sum::<usize>() as f64 / on.dictionaries.len() as f64
        };
        match self {
            Operation::Check | Operation::Highest => ("B", mean(|of| of.image.len())),
            Operation::TableCheck => ("B", mean(|of| of.image.len() + of.goods.table.len())),
            Operation::CompleteAll | Operation::Build => (" keys", mean(|of| of.keys.len())),
            _ => (" queries", 1.0),
        }
    }

    /// The contestants in the order of the table's columns.
    pub fn contestants(self, on: &Workload) -> Contestants<'_> {
        match self {
            Operation::Check => check(&each_once(on)),
            Operation::Highest => highest(&each_once(on)),
            Operation::TableCheck => table_check(&each_once(on)),
            Operation::ExactPresent => exact(&searches(on, slices(&on.present))),
            Operation::EntriesPresent => entries(&searches(on, slices(&on.present))),
            Operation::ExactAbsent => exact(&searches(on, slices(&on.absent))),
            Operation::EntriesAbsent => entries(&searches(on, slices(&on.absent))),
            Operation::Prefixes => prefixes(on),
            Operation::Longest => longest(on),
            Operation::Probe => probe(&searches(on, slices(&on.typed))),
            Operation::WhyFound => why(&searches(on, slices(&on.present))),
            Operation::WhyMissing => why(&searches(on, slices(&on.absent))),
            Operation::CompleteAll => complete(on, vec![&[]; on.dictionaries.len()]),
            Operation::CompleteTwo => complete(on, slices(&on.prefixes)),
            Operation::Build => build(on),
        }
    }
}

/// Three lookups of the same keys.
pub fn same_keys(on: &Workload) -> Vec<Plan<'_>> {
    let keys = searches(on, slices(&on.present));
    let plan = |name, contestants| Plan::new(name, (" queries", 1.0), contestants);
    vec![plan("exact", exact(&keys)), plan("probe", probe(&keys)), plan("entries", entries(&keys))]
}

pub fn check<'a>(calls: &[Call<'a>]) -> Contestants<'a> {
    three(
        calls,
        &Lent::default(),
        |call, _| calls::check(&call.of.image),
        |call, _| answers::check(RULES, &call.of.image),
        |call, _| call.of.parsed.check(),
    )
}

fn highest<'a>(calls: &[Call<'a>]) -> Contestants<'a> {
    three(
        calls,
        &Lent::default(),
        |call, _| calls::highest(&call.of.image),
        |call, _| answers::highest(RULES, &call.of.image),
        |call, _| call.of.parsed.highest(),
    )
}

/// For the third contestant the table is parsed too.
fn table_check<'a>(calls: &[Call<'a>]) -> Contestants<'a> {
    three(
        calls,
        &Lent::default(),
        |call, _| calls::table_check(&call.of.image, &call.of.goods.table),
        |call, _| answers::table_check(RULES, &call.of.image, &call.of.goods.table),
        |call, _| call.of.parsed.table_check(&call.of.goods.parsed),
    )
}

/// For the third contestant the table is parsed too.
fn entries<'a>(queries: &[Call<'a>]) -> Contestants<'a> {
    three(
        queries,
        &Lent { words: vec![0], ..Lent::default() },
        |call, lent| {
            calls::entries(&call.of.image, call.query, &call.of.goods.table, &mut lent.words)
        },
        |call, lent| {
            let (image, table) = (&call.of.image, &call.of.goods.table);
            answers::entries(RULES, image, call.query, table, &mut lent.words)
        },
        |call, lent| call.of.parsed.entries(call.query, &call.of.goods.parsed, &mut lent.words),
    )
}

fn exact<'a>(queries: &[Call<'a>]) -> Contestants<'a> {
    three(
        queries,
        &Lent::default(),
        |call, _| calls::exact(&call.of.image, call.query),
        |call, _| answers::exact(RULES, &call.of.image, call.query),
        |call, _| call.of.parsed.exact(call.query),
    )
}

fn prefixes(on: &Workload) -> Contestants<'_> {
    three(
        &searches(on, on.positions()),
        &Lent { words: vec![0; PLACE_WORDS], ..Lent::default() },
        |call, lent| calls::prefixes(&call.of.image, call.query, &mut lent.words),
        |call, lent| answers::prefixes(RULES, &call.of.image, call.query, &mut lent.words),
        |call, lent| call.of.parsed.prefixes(call.query, &mut lent.words),
    )
}

fn longest(on: &Workload) -> Contestants<'_> {
    three(
        &searches(on, on.positions()),
        &Lent::default(),
        |call, _| calls::longest(&call.of.image, call.query),
        |call, _| answers::longest(RULES, &call.of.image, call.query),
        |call, _| call.of.parsed.longest(call.query),
    )
}

fn probe<'a>(queries: &[Call<'a>]) -> Contestants<'a> {
    three(
        queries,
        &Lent::default(),
        |call, _| calls::probe(&call.of.image, call.query),
        |call, _| answers::probe(RULES, &call.of.image, call.query),
        |call, _| call.of.parsed.probe(call.query),
    )
}

fn why<'a>(queries: &[Call<'a>]) -> Contestants<'a> {
    three(
        queries,
        &Lent::default(),
        |call, _| calls::why(&call.of.image, call.query),
        |call, _| answers::why(RULES, &call.of.image, call.query),
        |call, _| call.of.parsed.why(call.query),
    )
}

fn complete<'a>(on: &'a Workload, prefixes: Vec<&'a [u8]>) -> Contestants<'a> {
    let room = on.dictionaries.iter().map(Dictionary::room).max().unwrap_or_default();
    three(
        &in_turn(on, prefixes),
        &Lent { bytes: vec![0; room], ..Lent::default() },
        |call, lent| calls::complete(&call.of.image, call.query, &mut lent.bytes),
        |call, lent| answers::complete(RULES, &call.of.image, call.query, &mut lent.bytes),
        |call, lent| call.of.parsed.complete(call.query, &mut lent.bytes),
    )
}

/// Has no third contestant, because there is no image to parse beforehand.
fn build(on: &Workload) -> Contestants<'_> {
    let lent = Lent { words: vec![0; WORK_WORDS], bytes: vec![0; IMAGE_BYTES], ..Lent::default() };
    two(
        &each_once(on),
        &lent,
        |call, lent| calls::build(&call.of.list, &mut lent.words, &mut lent.bytes),
        |call, lent| answers::build(RULES, &call.of.list, &mut lent.words, &mut lent.bytes),
    )
}

fn two<'a, C: Query + Clone + 'a>(
    calls: &[C],
    lent: &Lent,
    product: impl Fn(&C, &mut Lent) -> u64 + 'a,
    rust: impl Fn(&C, &mut Lent) -> u64 + 'a,
) -> Contestants<'a> {
    vec![
        Box::new(By::new(PRODUCT, calls, lent, product)),
        Box::new(By::new(RUST, calls, lent, rust).slow()),
    ]
}

pub fn three<'a, C: Query + Clone + 'a>(
    calls: &[C],
    lent: &Lent,
    product: impl Fn(&C, &mut Lent) -> u64 + 'a,
    rust: impl Fn(&C, &mut Lent) -> u64 + 'a,
    parsed: impl Fn(&C, &mut Lent) -> u64 + 'a,
) -> Contestants<'a> {
    let mut contestants = two(calls, lent, product, rust);
    contestants.push(Box::new(By::new(PARSED, calls, lent, parsed)));
    contestants
}

/// A call on the first dictionary for each query.
fn searches<'a>(on: &'a Workload, queries: Vec<&'a [u8]>) -> Vec<Call<'a>> {
    queries.into_iter().map(|query| Call { of: &on.dictionaries[0], query }).collect()
}

/// A call without a query on each dictionary.
fn each_once(on: &Workload) -> Vec<Call<'_>> {
    in_turn(on, vec![&[]; on.dictionaries.len()])
}

/// A call for each query, on the dictionaries in turn.
fn in_turn<'a>(on: &'a Workload, queries: Vec<&'a [u8]>) -> Vec<Call<'a>> {
    let dictionaries = on.dictionaries.iter().cycle();
    queries.into_iter().zip(dictionaries).map(|(query, of)| Call { of, query }).collect()
}

fn slices(queries: &[Vec<u8>]) -> Vec<&[u8]> {
    queries.iter().map(Vec::as_slice).collect()
}
