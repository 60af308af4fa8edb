//! What is measured of typing positions, on texts of eight labels that begin keys of
//! the largest dictionaries. Probe of the whole text is compared with typing its last
//! label and asking for the answer; typing the last label, with taking it back.

use crate::calls;
use crate::contestant::{Lent, Query};
use crate::dictionary::Dictionary;
use crate::measure::{Contestants, Plan};
use crate::operations::three;
use crate::random::Random;
use crate::table::grouped;
use crosscheck::answers;
use crosscheck::common::query_of;
use crosscheck::image::Image;
use crosscheck::position::{Move, Opened, Position};
use crosscheck::rules::Rules;
use std::collections::BTreeSet;

const RULES: Rules = Rules::DOCUMENT;
const SEED: u64 = 4;
/// The number of labels of each text.
const LABELS: usize = 8;
/// The number of calls, each on any of the texts.
const CALLS: usize = 20_000;

/// The positions before and after the last label of a text.
struct Typed<P> {
    before: P,
    after: P,
}

/// A text as it is typed by the product and by Rust.
struct Text<'a> {
    of: &'a Dictionary,
    query: Vec<u8>,
    last: u32,
    product: Typed<u64>,
    rust: Typed<Position>,
}

impl Query for &Text<'_> {
    fn query(&self) -> &[u8] {
        &self.query
    }
}

impl<'a> Text<'a> {
    fn new(of: &'a Dictionary, labels: &[u32]) -> Text<'a> {
        let (last, front) = labels.split_last().expect("a text has labels");
        let push = |position, label: &u32| calls::position_push(&of.image, position, *label);
        let before = front.iter().fold(calls::position_fresh(), push);
        // A label more is typed and taken back, so that a push is not compared with itself.
        let more = push(push(before, last), last);
        let product = Typed { before, after: calls::position_back(&of.image, more) };
        let push = |position: &Position, label| of.parsed.moved(position, Move::Push(label));
        let before =
            front.iter().fold(Position::fresh(), |position, label| push(&position, *label));
        let rust = Typed { after: push(&before, *last), before };
        Text { of, query: query_of(labels), last: *last, product, rust }
    }

    fn opened(&self) -> Opened {
        Image::parse(RULES, &self.of.image)
    }

    /// Rust's position after a move; the image is parsed in the call.
    fn moved(&self, from: &Position, next: Move) -> Position {
        let mut position = from.clone();
        position.make(RULES, &self.opened(), next);
        position
    }

    /// The last label typed.
    fn push(&self) -> Move {
        Move::Push(self.last)
    }
}

pub struct Positions<'a>(Vec<Text<'a>>);

impl<'a> Positions<'a> {
    /// All texts of this length that begin keys of these dictionaries.
    pub fn new(dictionaries: &'a [Dictionary]) -> Positions<'a> {
        let texts = |of: &'a Dictionary| {
            let texts: BTreeSet<&[u32]> =
                of.keys.iter().filter_map(|key| key.get(..LABELS)).collect();
            texts.into_iter().map(move |labels| Text::new(of, labels))
        };
        Positions(dictionaries.iter().flat_map(texts).collect())
    }

    /// How many texts there are, as a line of text.
    pub fn describe(&self) -> String {
        format!("positions, {} texts of {LABELS} labels", grouped(self.0.len()))
    }

    /// Probe, and a label typed and answered.
    pub fn answered(&self) -> Vec<Plan<'_>> {
        vec![
            Plan::new("probe", (" queries", 1.0), self.probed()),
            Plan::new("position", (" queries", 1.0), self.typed_and_probed()),
        ]
    }

    /// A label typed, and taken back.
    pub fn moved(&self) -> Vec<Plan<'_>> {
        vec![
            Plan::new("push", (" labels", 1.0), self.pushed()),
            Plan::new("back", (" labels", 1.0), self.taken_back()),
        ]
    }

    /// Texts in any order, so that the branches of a call cannot be predicted from the one before it.
    fn calls(&self) -> Vec<&Text<'a>> {
        let random = &mut Random::new(SEED);
        (0..CALLS).map(|_| random.pick(&self.0)).collect()
    }

    fn probed(&self) -> Contestants<'_> {
        three(
            &self.calls(),
            &Lent::default(),
            |text, _| calls::probe(&text.of.image, &text.query),
            |text, _| answers::probe(RULES, &text.of.image, &text.query),
            |text, _| text.of.parsed.probe(&text.query),
        )
    }

    fn typed_and_probed(&self) -> Contestants<'_> {
        three(
            &self.calls(),
            &Lent::default(),
            |text, _| {
                let image = &text.of.image;
                let after = calls::position_push(image, text.product.before, text.last);
                calls::position_probe(image, after)
            },
            |text, _| {
                let after = text.moved(&text.rust.before, text.push());
                answers::position_probe(RULES, &text.opened(), &after)
            },
            |text, _| {
                let after = text.of.parsed.moved(&text.rust.before, text.push());
                text.of.parsed.position_probe(&after)
            },
        )
    }

    /// The answer is whether the position is the one after the label.
    fn pushed(&self) -> Contestants<'_> {
        three(
            &self.calls(),
            &Lent::default(),
            |text, _| {
                let Typed { before, after } = text.product;
                u64::from(calls::position_push(&text.of.image, before, text.last) == after)
            },
            |text, _| {
                let Typed { before, after } = &text.rust;
                u64::from(text.moved(before, text.push()) == *after)
            },
            |text, _| {
                let Typed { before, after } = &text.rust;
                u64::from(text.of.parsed.moved(before, text.push()) == *after)
            },
        )
    }

    /// The answer is whether the position is the one before the label.
    fn taken_back(&self) -> Contestants<'_> {
        three(
            &self.calls(),
            &Lent::default(),
            |text, _| {
                let Typed { before, after } = text.product;
                u64::from(calls::position_back(&text.of.image, after) == before)
            },
            |text, _| {
                let Typed { before, after } = &text.rust;
                u64::from(text.moved(after, Move::Back) == *before)
            },
            |text, _| {
                let Typed { before, after } = &text.rust;
                u64::from(text.of.parsed.moved(after, Move::Back) == *before)
            },
        )
    }
}
