//! Typing positions, request 3 of document 02, as lists of the labels typed. After
//! each move the whole list is walked from slot 1 again.

use crate::check::accept;
use crate::common::{Refusal, KEY_LABELS};
use crate::image::Image;
use crate::rules::{Rules, Wrong};
use crate::search::Case;

/// The most labels that a position counts.
pub const TYPED_LABELS: usize = 255;

/// One more label, or the last one taken back.
#[derive(Clone, Copy, Debug)]
pub enum Move {
    Push(u32),
    Back,
}

/// An image that passed 1 to 8, or its refusal.
pub type Opened = Result<Image, Refusal>;

/// The labels typed so far.
#[derive(Clone, Debug, PartialEq, Eq)]
pub struct Position {
    labels: Vec<u32>,
    /// The slots after 0, 1, 2 .. labels in the image of the last move that was not refused, up to
    /// the last good place.
    trail: Vec<u32>,
}

impl Position {
    /// No labels.
    pub fn fresh() -> Position {
        Position { labels: Vec::new(), trail: vec![1] }
    }

    pub fn labels(&self) -> &[u32] {
        &self.labels
    }

    /// The slot of the last good place.
    pub fn place(&self) -> u32 {
        self.trail[self.trail.len() - 1]
    }

    /// Whether some label only counts: it was not listed, had no step, or came after such a label
    /// or beyond the limit of a key.
    fn has_failed(&self) -> bool {
        self.trail.len() <= self.labels.len()
    }

    /// Makes a move. A refusal, or a place that is not below N, leaves the position as it is.
    pub fn make(&mut self, rules: Rules, image: &Opened, next: Move) {
        match image {
            Ok(image) => self.make_in(rules, image, next),
            Err(_) => self.make_refused(rules, next),
        }
    }

    /// The same without refusals 1 to 8.
    pub fn make_in(&mut self, rules: Rules, image: &Image, next: Move) {
        if self.is_in(rules, image) {
            match next {
                Move::Push(label) => self.push(rules, image, label),
                Move::Back => self.back(rules, image),
            }
            self.trail = self.walk(rules, image);
        } else if rules.breaks(Wrong::OutsideBeginsAnew) {
            *self = Position::fresh();
        }
    }

    /// What wrong variants do after a refusal.
    fn make_refused(&mut self, rules: Rules, next: Move) {
        match next {
            Move::Push(label) if rules.breaks(Wrong::RefusedPushCounts) => self.labels.push(label),
            Move::Back if rules.breaks(Wrong::RefusedBackCounts) => {
                self.labels.pop();
            }
            _ if rules.breaks(Wrong::RefusalBeginsAnew) => *self = Position::fresh(),
            _ => {}
        }
    }

    /// Whether the place is below N.
    fn is_in(&self, rules: Rules, image: &Image) -> bool {
        let slots = image.nodes.len() + rules.either(0, Wrong::PlaceMayBeN, 1);
        (self.place() as usize) < slots
            || rules.breaks(Wrong::PlaceNotCompared)
            || rules.breaks(Wrong::FailedMovesAnywhere) && self.has_failed()
    }

    fn push(&mut self, rules: Rules, image: &Image, label: u32) {
        let most = rules.either(TYPED_LABELS, Wrong::LabelsCountTo254, TYPED_LABELS - 1);
        let most = rules.either(most, Wrong::LabelsCountTo256, TYPED_LABELS + 1);
        if self.labels.len() >= most {
            return self.overfill(rules, label);
        }
        let not_counted = rules.breaks(Wrong::LaterLabelsNotCounted) && self.has_failed()
            || rules.breaks(Wrong::PastTheLimitNotCounted) && self.labels.len() >= KEY_LABELS;
        if !not_counted {
            self.labels.push(label);
        }
        let fails = || self.walk(rules, image).len() <= self.labels.len();
        if rules.breaks(Wrong::FailedLabelNotCounted) && fails() {
            self.labels.pop();
        }
    }

    /// What wrong variants do with one more label than a position counts.
    fn overfill(&mut self, rules: Rules, label: u32) {
        if rules.breaks(Wrong::FullListShifts) {
            self.labels.remove(0);
            self.labels.push(label);
        }
        if rules.breaks(Wrong::FullListBeginsAnew) {
            self.labels.clear();
        }
    }

    fn back(&mut self, rules: Rules, image: &Image) {
        let (failed, place) = (self.has_failed(), self.place());
        let taken_for_root = rules.breaks(Wrong::RootBySlot) && place == 1
            || rules.breaks(Wrong::RootByParent) && image.node(place).parent() == 0;
        if taken_for_root && !failed {
            return;
        }
        if self.labels.pop().is_none() && rules.breaks(Wrong::BackAtNoneWraps) {
            self.labels = vec![u32::MAX; TYPED_LABELS];
        }
        if failed && rules.breaks(Wrong::FailedBackMovesUp) {
            self.labels.pop();
        }
        if failed && rules.breaks(Wrong::FailedLabelLosesPlace) {
            self.labels.clear();
        }
    }

    /// The trail of the labels that a key may have.
    fn walk(&self, rules: Rules, image: &Image) -> Vec<u32> {
        image.trail(rules, &self.labels[..self.labels.len().min(KEY_LABELS)])
    }

    /// What lookup answers for the labels typed so far; nothing if the place is not below N.
    pub fn lookup(&self, rules: Rules, image: &Opened) -> Result<Case, Refusal> {
        image.as_ref().map_err(|refusal| *refusal).and_then(|image| self.lookup_in(rules, image))
    }

    /// The same without refusals 1 to 8.
    pub fn lookup_in(&self, rules: Rules, image: &Image) -> Result<Case, Refusal> {
        if rules.breaks(Wrong::PositionTests9To12) {
            accept(rules, image)?;
        }
        let overlooked = rules.breaks(Wrong::Slot0IsNoPlace) && self.trail.contains(&0)
            || rules.breaks(Wrong::PositionBelowLimit) && self.labels.len() >= KEY_LABELS;
        if overlooked || !self.is_in(rules, image) {
            return Ok(Case::Nothing);
        }
        let walked = self.labels.len().min(self.trail.len() - 1);
        let walked = rules.either(self.labels.len(), Wrong::GoodPlaceAnswered, walked);
        let past = Rules::breaking(Wrong::LookupPastTheLimit);
        let rules = rules.either(rules, Wrong::PositionPastTheLimit, past);
        Ok(image.lookup(rules, &self.labels[..walked]))
    }
}

/// A fresh position, and the positions after each move over the image whose index the move has.
pub fn replay(rules: Rules, images: &[Opened], moves: &[(usize, Move)]) -> Vec<Position> {
    let mut positions = vec![Position::fresh()];
    for (over, next) in moves {
        let mut position = positions[positions.len() - 1].clone();
        position.make(rules, &images[*over], *next);
        positions.push(position);
    }
    positions
}
