//! Why a word is missing, request 5 of document 02. Front parts of the query are
//! walked from slot 1, each anew and the longest first; the label behind the first
//! one that can be walked is the label at which the walk stops.

use crate::check::accept;
use crate::common::{Refusal, KEY_LABELS};
use crate::image::Image;
use crate::rules::{Rules, Wrong};
use crate::search::open;

/// The reasons, by their numbers in an answer.
#[derive(Clone, Copy, Debug, PartialEq, Eq)]
pub enum Reason {
    Found = 1,
    NotListed = 2,
    NoStep = 3,
    NoKeyEnds = 4,
    TooLong = 5,
}

/// A reason, and the place of the label at which the walk stops; 0 if the reason has no place.
#[derive(Clone, Copy, Debug, PartialEq, Eq)]
pub struct Why {
    pub reason: Reason,
    pub place: usize,
}

impl Reason {
    pub const ALL: [Reason; 5] =
        [Reason::Found, Reason::NotListed, Reason::NoStep, Reason::NoKeyEnds, Reason::TooLong];

    pub fn at(self, place: usize) -> Why {
        Why { reason: self, place }
    }
}

/// Refusals 1 to 8, then 13, then the reason.
pub fn why(rules: Rules, image: &[u8], query: &[u8]) -> Result<Why, Refusal> {
    if rules.breaks(Wrong::TooLongBeforeRefusals) && query.len() / 4 > KEY_LABELS {
        return Ok(Reason::TooLong.at(0));
    }
    let query_first = Rules::breaking(Wrong::QueryBeforeImage);
    let opening = rules.either(rules, Wrong::ReasonTests13First, query_first);
    let (image, labels) = open(opening, image, query)?;
    if rules.breaks(Wrong::ReasonTests9To12) {
        accept(rules, &image)?;
    }
    Ok(image.why(rules, &labels))
}

fn is_too_long(rules: Rules, labels: &[u32]) -> bool {
    let most = rules.either(KEY_LABELS, Wrong::TooLongAtTheLimit, KEY_LABELS - 1);
    labels.len() > rules.either(most, Wrong::OneLabelMoreWalked, KEY_LABELS + 1)
}

impl Image {
    pub fn why(&self, rules: Rules, labels: &[u32]) -> Why {
        let without_place =
            |reason: Reason, has_place: Wrong| reason.at(rules.either(0, has_place, labels.len()));
        let too_long = is_too_long(rules, labels);
        if too_long && rules.keeps(Wrong::TooLongAfterWalking) {
            return without_place(Reason::TooLong, Wrong::TooLongHasPlace);
        }
        match self.stop(rules, labels) {
            Some(place) => self.why_stopped(rules, labels, place),
            // Only the variant that walks first comes here with too many labels.
            None if too_long => Reason::TooLong.at(0),
            None if self.finds(rules, labels) => without_place(Reason::Found, Wrong::FoundHasPlace),
            None if rules.breaks(Wrong::NoKeyIsNoStep) => Reason::NoStep.at(labels.len()),
            None => without_place(Reason::NoKeyEnds, Wrong::NoKeyHasPlace),
        }
    }

    /// The place behind the longest front part that can be walked, if that is not the whole query.
    fn stop(&self, rules: Rules, labels: &[u32]) -> Option<usize> {
        let walks = |front: &usize| self.slot_of(rules, &labels[..*front]).is_some();
        (0..=labels.len()).rev().find(walks).filter(|front| *front < labels.len())
    }

    fn finds(&self, rules: Rules, labels: &[u32]) -> bool {
        let flagged = |slot: u32| self.node(slot).has_leaf();
        self.lookup(rules, labels).value().is_some()
            || rules.breaks(Wrong::HasLeafIsFound)
                && self.slot_of(rules, labels).is_some_and(flagged)
    }

    /// The reason for a walk that stops at the label of this place.
    fn why_stopped(&self, rules: Rules, labels: &[u32], place: usize) -> Why {
        let place = self.told_place(rules, labels, place);
        let unlisted = rules.either(Reason::NotListed, Wrong::UnlistedIsNoStep, Reason::NoStep);
        let listed = rules.either(Reason::NoStep, Wrong::NoStepIsUnlisted, Reason::NotListed);
        let reason = self.map.code(labels[place]).map_or(unlisted, |_| listed);
        let place = place + rules.either(0, Wrong::StopCountedFrom1, 1);
        reason.at(place * rules.either(1, Wrong::StopCountedInBytes, 4))
    }

    /// The place itself; wrong variants tell the place of another label.
    fn told_place(&self, rules: Rules, labels: &[u32], place: usize) -> usize {
        let is_unlisted = |place: &usize| self.map.code(labels[*place]).is_none();
        let mut unlisted = (0..labels.len()).filter(is_unlisted);
        let other = if rules.breaks(Wrong::LastLabelStops) {
            Some(labels.len() - 1)
        } else if rules.breaks(Wrong::UnlistedBeforeNoStep) {
            unlisted.next()
        } else if rules.breaks(Wrong::LastUnlistedTold) && is_unlisted(&place) {
            unlisted.last()
        } else {
            None
        };
        other.unwrap_or(place)
    }
}
