//! Lookup (request 6 of document 02), prefixes and longest, over the trail of slots
//! that a query walks.

use crate::common::{labels_in, refuse_if, Refusal, KEY_LABELS};
use crate::image::Image;
use crate::rules::{Rules, Wrong};

/// A key found at the front of a query: its length in labels and its value number.
pub type Match = (usize, u32);

/// What lookup answers for a query; the last two cases have its value number.
#[derive(Clone, Copy, Debug, Default, PartialEq, Eq)]
pub enum Case {
    #[default]
    Nothing,
    Prefix,
    Exact(u32),
    ExactAndPrefix(u32),
}

impl Case {
    pub fn value(self) -> Option<u32> {
        match self {
            Case::Nothing | Case::Prefix => None,
            Case::Exact(value) | Case::ExactAndPrefix(value) => Some(value),
        }
    }

    /// Whether longer keys exist.
    pub fn longer_keys(self) -> bool {
        matches!(self, Case::Prefix | Case::ExactAndPrefix(_))
    }
}

/// Refusals 1 to 8, then 13: an image to walk and the query's labels.
pub fn open(rules: Rules, image: &[u8], query: &[u8]) -> Result<(Image, Vec<u32>), Refusal> {
    let cut = !query.len().is_multiple_of(4);
    refuse_if(cut && rules.breaks(Wrong::QueryBeforeImage), 13)?;
    let image = Image::parse(rules, image)?;
    refuse_if(cut, 13)?;
    Ok((image, labels_in(query)))
}

pub fn lookup(rules: Rules, image: &[u8], query: &[u8]) -> Result<Case, Refusal> {
    let (image, labels) = open(rules, image, query)?;
    Ok(image.lookup(rules, &labels))
}

pub fn prefixes(rules: Rules, image: &[u8], query: &[u8]) -> Result<Vec<Match>, Refusal> {
    let (image, labels) = open(rules, image, query)?;
    Ok(image.prefixes(rules, &labels))
}

/// The matched front part of the query.
pub fn longest<'a>(rules: Rules, image: &[u8], query: &'a [u8]) -> Result<&'a [u8], Refusal> {
    let (image, labels) = open(rules, image, query)?;
    Ok(&query[..4 * image.longest(rules, &labels)])
}

impl Image {
    fn step(&self, rules: Rules, from: u32, code: u32) -> Option<u32> {
        let node = self.node(from);
        if node.is_leaf() && rules.keeps(Wrong::LeafHasSteps) {
            return None;
        }
        let to = node.low_base() ^ code;
        let below = self.nodes.get(to as usize)?;
        let parent = rules.either(below.parent(), Wrong::WholeCheckCompared, below.check);
        (parent == from).then_some(to)
    }

    fn value_at(&self, rules: Rules, slot: u32) -> Option<u32> {
        let flagged = self.node(slot).has_leaf() || rules.breaks(Wrong::ValueWithoutHasLeaf);
        let end = self.step(rules, slot, 0).filter(|_| flagged)?;
        let leaf = self.node(end).is_leaf() || rules.breaks(Wrong::EndNeedNotBeLeaf);
        leaf.then(|| self.node(end).low_base())
    }

    /// The slots after 0, 1, 2 .. labels, up to where the walk stops.
    pub fn trail(&self, rules: Rules, labels: &[u32]) -> Vec<u32> {
        let unlisted = rules.either(None, Wrong::UnlistedIsCode0, Some(0));
        let mut trail = vec![1];
        for label in labels {
            let code = self.map.code(*label).or(unlisted);
            let Some(next) = code.and_then(|code| self.step(rules, trail[trail.len() - 1], code))
            else {
                break;
            };
            trail.push(next);
        }
        trail
    }

    /// The slot after all labels, if the walk gets there.
    pub fn slot_of(&self, rules: Rules, labels: &[u32]) -> Option<u32> {
        self.trail(rules, labels).get(labels.len()).copied()
    }

    pub fn lookup(&self, rules: Rules, labels: &[u32]) -> Case {
        if labels.len() > KEY_LABELS && rules.keeps(Wrong::LookupPastTheLimit) {
            return Case::Nothing;
        }
        self.slot_of(rules, labels).map(|slot| self.case_at(rules, slot)).unwrap_or_default()
    }

    /// The case of a query whose walk ends at this slot.
    fn case_at(&self, rules: Rules, slot: u32) -> Case {
        let longer_keys = self.longer_keys(rules, slot);
        let Some(value) = self.value_at(rules, slot) else {
            return if longer_keys { Case::Prefix } else { Case::Nothing };
        };
        let value = rules.either(value, Wrong::ExactWithoutValue, 0);
        let (alone, both) = (Case::Exact(value), Case::ExactAndPrefix(value));
        let (alone, both) = rules.either((alone, both), Wrong::LastCasesExchanged, (both, alone));
        let both = rules.either(both, Wrong::KeyIsOnlyPrefix, Case::Prefix);
        if longer_keys {
            both
        } else {
            alone
        }
    }

    /// Whether the children list is wider than the end that HAS_LEAF announces.
    fn longer_keys(&self, rules: Rules, slot: u32) -> bool {
        let pair = &self.lists.offsets[slot as usize..];
        let (from, to) = (pair[0], pair[1]);
        let width =
            rules.either(to.saturating_sub(from), Wrong::FallingPairWraps, to.wrapping_sub(from));
        let flagged = self.node(slot).has_leaf() && rules.keeps(Wrong::EndCountsAsLonger);
        width > u32::from(flagged)
    }

    pub fn prefixes(&self, rules: Rules, labels: &[u32]) -> Vec<Match> {
        let counting = rules.either(KEY_LABELS, Wrong::PrefixesPastTheLimit, usize::MAX);
        let counting = rules.either(counting, Wrong::PrefixesStopOneEarly, KEY_LABELS - 1);
        let front = &labels[..labels.len().min(counting)];
        let slots = self.trail(rules, front).into_iter().enumerate();
        slots
            .skip(rules.either(0, Wrong::EmptyKeyNoPrefix, 1))
            .filter_map(|(length, slot)| Some((length, self.value_at(rules, slot)?)))
            .collect()
    }

    /// The length in labels of the longest match.
    pub fn longest(&self, rules: Rules, labels: &[u32]) -> usize {
        if rules.breaks(Wrong::LongestIsTheWalk) {
            return self.trail(rules, labels).len() - 1;
        }
        self.prefixes(rules, labels).last().map_or(0, |found| found.0)
    }
}
