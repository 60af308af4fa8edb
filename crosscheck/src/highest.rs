//! The highest value number: refusals 1 to 12, then the largest value among the
//! pairs that the children lists lead to from slot 1.

use crate::check::accept;
use crate::common::Refusal;
use crate::image::Image;
use crate::rules::{Rules, Wrong};

/// None if there is no pair.
pub fn highest(rules: Rules, bytes: &[u8]) -> Result<Option<u32>, Refusal> {
    let image = Image::parse(rules, bytes)?;
    match accept(rules, &image) {
        Err(Refusal(12)) if rules.breaks(Wrong::HighestPasses12) => {}
        accepted => accepted?,
    }
    Ok(image.highest(rules))
}

impl Image {
    /// The highest value of an accepted image.
    pub fn highest(&self, rules: Rules) -> Option<u32> {
        let values = self.values(rules);
        let (last, less_one) = (values.last().copied(), (values.len() as u32).checked_sub(1));
        let highest = rules.either(values.into_iter().max(), Wrong::LastPairIsHighest, last);
        let highest = rules.either(highest, Wrong::CountLessOneHighest, less_one);
        highest.or(rules.either(None, Wrong::NoPairHasValue0, Some(0)))
    }

    /// The values of all pairs, in code order.
    fn values(&self, rules: Rules) -> Vec<u32> {
        let (mut values, mut ahead) = (Vec::new(), vec![1]);
        while let Some(slot) = ahead.pop() {
            if self.node(slot).is_leaf() || rules.breaks(Wrong::BasesAreValues) {
                values.push(self.node(slot).low_base());
            }
            ahead.extend(self.lists.of(slot).iter().rev());
        }
        values
    }
}
