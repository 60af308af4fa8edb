//! Romaji typing, request 1 of document 02, over the sorted keys of an image. No
//! slot is walked: a rest could still grow if the next key above it begins with
//! it, and a key matches if it is among the keys.

use crate::check::accept;
use crate::common::{is_scalar, labels_in, query_of, refuse_if, Refusal, KEY_LABELS};
use crate::image::Image;
use crate::keylist::Key;
use crate::oracle;
use crate::rules::{Rules, Wrong};
use std::collections::BTreeMap;
use std::iter;
use std::ops::Bound::{Excluded, Unbounded};

/// The length of a state: a byte with the number of bytes kept, those bytes, zeros.
pub const STATE_BYTES: usize = KEY_LABELS;
/// The most bytes kept: one less than the labels of the longest key.
pub const KEPT_BYTES: usize = STATE_BYTES - 1;

/// What the clerk does.
#[derive(Clone, Copy, Debug)]
pub enum Press<'a> {
    Type(&'a [u8]),
    Finish,
}

/// Memory lent to a call.
pub struct Lent<'a> {
    pub state: &'a mut [u8],
    pub room: &'a mut [u8],
}

/// Gives the first of refusals 1 to 12, 24, 25 and 29, in this order, or changes
/// state and room. Returns how many labels went out.
pub fn press(
    rules: Rules,
    image: &[u8],
    kana: &[u8],
    press: Press,
    lent: Lent,
) -> Result<usize, Refusal> {
    if matches!(press, Press::Type([])) && rules.breaks(Wrong::NothingTypedSkipped) {
        return Ok(0);
    }
    Image::parse(rules, image)?.press(rules, kana, press, lent)
}

impl Image {
    /// The same without refusals 1 to 8.
    pub fn press(
        &self,
        rules: Rules,
        kana: &[u8],
        press: Press,
        lent: Lent,
    ) -> Result<usize, Refusal> {
        let table = || Romaji::new(rules, self, kana);
        match accept(rules, self) {
            Err(_) if rules.breaks(Wrong::TypingPasses9To12) => {}
            Err(_) if rules.breaks(Wrong::TableBefore9) && table().lacks_text(&[]) => {
                return Err(Refusal(24));
            }
            accepted => accepted?,
        }
        table().press(press, lent)
    }
}

/// A piece of a text: a key with its value, or a byte that passes.
struct Piece {
    from: usize,
    to: usize,
    value: Option<u32>,
}

/// The pairs of an accepted image by their keys, and the texts of a kana table.
struct Romaji {
    rules: Rules,
    pairs: BTreeMap<Key, u32>,
    /// The number of labels of the longest key.
    longest: usize,
    texts: Vec<Vec<u32>>,
}

impl Romaji {
    fn new(rules: Rules, image: &Image, kana: &[u8]) -> Romaji {
        let mask = rules.either(u32::MAX, Wrong::LowestBytesMatch, 0xFF);
        let key = |labels: Key| labels.into_iter().map(|label| label & mask).collect::<Key>();
        let pairs = oracle::candidate(image).into_iter();
        let pairs: BTreeMap<Key, u32> = pairs.map(|pair| (key(pair.labels), pair.value)).collect();
        let longest = pairs.keys().map(Vec::len).max().unwrap_or(0);
        Romaji { rules, pairs, longest, texts: texts_in(rules, kana) }
    }

    fn press(&self, press: Press, lent: Lent) -> Result<usize, Refusal> {
        let (typed, keeping) = match press {
            Press::Type(typed) => (typed, true),
            Press::Finish => (&[][..], self.rules.breaks(Wrong::FinishKeeps)),
        };
        let bytes = [self.kept_in(lent.state), typed].concat();
        let text: Vec<u32> = bytes.iter().map(|byte| self.label(*byte)).collect();
        let pieces = self.cut(&text, keeping);
        let (out, kept) = (self.outgoing(&text, &pieces), self.kept(&bytes, &pieces));
        let refused = self.refuse(&pieces, &out, kept, lent.room.len());
        let no_room = refused == Err(Refusal(29));
        if refused.is_ok() || no_room && self.rules.breaks(Wrong::RoomFilledBy29) {
            self.put_labels(&out, lent.room);
        }
        let finished = matches!(press, Press::Finish);
        let put = refused.is_ok() && !(finished && self.rules.breaks(Wrong::FinishLeavesState));
        if put || no_room && self.rules.breaks(Wrong::StateChangedBy29) {
            self.put_state(kept, lent.state);
        }
        refused?;
        Ok(self.rules.either(out.len(), Wrong::OutgoingBytesCount, 4 * out.len()))
    }

    /// 24, 25 and 29.
    fn refuse(
        &self,
        pieces: &[Piece],
        out: &[u32],
        kept: &[u8],
        room: usize,
    ) -> Result<(), Refusal> {
        let empty_key = self.pairs.contains_key(&[][..]);
        let no_room = self.needed(out, kept) > room;
        refuse_if(empty_key && self.rules.breaks(Wrong::EmptyKeyBeforeTable), 25)?;
        refuse_if(self.lacks_text(pieces), 24)?;
        refuse_if(no_room && self.rules.breaks(Wrong::EmptyKeyAfterRoom), 29)?;
        refuse_if(empty_key, 25)?;
        refuse_if(no_room, 29)
    }

    /// Whether the text of some value is not whole.
    fn lacks_text(&self, pieces: &[Piece]) -> bool {
        let texts = self.texts.len() + self.rules.either(0, Wrong::LastTextMayLack, 1);
        let lacks = |value: u32| value as usize >= texts;
        let mut values = self.pairs.values().copied();
        if self.rules.breaks(Wrong::OnlyTypedTextsWhole) {
            return pieces.iter().filter_map(|piece| piece.value).any(lacks);
        }
        if self.rules.breaks(Wrong::TextForEachPair) {
            return texts < self.pairs.len();
        }
        if self.rules.breaks(Wrong::TableEndsWithTexts) {
            return values.max().map_or(0, |value| value as usize + 1) != texts;
        }
        let no_scalar = |label: &u32| !is_scalar(*label);
        let checked = self.rules.breaks(Wrong::TableLabelsChecked);
        values.any(lacks) || checked && self.texts.iter().flatten().any(no_scalar)
    }

    /// The bytes of room for what goes out.
    fn needed(&self, out: &[u32], kept: &[u8]) -> usize {
        let needed = self.rules.either(4 * out.len(), Wrong::RoomInLabels, out.len());
        let kept_too = 4 * kept.len();
        needed
            + self.rules.either(0, Wrong::RoomForKept, kept_too)
            + self.rules.either(0, Wrong::RoomWantsSpareByte, 1)
    }

    /// The bytes that a state keeps. No call gives a state with a count above
    /// [`KEPT_BYTES`] or past its end; of these, as many bytes count as there are.
    fn kept_in<'a>(&self, state: &'a [u8]) -> &'a [u8] {
        let Some((&count, bytes)) = state.split_first() else {
            return &[];
        };
        let above = self.rules.either(KEPT_BYTES, Wrong::HighCountKeepsNone, 0);
        let count = usize::from(count);
        let count = if count > KEPT_BYTES { above } else { count };
        let count = self.rules.either(count, Wrong::KeptForgotten, 0);
        &bytes[..count.min(bytes.len())]
    }

    fn label(&self, byte: u8) -> u32 {
        self.rules.either(u32::from(byte), Wrong::BytesAreSigned, byte as i8 as u32)
    }

    /// The pieces of a text, up to its end or to the rest that is kept.
    fn cut(&self, text: &[u32], keeping: bool) -> Vec<Piece> {
        let first = self.piece(text, 0, keeping);
        iter::successors(first, |before| self.piece(text, before.to, keeping)).collect()
    }

    /// The piece at a place; none if nothing is left there, or if what is left is kept.
    fn piece(&self, text: &[u32], from: usize, keeping: bool) -> Option<Piece> {
        let rest = &text[from..];
        if rest.is_empty() || keeping && self.waits(rest) {
            return None;
        }
        let Some((length, value)) = self.longest_key(rest) else {
            return Some(Piece { from, to: from + self.passing(rest), value: None });
        };
        let to = from + self.rules.either(length, Wrong::NextPlaceByOne, 1);
        Some(Piece { from, to, value: Some(value) })
    }

    fn waits(&self, rest: &[u32]) -> bool {
        let is_key = self.pairs.contains_key(rest);
        let grows = self.could_grow(rest)
            && !(is_key && self.rules.breaks(Wrong::KeyNeverWaits))
            && !(rest.len() == KEPT_BYTES && self.rules.breaks(Wrong::LongestRestPasses));
        self.rules.keeps(Wrong::NothingWaits)
            && (grows || is_key && self.rules.breaks(Wrong::KeyWaitsToo))
    }

    /// Whether a text is a proper front part of a key.
    fn could_grow(&self, text: &[u32]) -> bool {
        let above = self.pairs.range::<[u32], _>((Excluded(text), Unbounded));
        let mut longer = above.map(|(key, _)| key).take_while(|key| key.starts_with(text));
        let typable = |key: &Key| key.iter().all(|label| *label < 256);
        longer.any(|key| self.rules.keeps(Wrong::HighLabelsNeverGrow) || typable(key))
    }

    /// The length and the value of the longest key at the front of a text.
    fn longest_key(&self, text: &[u32]) -> Option<(usize, u32)> {
        let most = self.rules.either(self.longest, Wrong::LongestKeyMissed, KEPT_BYTES);
        let mut lengths = 1..=text.len().min(most);
        let key = |length: usize| Some((length, *self.pairs.get(&text[..length])?));
        let found = if self.rules.breaks(Wrong::ShortestKeyWins) {
            lengths.find_map(key)
        } else {
            lengths.rev().find_map(key)
        };
        found.filter(|(length, value)| !self.overlooked(text, *length, *value))
    }

    /// Whether a wrong variant misses a key that is at the front of a text.
    fn overlooked(&self, text: &[u32], length: usize, value: u32) -> bool {
        let goes_on = text.len() > length && self.could_grow(&text[..=length]);
        self.rules.breaks(Wrong::KeyAtEndOfWalk) && goes_on
            || self.rules.breaks(Wrong::Value0Passes) && value == 0
            || self.rules.breaks(Wrong::EmptyTextPasses) && self.text(value).is_empty()
    }

    /// How many labels pass where no key matches.
    fn passing(&self, text: &[u32]) -> usize {
        if self.rules.keeps(Wrong::WalkPassesWhole) {
            return 1;
        }
        let walked = (1..=text.len()).take_while(|length| self.could_grow(&text[..*length]));
        walked.last().unwrap_or(1)
    }

    fn text(&self, value: u32) -> &[u32] {
        let text = self.texts.get(value as usize).map_or(&[][..], Vec::as_slice);
        &text[..text.len().min(self.rules.either(text.len(), Wrong::FirstLabelOnly, 1))]
    }

    /// The kana of each key, and each byte that passes.
    fn outgoing(&self, text: &[u32], pieces: &[Piece]) -> Vec<u32> {
        let of = |piece: &Piece| match piece.value {
            Some(value) => self.text(value).to_vec(),
            None => text[piece.from..piece.to].to_vec(),
        };
        pieces.iter().flat_map(of).collect()
    }

    /// What is left of a text after its pieces.
    fn kept<'a>(&self, bytes: &'a [u8], pieces: &[Piece]) -> &'a [u8] {
        match pieces.last() {
            Some(Piece { from, value: None, .. }) if self.rules.breaks(Wrong::PassedByteKept) => {
                &bytes[*from..]
            }
            Some(last) => &bytes[last.to..],
            None => bytes,
        }
    }

    /// Puts labels at the front of the room. Only a wrong variant has more than fit.
    fn put_labels(&self, out: &[u32], room: &mut [u8]) {
        let mut labels = out.to_vec();
        if self.rules.breaks(Wrong::LabelsOutReversed) {
            labels.iter_mut().for_each(|label| *label = label.swap_bytes());
        }
        let mut bytes = query_of(&labels);
        if self.rules.breaks(Wrong::TypingClearsRoom) {
            bytes.resize(bytes.len().max(room.len()), 0);
        }
        put_front(&bytes, room);
    }

    fn put_state(&self, kept: &[u8], state: &mut [u8]) {
        let mut form = [&[kept.len() as u8], kept].concat();
        if self.rules.keeps(Wrong::StateNotZeroed) {
            form.resize(STATE_BYTES, 0);
        }
        put_front(&form, state);
    }
}

/// Puts as many bytes at the front of lent memory as fit.
fn put_front(bytes: &[u8], lent: &mut [u8]) {
    lent.iter_mut().zip(bytes).for_each(|(place, byte)| *place = *byte);
}

/// The texts of a kana table, by value number, up to the first that is not whole.
fn texts_in(rules: Rules, kana: &[u8]) -> Vec<Vec<u32>> {
    let (mut texts, mut rest) = (Vec::new(), kana);
    while let Some((&length, behind)) = rest.split_first() {
        let bytes = usize::from(length) * rules.either(4, Wrong::TextLengthInBytes, 1);
        let Some((text, behind)) = behind.split_at_checked(bytes) else {
            texts.extend(rules.breaks(Wrong::LastTextMayBeCut).then(|| labels_in(behind)));
            break;
        };
        texts.push(labels_in(text));
        rest = behind;
    }
    texts
}
