//! Key lists: parsing with the refusals of their bytes, and writing.

use crate::common::{big_endian, is_scalar, labels_in, refuse_if, Refusal, KEYS, KEY_LABELS};
use crate::rules::{Rules, Wrong};

/// A key's labels. Vectors compare as keys do: label by label, a proper prefix first.
pub type Key = Vec<u32>;

/// Refusals 15 to 19: the list, its count, each key in turn, bytes left over.
pub fn parse(rules: Rules, bytes: &[u8]) -> Result<Vec<Key>, Refusal> {
    refuse_if(bytes.len() < 5 || bytes[0] != 1, 15)?;
    let count = big_endian(&bytes[1..]);
    refuse_if(count > rules.either(KEYS, Wrong::KeyLimit32767, KEYS - 1), 16)?;
    let mut rest = &bytes[5..];
    let mut keys: Vec<Key> = Vec::new();
    for _ in 0..count {
        let (key, behind) = first_key(rules, rest)?;
        let above = keys.last().is_none_or(|before| {
            *before < key || rules.breaks(Wrong::EqualKeysAccepted) && *before == key
        });
        refuse_if(!above, 19)?;
        keys.push(key);
        rest = behind;
    }
    refuse_if(!rest.is_empty() && rules.keeps(Wrong::BytesMayBeLeftOver), 15)?;
    Ok(keys)
}

/// The key at the front, and the bytes after it.
fn first_key(rules: Rules, bytes: &[u8]) -> Result<(Key, &[u8]), Refusal> {
    let (&length, rest) = bytes.split_first().ok_or(Refusal(15))?;
    let length = usize::from(length);
    let labels = labels_in(rest.get(..4 * length).unwrap_or(rest));
    let cut = labels.len() < length;
    let no_scalar = labels.iter().any(|label| !may_be_label(rules, *label));
    refuse_if(cut && rules.breaks(Wrong::CutBeforeLength), 15)?;
    refuse_if(length > rules.either(KEY_LABELS, Wrong::OneLabelTooMany, KEY_LABELS + 1), 17)?;
    refuse_if(no_scalar && rules.breaks(Wrong::ScalarBeforeCut), 18)?;
    refuse_if(cut, 15)?;
    refuse_if(no_scalar, 18)?;
    Ok((labels, &rest[4 * length..]))
}

fn may_be_label(rules: Rules, label: u32) -> bool {
    is_scalar(label) || rules.breaks(Wrong::SurrogateInKey) && label <= 0xDFFF
}

/// The list's bytes; its keys need not be in order.
pub fn to_bytes(keys: &[Key]) -> Vec<u8> {
    let mut bytes = vec![1];
    bytes.extend((keys.len() as u32).to_be_bytes());
    for key in keys {
        bytes.push(key.len() as u8);
        bytes.extend(key.iter().flat_map(|label| label.to_be_bytes()));
    }
    bytes
}
