//! Limits, refusals and big-endian numbers, as every part of document 01 uses them.

/// The most labels of a key.
pub const KEY_LABELS: usize = 64;
/// The most labels that a code map lists.
pub const LISTED_LABELS: usize = 4_095;
/// The most slots of an image.
pub const SLOTS: usize = 65_536;
/// The most keys of a key list.
pub const KEYS: u32 = 32_768;
/// The most steps from an end to slot 1: one for each label, one for the end.
pub const STEPS: u32 = KEY_LABELS as u32 + 1;

/// A refusal by its number in the documents.
#[derive(Clone, Copy, Debug, PartialEq, Eq)]
pub struct Refusal(pub u8);

/// Refuses with `number` if `fault` holds. Calls with `?`, one after the other,
/// give the documents' order of refusals.
pub fn refuse_if(fault: bool, number: u8) -> Result<(), Refusal> {
    if fault {
        Err(Refusal(number))
    } else {
        Ok(())
    }
}

/// Whether a number is a Unicode scalar value.
pub fn is_scalar(label: u32) -> bool {
    char::from_u32(label).is_some()
}

/// The number in the first four of `bytes`.
pub fn big_endian(bytes: &[u8]) -> u32 {
    u32::from_be_bytes([bytes[0], bytes[1], bytes[2], bytes[3]])
}

/// Labels of four bytes each; up to three bytes left over are ignored.
pub fn labels_in(bytes: &[u8]) -> Vec<u32> {
    bytes.chunks_exact(4).map(big_endian).collect()
}

/// Labels as the bytes of a query.
pub fn query_of(labels: &[u32]) -> Vec<u8> {
    labels.iter().flat_map(|label| label.to_be_bytes()).collect()
}
