//! The text that the listing program prints for a key list on standard input.

use crate::builder::build;
use crate::common::{big_endian, labels_in, refuse_if, Refusal};
use crate::completion::complete;
use crate::rules::{Rules, Wrong};

pub const INPUT_LEN: usize = 32_768;
pub const WORK_WORDS: usize = 16_384;
pub const OUTPUT_LEN: usize = 65_536;
pub const ROOM_LEN: usize = 65_536;

/// Everything the program prints.
pub fn text(rules: Rules, input: &[u8]) -> String {
    match completions(rules, input) {
        Ok(room) => lines(rules, &room),
        Err(Refusal(number)) => format!("refused {number}\n"),
    }
}

/// The room after listing the whole set.
fn completions(rules: Rules, input: &[u8]) -> Result<Vec<u8>, Refusal> {
    refuse_if(input.len() > INPUT_LEN && rules.keeps(Wrong::LongInputBuilt), 15)?;
    let mut out = vec![0; OUTPUT_LEN];
    let length = build(rules, input, &mut vec![0; WORK_WORDS], &mut out)?;
    let mut room = vec![0; ROOM_LEN];
    complete(rules, &out[..length], &[], &mut room)?;
    Ok(room)
}

/// The records of a filled room as lines.
fn lines(rules: Rules, room: &[u8]) -> String {
    let count = big_endian(&room[1..]);
    let mut text = format!("pairs {count}\n");
    let mut rest = &room[5..];
    for _ in 0..count {
        let (key, behind) = rest[1..].split_at(4 * usize::from(rest[0]));
        let (value, behind) = behind.split_at(4);
        text += &big_endian(value).to_string();
        for label in labels_in(key) {
            let hexadecimal =
                rules.either(format!(" {label:X}"), Wrong::LowerCaseLabels, format!(" {label:x}"));
            text += &rules.either(hexadecimal, Wrong::FourDigitLabels, format!(" {label:04X}"));
        }
        text.push('\n');
        rest = behind;
    }
    text
}
