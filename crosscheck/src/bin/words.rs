//! Compares `lxtr keys` with Rust's own UTF-8, lines and sets, on random texts.
//! Each wrong variant of this reading has to be distinguished from the command.
//!
//! Run with `cargo run --release --offline --bin words`, after the command
//! `../target/bin/lxtr` has been built.

use crosscheck::common::KEY_LABELS;
use crosscheck::keylist::{to_bytes, Key};
use crosscheck::random::Random;
use std::collections::BTreeSet;
use std::path::{Path, PathBuf};
use std::process::{Command, ExitCode};
use std::{env, fs, io};

const TEXTS: usize = 1500;

#[derive(Clone, Copy, PartialEq)]
enum Reading {
    Right,
    KeepsReturns,
    KeepsMarks,
    KeepsEmptyLines,
    CountsLinesFromZero,
    TakesOneLabelTooMany,
    ReplacesBadBytes,
}

const WRONG: [Reading; 6] = [
    Reading::KeepsReturns,
    Reading::KeepsMarks,
    Reading::KeepsEmptyLines,
    Reading::CountsLinesFromZero,
    Reading::TakesOneLabelTooMany,
    Reading::ReplacesBadBytes,
];

/// The key of the word on a line, if there is one, or what the command says about it.
fn key_of(reading: Reading, line: &[u8]) -> Result<Option<Key>, String> {
    let word = match line {
        [word @ .., b'\r'] if reading != Reading::KeepsReturns => word,
        word => word,
    };
    let text = match String::from_utf8(word.to_vec()) {
        Ok(text) => text,
        Err(_) if reading == Reading::ReplacesBadBytes => {
            String::from_utf8_lossy(word).into_owned()
        }
        Err(_) => return Err("this is not UTF-8".to_string()),
    };
    let key: Key = text.chars().map(u32::from).collect();
    let most = KEY_LABELS + usize::from(reading == Reading::TakesOneLabelTooMany);
    if key.len() > most {
        return Err(format!("the word has more than {KEY_LABELS} labels"));
    }
    let is_word = !key.is_empty() || reading == Reading::KeepsEmptyLines;
    Ok(is_word.then_some(key))
}

/// What the command has to print, and the key list that it has to write.
fn expected(reading: Reading, text: &[u8]) -> (String, Option<Vec<u8>>) {
    let words = match text {
        [0xEF, 0xBB, 0xBF, words @ ..] if reading != Reading::KeepsMarks => words,
        words => words,
    };
    let first = usize::from(reading != Reading::CountsLinesFromZero);
    let mut keys = BTreeSet::new();
    for (number, line) in words.split(|byte| *byte == b'\n').enumerate() {
        match key_of(reading, line) {
            Ok(key) => keys.extend(key),
            Err(problem) => {
                return (format!("line {}: {problem}\nrefused\n", number + first), None)
            }
        }
    }
    let keys: Vec<Key> = keys.into_iter().collect();
    (format!("keys {}\nwritten\n", keys.len()), Some(to_bytes(&keys)))
}

/// What the command prints and writes.
fn found(folder: &Path, text: &[u8]) -> io::Result<(String, Option<Vec<u8>>)> {
    let (from, to) = (folder.join("text"), folder.join("keys"));
    fs::write(&from, text)?;
    let _ = fs::remove_file(&to);
    let lxtr = PathBuf::from(env!("CARGO_MANIFEST_DIR")).join("../target/bin/lxtr");
    let output = Command::new(lxtr).arg("keys").arg(&from).arg(&to).output()?;
    Ok((String::from_utf8_lossy(&output.stdout).into_owned(), fs::read(&to).ok()))
}

/// One to four bytes: a character, or bytes near the limits of UTF-8, which mostly are not one.
fn put_character(random: &mut Random, text: &mut Vec<u8>) {
    const LEADS: [u8; 14] =
        [0x7F, 0x80, 0xBF, 0xC0, 0xC2, 0xDF, 0xE0, 0xE3, 0xED, 0xEF, 0xF0, 0xF4, 0xF5, 0xFF];
    const TAILS: [u8; 8] = [0x7F, 0x80, 0x8F, 0x90, 0x9F, 0xA0, 0xBF, 0xC0];
    match random.below(200) {
        0 => {
            text.push(random.pick(&LEADS));
            for _ in 0..random.below(4) {
                text.push(random.pick(&TAILS));
            }
        }
        1..60 => text.push(random.pick(b"abc")),
        60..190 => text.extend(random.pick(&['あ', 'い', 'か', 'が', 'ん']).to_string().bytes()),
        _ => {
            let limits =
                ['\u{7F}', '\u{80}', '\u{7FF}', '\u{800}', '\u{D7FF}', '\u{E000}', '\u{FFFF}'];
            let character = random.pick(&limits);
            text.extend(random.pick(&[character, '\u{10000}', '\u{10FFFF}']).to_string().bytes());
        }
    }
}

/// Lines of words, some of them empty, equal, near the limit, or with a carriage return.
fn random_text(random: &mut Random) -> Vec<u8> {
    let mut text = Vec::new();
    if random.one_in(4) {
        text.extend([0xEF, 0xBB, 0xBF]);
    }
    for _ in 0..random.below(12) {
        let length =
            if random.one_in(40) { KEY_LABELS - 1 + random.below(4) } else { random.below(4) };
        for _ in 0..length {
            put_character(random, &mut text);
        }
        if random.one_in(3) {
            text.push(b'\r');
        }
        if !random.one_in(12) {
            text.push(b'\n');
        }
    }
    text
}

fn main() -> ExitCode {
    let folder = env::temp_dir().join(format!("words-{}", std::process::id()));
    fs::create_dir_all(&folder).expect("there is a temporary folder");
    let mut random = Random::new(8);
    let mut different = 0;
    let mut noticed = [false; WRONG.len()];
    for _ in 0..TEXTS {
        let text = random_text(&mut random);
        let found = found(&folder, &text).expect("the command runs");
        if found != expected(Reading::Right, &text) {
            different += 1;
            eprintln!("words: {found:?} for {text:?}");
        }
        for (seen, reading) in noticed.iter_mut().zip(WRONG) {
            *seen |= found != expected(reading, &text);
        }
    }
    let _ = fs::remove_dir_all(&folder);
    let seen = noticed.iter().filter(|seen| **seen).count();
    println!(
        "words: {TEXTS} texts, {different} different, {seen} of {} wrong readings noticed",
        WRONG.len()
    );
    if different == 0 && seen == WRONG.len() {
        ExitCode::SUCCESS
    } else {
        ExitCode::FAILURE
    }
}
