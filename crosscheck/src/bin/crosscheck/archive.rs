//! The implementation under test: the archive's C functions and the listing program.

use crate::call::{number_of_text, Call};
use crate::functions::{
    lxtr_build, lxtr_check, lxtr_complete, lxtr_entries, lxtr_entries_check, lxtr_exact,
    lxtr_fault, lxtr_highest, lxtr_longest, lxtr_position_back, lxtr_position_fresh,
    lxtr_position_probe, lxtr_position_push, lxtr_prefixes, lxtr_probe, lxtr_romaji_finish,
    lxtr_romaji_type, lxtr_why,
};
use crate::lent::{Lent, Parts};
use crosscheck::position::Move;
use std::io::Write;
use std::path::PathBuf;
use std::process::{Command, Stdio};

const GUARD: usize = 16;
const BEFORE: u8 = 0xA5;
const BEHIND: u8 = 0x5A;

/// A copy of an input at any alignment, between guard zones.
#[derive(Default)]
struct InputCopy {
    bytes: Vec<u8>,
    from: usize,
    len: usize,
}

impl InputCopy {
    fn hold(&mut self, input: &[u8]) {
        self.from = GUARD + (self.from + 1) % 8;
        self.len = input.len();
        self.bytes.clear();
        self.bytes.resize(self.from, BEFORE);
        self.bytes.extend_from_slice(input);
        self.bytes.resize(self.bytes.len() + GUARD, BEHIND);
    }

    /// Whether the copy and its guard zones are as they were.
    fn is_intact(&self, input: &[u8]) -> bool {
        let (before, rest) = self.bytes.split_at(self.from);
        let (copy, behind) = rest.split_at(self.len);
        copy == input
            && before.iter().all(|byte| *byte == BEFORE)
            && behind.iter().all(|byte| *byte == BEHIND)
    }

    /// A mutable pointer, so that a wrong write through it shows as a difference.
    fn pointer(&mut self) -> *mut u8 {
        self.bytes[self.from..].as_mut_ptr()
    }
}

/// What came back from the implementation under test.
pub struct Answered {
    pub answer: u64,
    /// Whether the read-only inputs are as they were.
    pub inputs_intact: bool,
}

/// What the archive makes of a number as a typing position.
pub struct Moved {
    pub pushed: u64,
    pub back: u64,
    pub probed: u64,
    pub inputs_intact: bool,
}

#[derive(Default)]
pub struct Archive {
    inputs: [InputCopy; 3],
    calls: u64,
    /// The typing positions of the last call that made moves, the fresh one first.
    pub positions: Vec<u64>,
}

impl Archive {
    /// Answers a call into memory prepared here.
    pub fn answer(&mut self, call: &Call, lent: &mut Lent) -> Answered {
        if let Call::List { input } = call {
            return Answered { answer: list(input, lent), inputs_intact: true };
        }
        let inputs = call.inputs();
        self.inputs.iter_mut().zip(inputs).for_each(|(copy, input)| copy.hold(input));
        call.prepare(lent);
        let answer = self.call(call, lent);
        let mut copies = self.inputs.iter().zip(inputs);
        Answered { answer, inputs_intact: copies.all(|(copy, input)| copy.is_intact(input)) }
    }

    fn call(&mut self, call: &Call, lent: &mut Lent) -> u64 {
        self.calls += 1;
        let null = self.calls.is_multiple_of(2);
        let inputs =
            self.inputs.each_mut().map(|copy| (or_null(copy.pointer(), copy.len, null), copy.len));
        if let Call::Moves { moves, .. } = call {
            return lent.put_numbers(&self.moves(inputs, moves));
        }
        let [(a, a_len), (b, b_len), (c, c_len)] = inputs;
        let Parts { bytes, words, state } = lent.parts();
        let (bytes_len, words_len, state_len) = (bytes.len(), words.len(), state.len());
        let bytes = or_null(bytes.as_mut_ptr(), bytes_len, null);
        let words = or_null(words.as_mut_ptr(), words_len, null);
        let state = or_null(state.as_mut_ptr(), state_len, null);
        // SAFETY: each pointer is valid for its length, and no two parts overlap.
        unsafe {
            match call {
                Call::Check { .. } => lxtr_check(a, a_len),
                Call::Fault { .. } => lxtr_fault(a, a_len),
                Call::Highest { .. } => lxtr_highest(a, a_len),
                Call::Exact { .. } => lxtr_exact(a, a_len, b, b_len),
                Call::Probe { .. } => lxtr_probe(a, a_len, b, b_len),
                Call::Longest { .. } => lxtr_longest(a, a_len, b, b_len),
                Call::Prefixes { .. } => lxtr_prefixes(a, a_len, b, b_len, words, words_len),
                Call::Why { .. } => lxtr_why(a, a_len, b, b_len),
                Call::Complete { .. } => lxtr_complete(a, a_len, b, b_len, bytes, bytes_len),
                Call::TableCheck { .. } => lxtr_entries_check(a, a_len, b, b_len),
                Call::Entries { .. } => {
                    lxtr_entries(a, a_len, b, b_len, c, c_len, words, words_len)
                }
                Call::Type { .. } => lxtr_romaji_type(
                    a, a_len, b, b_len, state, state_len, c, c_len, bytes, bytes_len,
                ),
                Call::Finish { .. } => {
                    lxtr_romaji_finish(a, a_len, b, b_len, state, state_len, bytes, bytes_len)
                }
                Call::Build { .. } => lxtr_build(a, a_len, words, words_len, bytes, bytes_len),
                Call::Moves { .. } => unreachable!("moves are made one by one"),
                Call::List { .. } => unreachable!("the program is run, not called"),
            }
        }
    }

    /// Makes moves from a fresh position. Returns what it answers before them, over the first
    /// image, and after each.
    fn moves(&mut self, images: [(*mut u8, usize); 3], moves: &[(usize, Move)]) -> Vec<u64> {
        // SAFETY of every call below: each pointer is valid for its length.
        let mut position = unsafe { lxtr_position_fresh() };
        let (image, len) = images[0];
        let mut answers = vec![unsafe { lxtr_position_probe(image, len, position) }];
        self.positions = vec![position];
        for (over, next) in moves {
            let (image, len) = images[*over];
            position = match next {
                Move::Push(label) => unsafe { lxtr_position_push(image, len, position, *label) },
                Move::Back => unsafe { lxtr_position_back(image, len, position) },
            };
            self.positions.push(position);
            answers.push(unsafe { lxtr_position_probe(image, len, position) });
        }
        answers
    }

    /// Both moves and the probe of any number as a position.
    pub fn any_position(&mut self, image: &[u8], number: u64, label: u32) -> Moved {
        let copy = &mut self.inputs[0];
        copy.hold(image);
        let (pointer, len) = (copy.pointer(), image.len());
        // SAFETY of every call below: the pointer is valid for its length.
        let pushed = unsafe { lxtr_position_push(pointer, len, number, label) };
        let back = unsafe { lxtr_position_back(pointer, len, number) };
        let probed = unsafe { lxtr_position_probe(pointer, len, number) };
        Moved { pushed, back, probed, inputs_intact: copy.is_intact(image) }
    }
}

/// The pointer, or null if nothing lies there and `null` asks for it.
fn or_null<T>(pointer: *mut T, len: usize, null: bool) -> *mut T {
    if null && len == 0 {
        std::ptr::null_mut()
    } else {
        pointer
    }
}

/// The path of the listing program.
fn program() -> PathBuf {
    PathBuf::from(env!("CARGO_MANIFEST_DIR")).join("../target/bin/list_pairs")
}

/// Runs the listing program. Its text, or why there is none, goes into `lent`.
fn list(input: &[u8], lent: &mut Lent) -> u64 {
    let text = run(input).unwrap_or_else(|error| format!("not run: {error}").into_bytes());
    lent.put_text(&text);
    number_of_text(&String::from_utf8_lossy(&text))
}

fn run(input: &[u8]) -> std::io::Result<Vec<u8>> {
    let mut command = Command::new(program());
    let mut child =
        command.stdin(Stdio::piped()).stdout(Stdio::piped()).stderr(Stdio::null()).spawn()?;
    if let Some(mut stdin) = child.stdin.take() {
        // The program may stop reading if the input is too long.
        let _ = stdin.write_all(input);
    }
    let output = child.wait_with_output()?;
    match output.status.code() {
        Some(_) => Ok(output.stdout),
        None => Err(std::io::Error::other("ended by a signal")),
    }
}
