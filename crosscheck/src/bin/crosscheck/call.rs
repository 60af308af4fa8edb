//! One call of a library function or of the listing program, and how the
//! independent implementation answers it.

use crate::lent::{Lent, Parts};
use crosscheck::entries::{Malformed, Refused};
use crosscheck::position::Move;
use crosscheck::rules::Rules;
use crosscheck::{answers, entries, listing, romaji};

#[derive(Clone, Copy, Debug, PartialEq, Eq)]
pub enum Function {
    Check,
    Fault,
    Highest,
    Exact,
    Probe,
    Longest,
    Prefixes,
    Why,
    Push,
    Back,
    Position,
    Complete,
    TableCheck,
    Entries,
    Type,
    Finish,
    Build,
    List,
}

impl Function {
    pub const ALL: [Function; 18] = [
        Function::Check,
        Function::Fault,
        Function::Highest,
        Function::Exact,
        Function::Probe,
        Function::Longest,
        Function::Prefixes,
        Function::Why,
        Function::Push,
        Function::Back,
        Function::Position,
        Function::Complete,
        Function::TableCheck,
        Function::Entries,
        Function::Type,
        Function::Finish,
        Function::Build,
        Function::List,
    ];

    pub fn name(self) -> &'static str {
        [
            "check", "fault", "highest", "exact", "probe", "longest", "prefixes", "why", "push",
            "back", "position", "complete", "table", "entries", "type", "finish", "build", "list",
        ][self as usize]
    }

    /// Whether this function can give this refusal. A move does not tell it, but the probe after it
    /// does.
    pub fn can_refuse(self, number: usize) -> bool {
        match self {
            Function::Check | Function::Highest => (1..=12).contains(&number),
            Function::Fault => (9..=12).contains(&number),
            Function::Push | Function::Back | Function::Position => (1..=8).contains(&number),
            Function::Complete => (1..=14).contains(&number),
            Function::TableCheck => (1..=12).contains(&number) || [26, 27].contains(&number),
            Function::Entries => (1..=8).contains(&number) || [13, 26, 27].contains(&number),
            Function::Type | Function::Finish => {
                (1..=12).contains(&number) || [24, 25, 29].contains(&number)
            }
            Function::Build => (15..=23).contains(&number),
            Function::List => (15..=23).contains(&number) && number != 21,
            _ => (1..=8).contains(&number) || number == 13,
        }
    }
}

/// The image that is typed with, bytes that 1 to 8 refuse, and an image with fewer slots.
pub type Images<'a> = [&'a [u8]; 3];

/// A call with its inputs, the sizes of the memory it is lent, and what a lent state holds. Moves
/// of a typing position begin with a fresh one; each is made over the image whose index it has, and
/// the probes before and after them are put into lent bytes.
#[derive(Clone, Copy)]
pub enum Call<'a> {
    Check { image: &'a [u8] },
    Fault { image: &'a [u8] },
    Highest { image: &'a [u8] },
    Exact { image: &'a [u8], query: &'a [u8] },
    Probe { image: &'a [u8], query: &'a [u8] },
    Longest { image: &'a [u8], query: &'a [u8] },
    Prefixes { image: &'a [u8], query: &'a [u8], places: usize },
    Why { image: &'a [u8], query: &'a [u8] },
    Moves { images: Images<'a>, moves: &'a [(usize, Move)] },
    Complete { image: &'a [u8], prefix: &'a [u8], room: usize },
    TableCheck { image: &'a [u8], table: &'a [u8] },
    Entries { image: &'a [u8], query: &'a [u8], table: &'a [u8], first: usize },
    Type { image: &'a [u8], kana: &'a [u8], state: &'a [u8], typed: &'a [u8], room: usize },
    Finish { image: &'a [u8], kana: &'a [u8], state: &'a [u8], room: usize },
    Build { keys: &'a [u8], work: usize, out: usize },
    List { input: &'a [u8] },
}

impl<'a> Call<'a> {
    pub fn function(&self) -> Function {
        match self {
            Call::Check { .. } => Function::Check,
            Call::Fault { .. } => Function::Fault,
            Call::Highest { .. } => Function::Highest,
            Call::Exact { .. } => Function::Exact,
            Call::Probe { .. } => Function::Probe,
            Call::Longest { .. } => Function::Longest,
            Call::Prefixes { .. } => Function::Prefixes,
            Call::Why { .. } => Function::Why,
            Call::Moves { .. } => Function::Position,
            Call::Complete { .. } => Function::Complete,
            Call::TableCheck { .. } => Function::TableCheck,
            Call::Entries { .. } => Function::Entries,
            Call::Type { .. } => Function::Type,
            Call::Finish { .. } => Function::Finish,
            Call::Build { .. } => Function::Build,
            Call::List { .. } => Function::List,
        }
    }

    /// The read-only inputs; those that a function does not have are empty.
    pub fn inputs(&self) -> [&'a [u8]; 3] {
        match *self {
            Call::Check { image } | Call::Fault { image } | Call::Highest { image } => {
                [image, &[], &[]]
            }
            Call::Exact { image, query }
            | Call::Probe { image, query }
            | Call::Longest { image, query }
            | Call::Why { image, query } => [image, query, &[]],
            Call::Prefixes { image, query, .. } => [image, query, &[]],
            Call::Moves { images, .. } => images,
            Call::Complete { image, prefix, .. } => [image, prefix, &[]],
            Call::TableCheck { image, table } => [image, table, &[]],
            Call::Entries { image, query, table, .. } => [image, query, table],
            Call::Type { image, kana, typed, .. } => [image, kana, typed],
            Call::Finish { image, kana, .. } => [image, kana, &[]],
            Call::Build { keys, .. } => [keys, &[], &[]],
            Call::List { input } => [input, &[], &[]],
        }
    }

    /// Prepares the memory that this call is lent.
    pub fn prepare(&self, lent: &mut Lent) {
        match *self {
            Call::Prefixes { places, .. } => lent.prepare(0, places),
            Call::Entries { first, .. } => lent.prepare(0, first),
            Call::Moves { moves, .. } => lent.prepare(8 * (moves.len() + 1), 0),
            Call::Complete { room, .. } => lent.prepare(room, 0),
            Call::Type { state, room, .. } | Call::Finish { state, room, .. } => {
                lent.prepare(room, 0);
                lent.hold_state(state);
            }
            Call::Build { work, out, .. } => lent.prepare(out, work),
            _ => lent.prepare(0, 0),
        }
    }

    /// Answers by the independent implementation, into memory prepared here.
    pub fn by_rules(&self, rules: Rules, lent: &mut Lent) -> u64 {
        self.prepare(lent);
        match *self {
            Call::Check { image } => answers::check(rules, image),
            Call::Fault { image } => answers::fault(rules, image),
            Call::Highest { image } => answers::highest(rules, image),
            Call::Exact { image, query } => answers::exact(rules, image, query),
            Call::Probe { image, query } => answers::probe(rules, image, query),
            Call::Longest { image, query } => answers::longest(rules, image, query),
            Call::Prefixes { image, query, .. } => {
                answers::prefixes(rules, image, query, lent.words())
            }
            Call::Why { image, query } => answers::why(rules, image, query),
            Call::Moves { images, moves } => {
                lent.put_numbers(&answers::moves(rules, &images, moves))
            }
            Call::Complete { image, prefix, .. } => {
                answers::complete(rules, image, prefix, lent.bytes())
            }
            Call::TableCheck { image, table } => answers::table_check(rules, image, table),
            Call::Entries { image, query, table, .. } => {
                answers::entries(rules, image, query, table, lent.words())
            }
            Call::Type { image, kana, typed, .. } => {
                answers::romaji_type(rules, image, kana, typed, typing_memory(lent))
            }
            Call::Finish { image, kana, .. } => {
                answers::romaji_finish(rules, image, kana, typing_memory(lent))
            }
            Call::Build { keys, .. } => {
                let Parts { bytes, words, .. } = lent.parts();
                answers::build(rules, keys, words, bytes)
            }
            Call::List { input } => {
                let text = listing::text(rules, input);
                lent.put_text(text.as_bytes());
                number_of_text(&text)
            }
        }
    }

    /// What is malformed in an entry table, by the independent implementation.
    pub fn malformed(&self) -> Option<Malformed> {
        let refused = match *self {
            Call::TableCheck { image, table } => {
                entries::check(Rules::DOCUMENT, image, table).err()
            }
            Call::Entries { image, query, table, .. } => {
                entries::lookup(Rules::DOCUMENT, image, query, table).err()
            }
            _ => None,
        };
        match refused {
            Some(Refused::Malformed(cause)) => Some(cause),
            _ => None,
        }
    }

    /// The front of the inputs in hexadecimal, the lent sizes, and the state or the moves.
    pub fn describe(&self) -> String {
        let inputs = self.inputs().map(short).join(" and ");
        let sizes = match *self {
            Call::Prefixes { places, .. } => format!(", {places} words of places"),
            Call::Entries { first, .. } => format!(", {first} words"),
            Call::Moves { moves, .. } => {
                format!(", moves{}", moves.iter().map(move_text).collect::<String>())
            }
            Call::Complete { room, .. } => format!(", {room} bytes of room"),
            Call::Type { state, room, .. } | Call::Finish { state, room, .. } => {
                format!(", state {}, {room} bytes of room", short(state))
            }
            Call::Build { work, out, .. } => {
                format!(", {work} words of work, {out} bytes of output")
            }
            _ => String::new(),
        };
        format!("{inputs}{sizes}")
    }
}

/// The memory lent for typing and finishing.
fn typing_memory(lent: &mut Lent) -> romaji::Lent<'_> {
    let Parts { bytes: room, state, .. } = lent.parts();
    romaji::Lent { state, room }
}

/// The refusal in a program's text, in the form of the other answers.
pub fn number_of_text(text: &str) -> u64 {
    let number = text.strip_prefix("refused ").and_then(|rest| rest.trim_end().parse::<u64>().ok());
    number.map_or(0, |number| number << 40)
}

/// The label that is pushed, or a minus, and the image.
fn move_text((over, next): &(usize, Move)) -> String {
    match next {
        Move::Push(label) => format!(" {label:X}@{over}"),
        Move::Back => format!(" -@{over}"),
    }
}

fn short(bytes: &[u8]) -> String {
    let hexadecimal: String = bytes.iter().take(400).map(|byte| format!("{byte:02X}")).collect();
    let more = if bytes.len() > 400 { ".." } else { "" };
    format!("[{} bytes: {hexadecimal}{more}]", bytes.len())
}
