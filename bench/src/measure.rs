//! Compares the answers of contestants, and times them in turn.

use crate::contestant::Contestant;
use crosscheck::common::labels_in;
use std::time::{Duration, Instant};

/// How much measuring is done.
#[derive(Clone, Copy)]
pub struct Effort {
    /// The number of sweeps. The least time of them counts.
    pub sweeps: usize,
    /// About how long one pass takes.
    pub pass: Duration,
    /// Once an operation has taken this long, no further sweep begins; there are at least two.
    pub operation: Duration,
}

impl Effort {
    pub const FULL: Effort =
        Effort { sweeps: 15, pass: Duration::from_millis(5), operation: Duration::from_secs(4) };
    pub const QUICK: Effort =
        Effort { sweeps: 2, pass: Duration::from_millis(1), operation: Duration::from_millis(100) };
}

pub type Contestants<'a> = Vec<Box<dyn Contestant + 'a>>;

/// A row that is to be measured.
pub struct Plan<'a> {
    pub name: String,
    /// What the throughput counts, and how much of it a call handles.
    pub amount: (&'static str, f64),
    pub contestants: Contestants<'a>,
}

impl<'a> Plan<'a> {
    pub fn new(
        name: impl Into<String>,
        amount: (&'static str, f64),
        contestants: Contestants<'a>,
    ) -> Plan<'a> {
        Plan { name: name.into(), amount, contestants }
    }
}

/// Compares all contestants with the first one, in each answer and all lent
/// memory. Returns how many comparisons there were, or what differs.
pub fn compare(contestants: &mut Contestants) -> Result<usize, String> {
    let (first, others) = contestants.split_first_mut().expect("there is a contestant");
    let mut compared = 0;
    for at in 0..first.compared() {
        let expected = first.answer(at);
        for other in others.iter_mut().filter(|other| at < other.compared()) {
            let answer = other.answer(at);
            if answer != expected || other.lent() != first.lent() {
                return Err(format!(
                    "call {at}, query {:?}: {} answers {expected:#x}, {} {answer:#x}; lent memory {}",
                    text(first.query(at)),
                    first.name(),
                    other.name(),
                    if other.lent() == first.lent() { "is the same" } else { "differs" }
                ));
            }
            compared += 1;
        }
    }
    Ok(compared)
}

/// A query as text: its labels, or its bytes if these are not labels.
fn text(query: &[u8]) -> String {
    let labels: Option<String> = labels_in(query).into_iter().map(char::from_u32).collect();
    let whole = labels.filter(|_| query.len().is_multiple_of(4));
    whole.unwrap_or_else(|| String::from_utf8_lossy(query).into_owned())
}

/// The least time of a call in seconds, for each contestant. They take turns, and
/// before each timed pass there is one that is not timed.
pub fn times(contestants: &mut Contestants, effort: Effort) -> Vec<f64> {
    contestants.iter_mut().for_each(|contestant| contestant.prepare(effort.pass));
    let mut least = vec![f64::INFINITY; contestants.len()];
    let start = Instant::now();
    for sweep in 0..effort.sweeps {
        if sweep >= 2 && start.elapsed() > effort.operation {
            break;
        }
        for (contestant, least) in contestants.iter_mut().zip(&mut least) {
            contestant.pass();
            let (time, calls) = contestant.pass();
            *least = least.min(time.as_secs_f64() / calls as f64);
        }
    }
    least
}
