//! Contestants: each answers the same calls, in its own way and with its own lent memory.

use crate::clock::thread_time;
use crate::dictionary::Dictionary;
use crosscheck::romaji;
use std::hint::black_box;
use std::time::Duration;

/// A pass that does not make all calls makes at least this many, to be a fair sample.
const SAMPLE: usize = 20;
/// The number of calls on which a slow contestant is compared.
const FEW: usize = 64;

/// One call: the dictionary that it is about, and the query or the typed text, if there is one.
#[derive(Clone, Copy)]
pub struct Call<'a> {
    pub of: &'a Dictionary,
    pub query: &'a [u8],
}

/// A call of any kind, by its query.
pub trait Query {
    fn query(&self) -> &[u8];
}

impl Query for Call<'_> {
    fn query(&self) -> &[u8] {
        self.query
    }
}

/// Memory lent to a call.
#[derive(Clone, Default, PartialEq, Eq)]
pub struct Lent {
    pub words: Vec<u32>,
    pub bytes: Vec<u8>,
    pub state: Vec<u8>,
}

impl Lent {
    /// The state, and the bytes as room.
    pub fn for_typing(&mut self) -> romaji::Lent<'_> {
        romaji::Lent { state: &mut self.state, room: &mut self.bytes }
    }
}

/// One way to answer the calls of an operation.
pub trait Contestant {
    fn name(&self) -> &'static str;
    /// On how many of the calls it is compared.
    fn compared(&self) -> usize;
    /// The query of call `at`.
    fn query(&self, at: usize) -> &[u8];
    /// Answers call `at`.
    fn answer(&mut self, at: usize) -> u64;
    fn lent(&self) -> &Lent;
    /// Sets how many calls a pass makes, so that it takes about this long.
    fn prepare(&mut self, pass: Duration);
    /// The time of one pass and its number of calls.
    fn pass(&mut self) -> (Duration, usize);
}

/// A contestant that answers by calling a function.
pub struct By<C, F> {
    name: &'static str,
    calls: Vec<C>,
    lent: Lent,
    answer: F,
    compared: usize,
    /// A pass makes the first `sample` calls, `rounds` times.
    sample: usize,
    rounds: usize,
}

impl<C: Clone, F: Fn(&C, &mut Lent) -> u64> By<C, F> {
    pub fn new(name: &'static str, calls: &[C], lent: &Lent, answer: F) -> By<C, F> {
        let calls = calls.to_vec();
        let (compared, sample) = (calls.len(), calls.len());
        By { name, calls, lent: lent.clone(), answer, compared, sample, rounds: 1 }
    }

    /// The same, compared on a few calls only.
    pub fn slow(mut self) -> By<C, F> {
        self.compared = self.compared.min(FEW);
        self
    }

    fn time(&mut self, sample: usize, rounds: usize) -> Duration {
        let start = thread_time();
        for _ in 0..rounds {
            for call in &self.calls[..sample] {
                black_box((self.answer)(black_box(call), &mut self.lent));
            }
        }
        thread_time() - start
    }
}

impl<C: Query + Clone, F: Fn(&C, &mut Lent) -> u64> Contestant for By<C, F> {
    fn name(&self) -> &'static str {
        self.name
    }

    fn compared(&self) -> usize {
        self.compared
    }

    fn query(&self, at: usize) -> &[u8] {
        self.calls[at].query()
    }

    fn answer(&mut self, at: usize) -> u64 {
        (self.answer)(&self.calls[at], &mut self.lent)
    }

    fn lent(&self) -> &Lent {
        &self.lent
    }

    fn prepare(&mut self, pass: Duration) {
        let all = self.calls.len();
        let first = all.min(SAMPLE);
        let one = self.time(first, 1).as_secs_f64() / first as f64;
        let calls = (pass.as_secs_f64() / one) as usize;
        self.sample = calls.max(SAMPLE).min(all);
        self.rounds = (calls / self.sample).max(1);
    }

    fn pass(&mut self) -> (Duration, usize) {
        (self.time(self.sample, self.rounds), self.sample * self.rounds)
    }
}
