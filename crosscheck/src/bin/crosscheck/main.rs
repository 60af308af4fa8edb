//! Compares the proved archive with the independent implementation.
//!
//! Every comparison is one call of a library function, or one run of the listing
//! program, and the independent answer to it: the 64-bit number, every byte and
//! word of lent memory with guard zones around it, or the program's text. Of a
//! typing position, whose number is not specified, the answer after each move is
//! compared. Besides that, the check, the highest value, the completion of the
//! empty prefix, exact, probe, the reasons why words are missing, the check of entry
//! tables and the lookup of entries are compared with the set oracle, typing in
//! parts is compared with typing at once, a typing position must be the same
//! whenever its labels are, and wrong variants of the independent implementation
//! take part in the same comparisons: each must be noticed by a difference.
//!
//! Run with `cargo run --release --offline`, in this package's folder, after the
//! archive `../target/staticlib/liblxtr_c.a` and the listing program
//! `../target/bin/list_pairs` have been made. Arguments: a seed (default 1), and
//! an amount that multiplies the random inputs (default 1). The last line is
//! `N passed, M failed`; the exit status is 1 if anything failed.

mod archive;
mod call;
mod comparison;
mod damage;
mod explore;
mod functions;
mod keysets;
mod lent;
mod moves;
mod placer;
mod queries;
mod stages;
mod tables;

use comparison::Comparison;
use crosscheck::random::Random;
use stages::{
    bad_lists, damaged, edges, entries, entry_tables, examples, large, lists, placed,
    position_examples, positions, program, reasons, states, tiny, typing, typing_examples, wild,
};
use std::process::ExitCode;
use std::time::Instant;

/// The argument at a place as a number, or the default.
fn argument(place: usize, default: u64) -> u64 {
    let given = std::env::args().nth(place);
    given.map_or(default, |text| text.parse().expect("arguments are numbers"))
}

fn main() -> ExitCode {
    let (seed, amount) = (argument(1, 1), argument(2, 1) as usize);
    let mut comparison = Comparison::new(seed);
    let mut random = Random::new(seed);
    println!("seed {seed}, amount {amount}");
    let mut stage = |name: &'static str, run: &dyn Fn(&mut Comparison, &mut Random)| {
        let (before, start) = (comparison.enter(name), Instant::now());
        run(&mut comparison, &mut random);
        let (compared, seconds) = (comparison.compared - before, start.elapsed().as_secs_f64());
        println!("{name:<17} {compared:>8} comparisons {seconds:>6.1} s");
    };
    stage("examples", &|comparison, _| examples::run(comparison));
    stage("reasons", &|comparison, _| reasons::run(comparison));
    stage("entry examples", &|comparison, _| entry_tables::examples(comparison));
    stage("typing examples", &|comparison, _| typing_examples::run(comparison));
    stage("any states", &|comparison, random| states::run(comparison, random, amount));
    stage("position examples", &position_examples::run);
    stage("all small ones", &|comparison, _| tiny::run(comparison));
    stage("malformed lists", &|comparison, random| bad_lists::run(comparison, random, amount));
    stage("wild images", &|comparison, random| wild::run(comparison, random, amount));
    stage("damaged images", &|comparison, random| damaged::run(comparison, random, amount));
    stage("placed images", &|comparison, random| placed::run(comparison, random, amount));
    stage("key lists", &|comparison, random| lists::run(comparison, random, amount));
    stage("limits", &edges::run);
    stage("typing", &|comparison, random| typing::run(comparison, random, amount));
    stage("entry tables", &|comparison, _| entry_tables::run(comparison));
    stage("entries", &|comparison, random| entries::run(comparison, random, amount));
    stage("positions", &|comparison, random| positions::run(comparison, random, amount));
    stage("large lists", &large::run);
    stage("program", &|comparison, random| program::run(comparison, random, amount));
    let (passed, failed) = comparison.report();
    println!("{passed} passed, {failed} failed");
    ExitCode::from(u8::from(failed != 0))
}
