//! Times the archive's functions beside the independent implementation, on
//! generated dictionaries of three sizes and a romaji table. Their answers are
//! compared first.
//!
//!     bench [--quick]
//!
//! With --quick, it takes only the smallest dictionaries and measures little:
//! enough to see that the program still works.

mod calls;
mod clock;
mod contestant;
mod dictionary;
#[allow(dead_code)] // lxtr_fault and lxtr_romaji_finish are not measured
#[path = "../../crosscheck/src/bin/crosscheck/functions.rs"]
mod functions;
mod goods;
mod keys;
mod measure;
mod operations;
mod parsed;
mod positions;
mod random;
mod romaji;
mod table;
mod typing;
mod workload;

use measure::{Effort, Plan};
use operations::Operation;
use positions::Positions;
use std::process::ExitCode;
use table::{grouped, Row, Table};
use typing::Typing;
use workload::Workload;

const SIZES: [usize; 3] = [1_000, 5_000, 20_000];

fn main() -> ExitCode {
    let arguments: Vec<String> = std::env::args().skip(1).collect();
    let ran = match &arguments.iter().map(String::as_str).collect::<Vec<_>>()[..] {
        [] => run(&SIZES, Effort::FULL),
        ["--quick"] => run(&SIZES[..1], Effort::QUICK),
        _ => {
            eprintln!("usage: bench [--quick]");
            return ExitCode::from(2);
        }
    };
    match ran {
        Ok(()) => ExitCode::SUCCESS,
        Err(what) => {
            eprintln!("bench: {what}");
            ExitCode::from(1)
        }
    }
}

fn run(sizes: &[usize], effort: Effort) -> Result<(), String> {
    let workloads: Vec<Workload> =
        sizes.iter().map(|size| Workload::new(*size)).collect::<Result<_, _>>()?;
    let largest = &workloads[workloads.len() - 1];
    let positions = Positions::new(&largest.dictionaries);
    let typing = Typing::new()?;
    println!("{}", explanation(effort));
    workloads.iter().for_each(|on| println!("{}", on.dictionaries[0].describe()));
    println!("{}", goods::describe());
    println!("{}", positions.describe());
    println!("romaji, {}", typing.dictionary.describe());
    let mut compared = 0;
    for operation in Operation::ALL {
        let plan =
            |(keys, on)| Plan::new(grouped(keys), operation.amount(on), operation.contestants(on));
        let plans = sizes.iter().copied().zip(&workloads).map(plan);
        compared += measured(operation.title(), ["keys", "growth"], plans, effort)?;
    }
    let title = "entries, the same keys: a call looks up a key of the largest list";
    compared += measured(title, ["call", "to exact"], operations::same_keys(largest), effort)?;
    let title = "position, answered: a call looks up 8 labels, or types the last one and looks up";
    compared += measured(title, ["call", "to probe"], positions.answered(), effort)?;
    let title = "position, moved: a call types the last of 8 labels, or takes it back";
    compared += measured(title, ["call", "to push"], positions.moved(), effort)?;
    let title = "type, one key: a call checks the image of the romaji table and types one byte";
    compared += measured(title, ["call", "to check"], typing.one_key(), effort)?;
    let title = "type, texts: a call checks the image of the romaji table and types a text";
    compared += measured(title, ["bytes", "growth"], typing.whole_texts(), effort)?;
    println!("\nbench: {} answers compared, all equal", grouped(compared));
    Ok(())
}

/// Compares and times each row, and prints the table with this head of its first column and this
/// name of its last line. Returns how many answers were compared.
fn measured<'a>(
    title: &'static str,
    [head, last]: [&'static str; 2],
    plans: impl IntoIterator<Item = Plan<'a>>,
    effort: Effort,
) -> Result<usize, String> {
    let mut table = Table { title, head, rows: Vec::new(), last };
    let mut compared = 0;
    for Plan { name, amount, mut contestants } in plans {
        compared += measure::compare(&mut contestants)
            .map_err(|what| format!("{title}; {name} ({head}), {what}"))?;
        let times = measure::times(&mut contestants, effort);
        table.rows.push(Row { name, amount, times });
    }
    print!("\n{table}");
    Ok(compared)
}

fn explanation(effort: Effort) -> String {
    format!(
        "\
Mean processor time of a call, the least of up to {} passes. One thread, buffers are warm.
Rust          the independent implementation, from the same bytes to the same answer
Rust, parsed  the same, but the image (and the entry table) was parsed into its vectors before
ratio         product's time divided by Rust's
growth        time with the most keys or bytes divided by time with the fewest
to exact      time of looking up a key and its entries divided by time of looking up its value
to probe      time of typing a label and looking up divided by time of looking up the whole text
to push       time of taking a label back divided by time of typing it
to check      time of typing one key divided by time of checking the image
",
        effort.sweeps
    )
}
