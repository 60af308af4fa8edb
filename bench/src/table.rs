//! Prints the measured times as tables.

use std::fmt::{self, Display, Formatter};

/// What was measured of an operation, on one dictionary or for one length.
pub struct Row {
    pub name: String,
    /// What the throughput counts, and how much of it a call handles.
    pub amount: (&'static str, f64),
    /// Seconds for a call: the product, Rust, and Rust with the image already
    /// parsed, if that was measured.
    pub times: Vec<f64>,
}

pub struct Table {
    pub title: &'static str,
    /// The head of the first column, which has the names of the rows.
    pub head: &'static str,
    pub rows: Vec<Row>,
    /// The name of the last line, which divides the times of the last row by those of the first.
    pub last: &'static str,
}

const WIDTHS: [usize; 7] = [8, 11, 18, 11, 9, 14, 7];

impl Display for Table {
    fn fmt(&self, f: &mut Formatter) -> fmt::Result {
        writeln!(f, "{}", self.title)?;
        line(f, self.heads())?;
        self.rows.iter().try_for_each(|row| line(f, row.cells()))?;
        match &self.rows[..] {
            [first, .., last] => line(f, growth(self.last, first, last)),
            _ => Ok(()),
        }
    }
}

impl Table {
    fn heads(&self) -> [String; 7] {
        [self.head, "product", "throughput", "Rust", "ratio", "Rust, parsed", "ratio"]
            .map(String::from)
    }
}

impl Row {
    fn cells(&self) -> [String; 7] {
        let (unit, amount) = self.amount;
        let ratio = |other: usize| self.optional(other, |time| ratio(self.times[0] / time));
        [
            self.name.clone(),
            duration(self.times[0]),
            rate(amount / self.times[0], unit),
            duration(self.times[1]),
            ratio(1),
            self.optional(2, duration),
            ratio(2),
        ]
    }

    /// What `show` makes of a time that may be missing.
    fn optional(&self, at: usize, show: impl FnOnce(f64) -> String) -> String {
        self.times.get(at).map_or("-".to_string(), |time| show(*time))
    }
}

/// How many times as long a call takes in the last row as in the first.
fn growth(name: &str, first: &Row, last: &Row) -> [String; 7] {
    let times =
        |at: usize| last.optional(at, |time| format!("x {}", three_digits(time / first.times[at])));
    let nothing = String::new;
    [name.to_string(), times(0), nothing(), times(1), nothing(), times(2), nothing()]
}

fn line(f: &mut Formatter, cells: [String; 7]) -> fmt::Result {
    let padded = cells.iter().zip(WIDTHS).map(|(cell, width)| format!("{cell:>width$}"));
    writeln!(f, "{}", padded.collect::<String>().trim_end())
}

/// Three digits of a number from 1 to 999; all digits of a larger one.
fn three_digits(number: f64) -> String {
    let decimals = match number {
        ..10.0 => 2,
        ..100.0 => 1,
        _ => 0,
    };
    format!("{number:.decimals$}")
}

fn duration(seconds: f64) -> String {
    let (number, unit) = match seconds {
        ..1e-6 => (seconds * 1e9, "ns"),
        ..1e-3 => (seconds * 1e6, "us"),
        ..1.0 => (seconds * 1e3, "ms"),
        _ => (seconds, "s"),
    };
    format!("{} {unit}", three_digits(number))
}

fn rate(per_second: f64, unit: &str) -> String {
    let (number, prefix) = match per_second {
        ..1e3 => (per_second, ""),
        ..1e6 => (per_second / 1e3, "k"),
        ..1e9 => (per_second / 1e6, "M"),
        _ => (per_second / 1e9, "G"),
    };
    let unit = format!("{prefix}{unit}/s");
    format!("{} {}", three_digits(number), unit.trim_start())
}

fn ratio(ratio: f64) -> String {
    match ratio {
        ..0.001 => format!("{ratio:.5}"),
        ..0.01 => format!("{ratio:.4}"),
        ..0.1 => format!("{ratio:.3}"),
        _ => format!("{ratio:.2}"),
    }
}

/// A number with a comma before each group of three digits.
pub fn grouped(number: usize) -> String {
    match number {
        ..1_000 => number.to_string(),
        _ => format!("{},{:03}", grouped(number / 1_000), number % 1_000),
    }
}
