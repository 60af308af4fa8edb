//! Another maker of images: it gives a key list the same code map and value
//! numbers as document 01's builder, but places the slots breadth first, so that
//! bases and slots differ. What it writes is an image of the same set.
//!
//! Run with `cargo run --release --offline --bin second_maker KEYS IMAGE`.

use crosscheck::builder::image_of;
use crosscheck::common::SLOTS;
use crosscheck::rules::{Rules, Wrong};
use std::process::ExitCode;
use std::{env, fs};

fn main() -> ExitCode {
    let arguments: Vec<String> = env::args().skip(1).collect();
    let [keys, image] = arguments.as_slice() else {
        eprintln!("second_maker KEYS IMAGE");
        return ExitCode::FAILURE;
    };
    let list = fs::read(keys).expect("the key list can be read");
    match image_of(Rules::breaking(Wrong::BreadthFirst), &list, 2 * SLOTS) {
        Ok(made) => fs::write(image, made.to_bytes()).expect("the image can be written"),
        Err(refusal) => {
            eprintln!("refused {}", refusal.0);
            return ExitCode::FAILURE;
        }
    }
    ExitCode::SUCCESS
}
