//! Measures the product beside plain Rust:
//!
//! - `speed table WORD NAME=FILE..` prints a table of the rows whose name has the word; each file has times of another
//!   library, a row and nanoseconds to a line;
//! - `speed times WORD` prints a line to a row;
//! - `speed cases WORD` prints the cases that other libraries can do.
//!
//! The status is 1 if the product and plain Rust make other bytes in some row.
mod bench;
mod layout;
mod measure;
mod plain;
mod product;
mod rows;

use bench::{Bench, Output};
use std::collections::HashMap;
use std::process::ExitCode;

/// The column of another library.
fn peer(argument: &str) -> Option<(String, HashMap<String, f64>)> {
    let (name, file) = argument.split_once('=')?;
    let text = std::fs::read_to_string(file).ok()?;
    let rows = text.lines().filter_map(|line| line.split_once('\t'));
    Some((name.to_string(), rows.filter_map(|(row, time)| Some((row.to_string(), time.parse().ok()?))).collect()))
}

fn main() -> ExitCode {
    let arguments: Vec<String> = std::env::args().skip(1).collect();
    let output = match arguments.first().map(String::as_str) {
        Some("table") => Output::Table,
        Some("times") => Output::Times,
        Some("cases") => Output::Cases,
        _ => {
            eprintln!("speed table|times|cases [WORD] [NAME=FILE..]");
            return ExitCode::from(2);
        }
    };
    let word = arguments.get(1).map_or("", String::as_str);
    let mut bench = Bench::new(output, word, arguments.iter().skip(2).filter_map(|it| peer(it)).collect());
    bench.print_head();
    rows::chunks::rows(&mut bench);
    rows::regions::rows(&mut bench);
    rows::shards::rows(&mut bench);
    rows::lists::rows(&mut bench);
    rows::stores::rows(&mut bench);
    rows::codecs::rows(&mut bench);
    rows::positions::rows(&mut bench);
    rows::arrays::rows(&mut bench);
    rows::scripts::rows(&mut bench);
    ExitCode::from(u8::from(bench.finish()))
}
