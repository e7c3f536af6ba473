//! Scripts.
use super::{ROUNDS, commas};
use crate::bench::{Bench, Growth, phase};
use crate::measure::{begin, end, show};
use crate::plain::script;
use crate::product::{self, Job, Numbers};
use std::fmt::Write;
use std::hint::black_box;

fn measure(bench: &mut Bench, name: &str, growth: Option<Growth>, make: &dyn Fn() -> String) {
    let phases = [phase(1, "run", 1, 0)];
    if bench.wants(name, &phases) {
        let script = make();
        let numbers = Numbers::new().number(ROUNDS);
        bench.measure_growing(
            name,
            growth,
            &phases,
            &mut || product::run(Job::Script, &numbers, script.as_bytes()),
            &mut || {
                for _ in 0..ROUNDS {
                    begin();
                    let text = script::run(black_box(&script)).expect("each line is a command");
                    end(1);
                    // The status, and the text.
                    show(&[0]);
                    show(text.as_bytes());
                }
            },
        );
    }
}

/// An array of 100 chunks, and so many lines that store and read chunks.
fn lines(count: u64) -> String {
    let mut script = "array 400 4 uint8 0\n".to_string();
    for pair in 0..count / 2 {
        write!(script, "chunk {} 1,2,3,{}\nread {}\n", pair % 100, pair % 256, pair % 100).expect("a string takes all");
    }
    script
}

/// One chunk of 100,000 cells.
fn one_chunk() -> String {
    let cells: Vec<String> = (0..100_000).map(|number| (number * 7 % 256).to_string()).collect();
    format!("array 100000 100000 uint8 0\nchunk 0 {}\n", cells.join(","))
}

/// 100,000 chunks of one cell.
fn many_keys() -> String {
    let mut script = "array 100000 1 uint8 0\n".to_string();
    for number in 0..100_000 {
        writeln!(script, "chunk {number} 7").expect("a string takes all");
    }
    script + "keys\n"
}

pub fn rows(bench: &mut Bench) {
    for size in [10_000, 100_000, 1_000_000] {
        let growth = Growth { path: "script of n lines", size };
        measure(bench, &format!("script of {} lines", commas(size)), Some(growth), &move || lines(size));
    }
    measure(bench, "script that stores 100,000 cells", None, &one_chunk);
    measure(bench, "script that reads 400,000 cells", None, &|| one_chunk() + &"read 0\n".repeat(4));
    measure(bench, "script that lists 400,000 bytes", None, &|| one_chunk() + &"keys\n".repeat(4));
    measure(bench, "script that stores and lists 100,000 chunks", None, &many_keys);
}
