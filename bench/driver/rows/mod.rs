//! The rows of the table, each with the job of the product and the same work in plain Rust.
pub mod arrays;
pub mod chunks;
pub mod codecs;
pub mod lists;
pub mod positions;
pub mod regions;
pub mod scripts;
pub mod shards;
pub mod stores;

/// How often a side does each phase in one turn.
const ROUNDS: u64 = 2;

/// A number with a comma before each three digits.
pub fn commas(number: u64) -> String {
    match number {
        0..1000 => number.to_string(),
        _ => format!("{},{:03}", commas(number / 1000), number % 1000),
    }
}

/// So many bytes, in words.
fn size_name(len: usize) -> String {
    match len {
        len if len >= 1 << 20 => format!("{} MiB", len >> 20),
        len => format!("{} KiB", len >> 10),
    }
}
