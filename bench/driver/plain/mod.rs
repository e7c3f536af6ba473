//! The same work in plain Rust, as one writes it without the product: loops over slices, a map from keys to bytes.
pub mod array;
pub mod boxes;
pub mod codecs;
pub mod grids;
pub mod lists;
pub mod numbers;
pub mod script;
pub mod shards;

use std::collections::BTreeMap;
use std::sync::Arc;

/// A store: values that it shares with those who read them.
pub type Store = BTreeMap<String, Arc<Vec<u8>>>;

/// The key of a chunk.
pub fn key(indices: &[u64]) -> String {
    use std::fmt::Write;
    let mut key = String::with_capacity(32);
    key.push_str("climate/rain/c");
    for index in indices {
        write!(key, "/{index}").expect("a string takes all");
    }
    key
}

/// Shows how many keys there are, and all keys and values.
pub fn show_store(store: &Store) {
    if crate::measure::checks() {
        crate::measure::show_number(store.len() as u64);
        for (key, value) in store {
            crate::measure::show(key.as_bytes());
            crate::measure::show(value);
        }
    }
}

/// Why a call is refused.
#[derive(Debug)]
pub enum Refused {
    Indices,
    Region,
    Data,
}
