//! `MemoryStore`, beside a `BTreeMap`.
use crate::bench::{Bench, phase};
use crate::measure::{begin, checks, end, show, show_number};
use crate::plain::{Store, show_store};
use crate::product::{self, Job, Numbers};
use std::hint::black_box;
use std::sync::Arc;

/// The next of a row of numbers that look random. The glue has the same.
pub fn next(state: u64) -> u64 {
    state.wrapping_mul(6364136223846793005).wrapping_add(1442695040888963407)
}

fn key(number: u64) -> String {
    format!("climate/rain/c/{number}")
}

/// The phases of `stores::store` in the glue.
fn plain(count: u64, times: u64) {
    let mut store = Store::new();
    let (mut state, mut sum) = (1, 0);
    let mut pick = || {
        state = next(state);
        key((state >> 20) % count)
    };
    begin();
    for number in 0..count {
        store.insert(key(number), Arc::new(vec![7; 64]));
    }
    end(1);
    show_store(&store);
    begin();
    for _ in 0..times {
        sum += black_box(pick()).len();
    }
    end(2);
    show_number(sum as u64);
    begin();
    for _ in 0..times {
        sum += Arc::clone(&store[&pick()]).len();
    }
    end(3);
    show_number(sum as u64);
    begin();
    for _ in 0..times {
        store.insert(pick(), Arc::new(vec![8; 64]));
    }
    end(4);
    show_store(&store);
    begin();
    let keys: Vec<String> = store.keys().cloned().collect();
    end(5);
    if checks() {
        keys.iter().for_each(|key| show(key.as_bytes()));
    }
    begin();
    for key in &keys {
        store.remove(key);
    }
    end(6);
    show_number(store.len() as u64);
}

pub fn rows(bench: &mut Bench) {
    for (name, count) in [("1,000", 1000), ("100,000", 100_000)] {
        let group = format!("store of {name} chunks");
        let times = 20_000;
        let phases = [
            phase(1, "a new key", count, 0),
            phase(2, "the text of a key alone", times, 0),
            phase(3, "a value", times, 0),
            phase(4, "a value replaced", times, 0),
            phase(5, "all keys, each", count, 0),
            phase(6, "a key erased", count, 0),
        ];
        if bench.wants(&group, &phases) {
            let numbers = Numbers::new().number(count).number(times);
            bench
                .measure(&group, &phases, &mut || product::run(Job::Store, &numbers, &[]), &mut || plain(count, times));
        }
    }
}
