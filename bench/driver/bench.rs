//! The rows: each is measured on both sides in turn, compared, and printed.
use crate::measure::{self, Moment};
use crate::rows::commas;
use std::collections::{BTreeMap, HashMap};
use std::hint::black_box;
use std::time::{Duration, Instant};

/// A phase of a group: a row of the table.
pub struct Phase {
    /// The number by which a side ends it.
    pub number: u32,
    pub name: &'static str,
    /// How many calls it makes: its time is divided by them.
    pub calls: u64,
    /// How many bytes a memory copy of what a call works on has; 0: no such copy is shown.
    pub copied: usize,
}

/// The name of a row.
fn row_of(group: &str, phase: &Phase) -> String {
    format!("{group}: {}", phase.name)
}

pub fn phase(number: u32, name: &'static str, calls: u64, copied: usize) -> Phase {
    Phase { number, name, calls, copied }
}

/// A path that is measured over more and more of something.
#[derive(Clone, Copy)]
pub struct Growth {
    pub path: &'static str,
    pub size: u64,
}

/// What is printed.
#[derive(PartialEq, Eq)]
pub enum Output {
    /// A table.
    Table,
    /// A line for each row, as programs read it: its name, our nanoseconds, those of plain Rust.
    Times,
    /// A line for each case that other libraries can do too.
    Cases,
}

/// Nanoseconds of a call.
#[derive(Clone, Copy)]
struct Times {
    ours: f64,
    plain: Option<f64>,
}

/// The times of a row over samples of each size.
type Grown = Vec<(u64, Times)>;

pub struct Bench {
    pub output: Output,
    word: String,
    /// For so long a group is measured at least.
    budget: Duration,
    /// The columns of other libraries: what each is called, and its nanoseconds for some rows.
    peers: Vec<(String, HashMap<String, f64>)>,
    copies: BTreeMap<usize, f64>,
    grown: Vec<(String, Grown)>,
    wrong: usize,
}

/// Sides are run at least and at most so often.
const LEAST_TURNS: u32 = 5;
const MOST_TURNS: u32 = 50;

impl Bench {
    pub fn new(output: Output, word: &str, peers: Vec<(String, HashMap<String, f64>)>) -> Bench {
        let seconds = std::env::var("BENCH_SECONDS").ok().and_then(|text| text.parse().ok()).unwrap_or(1.0);
        let budget = Duration::from_secs_f64(seconds);
        Bench { output, word: word.to_string(), budget, peers, copies: BTreeMap::new(), grown: Vec::new(), wrong: 0 }
    }

    fn is_wanted(&self, row: &str) -> bool {
        row.contains(&self.word)
    }

    fn is_any_wanted(&self, group: &str, phases: &[Phase]) -> bool {
        phases.iter().any(|it| self.is_wanted(&row_of(group, it)))
    }

    /// Whether a row of the group is wanted, and measured.
    pub fn wants(&self, group: &str, phases: &[Phase]) -> bool {
        self.output != Output::Cases && self.is_any_wanted(group, phases)
    }

    /// Prints a case for other libraries, if cases are what is printed: its sort, the group of its rows, and more.
    pub fn case(&self, sort: &str, group: &str, phases: &[Phase], more: &[String]) {
        if self.output == Output::Cases && self.is_any_wanted(group, phases) {
            println!("{sort}\t{group}\t{}", more.join("\t"));
        }
    }

    pub fn print_head(&self) {
        if self.output == Output::Table {
            let peers: String = self.peers.iter().map(|(name, _)| format!(" {name}, us |")).collect();
            println!("| row | ours, us | plain Rust, us | ratio | memory copy, us |{peers}");
            println!("|---|---|---|---|---|{}", "---|".repeat(self.peers.len()));
        }
    }

    /// Compares what both sides make, measures both in turn, and prints a row for each phase: the least of all turns.
    /// `ours` and `plain` do the same phases.
    pub fn measure(&mut self, group: &str, phases: &[Phase], ours: &mut dyn FnMut(), plain: &mut dyn FnMut()) {
        self.measure_growing(group, None, phases, ours, plain);
    }

    /// The same, as a part of a growth.
    pub fn measure_growing(
        &mut self,
        group: &str,
        growth: Option<Growth>,
        phases: &[Phase],
        ours: &mut dyn FnMut(),
        plain: &mut dyn FnMut(),
    ) {
        if !self.compare(group, phases, ours, plain) {
            return;
        }
        let (mut least, mut plain_least) = (BTreeMap::new(), BTreeMap::new());
        self.repeat(|| {
            take_least(&mut least, measure::run(false, ours).times);
            take_least(&mut plain_least, measure::run(false, plain).times);
        });
        self.print(group, growth, phases, &least, Some(&plain_least));
    }

    /// Measures our side alone.
    pub fn measure_alone(&mut self, group: &str, phases: &[Phase], ours: &mut dyn FnMut()) {
        if let Some(reason) = measure::run(true, ours).refused {
            return self.complain(group, &reason);
        }
        let mut least = BTreeMap::new();
        self.repeat(|| take_least(&mut least, measure::run(false, ours).times));
        self.print(group, None, phases, &least, None);
    }

    /// Takes turns until the budget is spent.
    fn repeat(&self, mut turn: impl FnMut()) {
        let (start, mut turns) = (Instant::now(), 0);
        while turns < LEAST_TURNS || (turns < MOST_TURNS && start.elapsed() < self.budget) {
            turn();
            turns += 1;
        }
    }

    /// Whether both sides make the same bytes in each phase, and something.
    fn compare(&mut self, group: &str, phases: &[Phase], ours: &mut dyn FnMut(), plain: &mut dyn FnMut()) -> bool {
        let (ours, plain) = (measure::run(true, ours), measure::run(true, plain));
        if let Some(reason) = ours.refused.or(plain.refused) {
            self.complain(group, &reason);
            return false;
        }
        let mut are_same = true;
        for it in phases {
            let row = row_of(group, it);
            match (ours.made.get(&it.number), plain.made.get(&it.number)) {
                (Some(a), Some(b)) if a == b => continue,
                (Some(a), Some(b)) => {
                    let place = a.iter().zip(b).position(|(x, y)| x != y).unwrap_or(a.len().min(b.len()));
                    let (ours, plain) = (show_from(a, place), show_from(b, place));
                    let lengths = format!("{} and {} bytes", a.len(), b.len());
                    self.complain(&row, &format!("{lengths}, from place {place} on {ours}, and in plain Rust {plain}"));
                }
                _ => self.complain(&row, "a side shows nothing that it made"),
            }
            are_same = false;
        }
        are_same
    }

    fn complain(&mut self, row: &str, reason: &str) {
        eprintln!("WRONG {row}: {reason}");
        self.wrong += 1;
    }

    fn print(
        &mut self,
        group: &str,
        growth: Option<Growth>,
        phases: &[Phase],
        least: &BTreeMap<u32, u64>,
        plain_least: Option<&BTreeMap<u32, u64>>,
    ) {
        for it in phases {
            let row = row_of(group, it);
            let a_call = |times: &BTreeMap<u32, u64>| times.get(&it.number).map(|time| *time as f64 / it.calls as f64);
            let Some(ours) = a_call(least) else {
                self.complain(&row, "the phase was not measured");
                continue;
            };
            let times = Times { ours, plain: plain_least.and_then(a_call) };
            if let Some(growth) = growth {
                self.grow(&format!("{}: {}", growth.path, it.name), growth.size, times);
            }
            if self.is_wanted(&row) {
                self.print_row(&row, times, it.copied);
            }
        }
    }

    fn print_row(&mut self, row: &str, times: Times, copied: usize) {
        if self.output == Output::Times {
            return println!(
                "{row}\t{:.2}\t{}",
                times.ours,
                times.plain.map_or("-".to_string(), |time| format!("{time:.2}"))
            );
        }
        let copy = (copied > 0).then(|| self.copy_time(copied));
        let ratio = times.plain.map_or("-".to_string(), |plain| format!("{:.2}", times.ours / plain));
        let peers: String =
            self.peers.iter().map(|(_, of_rows)| format!(" {} |", micros(of_rows.get(row).copied()))).collect();
        println!(
            "| {row} | {} | {} | {ratio} | {} |{peers}",
            micros(Some(times.ours)),
            micros(times.plain),
            micros(copy)
        );
    }

    /// The least nanoseconds of a copy of so many bytes, which lie in memory that was written before.
    fn copy_time(&mut self, len: usize) -> f64 {
        *self.copies.entry(len).or_insert_with(|| {
            let source = vec![1u8; len];
            let mut target = vec![2u8; len];
            let calls = ((1 << 20) / len).clamp(1, 10_000);
            let least = (0..15).map(|_| {
                let start = Moment::now();
                for _ in 0..calls {
                    black_box(&mut target).copy_from_slice(black_box(&source));
                }
                start.elapsed()
            });
            least.min().unwrap_or_default() as f64 / calls as f64
        })
    }

    fn grow(&mut self, path: &str, size: u64, times: Times) {
        match self.grown.iter_mut().find(|(name, _)| name == path) {
            Some((_, grown)) => grown.push((size, times)),
            None => self.grown.push((path.to_string(), vec![(size, times)])),
        }
    }

    /// Prints how the times grow, and returns whether some row was wrong.
    pub fn finish(self) -> bool {
        if self.output == Output::Table && !self.grown.is_empty() {
            println!("\n| path | ours, us, at each size | exponent | of plain Rust |\n|---|---|---|---|");
            for (path, grown) in &self.grown {
                let times: Vec<String> = grown
                    .iter()
                    .map(|(size, times)| format!("{}: {}", commas(*size), micros(Some(times.ours))))
                    .collect();
                let ours = exponent(grown, |times| Some(times.ours));
                let plain = exponent(grown, |times| times.plain);
                println!("| {path} | {} | {ours} | {plain} |", times.join(", "));
            }
        }
        self.wrong > 0
    }
}

/// A few bytes from a place on.
fn show_from(bytes: &[u8], place: usize) -> String {
    format!("{:02x?}", &bytes[place..bytes.len().min(place + 8)])
}

fn take_least(least: &mut BTreeMap<u32, u64>, times: BTreeMap<u32, u64>) {
    for (phase, time) in times {
        let it = least.entry(phase).or_insert(time);
        *it = time.min(*it);
    }
}

/// Nanoseconds as microseconds.
fn micros(time: Option<f64>) -> String {
    match time.map(|time| time / 1000.0) {
        Some(time) if time < 1.0 => format!("{time:.3}"),
        Some(time) if time < 10.0 => format!("{time:.2}"),
        Some(time) if time < 100.0 => format!("{time:.1}"),
        Some(time) => format!("{time:.0}"),
        None => "-".to_string(),
    }
}

/// The exponent of the growth to the largest size, from the largest one that is at most half of it: 1.00 is linear,
/// 2.00 quadratic.
fn exponent(grown: &Grown, time: fn(&Times) -> Option<f64>) -> String {
    let made = || {
        let (size, last) = grown.last()?;
        let (half, before) = grown.iter().rfind(|(it, _)| it * 2 <= *size)?;
        Some((time(last)? / time(before)?).ln() / (*size as f64 / *half as f64).ln())
    };
    made().map_or("-".to_string(), |it| format!("{it:.2}"))
}
