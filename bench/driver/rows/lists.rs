//! Texts and options: as lists, as cells, and in arrays of one dimension.
use super::{ROUNDS, commas};
use crate::bench::{Bench, Growth, phase};
use crate::layout::{Kind, Layout};
use crate::measure::{begin, end, show};
use crate::plain::lists::{Cells, Options, PlainList, Texts, small_options, texts, wide_options};
use crate::plain::numbers::Number;
use crate::plain::show_store;
use crate::product::{self, Job, Numbers};
use std::hint::black_box;
use std::ops::Range;

/// What makes the values of a list from numbers.
type Make<C> = fn(Range<u64>) -> Vec<<C as Cells>::Value>;

/// The phases of `lists::by_engine` in the glue.
fn plain_engine<C: Cells>(count: u64, size: usize, make: Make<C>) -> Option<()> {
    let (whole, part) = (C::of_list(&make(0..count)), C::of_list(&make(2..count)));
    let most = 1..count as usize - 1;
    let mut array = PlainList::new(size);
    for _ in 0..ROUNDS {
        begin();
        array.store(0, black_box(&whole))?;
        end(1);
        show_store(&array.store);
        begin();
        let made: C = array.read(0..count as usize)?;
        end(2);
        made.show();
        drop(made);
        begin();
        array.store(1, black_box(&part))?;
        end(3);
        show_store(&array.store);
        begin();
        let made: C = array.read(most.clone())?;
        end(4);
        made.show();
    }
    Some(())
}

/// The phases of `lists::by_array` in the glue.
fn plain_array<C: Cells>(count: u64, size: usize, make: Make<C>) -> Option<()> {
    let list = make(0..count);
    let mut array = PlainList::new(size);
    for _ in 0..ROUNDS {
        begin();
        array.store(0, &C::of_list(black_box(&list)))?;
        end(1);
        show_store(&array.store);
        begin();
        let made = array.read::<C>(0..count as usize)?.into_list();
        end(2);
        C::of_list(&made).show();
    }
    Some(())
}

/// So many cells in chunks of so many.
fn measure<C: Cells>(
    bench: &mut Bench,
    kind: Kind,
    name: &str,
    growth: Option<Growth>,
    count: u64,
    size: u64,
    make: Make<C>,
) {
    let layout = Layout::new(kind, &[count], &[size]);
    let numbers = Numbers::new().layout(&layout).number(ROUNDS);
    let phases = [
        phase(1, "stored", 1, 0),
        phase(2, "read", 1, 0),
        phase(3, "all but two stored", 1, 0),
        phase(4, "all but two read", 1, 0),
    ];
    bench.case("list", name, &phases, &[kind.name().to_string(), count.to_string(), size.to_string()]);
    if bench.wants(name, &phases) {
        bench.measure_growing(
            name,
            growth,
            &phases,
            &mut || product::run(Job::EngineLists, &numbers, &[]),
            &mut || plain_engine::<C>(count, size as usize, make).expect("plain Rust refuses nothing"),
        );
    }
    let name = format!("{name}, Array");
    let phases = [phase(1, "stored from a list", 1, 0), phase(2, "read as a list", 1, 0)];
    if growth.is_none() && bench.wants(&name, &phases) {
        bench.measure(&name, &phases, &mut || product::run(Job::ArrayLists, &numbers, &[]), &mut || {
            plain_array::<C>(count, size as usize, make).expect("plain Rust refuses nothing")
        });
    }
}

fn arrays(bench: &mut Bench) {
    measure::<Texts>(bench, Kind::Text, "100,000 texts, 1,000 a chunk", None, 100_000, 1000, texts);
    measure::<Texts>(bench, Kind::Text, "10,000 texts, 10 a chunk", None, 10_000, 10, texts);
    let (small, wide) = (Kind::OptionalUInt8, Kind::OptionalUInt32);
    measure::<Options<4>>(bench, wide, "262,144 optional uint32, 16,384 a chunk", None, 262_144, 16_384, wide_options);
    measure::<Options<1>>(bench, small, "262,144 optional uint8, 16,384 a chunk", None, 262_144, 16_384, small_options);
    measure::<Options<1>>(bench, small, "10,000 optional uint8, 10 a chunk", None, 10_000, 10, small_options);
    for chunks in [10, 100, 1000, 10_000] {
        let growth = |path| Some(Growth { path, size: chunks });
        let count = commas(chunks);
        let (name, path) = (format!("{count} chunks of 64 texts"), growth("n chunks of 64 texts"));
        measure::<Texts>(bench, Kind::Text, &name, path, chunks * 64, 64, texts);
        let (name, path) = (format!("100,000 texts in {count} chunks"), growth("100,000 texts in n chunks"));
        measure::<Texts>(bench, Kind::Text, &name, path, 100_000, 100_000 / chunks, texts);
        let (name, path) =
            (format!("{count} chunks of 256 optional uint32"), growth("n chunks of 256 optional uint32"));
        measure::<Options<4>>(bench, wide, &name, path, chunks * 256, 256, wide_options);
    }
}

/// The phases of `lists::conversions` in the glue.
fn convert<C: Cells>(bench: &mut Bench, kind: Kind, name: &str, count: u64, make: Make<C>) {
    let phases = [phase(1, "to cells", 1, 0), phase(2, "back", 1, 0)];
    if bench.wants(name, &phases) {
        let list = make(0..count);
        let numbers = Numbers::new().number(kind as u64).number(count).number(ROUNDS);
        bench.measure(name, &phases, &mut || product::run(Job::Conversions, &numbers, &[]), &mut || {
            for _ in 0..ROUNDS {
                begin();
                let made = C::of_list(black_box(&list));
                end(1);
                made.show();
                begin();
                let back = made.into_list();
                end(2);
                C::of_list(&back).show();
            }
        });
    }
}

/// The same of numbers.
fn convert_numbers<T: Number>(bench: &mut Bench, kind: Kind, name: &str, count: u64, make: fn(u64) -> T) {
    let copied = count as usize * kind.width();
    let phases = [phase(1, "to cells", 1, copied), phase(2, "back", 1, copied)];
    if bench.wants(name, &phases) {
        let list: Vec<T> = (0..count).map(make).collect();
        let numbers = Numbers::new().number(kind as u64).number(count).number(ROUNDS);
        bench.measure(name, &phases, &mut || product::run(Job::Conversions, &numbers, &[]), &mut || {
            for _ in 0..ROUNDS {
                begin();
                let made = T::to_bytes(black_box(&list)).into_owned();
                end(1);
                show(&made);
                begin();
                let back = T::from_bytes(made);
                end(2);
                show(&T::to_bytes(&back));
            }
        });
    }
}

pub fn rows(bench: &mut Bench) {
    convert_numbers(bench, Kind::Int16, "524,288 int16", 524_288, |number| number as u16 as i16);
    convert_numbers(bench, Kind::UInt32, "262,144 uint32", 262_144, |number| number as u32);
    convert::<Options<1>>(bench, Kind::OptionalUInt8, "262,144 options of uint8", 262_144, small_options);
    convert::<Options<4>>(bench, Kind::OptionalUInt32, "262,144 options of uint32", 262_144, wide_options);
    convert::<Texts>(bench, Kind::Text, "100,000 strings", 100_000, texts);
    arrays(bench);
}
