//! Chunks, one at a time: 64 of them in turn.
use super::{ROUNDS, size_name};
use crate::bench::{Bench, Phase, phase};
use crate::layout::{Kind, Layout};
use crate::measure::{begin, end, show};
use crate::plain::array::PlainArray;
use crate::plain::numbers::Number;
use crate::plain::{Refused, show_store};
use crate::product::{self, Job, Numbers};
use std::hint::black_box;

/// How many chunks are stored and read in turn. The glue has the same.
const CHUNKS: u64 = 64;

/// An array of so many chunks of so many bytes.
fn layout_of(kind: Kind, is_big: bool, len: usize) -> Layout {
    let count = (len / kind.width()) as u64;
    Layout { is_big, ..Layout::new(kind, &[count * CHUNKS], &[count]) }
}

fn store(array: &mut PlainArray, data: &[u8], keeps: bool, calls: u64) -> Result<(), Refused> {
    for number in 0..calls {
        array.store_chunk(&[number % CHUNKS], black_box(data), keeps)?;
    }
    Ok(())
}

fn read(array: &PlainArray, calls: u64) -> Result<(), Refused> {
    for number in 0..calls {
        black_box(array.read_chunk(&[number % CHUNKS])?);
    }
    Ok(())
}

/// The phases of `chunks::by_engine` in the glue.
fn plain_engine(layout: &Layout, data: &[u8], calls: u64) -> Result<(), Refused> {
    let (mut array, absent) = (PlainArray::new(layout), PlainArray::absent(layout));
    let zeros = vec![0; data.len()];
    for _ in 0..ROUNDS {
        begin();
        store(&mut array, &zeros, false, calls)?;
        end(5);
        show_store(&array.store);
        store(&mut array, data, false, CHUNKS)?;
        begin();
        store(&mut array, data, false, calls)?;
        end(1);
        show_store(&array.store);
        begin();
        store(&mut array, data, true, calls)?;
        end(2);
        show_store(&array.store);
        begin();
        read(&array, calls)?;
        end(3);
        show(&array.read_chunk(&[5])?);
        begin();
        read(&absent, calls)?;
        end(4);
        show(&absent.read_chunk(&[5])?);
    }
    Ok(())
}

fn store_list<T: Number>(array: &mut PlainArray, list: &[T], calls: u64) -> Result<(), Refused> {
    for number in 0..calls {
        array.store_chunk(&[number % CHUNKS], &T::to_bytes(black_box(list)), false)?;
    }
    Ok(())
}

fn read_list<T: Number>(array: &PlainArray, calls: u64) -> Result<(), Refused> {
    for number in 0..calls {
        black_box(T::from_bytes(array.read_chunk(&[number % CHUNKS])?));
    }
    Ok(())
}

/// The phases of `chunks::by_array` in the glue.
fn plain_array<T: Number>(layout: &Layout, data: &[u8], calls: u64) -> Result<(), Refused> {
    let (mut array, absent) = (PlainArray::new(layout), PlainArray::absent(layout));
    let list = T::from_bytes(data.to_vec());
    for _ in 0..ROUNDS {
        begin();
        store(&mut array, data, false, calls)?;
        end(1);
        show_store(&array.store);
        begin();
        read(&array, calls)?;
        end(2);
        show(&array.read_chunk(&[5])?);
        begin();
        store_list(&mut array, &list, calls)?;
        end(3);
        show_store(&array.store);
        begin();
        read_list::<T>(&array, calls)?;
        end(4);
        show(&T::to_bytes(&T::from_bytes(array.read_chunk(&[5])?)));
        begin();
        read_list::<T>(&absent, calls)?;
        end(5);
        show(&T::to_bytes(&T::from_bytes(absent.read_chunk(&[5])?)));
    }
    Ok(())
}

fn engine_phases(calls: u64, len: usize) -> [Phase; 5] {
    [
        phase(1, "stored", calls, len),
        phase(2, "stored, all fill not looked for", calls, len),
        phase(3, "read", calls, len),
        phase(4, "read, absent", calls, len),
        phase(5, "stored, all fill", calls, len),
    ]
}

fn array_phases(calls: u64, len: usize) -> [Phase; 5] {
    [
        phase(1, "stored from bytes", calls, len),
        phase(2, "read as bytes", calls, len),
        phase(3, "stored from a list", calls, len),
        phase(4, "read as a list", calls, len),
        phase(5, "read as a list, absent", calls, len),
    ]
}

fn by_engine(bench: &mut Bench, kind: Kind, is_big: bool, len: usize, calls: u64) {
    let layout = layout_of(kind, is_big, len);
    let group = format!("chunk of {} of {}, engine", size_name(len), layout.cells_name());
    let phases = engine_phases(calls, len);
    let dtype = format!("{}{}", if is_big { ">" } else { "<" }, kind.name());
    bench.case("chunk", &group, &phases, &[dtype, layout.chunk[0].to_string()]);
    if bench.wants(&group, &phases) {
        let data = layout.part(&crate::layout::Region::new(&[0], &layout.chunk));
        let numbers = Numbers::new().layout(&layout).number(calls).number(ROUNDS);
        bench.measure(&group, &phases, &mut || product::run(Job::EngineChunks, &numbers, &data), &mut || {
            plain_engine(&layout, &data, calls).expect("plain Rust refuses nothing")
        });
    }
}

fn by_array<T: Number>(bench: &mut Bench, kind: Kind, len: usize, calls: u64) {
    let layout = layout_of(kind, false, len);
    let group = format!("chunk of {} of {}, Array", size_name(len), layout.cells_name());
    let phases = array_phases(calls, len);
    if bench.wants(&group, &phases) {
        let data = layout.part(&crate::layout::Region::new(&[0], &layout.chunk));
        let numbers = Numbers::new().layout(&layout).number(calls).number(ROUNDS);
        bench.measure(&group, &phases, &mut || product::run(Job::ArrayChunks, &numbers, &data), &mut || {
            plain_array::<T>(&layout, &data, calls).expect("plain Rust refuses nothing")
        });
    }
}

pub fn rows(bench: &mut Bench) {
    for (len, calls) in [(1 << 10, 2048), (1 << 15, 256), (1 << 20, 16)] {
        by_engine(bench, Kind::UInt8, false, len, calls);
    }
    for (len, calls) in [(1 << 10, 2048), (1 << 15, 256)] {
        by_engine(bench, Kind::Int16, false, len, calls);
        by_engine(bench, Kind::UInt32, true, len, calls);
    }
    for (len, calls) in [(1 << 10, 2048), (1 << 15, 256)] {
        by_array::<u8>(bench, Kind::UInt8, len, calls);
        by_array::<i16>(bench, Kind::Int16, len, calls);
        by_array::<u32>(bench, Kind::UInt32, len, calls);
        by_array::<u64>(bench, Kind::UInt64, len, calls);
    }
}
