//! Shards: whole ones, parts of them, and their compaction.
use super::{ROUNDS, commas};
use crate::bench::{Bench, Growth, phase};
use crate::layout::{Kind, Layout, Region};
use crate::measure::{begin, end, show, show_number};
use crate::plain::shards::PlainShards;
use crate::plain::show_store;
use crate::product::{self, Job, Numbers};
use std::hint::black_box;

/// One shard, a part of it, and how often that is read and stored in a row.
struct Case {
    name: String,
    layout: Layout,
    part: Region,
    calls: u64,
    growth: Option<Growth>,
}

/// The phases of `shards::shards` in the glue.
fn plain(case: &Case, cells: &[u8], data: &[u8]) {
    let (all, calls) = (case.layout.all(), case.calls);
    let mut array = PlainShards::new(&case.layout);
    for _ in 0..ROUNDS {
        begin();
        array.store_region(&all, black_box(data));
        end(1);
        show_store(&array.store);
        begin();
        let made = array.read_region(&all);
        end(2);
        show(&made);
        drop(made);
        begin();
        for _ in 0..calls {
            black_box(array.read_region(&case.part));
        }
        end(3);
        show(&array.read_region(&case.part));
        begin();
        for _ in 0..calls {
            array.store_partly(&case.part, black_box(cells));
        }
        end(4);
        show_store(&array.store);
        begin();
        let did = array.compact();
        end(5);
        show_number(u64::from(did));
        show_store(&array.store);
        begin();
        let count = (0..calls).filter(|_| array.compact()).count();
        end(6);
        show_number(count as u64);
        array.store_region(&all, data);
        begin();
        for _ in 0..calls {
            array.store_region(&case.part, black_box(cells));
        }
        end(7);
        show_store(&array.store);
    }
}

fn measure(bench: &mut Bench, case: &Case) {
    let width = case.layout.kind.width();
    let (all, part) = (case.layout.all().count() * width, case.part.count() * width);
    let phases = [
        phase(1, "stored", 1, all),
        phase(2, "read", 1, all),
        phase(3, "part read", case.calls, part),
        phase(4, "part stored by partial encoding", case.calls, 0),
        phase(5, "compacted behind that", 1, all),
        phase(6, "compacted, nothing to do", case.calls, 0),
        phase(7, "part stored by encoding the shard anew", case.calls, 0),
    ];
    if bench.wants(&case.name, &phases) {
        let (cells, data) = (case.layout.part(&case.part), case.layout.whole());
        let both = [cells.as_slice(), &data].concat();
        let numbers = Numbers::new().layout(&case.layout).region(&case.part).number(case.calls).number(ROUNDS);
        bench.measure_growing(
            &case.name,
            case.growth,
            &phases,
            &mut || product::run(Job::Shards, &numbers, &both),
            &mut || plain(case, &cells, &data),
        );
    }
}

fn cases() -> Vec<Case> {
    let square = |name: &str, kind: Kind, side: [u64; 2], sub: [u64; 2], start: [u64; 2], extents: [u64; 2]| Case {
        name: format!("shard of {name}"),
        layout: Layout::new(kind, &side, &side).in_shards(&sub),
        part: Region::new(&start, &extents),
        calls: 20,
        growth: None,
    };
    let (cell, at) = ([1, 1], [40, 40]);
    let (byte, word) = (Kind::UInt8, Kind::UInt32);
    vec![
        square("4 KiB of uint8 in subchunks of 1 KiB, one cell", byte, [64, 64], [32, 32], at, cell),
        square("16 KiB of uint8 in subchunks of 1 KiB, one cell", byte, [128, 128], [32, 32], at, cell),
        square(
            "1 MiB of uint8 in subchunks of 64 KiB, a subchunk",
            byte,
            [1024, 1024],
            [256, 256],
            [256, 512],
            [256, 256],
        ),
        square("1 MiB of uint8 in subchunks of 4 KiB, one cell", byte, [1024, 1024], [64, 64], [300, 300], cell),
        square("1 MiB of uint8 in subchunks of 4 KiB, a subchunk", byte, [1024, 1024], [64, 64], [256, 512], [64, 64]),
        square(
            "1 MiB of uint32 in subchunks of 64 KiB, a subchunk",
            word,
            [512, 512],
            [128, 128],
            [128, 256],
            [128, 128],
        ),
        square("1 MiB of uint32 in subchunks of 4 KiB, one cell", word, [512, 512], [32, 32], [300, 300], cell),
        square("1 MiB of uint8 in 1,024 subchunks, one cell", byte, [1024, 1024], [32, 32], [300, 300], cell),
        square(
            "1 MiB of uint8 in 1,024 subchunks, 100 x 100 cells",
            byte,
            [1024, 1024],
            [32, 32],
            [300, 300],
            [100, 100],
        ),
        square("16 MiB of uint8 in 16,384 subchunks, one cell", byte, [4096, 4096], [32, 32], [300, 300], cell),
        square(
            "16 MiB of uint8 in subchunks of 64 KiB, a subchunk",
            byte,
            [4096, 4096],
            [256, 256],
            [256, 512],
            [256, 256],
        ),
    ]
}

/// One shard of more and more subchunks of 1 KiB.
fn growing_case(subchunks: u64) -> Case {
    let shape = [1, subchunks * 1024];
    Case {
        name: format!("shard of {} subchunks of 1 KiB in a row, one cell", commas(subchunks)),
        layout: Layout::new(Kind::UInt8, &shape, &shape).in_shards(&[1, 1024]),
        part: Region::new(&[0, subchunks * 512 + 7], &[1, 1]),
        calls: 10,
        growth: Some(Growth { path: "shard of n subchunks of 1 KiB in a row, one cell", size: subchunks }),
    }
}

pub fn rows(bench: &mut Bench) {
    for case in cases().into_iter().chain([10, 100, 1000, 10_000].map(growing_case)) {
        measure(bench, &case);
    }
}
