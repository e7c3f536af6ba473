//! Regions of arrays of numbers, and parts of one chunk.
use super::{ROUNDS, commas};
use crate::bench::{Bench, Growth, Phase, phase};
use crate::layout::{Kind, Layout, Region};
use crate::measure::{begin, end, show};
use crate::plain::array::PlainArray;
use crate::plain::numbers::Number;
use crate::plain::shards::PlainShards;
use crate::plain::{Refused, show_store};
use crate::product::{self, Job, Numbers};
use std::hint::black_box;

/// A region of an array, and how often a phase stores or reads it in a row.
struct Case {
    name: String,
    layout: Layout,
    region: Region,
    calls: u64,
    growth: Option<Growth>,
}

impl Case {
    fn new(name: &str, layout: &Layout, start: &[u64], extents: &[u64], calls: u64) -> Case {
        Case {
            name: name.to_string(),
            layout: layout.clone(),
            region: Region::new(start, extents),
            calls,
            growth: None,
        }
    }

    fn len(&self) -> usize {
        self.region.count() * self.layout.kind.width()
    }

    /// The region's cells and then those of the whole array, as the glue takes them.
    fn data(&self) -> Vec<u8> {
        [self.layout.part(&self.region), self.layout.whole()].concat()
    }

    fn numbers(&self) -> Numbers {
        Numbers::new().layout(&self.layout).region(&self.region).number(self.calls).number(ROUNDS)
    }
}

/// The phases of `regions::by_engine` in the glue, over arrays that are made before.
fn plain_engine(case: &Case, data: &[u8], array: &mut PlainArray, absent: &PlainArray) -> Result<(), Refused> {
    let region = &case.region;
    for _ in 0..ROUNDS {
        begin();
        for _ in 0..case.calls {
            array.store_region(region, black_box(data))?;
        }
        end(1);
        show_store(&array.store);
        begin();
        for _ in 0..case.calls {
            black_box(array.read_region(region)?);
        }
        end(2);
        show(&array.read_region(region)?);
        begin();
        for _ in 0..case.calls {
            black_box(absent.read_region(region)?);
        }
        end(3);
        show(&absent.read_region(region)?);
    }
    Ok(())
}

fn by_engine(bench: &mut Bench, case: &Case) {
    let (calls, len) = (case.calls, case.len());
    let phases = [phase(1, "stored", calls, len), phase(2, "read", calls, len), phase(3, "read, absent", calls, len)];
    let list = |list: &[u64]| list.iter().map(u64::to_string).collect::<Vec<_>>().join(",");
    let dtype = format!("{}{}", if case.layout.is_big { ">" } else { "<" }, case.layout.kind.name());
    let (layout, region) = (&case.layout, &case.region);
    let more = [
        dtype,
        list(&layout.shape),
        list(&layout.chunk),
        list(&region.start),
        list(&region.extents),
        calls.to_string(),
    ];
    bench.case("region", &case.name, &phases, &more);
    if bench.wants(&case.name, &phases) {
        let (data, numbers) = (case.data(), case.numbers());
        let (mut array, absent) = (PlainArray::new(layout), PlainArray::absent(layout));
        array.store_region(&layout.all(), &data[len..]).expect("plain Rust refuses nothing");
        bench.measure_growing(
            &case.name,
            case.growth,
            &phases,
            &mut || product::run(Job::EngineRegion, &numbers, &data),
            &mut || plain_engine(case, &data[..len], &mut array, &absent).expect("plain Rust refuses nothing"),
        );
    }
}

/// What of an array in plain Rust `Array` has too.
trait Stored {
    fn store(&mut self, region: &Region, data: &[u8]);
    fn read(&self, region: &Region) -> Vec<u8>;
    fn show(&self);
}

impl Stored for PlainArray {
    fn store(&mut self, region: &Region, data: &[u8]) {
        self.store_region(region, data).expect("plain Rust refuses nothing");
    }

    fn read(&self, region: &Region) -> Vec<u8> {
        self.read_region(region).expect("plain Rust refuses nothing")
    }

    fn show(&self) {
        show_store(&self.store);
    }
}

impl Stored for PlainShards {
    fn store(&mut self, region: &Region, data: &[u8]) {
        self.store_region(region, data);
    }

    fn read(&self, region: &Region) -> Vec<u8> {
        self.read_region(region)
    }

    fn show(&self) {
        show_store(&self.store);
    }
}

/// The phases of `regions::by_array` in the glue.
fn plain_array<T: Number>(case: &Case, data: &[u8], array: &mut impl Stored) {
    let region = &case.region;
    let list = T::from_bytes(data.to_vec());
    for _ in 0..ROUNDS {
        begin();
        for _ in 0..case.calls {
            array.store(region, black_box(data));
        }
        end(1);
        array.show();
        begin();
        for _ in 0..case.calls {
            black_box(array.read(region));
        }
        end(2);
        show(&array.read(region));
        begin();
        for _ in 0..case.calls {
            array.store(region, &T::to_bytes(black_box(&list)));
        }
        end(3);
        array.show();
        begin();
        for _ in 0..case.calls {
            black_box(T::from_bytes(array.read(region)));
        }
        end(4);
        show(&T::to_bytes(&T::from_bytes(array.read(region))));
    }
}

fn array_phases(calls: u64, len: usize) -> [Phase; 4] {
    [
        phase(1, "stored from bytes", calls, len),
        phase(2, "read as bytes", calls, len),
        phase(3, "stored from a list", calls, len),
        phase(4, "read as a list", calls, len),
    ]
}

fn by_array<T: Number>(bench: &mut Bench, case: &Case) {
    let group = format!("{}, Array", case.name);
    let phases = array_phases(case.calls, case.len());
    if bench.wants(&group, &phases) {
        let (data, numbers) = (case.data(), case.numbers());
        let part = &data[..case.len()];
        let ours = &mut || product::run(Job::ArrayRegion, &numbers, &data);
        if case.layout.subchunk.is_empty() {
            let mut array = PlainArray::new(&case.layout);
            array.store(&case.layout.all(), &data[case.len()..]);
            bench.measure(&group, &phases, ours, &mut || plain_array::<T>(case, part, &mut array));
        } else {
            let mut array = PlainShards::new(&case.layout);
            array.store(&case.layout.all(), &data[case.len()..]);
            bench.measure(&group, &phases, ours, &mut || plain_array::<T>(case, part, &mut array));
        }
    }
}

/// The phases of `regions::parts` in the glue.
fn plain_part(case: &Case, data: &[u8], array: &mut PlainArray) -> Result<(), Refused> {
    for _ in 0..ROUNDS {
        begin();
        for _ in 0..case.calls {
            array.store_region(&case.region, black_box(data))?;
        }
        end(1);
        show_store(&array.store);
        begin();
        for _ in 0..case.calls {
            black_box(array.read_region(&case.region)?);
        }
        end(2);
        show(&array.read_region(&case.region)?);
    }
    Ok(())
}

/// Parts of an array of one chunk.
fn parts(bench: &mut Bench, case: &Case) {
    let phases = [phase(1, "stored", case.calls, case.len()), phase(2, "read", case.calls, case.len())];
    if bench.wants(&case.name, &phases) {
        let (data, numbers) = (case.data(), case.numbers());
        let mut array = PlainArray::new(&case.layout);
        array.store_region(&case.layout.all(), &data[case.len()..]).expect("plain Rust refuses nothing");
        bench.measure(&case.name, &phases, &mut || product::run(Job::Parts, &numbers, &data), &mut || {
            plain_part(case, &data[..case.len()], &mut array).expect("plain Rust refuses nothing")
        });
    }
}

/// 32 MiB of uint8 in chunks of 64 KiB, and in chunks of 1 KiB.
fn large_cases() -> Vec<Case> {
    let shape = [8192, 4096];
    let layout = Layout::new(Kind::UInt8, &shape, &[256, 256]);
    let case = |name: &str, start, extents, calls| {
        Case::new(&format!("32 MiB in chunks of 64 KiB, {name}"), &layout, start, extents, calls)
    };
    let small = Layout::new(Kind::UInt8, &shape, &[32, 32]);
    let small_case = |name: &str, start, extents, calls| {
        Case::new(&format!("32 MiB in chunks of 1 KiB, {name}"), &small, start, extents, calls)
    };
    vec![
        case("whole", &[0, 0], &shape, 1),
        case("unaligned", &[1, 1], &[8190, 4094], 1),
        case("a tenth", &[1024, 512], &[2560, 1280], 2),
        case("a column", &[0, 2176], &[8192, 1], 4),
        case("a row", &[2176, 0], &[1, 4096], 32),
        case("100 x 100 cells of a chunk", &[300, 300], &[100, 100], 64),
        case("one cell", &[300, 300], &[1, 1], 256),
        case("one chunk", &[256, 512], &[256, 256], 64),
        small_case("whole", &[0, 0], &shape, 1),
        small_case("unaligned", &[1, 1], &[8190, 4094], 1),
        small_case("a column", &[0, 2176], &[8192, 1], 4),
        small_case("a row", &[2176, 0], &[1, 4096], 16),
        small_case("10 x 10 cells of a chunk", &[2180, 2180], &[10, 10], 512),
    ]
}

/// uint32 in big endian, six dimensions, and 1,024 chunks of 1 KiB.
fn other_cases() -> Vec<Case> {
    let big = Layout::new(Kind::UInt32, &[8192, 1024], &[256, 64]).in_big_endian();
    let big_case = |name: &str, start, extents, calls| {
        Case::new(&format!("32 MiB of uint32 in big endian in chunks of 64 KiB, {name}"), &big, start, extents, calls)
    };
    let six = Layout::new(Kind::UInt8, &[16; 6], &[4; 6]);
    let six_case = |name: &str, start, extents, calls| {
        Case::new(&format!("6-D in chunks of 4 KiB, {name}"), &six, start, extents, calls)
    };
    let small = Layout::new(Kind::UInt8, &[1024, 1024], &[32, 32]);
    let small_case = |name: &str, start, extents, calls| {
        Case::new(&format!("1 MiB in chunks of 1 KiB, {name}"), &small, start, extents, calls)
    };
    vec![
        big_case("whole", &[0, 0], &[8192, 1024], 1),
        big_case("unaligned", &[1, 1], &[8190, 1022], 1),
        big_case("a row", &[2176, 0], &[1, 1024], 32),
        six_case("16 MiB, whole", &[0; 6], &[16; 6], 1),
        six_case("16 MiB, unaligned", &[1; 6], &[14; 6], 1),
        six_case("one chunk", &[4; 6], &[4; 6], 256),
        small_case("whole", &[0, 0], &[1024, 1024], 2),
        small_case("unaligned", &[1, 1], &[1022, 1022], 2),
    ]
}

/// More and more chunks of 1 KiB, all of them and one cell; 65,536 bytes in eight chunks of more and more dimensions.
fn growing_cases() -> Vec<Case> {
    let mut cases = Vec::new();
    for chunks in [10, 100, 1000, 10_000] {
        let len = chunks * 1024;
        let layout = Layout::new(Kind::UInt8, &[len], &[1024]);
        let growth = |path| Some(Growth { path, size: chunks });
        let (count, calls) = (commas(chunks), (1000 / chunks).max(1));
        let whole = Case::new(&format!("{count} chunks of 1 KiB, whole"), &layout, &[0], &[len], calls);
        cases.push(Case { growth: growth("n chunks of 1 KiB, whole"), ..whole });
        let most = Case::new(&format!("{count} chunks of 1 KiB, unaligned"), &layout, &[1], &[len - 2], calls);
        cases.push(Case { growth: growth("n chunks of 1 KiB, unaligned"), ..most });
        let cell = Case::new(&format!("{count} chunks of 1 KiB, one cell"), &layout, &[len / 2 + 7], &[1], 256);
        cases.push(Case { growth: growth("n chunks of 1 KiB, one cell"), ..cell });
    }
    let cubes: [&[u64]; 6] =
        [&[65_536], &[4096, 16], &[64, 64, 16], &[16, 16, 16, 16], &[8, 8, 8, 8, 16], &[8, 8, 4, 4, 4, 16]];
    for (size, shape) in (1..).zip(cubes) {
        let mut chunk = shape.to_vec();
        chunk[0] /= 8;
        let layout = Layout::new(Kind::UInt8, shape, &chunk);
        let growth = |path| Some(Growth { path, size });
        let zeros = vec![0; shape.len()];
        let whole = Case::new(&format!("64 KiB in 8 chunks, {size}-D, whole"), &layout, &zeros, shape, 32);
        cases.push(Case { growth: growth("64 KiB in 8 chunks, n-D, whole"), ..whole });
        let (mut start, mut extents) = (vec![0; shape.len()], shape.to_vec());
        let (Some(first), Some(last)) = (start.last_mut(), extents.last_mut()) else { continue };
        *first = *last / 4;
        *last /= 2;
        let half = Case::new(&format!("64 KiB in 8 chunks, {size}-D, half of each row"), &layout, &start, &extents, 32);
        cases.push(Case { growth: growth("64 KiB in 8 chunks, n-D, half of each row"), ..half });
    }
    cases
}

/// Regions by `Array`, as bytes and as lists, of chunks and of shards.
fn array_cases(bench: &mut Bench) {
    let shape = [8192, 4096];
    let layout = Layout::new(Kind::UInt8, &shape, &[256, 256]);
    let name = |what: &str| format!("32 MiB of {what} in chunks of 64 KiB");
    by_array::<u8>(bench, &Case::new(&format!("{}, whole", name("uint8")), &layout, &[0, 0], &shape, 1));
    by_array::<u8>(bench, &Case::new(&format!("{}, a row", name("uint8")), &layout, &[2176, 0], &[1, 4096], 32));
    by_array::<u8>(bench, &Case::new(&format!("{}, one cell", name("uint8")), &layout, &[300, 300], &[1, 1], 256));
    let wide = Layout::new(Kind::UInt32, &[8192, 1024], &[256, 64]);
    by_array::<u32>(bench, &Case::new(&format!("{}, whole", name("uint32")), &wide, &[0, 0], &[8192, 1024], 1));
    let shards = Layout::new(Kind::UInt8, &shape, &[1024, 1024]).in_shards(&[256, 256]);
    let name = "32 shards of 1 MiB in subchunks of 64 KiB";
    by_array::<u8>(bench, &Case::new(&format!("{name}, whole"), &shards, &[0, 0], &shape, 1));
    by_array::<u8>(bench, &Case::new(&format!("{name}, unaligned"), &shards, &[1, 1], &[8190, 4094], 1));
    let small = Layout::new(Kind::UInt8, &[1024, 1024], &[64, 64]).in_shards(&[32, 32]);
    let name = "256 shards of 4 KiB in subchunks of 1 KiB";
    by_array::<u8>(bench, &Case::new(&format!("{name}, whole"), &small, &[0, 0], &[1024, 1024], 1));
    by_array::<u8>(bench, &Case::new(&format!("{name}, unaligned"), &small, &[1, 1], &[1022, 1022], 1));
}

/// Parts of a chunk of 1 MiB.
fn part_cases() -> Vec<Case> {
    let layout = Layout::new(Kind::UInt8, &[1024, 1024], &[1024, 1024]);
    let case = |name: &str, start, extents| {
        Case::new(&format!("part of a chunk of 1 MiB, {name}"), &layout, start, extents, 16)
    };
    vec![
        case("one cell", &[512, 512], &[1, 1]),
        case("a row", &[512, 0], &[1, 1024]),
        case("a column", &[0, 512], &[1024, 1]),
        case("a tenth", &[128, 128], &[320, 320]),
    ]
}

pub fn rows(bench: &mut Bench) {
    for case in large_cases().iter().chain(&other_cases()).chain(&growing_cases()) {
        by_engine(bench, case);
    }
    array_cases(bench);
    for case in &part_cases() {
        parts(bench, case);
    }
}
