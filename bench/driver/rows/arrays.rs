//! Comparisons of arrays, changes of their shape, and how long an array takes to be opened and built.
use super::ROUNDS;
use crate::bench::{Bench, phase};
use crate::layout::{Kind, Layout, Region};
use crate::measure::{begin, end, show_number};
use crate::plain::array::PlainArray;
use crate::plain::{Refused, show_store};
use crate::product::{self, Job, Numbers};

/// The phases of `arrays::changes` in the glue. `other` has all cells.
fn plain(layout: &Layout, other: &PlainArray, chunks: &Region, less: &[u64], data: &[u8]) -> Result<(), Refused> {
    let mut array = PlainArray::new(layout);
    for _ in 0..ROUNDS {
        array.store_region(&layout.all(), data)?;
        begin();
        let are_equal = array.chunks_equal(other, chunks);
        end(1);
        show_number(u64::from(are_equal));
        begin();
        array.resize(less);
        end(2);
        show_store(&array.store);
        begin();
        array.resize(&layout.shape);
        end(3);
        show_store(&array.store);
    }
    Ok(())
}

/// An array of two dimensions, and a smaller shape.
fn changes(bench: &mut Bench, name: &str, shape: [u64; 2], chunk: [u64; 2], less: [u64; 2]) {
    let layout = Layout::new(Kind::UInt8, &shape, &chunk);
    let name = format!("array of {name}");
    let phases =
        [phase(1, "chunks_equal", 1, 0), phase(2, "resize, smaller", 1, 0), phase(3, "resize, as large again", 1, 0)];
    if bench.wants(&name, &phases) {
        let chunks = Region::new(&[0, 0], &[shape[0] / chunk[0], shape[1] / chunk[1]]);
        let data = layout.whole();
        let numbers = Numbers::new().layout(&layout).region(&chunks).list(&less).number(ROUNDS);
        let mut other = PlainArray::new(&layout);
        other.store_region(&layout.all(), &data).expect("plain Rust refuses nothing");
        bench.measure(&name, &phases, &mut || product::run(Job::Changes, &numbers, &data), &mut || {
            plain(&layout, &other, &chunks, &less, &data).expect("plain Rust refuses nothing")
        });
    }
}

const DOCUMENT: &str = concat!(
    r#"{"zarr_format":3,"node_type":"array","shape":[8192,4096],"data_type":"int16","#,
    r#""chunk_grid":{"name":"regular","configuration":{"chunk_shape":[256,256]}},"#,
    r#""chunk_key_encoding":{"name":"default","configuration":{"separator":"/"}},"fill_value":0,"#,
    r#""codecs":[{"name":"bytes","configuration":{"endian":"little"}}],"attributes":{"unit":"mm"},"#,
    r#""dimension_names":["y","x"]}"#,
);

/// Plain Rust has no arrays to open, and `std` reads no JSON: our times stand alone.
fn documents(bench: &mut Bench) {
    let calls = 100;
    let phases = [
        phase(1, "opened", calls, 0),
        phase(2, "made of its document", calls, 0),
        phase(3, "built", calls, 0),
        phase(4, "metadata stored", calls, 0),
        phase(5, "document read alone", calls, 0),
    ];
    bench.case("open", "array", &phases, &[]);
    if bench.wants("array", &phases) {
        let numbers = Numbers::new().number(calls).number(ROUNDS);
        bench.measure_alone("array", &phases, &mut || product::run(Job::Documents, &numbers, DOCUMENT.as_bytes()));
    }
}

pub fn rows(bench: &mut Bench) {
    changes(bench, "100 chunks of 1 KiB", [320, 320], [32, 32], [300, 300]);
    changes(bench, "10,000 chunks of 1 KiB", [3200, 3200], [32, 32], [3000, 3000]);
    changes(bench, "512 chunks of 64 KiB", [8192, 4096], [256, 256], [8000, 4000]);
    documents(bench);
}
