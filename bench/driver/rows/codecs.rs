//! Codecs, each by itself, and tests of cells.
use super::ROUNDS;
use crate::bench::{Bench, phase};
use crate::layout::Kind;
use crate::measure::{begin, end, show, show_number};
use crate::plain::array::{are_all, filled};
use crate::plain::boxes::turned;
use crate::plain::codecs::{
    behind_lengths, behind_offsets, from_behind_lengths, from_behind_offsets, packed, transposed, unpacked,
};
use crate::plain::lists::{Cells, Texts, texts};
use crate::plain::numbers::are_bools;
use crate::product::{self, Job, Numbers};
use std::hint::black_box;

/// The codec of the glue with this number, over cells of one size.
fn measure(
    bench: &mut Bench,
    name: &str,
    codec: u64,
    width: usize,
    cells: &[u8],
    encode: fn(&[u8]) -> Vec<u8>,
    decode: fn(&[u8]) -> Vec<u8>,
) {
    let phases = [phase(1, "encoded", 1, cells.len()), phase(2, "decoded", 1, cells.len())];
    if bench.wants(name, &phases) {
        let numbers = Numbers::new().number(codec).number((cells.len() / width) as u64).number(ROUNDS);
        bench.measure(name, &phases, &mut || product::run(Job::Codec, &numbers, cells), &mut || {
            for _ in 0..ROUNDS {
                begin();
                let made = encode(black_box(cells));
                end(1);
                show(&made);
                begin();
                let back = decode(black_box(&made));
                end(2);
                show(&back);
            }
        });
    }
}

/// How byte strings are encoded, and how they come back.
type Encode = fn(&[u8], &[usize]) -> Vec<u8>;
type Decode = fn(&[u8]) -> Option<(Vec<u8>, Vec<usize>)>;

/// The codec of the glue with this number, over texts. All are tested before they are encoded, as the glue does.
fn measure_texts(bench: &mut Bench, name: &str, codec: u64, encode: Encode, decode: Decode) {
    let count = 100_000;
    let phases = [phase(1, "encoded", 1, 0), phase(2, "decoded", 1, 0)];
    if bench.wants(name, &phases) {
        let cells = Texts::of_list(&texts(0..count));
        let numbers = Numbers::new().number(codec).number(count).number(ROUNDS);
        bench.measure(name, &phases, &mut || product::run(Job::Codec, &numbers, &[]), &mut || {
            for _ in 0..ROUNDS {
                begin();
                let are_texts =
                    cells.offsets.windows(2).all(|pair| str::from_utf8(&cells.bytes[pair[0]..pair[1]]).is_ok());
                assert!(black_box(are_texts));
                let made = encode(&cells.bytes, &cells.offsets);
                end(1);
                show(&made);
                begin();
                let (bytes, offsets) = decode(&made).expect("texts were encoded");
                end(2);
                Texts { bytes, offsets }.show();
            }
        });
    }
}

/// `packbits` behind the test that each cell is 0 or 1.
fn packed_bools(cells: &[u8]) -> Vec<u8> {
    assert!(are_bools(cells));
    packed(cells)
}

fn transpose<const N: usize>(bench: &mut Bench, kind: Kind) {
    let name = format!("transpose of 1,024 x 1,024 {}", kind.name());
    let phases = [phase(1, "encoded", 1, N << 20)];
    if bench.wants(&name, &phases) {
        let cells: Vec<u8> = (0..N << 20).map(|place| (place * 7 + place / 251) as u8).collect();
        let numbers = Numbers::new().number(kind as u64).list(&[1024, 1024]).number(ROUNDS);
        bench.measure(&name, &phases, &mut || product::run(Job::Transpose, &numbers, &cells), &mut || {
            for _ in 0..ROUNDS {
                begin();
                let made = transposed::<N>(black_box(&cells), 1024);
                end(1);
                show(&made);
            }
        });
    }
}

/// The phases of `cells::cells` in the glue, over 1 MiB of this cell.
fn tests(bench: &mut Bench, kind: Kind, fill: u64) {
    let len = 1 << 20;
    let name = format!("1 MiB of {}", kind.name());
    let mut phases = vec![phase(1, "are all fill", 1, len), phase(3, "made of the fill value", 1, len)];
    if kind == Kind::Bool {
        phases = vec![phase(2, "are bools", 1, len)];
    }
    if bench.wants(&name, &phases) {
        let cell = &fill.to_le_bytes()[..kind.width()];
        let cells = filled(cell, len);
        let numbers =
            Numbers::new().number(kind as u64).number(fill).number((len / kind.width()) as u64).number(ROUNDS);
        bench.measure(&name, &phases, &mut || product::run(Job::Cells, &numbers, &cells), &mut || {
            for _ in 0..ROUNDS {
                begin();
                let are_fill = are_all(black_box(&cells), cell);
                end(1);
                show_number(u64::from(are_fill));
                begin();
                let are_cells = kind != Kind::Bool || are_bools(black_box(&cells));
                end(2);
                show_number(u64::from(are_cells));
                begin();
                let made = filled(black_box(cell), len);
                end(3);
                show(&made);
            }
        });
    }
}

pub fn rows(bench: &mut Bench) {
    let words: Vec<u8> = (0..1usize << 20).map(|place| (place * 7) as u8).collect();
    let bools: Vec<u8> = (0..1usize << 20).map(|place| u8::from(place % 3 == 0)).collect();
    measure(bench, "bytes, 1 MiB of uint32 in little endian", 0, 4, &words, <[u8]>::to_vec, <[u8]>::to_vec);
    measure(
        bench,
        "bytes, 1 MiB of uint32 in big endian",
        1,
        4,
        &words,
        |cells| turned(cells, 4),
        |bytes| turned(bytes, 4),
    );
    measure(bench, "packbits, 1 Mi bools", 2, 1, &bools, packed_bools, |bytes| unpacked(bytes, bytes.len() * 8));
    measure_texts(bench, "vlen-utf8, 100,000 texts", 3, behind_lengths, from_behind_lengths);
    measure_texts(bench, "zarrs.vlen, 100,000 texts", 4, behind_offsets, from_behind_offsets);
    transpose::<1>(bench, Kind::UInt8);
    transpose::<2>(bench, Kind::UInt16);
    transpose::<4>(bench, Kind::UInt32);
    transpose::<8>(bench, Kind::UInt64);
    tests(bench, Kind::UInt8, 7);
    tests(bench, Kind::UInt64, 7);
    tests(bench, Kind::Bool, 1);
}
