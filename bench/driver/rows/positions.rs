//! Positions of a box, copies of boxes, and chunk grids.
use super::ROUNDS;
use super::stores::next;
use crate::bench::{Bench, phase};
use crate::layout::Region;
use crate::measure::{begin, end, show, show_number};
use crate::plain::boxes::{Corner, copy_box, copy_row};
use crate::plain::grids::PlainGrid;
use crate::product::{self, Job, Numbers};
use std::hint::black_box;

/// The number of what was seen so far and of a position. The glue has the same.
fn mixed(seen: u64, [i, j, k]: [u64; 3]) -> u64 {
    ((seen.rotate_left(1) ^ i).rotate_left(1) ^ j).rotate_left(1) ^ k
}

#[inline(never)]
fn loops([a, b, c]: [u64; 3], [rows, columns, cells]: [u64; 3]) -> u64 {
    let mut seen = 0;
    for i in a..a + rows {
        for j in b..b + columns {
            for k in c..c + cells {
                seen = mixed(seen, [i, j, k]);
            }
        }
    }
    seen
}

/// Ten million positions: by `indices`, which gives a list for each, and by `walk`, which lends one.
fn indices(bench: &mut Bench) {
    let (start, shape) = ([3, 4, 5], [1000, 100, 100]);
    let phases = [phase(1, "indices", 1, 0), phase(2, "walk", 1, 0)];
    if bench.wants("10,000,000 positions", &phases) {
        let numbers = Numbers::new().region(&Region::new(&start, &shape)).number(1);
        bench.measure("10,000,000 positions", &phases, &mut || product::run(Job::Indices, &numbers, &[]), &mut || {
            for number in [1, 2] {
                begin();
                let seen = loops(black_box(start), black_box(shape));
                end(number);
                show_number(seen);
            }
        });
    }
}

/// Copies of 4 MiB of a box of two dimensions, in rows of so many bytes.
fn copies(bench: &mut Bench, row: u64) {
    let rows = (1 << 22) / row;
    let (from_shape, from_start) = ([rows + 2, 2 * row], [1, row / 2]);
    let (to_shape, to_start) = ([rows + 1, 2 * row + 1], [0, row / 3]);
    let extents = [rows, row];
    let name = format!("copy of a box of 4 MiB in rows of {row} bytes");
    let phases = [phase(1, "copied", 1, 1 << 22)];
    if bench.wants(&name, &phases) {
        let source: Vec<u8> = (0..from_shape[0] * from_shape[1]).map(|place| (place * 7 + place / 251) as u8).collect();
        let len = to_shape[0] * to_shape[1];
        let corners = Numbers::new().list(&from_shape).list(&from_start).list(&to_shape).list(&to_start).list(&extents);
        let numbers = corners.number(len).number(1).number(ROUNDS);
        bench.measure(&name, &phases, &mut || product::run(Job::Copies, &numbers, &source), &mut || {
            let mut target = vec![0; len as usize];
            let from = Corner { shape: &from_shape, start: &from_start };
            let to = Corner { shape: &to_shape, start: &to_start };
            for _ in 0..ROUNDS {
                begin();
                copy_box(black_box(&source), from, black_box(&mut target), to, &extents, 1, copy_row);
                end(1);
                show(&target);
            }
        });
    }
}

/// The phases of `grids::grid` in the glue.
fn plain_grid(grid: &PlainGrid, dimensions: usize, extent: u64, size: u64, times: u64) -> Option<()> {
    let (mut state, mut sum) = (1, 0u64);
    let mut indices = vec![0; dimensions];
    begin();
    for _ in 0..times {
        for index in &mut indices {
            state = next(state);
            *index = (state >> 20) % (extent / size);
        }
        sum = sum.wrapping_add(grid.chunk(&indices)?.0[0]);
    }
    end(1);
    show_number(sum);
    let (mut state, mut sum) = (1, 0u64);
    begin();
    for _ in 0..times {
        let mut start = vec![0; dimensions];
        for index in &mut start {
            state = next(state);
            *index = (state >> 20) % (extent - size - 1);
        }
        let extents = vec![size + 1; dimensions];
        let (first, count) = grid.met(&start, &extents)?;
        sum = sum.wrapping_add(first[0]).wrapping_add(count[0]);
    }
    end(2);
    show_number(sum);
    Some(())
}

fn grid(bench: &mut Bench, name: &str, number: u64, grid: &PlainGrid, dimensions: usize) {
    let (extent, size, times) = (1_600_000, 16, 10_000);
    let name = format!("{name} grid, {dimensions}-D");
    let phases = [phase(1, "the box of a chunk", times, 0), phase(2, "the chunks of a region", times, 0)];
    if bench.wants(&name, &phases) {
        let numbers = Numbers::new().number(number).number(dimensions as u64).number(extent).number(size).number(times);
        bench.measure(&name, &phases, &mut || product::run(Job::Grid, &numbers, &[]), &mut || {
            plain_grid(grid, dimensions, extent, size, times).expect("all lie in the grid")
        });
    }
}

pub fn rows(bench: &mut Bench) {
    indices(bench);
    for row in [1, 8, 64, 4096] {
        copies(bench, row);
    }
    for dimensions in [1, 3] {
        grid(bench, "regular", 0, &PlainGrid::Regular { size: 16 }, dimensions);
        grid(bench, "regular bounded", 1, &PlainGrid::Bounded { extent: 1_600_000, size: 16 }, dimensions);
        grid(bench, "rectangular", 2, &PlainGrid::rectangular(1_600_000, 16), dimensions);
    }
}
