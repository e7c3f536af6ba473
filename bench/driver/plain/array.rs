//! An array of numbers over a map.
use super::boxes::{Corner, copy_box, copy_row, copy_turned, turned};
use super::{Refused, Store, key};
use crate::layout::{Layout, Region};
use std::sync::Arc;

/// How an array is cut into chunks.
#[derive(Clone)]
struct Grid {
    shape: Vec<u64>,
    chunk: Vec<u64>,
}

/// What a region shares with a chunk: the chunk's indices, where it begins in both, and its extents.
struct Shared<'a> {
    indices: &'a [u64],
    in_chunk: &'a [u64],
    in_region: &'a [u64],
    extents: &'a [u64],
}

impl Grid {
    fn has(&self, indices: &[u64]) -> bool {
        indices.len() == self.shape.len()
            && indices.iter().zip(&self.chunk).zip(&self.shape).all(|((index, extent), end)| index * extent < *end)
    }

    fn contains(&self, region: &Region) -> bool {
        region.start.iter().zip(&region.extents).zip(&self.shape).all(|((start, extent), end)| start + extent <= *end)
    }

    /// Visits each chunk that the region meets.
    fn visit(&self, region: &Region, mut visit: impl FnMut(&Shared<'_>)) {
        let n = region.start.len();
        let (mut first, mut last) = ([0; 8], [0; 8]);
        for k in 0..n {
            if region.extents[k] == 0 {
                return;
            }
            first[k] = region.start[k] / self.chunk[k];
            last[k] = (region.start[k] + region.extents[k] - 1) / self.chunk[k];
        }
        let mut indices = first;
        loop {
            let (mut in_chunk, mut in_region, mut extents) = ([0; 8], [0; 8], [0; 8]);
            for k in 0..n {
                let origin = indices[k] * self.chunk[k];
                let from = origin.max(region.start[k]);
                let to = (origin + self.chunk[k]).min(region.start[k] + region.extents[k]);
                in_chunk[k] = from - origin;
                in_region[k] = from - region.start[k];
                extents[k] = to - from;
            }
            visit(&Shared {
                indices: &indices[..n],
                in_chunk: &in_chunk[..n],
                in_region: &in_region[..n],
                extents: &extents[..n],
            });
            let mut k = n;
            loop {
                if k == 0 {
                    return;
                }
                k -= 1;
                indices[k] += 1;
                if indices[k] <= last[k] {
                    break;
                }
                indices[k] = first[k];
            }
        }
    }
}

/// An array of numbers, little endian in memory.
pub struct PlainArray {
    pub store: Store,
    grid: Grid,
    width: usize,
    is_big: bool,
    /// A cell that is fill.
    fill: Vec<u8>,
}

/// The fill value of arrays whose absent chunks are read. The glue has the same.
const ABSENT: u8 = 9;

/// Whether each cell of the bytes is this one.
pub fn are_all(bytes: &[u8], cell: &[u8]) -> bool {
    bytes.is_empty() || (bytes.starts_with(cell) && bytes[cell.len()..] == bytes[..bytes.len() - cell.len()])
}

/// So many bytes of these cells.
pub fn filled(cell: &[u8], len: usize) -> Vec<u8> {
    match cell {
        [byte] => vec![*byte; len],
        _ if cell.iter().all(|byte| *byte == 0) => vec![0; len],
        _ => cell.repeat(len / cell.len()),
    }
}

impl PlainArray {
    pub fn new(layout: &Layout) -> PlainArray {
        let width = layout.kind.width();
        let grid = Grid { shape: layout.shape.clone(), chunk: layout.chunk.clone() };
        PlainArray { store: Store::new(), grid, width, is_big: layout.is_big, fill: vec![0; width] }
    }

    /// The same with another fill value, of which no chunk is stored.
    pub fn absent(layout: &Layout) -> PlainArray {
        let mut array = PlainArray::new(layout);
        array.fill[0] = ABSENT;
        array
    }

    fn chunk_len(&self) -> usize {
        self.grid.chunk.iter().product::<u64>() as usize * self.width
    }

    fn encoded(&self, data: Vec<u8>) -> Vec<u8> {
        if self.is_big { turned(&data, self.width) } else { data }
    }

    fn decoded(&self, value: &[u8]) -> Vec<u8> {
        if self.is_big { turned(value, self.width) } else { value.to_vec() }
    }

    /// Stores these cells as a chunk. If all are fill, the chunk is absent then.
    fn put(&mut self, key: String, data: Vec<u8>) {
        if are_all(&data, &self.fill) {
            self.store.remove(&key);
        } else {
            let encoded = self.encoded(data);
            self.store.insert(key, Arc::new(encoded));
        }
    }

    /// A chunk that is all fill is stored too if `keeps`.
    #[inline(never)]
    pub fn store_chunk(&mut self, indices: &[u64], data: &[u8], keeps: bool) -> Result<(), Refused> {
        if !self.grid.has(indices) {
            return Err(Refused::Indices);
        }
        if data.len() != self.chunk_len() {
            return Err(Refused::Data);
        }
        let key = key(indices);
        if !keeps && are_all(data, &self.fill) {
            self.store.remove(&key);
        } else {
            let encoded = self.decoded(data);
            self.store.insert(key, Arc::new(encoded));
        }
        Ok(())
    }

    #[inline(never)]
    pub fn read_chunk(&self, indices: &[u64]) -> Result<Vec<u8>, Refused> {
        if !self.grid.has(indices) {
            return Err(Refused::Indices);
        }
        match self.store.get(&key(indices)).map(Arc::clone) {
            Some(value) if value.len() == self.chunk_len() => Ok(self.decoded(&value)),
            Some(_) => Err(Refused::Data),
            None => Ok(filled(&self.fill, self.chunk_len())),
        }
    }

    #[inline(never)]
    pub fn store_region(&mut self, region: &Region, data: &[u8]) -> Result<(), Refused> {
        if !self.grid.contains(region) {
            return Err(Refused::Region);
        }
        if data.len() != region.count() * self.width {
            return Err(Refused::Data);
        }
        let grid = self.grid.clone();
        grid.visit(region, |shared| {
            let key = key(shared.indices);
            let is_whole = shared.extents == grid.chunk;
            if is_whole && shared.extents == region.extents {
                return self.put(key, data.to_vec());
            }
            let mut chunk = match self.store.get(&key) {
                Some(value) if !is_whole => self.decoded(value),
                _ => filled(&self.fill, self.chunk_len()),
            };
            let from = Corner { shape: &region.extents, start: shared.in_region };
            let to = Corner { shape: &grid.chunk, start: shared.in_chunk };
            copy_box(data, from, &mut chunk, to, shared.extents, self.width, copy_row);
            self.put(key, chunk);
        });
        Ok(())
    }

    /// Copies what a region shares with a chunk, whose bytes these are, to its place.
    fn copy_shared(&self, value: &[u8], shared: &Shared<'_>, made: &mut [u8], region: &Region) {
        let from = Corner { shape: &self.grid.chunk, start: shared.in_chunk };
        let to = Corner { shape: &region.extents, start: shared.in_region };
        if self.is_big {
            copy_box(value, from, made, to, shared.extents, self.width, |to, from| copy_turned(to, from, self.width));
        } else {
            copy_box(value, from, made, to, shared.extents, self.width, copy_row);
        }
    }

    #[inline(never)]
    pub fn read_region(&self, region: &Region) -> Result<Vec<u8>, Refused> {
        if !self.grid.contains(region) {
            return Err(Refused::Region);
        }
        let mut made = filled(&self.fill, region.count() * self.width);
        let (len, mut are_chunks) = (self.chunk_len(), true);
        self.grid.visit(region, |shared| {
            if let Some(value) = self.store.get(&key(shared.indices)) {
                are_chunks &= value.len() == len;
                if are_chunks {
                    self.copy_shared(value, shared, &mut made, region);
                }
            }
        });
        if are_chunks { Ok(made) } else { Err(Refused::Data) }
    }

    /// Makes the array smaller or larger: a chunk that is cut is fill behind the cut, one that is cut off is absent.
    #[inline(never)]
    pub fn resize(&mut self, shape: &[u64]) {
        let before = Region { start: vec![0; shape.len()], extents: self.grid.shape.clone() };
        let grid =
            Grid { chunk: self.grid.chunk.clone(), shape: std::mem::replace(&mut self.grid.shape, shape.to_vec()) };
        if grid.shape.iter().zip(shape).all(|(old, new)| old <= new) {
            return;
        }
        grid.visit(&before, |old| {
            let kept = |k: usize| shape[k].saturating_sub(old.indices[k] * grid.chunk[k]).min(grid.chunk[k]);
            let kept: Vec<u64> = (0..shape.len()).map(kept).collect();
            if kept.iter().zip(old.extents).all(|(kept, extent)| kept >= extent) {
                return;
            }
            let key = key(old.indices);
            if kept.contains(&0) {
                self.store.remove(&key);
            } else if let Some(value) = self.store.get(&key) {
                let mut chunk = filled(&self.fill, self.chunk_len());
                let corner = Corner { shape: &grid.chunk, start: &before.start };
                copy_box(&self.decoded(value), corner, &mut chunk, corner, &kept, self.width, copy_row);
                self.put(key, chunk);
            }
        });
    }

    /// Whether both hold the same encoded chunks.
    #[inline(never)]
    pub fn chunks_equal(&self, other: &PlainArray, chunks: &Region) -> bool {
        let ones = Grid { shape: chunks.extents.clone(), chunk: vec![1; chunks.extents.len()] };
        let mut are_equal = true;
        ones.visit(chunks, |chunk| {
            let key = key(chunk.indices);
            are_equal &= self.store.get(&key) == other.store.get(&key);
        });
        are_equal
    }
}
