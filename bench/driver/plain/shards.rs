//! Arrays of two dimensions in shards. Columns are counted in bytes.
use super::array::are_all;
use super::{Store, key};
use crate::layout::{Layout, Region};
use std::ops::Range;
use std::sync::Arc;

/// Rows and columns.
#[derive(Clone)]
struct Area {
    rows: Range<usize>,
    columns: Range<usize>,
}

impl Area {
    fn new(region: &Region, width: usize) -> Area {
        let [row, column] = [region.start[0] as usize, region.start[1] as usize * width];
        let [rows, columns] = [region.extents[0] as usize, region.extents[1] as usize * width];
        Area { rows: row..row + rows, columns: column..column + columns }
    }

    /// What a piece with these indices has of it, if pieces have these extents.
    fn within(&self, [row, column]: [usize; 2], [rows, columns]: [usize; 2]) -> Area {
        let cut = |all: &Range<usize>, index: usize, extent: usize| {
            all.start.max(index * extent)..all.end.min((index + 1) * extent)
        };
        Area { rows: cut(&self.rows, row, rows), columns: cut(&self.columns, column, columns) }
    }

    /// The indices of the pieces that it meets, if pieces have these extents.
    fn pieces(&self, [rows, columns]: [usize; 2]) -> impl Iterator<Item = [usize; 2]> + use<> {
        let all = self.columns.start / columns..self.columns.end.div_ceil(columns);
        (self.rows.start / rows..self.rows.end.div_ceil(rows))
            .flat_map(move |row| all.clone().map(move |column| [row, column]))
    }

    fn len(&self) -> usize {
        self.rows.len() * self.columns.len()
    }

    /// The places of a row of a part of it.
    fn places(&self, part: &Area, row: usize) -> Range<usize> {
        let first = (row - self.rows.start) * self.columns.len() + part.columns.start - self.columns.start;
        first..first + part.columns.len()
    }
}

/// Copies a part of one area to another one.
fn copy(source: &[u8], from: &Area, target: &mut [u8], to: &Area, part: &Area) {
    if from.columns == part.columns && to.columns == part.columns {
        let (read, write) = (from.places(part, part.rows.start).start, to.places(part, part.rows.start).start);
        return target[write..write + part.len()].copy_from_slice(&source[read..read + part.len()]);
    }
    for row in part.rows.clone() {
        target[to.places(part, row)].copy_from_slice(&source[from.places(part, row)]);
    }
}

/// Where a subchunk lies in its shard; `None`: it is absent.
type Entry = Option<Range<usize>>;

fn entry(index: &[u8], number: usize) -> Entry {
    let word = |place: usize| u64::from_le_bytes(index[8 * place..8 * place + 8].try_into().expect("eight bytes"));
    let (start, len) = (word(2 * number), word(2 * number + 1));
    (start != u64::MAX).then(|| start as usize..(start + len) as usize)
}

fn put_entry(index: &mut Vec<u8>, entry: Entry) {
    let (start, len) = entry.map_or((u64::MAX, u64::MAX), |it| (it.start as u64, it.len() as u64));
    index.extend_from_slice(&start.to_le_bytes());
    index.extend_from_slice(&len.to_le_bytes());
}

/// An array in shards, whose cells are 0 where none are stored.
pub struct PlainShards {
    pub store: Store,
    width: usize,
    shape: [usize; 2],
    shard: [usize; 2],
    subchunk: [usize; 2],
}

impl PlainShards {
    pub fn new(layout: &Layout) -> PlainShards {
        let width = layout.kind.width();
        let pair = |extents: &[u64]| [extents[0] as usize, extents[1] as usize * width];
        let (shape, shard, subchunk) = (pair(&layout.shape), pair(&layout.chunk), pair(&layout.subchunk));
        PlainShards { store: Store::new(), width, shape, shard, subchunk }
    }

    fn all(&self) -> Area {
        Area { rows: 0..self.shape[0], columns: 0..self.shape[1] }
    }

    /// How many subchunks a shard has.
    fn count(&self) -> usize {
        self.shard[0] / self.subchunk[0] * (self.shard[1] / self.subchunk[1])
    }

    /// The place of a subchunk among those of its shard.
    fn number(&self, [row, column]: [usize; 2]) -> usize {
        let [rows, columns] = [self.shard[0] / self.subchunk[0], self.shard[1] / self.subchunk[1]];
        row % rows * columns + column % columns
    }

    fn key(piece: [usize; 2]) -> String {
        key(&piece.map(|it| it as u64))
    }

    /// The index of a shard, whose entries lie in front of it. All are tested, as the product tests them.
    fn index<'a>(&self, value: &'a [u8]) -> &'a [u8] {
        let (front, index) = value.split_at(value.len() - 16 * self.count());
        let lies_in_front = |entry: &[u8; 16]| {
            let [start, len] = [0, 8].map(|at| u64::from_le_bytes(entry[at..at + 8].try_into().expect("eight bytes")));
            start == u64::MAX || start.checked_add(len).is_some_and(|end| end <= front.len() as u64)
        };
        assert!(index.as_chunks().0.iter().all(lies_in_front), "a broken shard");
        index
    }

    /// The bytes of a shard, of an area that has all of it.
    fn encoded(&self, shard: [usize; 2], area: &Area, data: &[u8]) -> Option<Vec<u8>> {
        let cells = self.all().within(shard, self.shard);
        let mut made = Vec::with_capacity(cells.len() + 16 * self.count());
        let mut index = Vec::with_capacity(16 * self.count());
        for piece in cells.pieces(self.subchunk) {
            let start = made.len();
            let part = cells.within(piece, self.subchunk);
            for row in part.rows.clone() {
                made.extend_from_slice(&data[area.places(&part, row)]);
            }
            let is_absent = are_all(&made[start..], &[0]);
            if is_absent {
                made.truncate(start);
            }
            put_entry(&mut index, (!is_absent).then(|| start..made.len()));
        }
        if made.is_empty() {
            return None;
        }
        made.extend_from_slice(&index);
        Some(made)
    }

    fn put(&mut self, shard: [usize; 2], value: Option<Vec<u8>>) {
        match value {
            Some(value) => drop(self.store.insert(Self::key(shard), Arc::new(value))),
            None => drop(self.store.remove(&Self::key(shard))),
        }
    }

    /// Stores a region. A shard of which it has a part is decoded and encoded anew.
    #[inline(never)]
    pub fn store_region(&mut self, region: &Region, data: &[u8]) {
        let area = Area::new(region, self.width);
        for shard in area.pieces(self.shard) {
            let (cells, part) = (self.all().within(shard, self.shard), area.within(shard, self.shard));
            let value = if part.len() == cells.len() {
                self.encoded(shard, &area, data)
            } else {
                let mut whole = vec![0; cells.len()];
                self.read(&cells, &mut whole);
                copy(data, &area, &mut whole, &cells, &part);
                self.encoded(shard, &cells, &whole)
            };
            self.put(shard, value);
        }
    }

    /// Puts the cells of an area in their places.
    fn read(&self, area: &Area, made: &mut [u8]) {
        for shard in area.pieces(self.shard) {
            let Some(value) = self.store.get(&Self::key(shard)).map(Arc::clone) else { continue };
            let (index, met) = (self.index(&value), area.within(shard, self.shard));
            for piece in met.pieces(self.subchunk) {
                if let Some(places) = entry(index, self.number(piece)) {
                    let cells = self.all().within(piece, self.subchunk);
                    copy(&value[places], &cells, made, area, &met.within(piece, self.subchunk));
                }
            }
        }
    }

    #[inline(never)]
    pub fn read_region(&self, region: &Region) -> Vec<u8> {
        let area = Area::new(region, self.width);
        let mut made = vec![0; area.len()];
        self.read(&area, &mut made);
        made
    }

    /// Stores a part of stored shards: each subchunk that it meets is put behind the others, and then the index anew.
    #[inline(never)]
    pub fn store_partly(&mut self, region: &Region, data: &[u8]) {
        let area = Area::new(region, self.width);
        for shard in area.pieces(self.shard) {
            let Some(mut shared) = self.store.remove(&Self::key(shard)) else { continue };
            let value = Arc::make_mut(&mut shared);
            let mut index = self.index(value).to_vec();
            value.truncate(value.len() - index.len());
            let met = area.within(shard, self.shard);
            for piece in met.pieces(self.subchunk) {
                let number = self.number(piece);
                let cells = self.all().within(piece, self.subchunk);
                let mut made = entry(&index, number).map_or_else(|| vec![0; cells.len()], |it| value[it].to_vec());
                copy(data, &area, &mut made, &cells, &met.within(piece, self.subchunk));
                index[16 * number..16 * number + 8].copy_from_slice(&(value.len() as u64).to_le_bytes());
                index[16 * number + 8..16 * number + 16].copy_from_slice(&(made.len() as u64).to_le_bytes());
                value.extend_from_slice(&made);
            }
            value.extend_from_slice(&index);
            self.store.insert(Self::key(shard), shared);
        }
    }

    /// Leaves out of the first shard what its index does not name: whether there was such.
    #[inline(never)]
    pub fn compact(&mut self) -> bool {
        let value = Arc::clone(&self.store[&Self::key([0, 0])]);
        let index = self.index(&value);
        let entries = || (0..self.count()).filter_map(|number| entry(index, number));
        let len: usize = entries().map(|it| it.len()).sum();
        let mut end = 0;
        let is_packed = entries().all(|it| std::mem::replace(&mut end, it.end) == it.start);
        if is_packed && len + index.len() == value.len() {
            return false;
        }
        let mut made = Vec::with_capacity(len + index.len());
        let mut new = Vec::with_capacity(index.len());
        for number in 0..self.count() {
            let start = made.len();
            let places = entry(index, number);
            if let Some(places) = places.clone() {
                made.extend_from_slice(&value[places]);
            }
            put_entry(&mut new, places.map(|_| start..made.len()));
        }
        made.extend_from_slice(&new);
        self.put([0, 0], Some(made));
        true
    }
}
