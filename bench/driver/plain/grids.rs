//! Chunk grids.

/// A cube that is cut into chunks.
pub enum PlainGrid {
    Regular {
        size: u64,
    },
    Bounded {
        extent: u64,
        size: u64,
    },
    /// The sizes of the chunks of each dimension, and where each ends.
    Rectangular {
        sizes: Vec<u64>,
        ends: Vec<u64>,
    },
}

impl PlainGrid {
    pub fn rectangular(extent: u64, size: u64) -> PlainGrid {
        let sizes = vec![size; (extent / size) as usize];
        let ends = (1..=sizes.len() as u64).map(|number| number * size).collect();
        PlainGrid::Rectangular { sizes, ends }
    }

    /// Where a chunk begins and its extent, in one dimension.
    fn interval(&self, index: u64) -> Option<(u64, u64)> {
        match self {
            PlainGrid::Regular { size } => {
                let start = index.checked_mul(*size)?;
                start.checked_add(*size)?;
                Some((start, *size))
            }
            PlainGrid::Bounded { extent, size } => {
                let start = index.checked_mul(*size)?;
                let len = (*size).min(extent.checked_sub(start)?);
                (len > 0).then_some((start, len))
            }
            PlainGrid::Rectangular { sizes, ends } => {
                let size = *sizes.get(index as usize)?;
                Some((ends[index as usize] - size, size))
            }
        }
    }

    /// The index of the chunk that has this cell, in one dimension.
    fn index(&self, cell: u64) -> Option<u64> {
        match self {
            PlainGrid::Regular { size } => {
                let index = cell / size;
                (index * size).checked_add(*size)?;
                Some(index)
            }
            PlainGrid::Bounded { extent, size } => (cell < *extent).then(|| cell / size),
            PlainGrid::Rectangular { sizes, ends } => {
                let index = ends.partition_point(|end| *end <= cell);
                (index < sizes.len()).then_some(index as u64)
            }
        }
    }

    /// The box of a chunk: where it begins, and its extents.
    #[inline(never)]
    pub fn chunk(&self, indices: &[u64]) -> Option<(Vec<u64>, Vec<u64>)> {
        let mut made = (Vec::with_capacity(indices.len()), Vec::with_capacity(indices.len()));
        for index in indices {
            let (start, extent) = self.interval(*index)?;
            made.0.push(start);
            made.1.push(extent);
        }
        Some(made)
    }

    /// The chunks that a region meets: the indices of the first one, and how many.
    #[inline(never)]
    pub fn met(&self, start: &[u64], extents: &[u64]) -> Option<(Vec<u64>, Vec<u64>)> {
        let mut made = (Vec::with_capacity(start.len()), Vec::with_capacity(start.len()));
        for (from, extent) in start.iter().zip(extents) {
            let (first, last) = (self.index(*from)?, self.index(from + extent - 1)?);
            made.0.push(first);
            made.1.push(last - first + 1);
        }
        Some(made)
    }
}
