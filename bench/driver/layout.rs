//! How an array is cut, and what its cells are.

/// What a cell is. The glue has the same order.
#[derive(Clone, Copy, PartialEq, Eq)]
pub enum Kind {
    UInt8,
    UInt16,
    UInt32,
    UInt64,
    Int16,
    Bool,
    Text,
    OptionalUInt8,
    OptionalUInt32,
}

impl Kind {
    /// How many bytes a number has.
    pub fn width(self) -> usize {
        match self {
            Kind::UInt16 | Kind::Int16 => 2,
            Kind::UInt32 | Kind::OptionalUInt32 => 4,
            Kind::UInt64 => 8,
            _ => 1,
        }
    }

    pub fn name(self) -> &'static str {
        match self {
            Kind::UInt8 => "uint8",
            Kind::UInt16 => "uint16",
            Kind::UInt32 => "uint32",
            Kind::UInt64 => "uint64",
            Kind::Int16 => "int16",
            Kind::Bool => "bool",
            Kind::Text => "texts",
            Kind::OptionalUInt8 => "optional uint8",
            Kind::OptionalUInt32 => "optional uint32",
        }
    }
}

/// A box of cells: where it begins, and its extents.
#[derive(Clone)]
pub struct Region {
    pub start: Vec<u64>,
    pub extents: Vec<u64>,
}

impl Region {
    pub fn new(start: &[u64], extents: &[u64]) -> Region {
        Region { start: start.to_vec(), extents: extents.to_vec() }
    }

    /// How many cells it has.
    pub fn count(&self) -> usize {
        self.extents.iter().product::<u64>() as usize
    }
}

/// An array: its cells, its shape, that of its chunks, and that of their subchunks if they are shards.
#[derive(Clone)]
pub struct Layout {
    pub kind: Kind,
    pub is_big: bool,
    pub shape: Vec<u64>,
    pub chunk: Vec<u64>,
    pub subchunk: Vec<u64>,
}

impl Layout {
    pub fn new(kind: Kind, shape: &[u64], chunk: &[u64]) -> Layout {
        Layout { kind, is_big: false, shape: shape.to_vec(), chunk: chunk.to_vec(), subchunk: Vec::new() }
    }

    pub fn in_big_endian(self) -> Layout {
        Layout { is_big: true, ..self }
    }

    pub fn in_shards(self, subchunk: &[u64]) -> Layout {
        Layout { subchunk: subchunk.to_vec(), ..self }
    }

    pub fn all(&self) -> Region {
        Region { start: vec![0; self.shape.len()], extents: self.shape.clone() }
    }

    pub fn cells_name(&self) -> String {
        format!("{}{}", self.kind.name(), if self.is_big { " in big endian" } else { "" })
    }

    /// Bytes for all cells. None of their cells is 0.
    pub fn whole(&self) -> Vec<u8> {
        cells(self.all().count() * self.kind.width(), 251)
    }

    /// Other bytes for the cells of a region.
    pub fn part(&self, region: &Region) -> Vec<u8> {
        cells(region.count() * self.kind.width(), 249)
    }
}

/// So many bytes that are not 0, and tell places from one another.
fn cells(len: usize, period: usize) -> Vec<u8> {
    (0..len).map(|place| (place % period) as u8 | 1).collect()
}
