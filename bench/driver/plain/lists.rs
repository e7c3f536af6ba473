//! Texts and options: lists to cells and back, and arrays of them over a map.
use super::codecs::{append_texts, behind_lengths, packed, unpacked};
use super::{Store, key};
use crate::measure;
use std::ops::Range;
use std::sync::Arc;

/// Texts with these numbers. The glue makes the same.
pub fn texts(numbers: Range<u64>) -> Vec<String> {
    numbers.map(|number| format!("text {number}")).collect()
}

/// Options of these numbers, of which every third is none.
pub fn small_options(numbers: Range<u64>) -> Vec<Option<u8>> {
    numbers.map(|number| (number % 3 > 0).then_some((number % 251) as u8)).collect()
}

/// The same, of four bytes each.
pub fn wide_options(numbers: Range<u64>) -> Vec<Option<u32>> {
    numbers.map(|number| (number % 3 > 0).then_some(number as u32)).collect()
}

/// Cells that are neither numbers nor bools.
pub trait Cells: Default {
    /// What a value of a list is.
    type Value;

    fn of_list(list: &[Self::Value]) -> Self;
    fn into_list(self) -> Vec<Self::Value>;
    fn len(&self) -> usize;
    fn encode(&self, places: Range<usize>) -> Vec<u8>;
    /// Appends the cells of an encoded chunk of so many.
    fn decode(&mut self, encoded: &[u8], count: usize) -> Option<()>;
    fn append(&mut self, other: &Self, places: Range<usize>);
    fn show(&self);
}

/// Texts, one behind the other, and where each begins and ends.
pub struct Texts {
    pub bytes: Vec<u8>,
    pub offsets: Vec<usize>,
}

impl Default for Texts {
    fn default() -> Texts {
        Texts { bytes: Vec::new(), offsets: vec![0] }
    }
}

impl Cells for Texts {
    type Value = String;

    #[inline(never)]
    fn of_list(list: &[String]) -> Texts {
        let mut bytes = Vec::with_capacity(list.iter().map(String::len).sum());
        let mut offsets = Vec::with_capacity(list.len() + 1);
        offsets.push(0);
        for text in list {
            bytes.extend_from_slice(text.as_bytes());
            offsets.push(bytes.len());
        }
        Texts { bytes, offsets }
    }

    #[inline(never)]
    fn into_list(self) -> Vec<String> {
        let text = |pair: &[usize]| str::from_utf8(&self.bytes[pair[0]..pair[1]]).expect("texts are UTF-8").to_string();
        self.offsets.windows(2).map(text).collect()
    }

    fn len(&self) -> usize {
        self.offsets.len() - 1
    }

    fn encode(&self, places: Range<usize>) -> Vec<u8> {
        behind_lengths(&self.bytes, &self.offsets[places.start..places.end + 1])
    }

    fn decode(&mut self, encoded: &[u8], count: usize) -> Option<()> {
        let before = self.len();
        append_texts(encoded, &mut self.bytes, &mut self.offsets)?;
        (self.len() == before + count).then_some(())
    }

    fn append(&mut self, other: &Texts, places: Range<usize>) {
        let offsets = &other.offsets[places.start..places.end + 1];
        let (first, before) = (offsets[0], self.bytes.len());
        self.bytes.extend_from_slice(&other.bytes[first..offsets[offsets.len() - 1]]);
        self.offsets.extend(offsets[1..].iter().map(|offset| before + offset - first));
    }

    fn show(&self) {
        if measure::checks() {
            measure::show(&self.bytes);
            for offset in &self.offsets {
                measure::show_number(*offset as u64);
            }
        }
    }
}

/// Options of numbers of N bytes: a flag for each, and the bytes of each, 0 for none.
#[derive(Default)]
pub struct Options<const N: usize> {
    mask: Vec<u8>,
    numbers: Vec<[u8; N]>,
}

macro_rules! options {
    ($($width:literal $number:ty;)*) => {$(
        impl Cells for Options<$width> {
            type Value = Option<$number>;

            #[inline(never)]
            fn of_list(list: &[Option<$number>]) -> Self {
                let mask = list.iter().map(|it| u8::from(it.is_some())).collect();
                let numbers = list.iter().map(|it| it.unwrap_or(0).to_le_bytes()).collect();
                Options { mask, numbers }
            }

            #[inline(never)]
            fn into_list(self) -> Vec<Option<$number>> {
                let value = |(flag, number): (&u8, &[u8; $width])| {
                    (*flag != 0).then_some(<$number>::from_le_bytes(*number))
                };
                self.mask.iter().zip(&self.numbers).map(value).collect()
            }

            fn len(&self) -> usize {
                self.mask.len()
            }

            /// The flags, eight in a byte, and the numbers that there are, behind the lengths of both.
            fn encode(&self, places: Range<usize>) -> Vec<u8> {
                let (flags, numbers) = (&self.mask[places.clone()], &self.numbers[places]);
                let mask = packed(flags);
                let len = flags.iter().map(|flag| usize::from(*flag)).sum::<usize>() * $width;
                let mut made = Vec::with_capacity(16 + mask.len() + len);
                made.extend_from_slice(&(mask.len() as u64).to_le_bytes());
                made.extend_from_slice(&(len as u64).to_le_bytes());
                made.extend_from_slice(&mask);
                for (flag, number) in flags.iter().zip(numbers) {
                    if *flag != 0 {
                        made.extend_from_slice(number);
                    }
                }
                made
            }

            fn decode(&mut self, encoded: &[u8], count: usize) -> Option<()> {
                let (head, rest) = encoded.split_first_chunk::<8>()?;
                let (_, rest) = rest.split_first_chunk::<8>()?;
                let (mask, rest) = rest.split_at_checked(u64::from_le_bytes(*head) as usize)?;
                let flags = unpacked(mask, count);
                let mut numbers = rest.as_chunks::<$width>().0.iter();
                self.numbers.reserve(count);
                for flag in &flags {
                    self.numbers.push(if *flag != 0 { *numbers.next()? } else { [0; $width] });
                }
                self.mask.extend_from_slice(&flags);
                Some(())
            }

            fn append(&mut self, other: &Self, places: Range<usize>) {
                self.mask.extend_from_slice(&other.mask[places.clone()]);
                self.numbers.extend_from_slice(&other.numbers[places]);
            }

            fn show(&self) {
                if measure::checks() {
                    measure::show(&self.mask);
                    let present = self.mask.iter().zip(&self.numbers).filter(|(flag, _)| **flag != 0);
                    present.for_each(|(_, number)| measure::show(number));
                }
            }
        }
    )*};
}

options! {
    1 u8;
    4 u32;
}

/// An array of one dimension of such cells, in chunks of one size.
pub struct PlainList {
    pub store: Store,
    pub size: usize,
}

impl PlainList {
    pub fn new(size: usize) -> PlainList {
        PlainList { store: Store::new(), size }
    }

    fn decoded<C: Cells>(&self, index: usize) -> Option<C> {
        let mut cells = C::default();
        cells.decode(self.store.get(&key(&[index as u64]))?, self.size)?;
        Some(cells)
    }

    /// Stores the cells from this place on. Chunks of which only a part is stored are there.
    #[inline(never)]
    pub fn store<C: Cells>(&mut self, start: usize, cells: &C) -> Option<()> {
        let end = start + cells.len();
        for index in start / self.size..end.div_ceil(self.size) {
            let (first, last) = (index * self.size, (index + 1) * self.size);
            let (from, to) = (first.max(start), last.min(end));
            let encoded = if (from, to) == (first, last) {
                cells.encode(from - start..to - start)
            } else {
                let old: C = self.decoded(index)?;
                let mut made = C::default();
                made.append(&old, 0..from - first);
                made.append(cells, from - start..to - start);
                made.append(&old, to - first..self.size);
                made.encode(0..self.size)
            };
            self.store.insert(key(&[index as u64]), Arc::new(encoded));
        }
        Some(())
    }

    #[inline(never)]
    pub fn read<C: Cells>(&self, places: Range<usize>) -> Option<C> {
        let first = places.start / self.size;
        let mut all = C::default();
        for index in first..places.end.div_ceil(self.size) {
            all.decode(self.store.get(&key(&[index as u64]))?, self.size)?;
        }
        if (places.start % self.size, places.end % self.size) == (0, 0) {
            return Some(all);
        }
        let mut made = C::default();
        made.append(&all, places.start - first * self.size..places.end - first * self.size);
        Some(made)
    }
}
