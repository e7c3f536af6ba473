//! The product: its side of a job is a call of the glue, which calls back for the times.
use crate::layout::{Layout, Region};
use crate::measure;
use std::hint::black_box;

/// What is done. The glue has the same numbers.
#[derive(Clone, Copy)]
#[repr(u32)]
pub enum Job {
    EngineChunks = 1,
    ArrayChunks,
    EngineRegion,
    ArrayRegion,
    Parts,
    Shards,
    EngineLists,
    ArrayLists,
    Conversions,
    Store,
    Codec,
    Transpose,
    Indices,
    Copies,
    Cells,
    Grid,
    Changes,
    Documents,
    Script,
}

/// The numbers that describe a job, in the order in which the glue reads them.
#[derive(Default)]
pub struct Numbers(Vec<u64>);

impl Numbers {
    pub fn new() -> Numbers {
        Numbers::default()
    }

    pub fn number(mut self, number: u64) -> Numbers {
        self.0.push(number);
        self
    }

    pub fn list(mut self, list: &[u64]) -> Numbers {
        self.0.push(list.len() as u64);
        self.0.extend(list);
        self
    }

    pub fn layout(self, layout: &Layout) -> Numbers {
        self.number(layout.kind as u64)
            .number(u64::from(layout.is_big))
            .list(&layout.shape)
            .list(&layout.chunk)
            .list(&layout.subchunk)
    }

    pub fn region(self, region: &Region) -> Numbers {
        self.list(&region.start).list(&region.extents)
    }
}

unsafe extern "C" {
    // The glue has `bench_run(job: u32, numbers: &[u64], data: &[u8]) -> bool`: a slice is a pointer and a length.
    fn bench_run(job: u32, numbers: *const u64, count: usize, data: *const u8, len: usize) -> bool;
}

/// Does the product's side of a job.
pub fn run(job: Job, numbers: &Numbers, data: &[u8]) {
    // SAFETY: the pointers and lengths are those of slices, which the glue reads only while it runs.
    let done = unsafe { bench_run(job as u32, numbers.0.as_ptr(), numbers.0.len(), data.as_ptr(), data.len()) };
    if !done {
        measure::refuse("the job came to no end");
    }
}

/// # Safety
/// As many bytes lie there as `len` says, and nobody changes them meanwhile.
unsafe fn slice<'a>(bytes: *const u8, len: usize) -> &'a [u8] {
    if len == 0 {
        return &[];
    }
    // SAFETY: as above.
    unsafe { std::slice::from_raw_parts(bytes, len) }
}

#[unsafe(no_mangle)]
extern "C" fn bench_begin() {
    measure::begin();
}

#[unsafe(no_mangle)]
extern "C" fn bench_end(phase: u32) {
    measure::end(phase);
}

#[unsafe(no_mangle)]
extern "C" fn bench_keep(number: u64) {
    black_box(number);
}

#[unsafe(no_mangle)]
extern "C" fn bench_checks() -> bool {
    measure::checks()
}

#[unsafe(no_mangle)]
unsafe extern "C" fn bench_show(bytes: *const u8, len: usize) {
    // SAFETY: the glue gives a slice.
    measure::show(unsafe { slice(bytes, len) });
}

#[unsafe(no_mangle)]
unsafe extern "C" fn bench_refused(reason: *const u8, len: usize) {
    // SAFETY: the glue gives a slice.
    measure::refuse(&String::from_utf8_lossy(unsafe { slice(reason, len) }));
}

#[unsafe(no_mangle)]
extern "C" fn bench_job() -> u32 {
    0
}
