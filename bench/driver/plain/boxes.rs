//! Copies of boxes.

/// A box of an array begins here. Both have at most eight dimensions.
#[derive(Clone, Copy)]
pub struct Corner<'a> {
    pub shape: &'a [u64],
    pub start: &'a [u64],
}

/// The place of the first cell of a box, and how far apart the cells of each dimension are, in cells.
fn places(corner: Corner<'_>) -> (usize, [usize; 8]) {
    let (mut first, mut step, mut steps) = (0, 1, [0; 8]);
    for k in (0..corner.shape.len()).rev() {
        first += corner.start[k] as usize * step;
        steps[k] = step;
        step *= corner.shape[k] as usize;
    }
    (first, steps)
}

/// Copies a box of cells of `width` bytes, row by row. Trailing dimensions that it fills in both arrays are one row.
pub fn copy_box(
    source: &[u8],
    from: Corner<'_>,
    target: &mut [u8],
    to: Corner<'_>,
    extents: &[u64],
    width: usize,
    copy_row: impl Fn(&mut [u8], &[u8]),
) {
    let mut outer = extents.len() - 1;
    let mut row = extents[outer] as usize * width;
    while outer > 0 && from.shape[outer] == extents[outer] && to.shape[outer] == extents[outer] {
        outer -= 1;
        row *= extents[outer] as usize;
    }
    let ((mut a, from_steps), (mut b, to_steps)) = (places(from), places(to));
    let mut at = [0; 8];
    loop {
        let (read, write) = (a * width, b * width);
        copy_row(&mut target[write..write + row], &source[read..read + row]);
        let mut k = outer;
        loop {
            if k == 0 {
                return;
            }
            k -= 1;
            at[k] += 1;
            a += from_steps[k];
            b += to_steps[k];
            if at[k] < extents[k] {
                break;
            }
            a -= from_steps[k] * extents[k] as usize;
            b -= to_steps[k] * extents[k] as usize;
            at[k] = 0;
        }
    }
}

pub fn copy_row(to: &mut [u8], from: &[u8]) {
    to.copy_from_slice(from);
}

macro_rules! turn {
    ($number:ty, $to:expr, $from:expr) => {
        for (to, from) in $to.as_chunks_mut().0.iter_mut().zip($from.as_chunks().0) {
            *to = <$number>::from_be_bytes(*from).to_le_bytes();
        }
    };
}

/// Copies numbers of so many bytes each, and turns the bytes of each.
pub fn copy_turned(to: &mut [u8], from: &[u8], width: usize) {
    match width {
        2 => turn!(u16, to, from),
        4 => turn!(u32, to, from),
        8 => turn!(u64, to, from),
        _ => to.copy_from_slice(from),
    }
}

/// The same numbers with the bytes of each turned.
pub fn turned(from: &[u8], width: usize) -> Vec<u8> {
    let mut made = vec![0; from.len()];
    copy_turned(&mut made, from, width);
    made
}
