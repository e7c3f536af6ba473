//! Codecs.

/// Eight bools in a byte, the first one lowest.
#[inline(never)]
pub fn packed(bools: &[u8]) -> Vec<u8> {
    bools.chunks(8).map(|it| it.iter().enumerate().fold(0, |byte, (k, bit)| byte | bit << k)).collect()
}

/// So many bools.
#[inline(never)]
pub fn unpacked(bytes: &[u8], count: usize) -> Vec<u8> {
    let mut bools = vec![0; bytes.len() * 8];
    for (eight, byte) in bools.as_chunks_mut::<8>().0.iter_mut().zip(bytes) {
        *eight = std::array::from_fn(|k| byte >> k & 1);
    }
    bools.truncate(count);
    bools
}

/// The byte strings between offsets behind their number, each behind its length: `vlen-utf8` and `vlen-bytes`.
#[inline(never)]
pub fn behind_lengths(bytes: &[u8], offsets: &[usize]) -> Vec<u8> {
    let count = offsets.len() - 1;
    let mut made = Vec::with_capacity(4 + 4 * count + offsets[count] - offsets[0]);
    made.extend_from_slice(&(count as u32).to_le_bytes());
    for pair in offsets.windows(2) {
        made.extend_from_slice(&((pair[1] - pair[0]) as u32).to_le_bytes());
        made.extend_from_slice(&bytes[pair[0]..pair[1]]);
    }
    made
}

/// Takes so many bytes off the front.
fn take<'a>(rest: &mut &'a [u8], len: usize) -> Option<&'a [u8]> {
    let (front, behind) = rest.split_at_checked(len)?;
    *rest = behind;
    Some(front)
}

/// Appends the texts that stand behind their lengths, each of which is tested.
pub fn append_texts(encoded: &[u8], bytes: &mut Vec<u8>, offsets: &mut Vec<usize>) -> Option<()> {
    let mut rest = encoded;
    let count = u32::from_le_bytes(take(&mut rest, 4)?.try_into().ok()?);
    for _ in 0..count {
        let len = u32::from_le_bytes(take(&mut rest, 4)?.try_into().ok()?);
        bytes.extend_from_slice(str::from_utf8(take(&mut rest, len as usize)?).ok()?.as_bytes());
        offsets.push(bytes.len());
    }
    rest.is_empty().then_some(())
}

#[inline(never)]
pub fn from_behind_lengths(encoded: &[u8]) -> Option<(Vec<u8>, Vec<usize>)> {
    let (mut bytes, mut offsets) = (Vec::with_capacity(encoded.len()), vec![0]);
    append_texts(encoded, &mut bytes, &mut offsets)?;
    Some((bytes, offsets))
}

/// All offsets behind the length of their bytes, and then the byte strings: `zarrs.vlen`.
#[inline(never)]
pub fn behind_offsets(bytes: &[u8], offsets: &[usize]) -> Vec<u8> {
    let mut made = Vec::with_capacity(8 + 8 * offsets.len() + bytes.len());
    made.extend_from_slice(&(8 * offsets.len() as u64).to_le_bytes());
    made.extend(offsets.iter().flat_map(|offset| (*offset as u64).to_le_bytes()));
    made.extend_from_slice(bytes);
    made
}

#[inline(never)]
pub fn from_behind_offsets(encoded: &[u8]) -> Option<(Vec<u8>, Vec<usize>)> {
    let mut rest = encoded;
    let len = u64::from_le_bytes(take(&mut rest, 8)?.try_into().ok()?);
    let words = take(&mut rest, len as usize)?.as_chunks().0;
    let offsets: Vec<usize> = words.iter().map(|it| u64::from_le_bytes(*it) as usize).collect();
    for pair in offsets.windows(2) {
        str::from_utf8(rest.get(pair[0]..pair[1])?).ok()?;
    }
    Some((rest.to_vec(), offsets))
}

/// A square of so many cells of N bytes a side, transposed by squares of 32 cells a side.
#[inline(never)]
pub fn transposed<const N: usize>(cells: &[u8], side: usize) -> Vec<u8> {
    let mut made = vec![0; cells.len()];
    let (to, from) = (made.as_chunks_mut::<N>().0, cells.as_chunks::<N>().0);
    for top in (0..side).step_by(32) {
        for left in (0..side).step_by(32) {
            for i in left..left + 32 {
                for j in top..top + 32 {
                    to[i * side + j] = from[j * side + i];
                }
            }
        }
    }
    made
}
