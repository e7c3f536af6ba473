//! Lists of numbers to bytes and back, and cells of one size.
use std::borrow::Cow;

/// A number of one size.
pub trait Number: Sized {
    /// The bytes of a list.
    fn to_bytes(list: &[Self]) -> Cow<'_, [u8]>;

    /// The list of these bytes.
    fn from_bytes(bytes: Vec<u8>) -> Vec<Self>;
}

impl Number for u8 {
    fn to_bytes(list: &[u8]) -> Cow<'_, [u8]> {
        Cow::Borrowed(list)
    }

    fn from_bytes(bytes: Vec<u8>) -> Vec<u8> {
        bytes
    }
}

macro_rules! wide {
    ($($number:ty)*) => {$(
        impl Number for $number {
            fn to_bytes(list: &[$number]) -> Cow<'_, [u8]> {
                let mut bytes = vec![0; size_of_val(list)];
                for (place, number) in bytes.as_chunks_mut().0.iter_mut().zip(list) {
                    *place = number.to_le_bytes();
                }
                Cow::Owned(bytes)
            }

            fn from_bytes(bytes: Vec<u8>) -> Vec<$number> {
                bytes.as_chunks().0.iter().map(|it| <$number>::from_le_bytes(*it)).collect()
            }
        }
    )*};
}

wide!(i16 u32 u64);

/// Whether each byte is 0 or 1.
#[inline(never)]
pub fn are_bools(bytes: &[u8]) -> bool {
    bytes.iter().fold(true, |are_bools, byte| are_bools & (*byte < 2))
}
