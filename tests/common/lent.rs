// Words and bytes that stand around what is lent, and must stay.
pub const AROUND: usize = 16;
pub const WORD: u32 = 0xa5c3_96e7;
pub const BYTE: u8 = 0xb7;

pub fn around<T: Copy>(lent: &[T], edge: T) -> Vec<T> {
    [&[edge; AROUND][..], lent, &[edge; AROUND]].concat()
}
