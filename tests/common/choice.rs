// Takes a choice off the front of a case's number, so that the numbers from 0 on go through every choice of all.
pub fn choice<T: Copy>(case: &mut usize, of: &[T]) -> T {
    let at = *case % of.len();
    *case /= of.len();
    of[at]
}
