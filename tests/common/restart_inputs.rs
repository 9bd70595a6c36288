// What the calls of change request 7 are tried with: files of high marks, their damage, and records that are to leave.
use crate::inputs::some;
use crate::marks::{allowed, Kind, Mark, BYTES, MARGIN, MOST};
use crate::model::{L, ROOMS};
use crate::random::Random;
use crate::rows::{self, place};

// Files

pub fn file(marks: &[Mark]) -> Vec<u8> {
    marks.iter().map(Mark::bytes).collect::<Vec<_>>().concat()
}

pub fn file_of(numbers: &[u32]) -> Vec<u8> {
    file(&numbers.iter().map(|&n| Mark::of(n)).collect::<Vec<_>>())
}

// The longest file: its numbers rise as slowly as they may, and the last is L.
pub fn slowest() -> Vec<u32> {
    (0..MOST as u32).map(|k| L.min(1 + k * (MARGIN + 1))).collect()
}

// Numbers that rise by as little as they may or by some more, up to so many; in one case of two the last is L.
pub fn some_marks(random: &mut Random, most: usize) -> Vec<u32> {
    let more = some(random, &[1, 2, 1000, 1_000_000, 40_000_000, 400_000_000]);
    let mut numbers: Vec<u32> = Vec::new();
    while numbers.len() < most {
        let from = *allowed(numbers.last().copied()).start();
        let next = from + random.below(more) as u32;
        if next >= L {
            break;
        }
        numbers.push(next);
    }
    if !numbers.is_empty() && random.below(2) == 0 {
        *numbers.last_mut().unwrap() = L;
    }
    numbers
}

// Up to nine bytes behind the last whole record: the front of a mark that may follow, of one that may not, the first
// two bytes again and again, or anything.
pub fn tail(random: &mut Random, last: Option<u32>, length: usize) -> Vec<u8> {
    let next = *allowed(last).start();
    let mut bytes = match random.below(6) {
        0 | 1 => Mark::of(next).bytes().to_vec(),
        2 => Mark::of(last.unwrap_or(0)).bytes().to_vec(),
        3 => b"HM".repeat(5),
        4 => vec![some(random, &[0, 0xff, 0x48, 0x4d]); BYTES],
        _ => random.bytes(BYTES),
    };
    bytes.truncate(length);
    bytes
}

fn both(marks: &mut [Mark], at: usize, n: u32) {
    (marks[at].number, marks[at].again) = (n, n);
}

fn behind(marks: &mut [Mark], at: usize, more: u32) {
    let before = at.checked_sub(1).map_or(0, |at| marks[at].number);
    both(marks, at, before.wrapping_add(more));
}

// Changes of one record at a place; some of them leave some files good.
pub const CHANGES: [fn(&mut [Mark], usize); 22] = [
    |marks, at| marks[at].mark[0] = 0x49,
    |marks, at| marks[at].mark[1] = 0x4c,
    |marks, at| marks[at].mark = [0x4d, 0x48],
    |marks, at| marks[at].again ^= 1 << (at % 32),
    |marks, at| marks[at].again ^= 0xff << (at % 4 * 8),
    |marks, at| marks[at].again = marks[at].number.swap_bytes(),
    |marks, at| marks[at].again = !marks[at].number,
    |marks, at| marks[at].again = marks[at].number.wrapping_add(1),
    |marks, at| marks[at].number ^= 1 << (at % 31),
    |marks, at| marks[at].number = marks[at].number.wrapping_sub(1),
    |marks, at| both(marks, at, 0),
    |marks, at| both(marks, at, L),
    |marks, at| both(marks, at, L + 1),
    |marks, at| both(marks, at, u32::MAX),
    |marks, at| behind(marks, at, 0),
    |marks, at| behind(marks, at, 1),
    |marks, at| behind(marks, at, MARGIN - 1),
    |marks, at| behind(marks, at, MARGIN),
    |marks, at| behind(marks, at, MARGIN + 1),
    |marks, at| behind(marks, at, u32::MAX),
    |marks, at| marks.swap(at, at / 2),
    |marks, at| both(marks, at, marks[at].number.wrapping_sub(1)),
];

// A byte changed, taken out or put in, or bytes behind or cut off.
pub fn damage(random: &mut Random, file: &mut Vec<u8>) {
    let (length, byte) = (file.len(), random.next() as u8);
    let at = random.below(length + 1);
    match random.below(7) {
        0 => file.truncate(at),
        1 => {
            let more = 1 + random.below(25);
            file.extend(random.bytes(more));
        }
        2 if at < length => _ = file.remove(at),
        3 => file.insert(at, byte),
        4 if at < length => file[at] = byte,
        _ if at < length => file[at] ^= 1 << (byte % 8),
        _ => file.push(byte),
    }
}

// Words over which a table is made: single words over and over, each word another, a table in use.
pub fn table_before(kind: u64, words: usize) -> Vec<u32> {
    match kind % 5 {
        0 => vec![0x5a3c_6918; words],
        1 => vec![u32::MAX; words],
        2 => vec![0; words],
        3 => (0..words as u32).map(|k| k.wrapping_mul(0x9e37_79b9) ^ 0x1234_5678).collect(),
        _ => {
            let mut table = rows::fresh_table(9);
            for room in 0..ROOMS {
                let row = &mut table[place(room)];
                row[rows::NET..rows::VIEW_MEMBERS + 2].fill(0x0f0f_0f0f);
                row[rows::START..].fill(77 + room as u32);
            }
            table.resize(words, 1);
            table
        }
    }
}

// Records

// A record with these numbers; what is no number, the room too, is filled.
pub fn record(kind: &Kind, numbers: &[u32], mut fill: impl FnMut() -> u8) -> Vec<u8> {
    let mut bytes: Vec<u8> = (0..kind.length).map(|_| fill()).collect();
    bytes[..2].copy_from_slice(&kind.mark);
    for (at, n) in kind.places().zip(numbers) {
        bytes[at..at + 4].copy_from_slice(&n.to_be_bytes());
    }
    bytes
}

// About the last mark, about L - 1,000,000, about L, or any.
pub fn about(random: &mut Random, last: u32) -> u32 {
    let any = random.next() as u32;
    let near = last.wrapping_add(random.below(5) as u32).wrapping_sub(2);
    let high = (L - MARGIN - 2) + random.below(5) as u32;
    some(random, &[0, 1, near, near, last, last, high, L - 1, L, L + 1, u32::MAX, any, any % L, any % (last.max(1))])
}
