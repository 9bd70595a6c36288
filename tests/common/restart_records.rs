// Records that are to leave, with the last mark of the file: each number in turn above it, edges, damage and lengths.
use crate::choice::choice;
use crate::inputs::some;
use crate::marks::{Kind, BYTES, KINDS, MARGIN};
use crate::model::L;
use crate::random::Random;
use crate::restart_inputs::{about, record};
use crate::Tally;

pub fn all(t: &mut Tally) {
    single_numbers(t);
    pairs_of_numbers(t);
    other_bytes(t);
    every_byte(t);
    every_room(t);
    lengths(t);
    every_mark(t);
    at_random(t);
    parts(t);
}

const LASTS: [u32; 13] =
    [0, 1, 5, 255, 0x0102_0304, MARGIN, L - MARGIN - 1, L - MARGIN, L - MARGIN + 1, L - 1, L, L + 1, u32::MAX];

// One number of a record, by the last mark.
const NUMBERS: [fn(u32) -> u32; 17] = [
    |last| last,
    |last| last.wrapping_add(1),
    |last| last.wrapping_add(2),
    |last| last.wrapping_sub(1),
    |last| last.wrapping_add(MARGIN),
    |last| last.wrapping_add(MARGIN + 1),
    |last| last.wrapping_add(256),
    |last| last | 0x4000_0000,
    |_| 0,
    |_| L - MARGIN - 1,
    |_| L - MARGIN,
    |_| L - MARGIN + 1,
    |_| L - 1,
    |_| L,
    |_| L + 1,
    |_| 1 << 31,
    |_| u32::MAX,
];

// The others, by the last mark.
const REST: [fn(u32) -> u32; 4] = [|_| 0, |last| last, |last| last.saturating_sub(1), |last| last / 3];

// Bytes for a mark: about ten of them, none the same as the next.
fn lent(random: &mut Random) -> Vec<u8> {
    let length = some(random, &[10, 10, 10, 11, 12, 13, 10, 40, 9, 0, 1, 2, 3, 4, 5, 6, 7, 8]);
    random.bytes(length)
}

// Nothing, a byte, some bytes, or a record with high numbers.
fn behind(random: &mut Random) -> Vec<u8> {
    match random.below(5) {
        0 | 1 => Vec::new(),
        2 => random.bytes(1),
        3 => {
            let length = random.below(100);
            random.bytes(length)
        }
        _ => {
            let high = some(random, &[L - 1, L, u32::MAX]);
            record(&KINDS[random.below(3)], &[high; 18], || 0xff)
        }
    }
}

// Each kind with each of its numbers.
fn each_number() -> Vec<(&'static Kind, usize)> {
    KINDS.iter().flat_map(|kind| (0..kind.places().count()).map(move |at| (kind, at))).collect()
}

fn single_numbers(t: &mut Tally) {
    let each = each_number();
    t.case("each number of a record in turn, beside edge marks", |t| {
        let mut r = Random(11);
        for case in 0.. {
            let mut rest = case;
            let (kind, at) = choice(&mut rest, &each);
            let last = choice(&mut rest, &LASTS);
            let (number, others) = (choice(&mut rest, &NUMBERS)(last), choice(&mut rest, &REST)(last));
            let fill = choice(&mut rest, &[Some(0), Some(0xff), None]);
            if rest != 0 {
                return;
            }
            let mut numbers = [others; 18];
            numbers[at] = number;
            let bytes = record(kind, &numbers, || fill.unwrap_or_else(|| r.next() as u8));
            let (more, out) = (behind(&mut r), lent(&mut r));
            t.before(last, &[bytes, more].concat(), &out);
        }
    });
}

fn pairs_of_numbers(t: &mut Tally) {
    let each = each_number();
    t.case("each two numbers of a record above the last mark, and a third", |t| {
        let mut r = Random(12);
        for (kind, at) in each {
            let count = kind.places().count();
            for (second, case) in (0..count).flat_map(|second| (0..60).map(move |case| (second, case))) {
                let last = some(&mut r, &LASTS);
                let low = last.wrapping_add(1 + r.below(3) as u32);
                let high = if case % 2 == 0 { low + 1 + r.below(3) as u32 } else { about(&mut r, last) };
                let mut numbers: [u32; 18] = std::array::from_fn(|_| if r.below(2) == 0 { 0 } else { last });
                numbers[r.below(count)] = low.saturating_sub(1);
                (numbers[at], numbers[second]) = (low, high);
                let bytes = record(kind, &numbers, || r.next() as u8);
                let (more, out) = (behind(&mut r), lent(&mut r));
                t.before(last, &[bytes, more].concat(), &out);
            }
        }
    });
}

// Room, sender, kind and sets of seats are no numbers.
fn other_bytes(t: &mut Tally) {
    t.case("records with numbers up to the last mark and any other bytes", |t| {
        let mut r = Random(13);
        for case in 0..40_000 {
            let last = some(&mut r, &[0, 1, 2, 7, 255, 1 << 20, L - 1, L]);
            let numbers: [u32; 18] = std::array::from_fn(|_| r.below(last as usize + 1) as u32);
            let fill = some(&mut r, &[Some(1), Some(0x77), Some(0x80), Some(0xff), None]);
            let bytes = record(&KINDS[case % 3], &numbers, || fill.unwrap_or_else(|| r.next() as u8));
            let (more, out) = (behind(&mut r), lent(&mut r));
            t.before(last, &[bytes, more].concat(), &out);
        }
    });
}

fn every_byte(t: &mut Tally) {
    t.case("every value of every byte of a record", |t| {
        let mut r = Random(14);
        for (kind, last) in KINDS.iter().flat_map(|kind| [0, 3, 0x0101_0101, L].map(|last| (kind, last))) {
            let good = record(kind, &[last; 18], || 0);
            for (at, value) in (0..good.len()).flat_map(|at| (0..=255).map(move |value| (at, value))) {
                let mut bytes = good.clone();
                bytes[at] = value;
                let out = r.bytes(BYTES + value as usize % 2);
                t.before(last, &bytes, &out);
            }
        }
    });
}

// Whatever byte the room is, the answer is the same.
fn every_room(t: &mut Tally) {
    let mut right = true;
    t.case("every byte of a room, with each number of a record in turn", |t| {
        let mut r = Random(19);
        // a notice has one number alone
        let each = [each_number(), vec![(&KINDS[0], 0); 6]].concat();
        for case in 0.. {
            let mut rest = case;
            let (kind, at) = choice(&mut rest, &each);
            let last = choice(&mut rest, &[0, 6, 0x0203_0405, L - 1]);
            let number = choice(&mut rest, &[|last| last, |last| last + 1, |_: u32| L + 1])(last);
            if rest != 0 {
                return;
            }
            let (mut numbers, out) = ([last; 18], r.bytes(BYTES));
            numbers[at] = number;
            let mut bytes = record(kind, &numbers, || r.next() as u8);
            let mut answers = Vec::new();
            for room in 0..=255 {
                bytes[2] = room;
                answers.push(t.before(last, &bytes, &out));
            }
            right &= answers.iter().all(|answer| *answer == answers[0]);
        }
    });
    t.verdicts.check("records that differ in their room alone are answered alike", right);
}

fn lengths(t: &mut Tally) {
    t.case("records of every length under each mark, with every length lent for a mark", |t| {
        let mut r = Random(15);
        for case in 0.. {
            let mut rest = case;
            let length = choice(&mut rest, &(0..=100).collect::<Vec<_>>());
            let capacity = choice(&mut rest, &(0..14).collect::<Vec<_>>());
            let mark = choice(&mut rest, &[*b"SC", *b"PR", *b"VW", *b"NE", *b"SY", *b"HM"]);
            let last = choice(&mut rest, &[0, 9, L, L + 1, u32::MAX]);
            let number = choice(&mut rest, &[9, 10, L, L + 1]);
            if rest != 0 {
                return;
            }
            let mut bytes = [&mark[..], &[case as u8], &number.to_be_bytes().repeat(25)].concat();
            bytes.truncate(length);
            let out = r.bytes(capacity);
            t.before(last, &bytes, &out);
        }
    });
}

fn every_mark(t: &mut Tally) {
    t.case("every mark", |t| {
        let mut r = Random(16);
        for mark in 0..=u16::MAX {
            let (number, last) = (some(&mut r, &[1, L, L + 1]), some(&mut r, &[0, 0, 0, L, L + 1]));
            let length = some(&mut r, &[85, 85, 85, 10, 11, 15, 19, 79, 84, 78, 3, 2]);
            let room = r.next() as u8;
            let mut bytes = [&mark.to_be_bytes()[..], &[room], &number.to_be_bytes().repeat(21)].concat();
            bytes.truncate(length);
            let out = r.bytes(BYTES);
            t.before(last, &bytes, &out);
        }
    });
}

fn at_random(t: &mut Tally) {
    t.case("records of numbers about the last mark, some with a byte changed or cut", |t| {
        let mut r = Random(17);
        for case in 0..80_000 {
            let any = r.next() as u32 % L;
            let last = some(&mut r, &[any, any, 0, 1, MARGIN, L - MARGIN, L - 1, L, L + 1]);
            let near = last.saturating_sub(r.below(3) as u32);
            let mut numbers: [u32; 18] = std::array::from_fn(|_| r.below(near as usize + 1) as u32);
            for _ in 0..r.below(4) {
                numbers[r.below(18)] = about(&mut r, last);
            }
            let bytes = record(&KINDS[case % 3], &numbers, || r.next() as u8);
            let mut bytes = [bytes, behind(&mut r)].concat();
            let at = r.below(bytes.len());
            match r.below(8) {
                0 => bytes[at] = r.next() as u8,
                1 => bytes[at] ^= 1 << r.below(8),
                2 => bytes.truncate(at),
                _ => (),
            }
            let out = lent(&mut r);
            t.before(last, &bytes, &out);
        }
    });
}

// What stands before and behind is a record too, and would change the answer if it were read.
fn parts(t: &mut Tally) {
    t.case("records that are parts of runs", |t| {
        let mut r = Random(18);
        for _ in 0..4000 {
            let last = r.below(L as usize) as u32;
            let (mut all, mut starts) = (Vec::new(), Vec::new());
            for _ in 0..6 {
                let n = about(&mut r, last);
                starts.push(all.len());
                all.extend(record(&KINDS[r.below(3)], &[n; 18], || 0x50));
            }
            for _ in 0..5 {
                let from = some(&mut r, &starts);
                let cut = from + r.below(all.len() - from + 1);
                let to = some(&mut r, &[all.len(), cut]);
                let out = r.bytes(BYTES);
                t.before_part(last, &all, from..to, &out);
            }
        }
    });
}
