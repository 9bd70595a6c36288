// Change request 7 with the rooms of change request 9, written from documents 01 and 02, with the form of the answers
// by include/room.h: the file of high marks, the table with which an office begins again, and what the file must hold
// before a record of any room leaves.
use crate::model::{number, L, NOTICE, PROPOSAL, ROOMS, VIEW};
use crate::rows::{fresh_table, place, NUMBER, START, TABLE, VIEW_NUMBER};
use std::ops::{Range, RangeInclusive};

pub const BYTES: usize = 10;
pub const MOST: usize = 2001;
pub const LONGEST: usize = 20_010;
pub const MARGIN: u32 = 1_000_000;
pub const HM: [u8; 2] = [0x48, 0x4d];

// The file

// A whole record of a file, good or not.
#[derive(Clone, Copy, Debug, PartialEq)]
pub struct Mark {
    pub mark: [u8; 2],
    pub number: u32,
    pub again: u32,
}

impl Mark {
    pub fn of(number: u32) -> Mark {
        Mark { mark: HM, number, again: number }
    }

    fn read(record: &[u8]) -> Mark {
        Mark { mark: [record[0], record[1]], number: number(record, 2), again: number(record, 6) }
    }

    pub fn bytes(&self) -> [u8; BYTES] {
        let (n, m) = (self.number.to_be_bytes(), self.again.to_be_bytes());
        [self.mark[0], self.mark[1], n[0], n[1], n[2], n[3], m[0], m[1], m[2], m[3]]
    }
}

// The numbers that may stand behind one, or first; behind L there is none.
pub fn allowed(before: Option<u32>) -> RangeInclusive<u32> {
    match before {
        None => 1..=L,
        Some(n) if n < L => L.min(n + MARGIN + 1)..=L,
        Some(_) => RangeInclusive::new(1, 0),
    }
}

// What 18 is for.
#[derive(Clone, Copy, Debug, PartialEq)]
pub enum Fault {
    TooLong,
    OtherMark,
    OtherSecond,
    AboveL,
    FirstZero,
    TooNear,
    LAgain,
}

use Fault::*;

pub const FAULTS: [(Fault, &str); 7] = [
    (TooLong, "the file is too long"),
    (OtherMark, "the mark is another"),
    (OtherSecond, "the second number is another"),
    (AboveL, "the number is above L"),
    (FirstZero, "the first is 0"),
    (TooNear, "not more than 1,000,000 above and not L"),
    (LAgain, "L after L"),
];

// A fault, with the place of the record that has it; one that is too long has it behind the last place.
#[derive(Clone, Copy, Debug, PartialEq)]
pub struct Found {
    pub fault: Fault,
    pub place: usize,
}

// What is wrong with a number behind the one before it; none past L is another matter.
fn faulty_step(before: Option<u32>, n: u32) -> Option<Fault> {
    let Some(before) = before else { return (n == 0).then_some(FirstZero) };
    let far = n as i64 - before as i64 > MARGIN as i64;
    match (n == L, before == L) {
        (true, true) => Some(LAgain),
        (true, false) => (before > L).then_some(TooNear),
        _ => (!far).then_some(TooNear),
    }
}

// A file by its whole records; an unfinished one at the end is none.
pub struct File {
    pub marks: Vec<Mark>,
    length: usize,
}

impl File {
    pub fn read(bytes: &[u8]) -> File {
        File { marks: bytes.chunks_exact(BYTES).map(Mark::read).collect(), length: bytes.len() }
    }

    // The number of the last whole mark, 0 where there is none; nothing where 18 refuses the file.
    pub fn last_mark(&self) -> Option<u32> {
        let twice = self.marks.iter().filter(|m| m.mark == HM && m.number == m.again);
        let numbers: Vec<u32> = twice.map(|m| m.number).collect();
        let before = std::iter::once(None).chain(numbers.iter().copied().map(Some));
        let rise = numbers.iter().zip(before).all(|(n, before)| allowed(before).contains(n));
        let good = self.length <= LONGEST && numbers.len() == self.marks.len() && rise;
        good.then(|| numbers.last().copied().unwrap_or(0))
    }

    // Every fault, each record beside the one before it whatever that is.
    pub fn faults(&self) -> Vec<Found> {
        let (mut all, mut before) = (Vec::new(), None);
        for (place, m) in self.marks.iter().enumerate() {
            let mut found = |fault| all.push(Found { fault, place });
            if m.mark != HM {
                found(OtherMark);
            }
            if m.number != m.again {
                found(OtherSecond);
            }
            if m.number > L {
                found(AboveL);
            }
            faulty_step(before, m.number).into_iter().for_each(found);
            before = Some(m.number);
        }
        if self.length > LONGEST {
            all.push(Found { fault: TooLong, place: MOST });
        }
        all
    }
}

// The restart

// The number of the request, and the table as it then is; the last mark is that of the file.
pub fn restart(office: u8, last: Option<u32>, table: &mut [u32]) -> u8 {
    let whole = table.len() == TABLE;
    let refusals = [(1, office > 15), (18, last.is_none()), (2, !whole)];
    let refusal = refusals.into_iter().find(|(_, applies)| *applies).map_or(0, |(n, _)| n);
    if whole {
        // 1 and 18 give back office 0
        table.copy_from_slice(&if refusal == 0 { begun(office, last.unwrap()) } else { fresh_table(0) });
    }
    refusal
}

// The table of an office that begins at a number in every room.
pub fn begun(office: u8, number: u32) -> Vec<u32> {
    let mut table = fresh_table(office as usize);
    for room in 0..ROOMS {
        let row = &mut table[place(room)];
        [START, NUMBER, VIEW_NUMBER].into_iter().for_each(|at| row[at] = number);
    }
    table
}

// Records that leave

// A kind of record, by docs/LAYOUT.md, with the bytes in which its four-byte numbers stand. Behind the mark is the
// room, any byte.
pub struct Kind {
    pub name: &'static str,
    pub mark: [u8; 2],
    pub length: usize,
    numbers: &'static [Range<usize>],
}

pub const KINDS: [Kind; 3] = [
    Kind { name: "start notice", mark: *b"SC", length: NOTICE, numbers: &[3..7] },
    Kind { name: "proposal", mark: *b"PR", length: PROPOSAL, numbers: &[13..17, 17..21, 21..85] },
    Kind { name: "view", mark: *b"VW", length: VIEW, numbers: &[3..7, 15..79] },
];

impl Kind {
    pub fn places(&self) -> impl Iterator<Item = usize> {
        self.numbers.iter().flat_map(|bytes| bytes.clone().step_by(4))
    }

    // The numbers of such a record that are there, be it cut.
    pub fn read(&self, record: &[u8]) -> Vec<u32> {
        self.places().take_while(|at| at + 4 <= record.len()).map(|at| number(record, at)).collect()
    }
}

// The place in KINDS of the first record's kind.
pub fn kind_of(rest: &[u8]) -> Option<usize> {
    KINDS.iter().position(|kind| rest.starts_with(&kind.mark))
}

// The reasons to hold a record back, in checking order, with their numbers.
#[derive(Clone, Copy, Debug, PartialEq)]
pub enum Hold {
    NoRoom,
    UnderTwo,
    NoMark,
    Cut,
    LastAboveL,
    NumberAboveL,
}

pub const HOLDS: [(Hold, u8); 6] = [
    (Hold::NoRoom, 3),
    (Hold::UnderTwo, 4),
    (Hold::NoMark, 4),
    (Hold::Cut, 5),
    (Hold::LastAboveL, 8),
    (Hold::NumberAboveL, 8),
];

impl Hold {
    pub fn number(self) -> u8 {
        HOLDS[self as usize].1
    }
}

// Every reason that applies, in that order.
pub fn holds(last: u32, rest: &[u8], capacity: usize) -> Vec<Hold> {
    let kind = kind_of(rest).map(|at| &KINDS[at]);
    let applies = |hold: Hold| match hold {
        Hold::NoRoom => capacity < BYTES,
        Hold::UnderTwo => rest.len() < 2,
        Hold::NoMark => rest.len() >= 2 && kind.is_none(),
        Hold::Cut => kind.is_some_and(|kind| rest.len() < kind.length),
        Hold::LastAboveL => last > L,
        Hold::NumberAboveL => kind.is_some_and(|kind| kind.read(rest).iter().any(|&n| n > L)),
    };
    HOLDS.into_iter().map(|(hold, _)| hold).filter(|&hold| applies(hold)).collect()
}

// Held back by a number, or free to leave with so many bytes once the file's last mark is this one.
#[derive(Clone, Copy, Debug, PartialEq)]
pub enum Leave {
    Held(u8),
    Free { length: usize, mark: u32 },
}

impl Leave {
    // By include/room.h.
    pub fn answer(self) -> u64 {
        match self {
            Leave::Held(n) => n as u64,
            Leave::Free { length, mark } => (mark as u64) << 16 | (length as u64) << 8,
        }
    }

    // The mark that the file lacks.
    pub fn due(self, last: u32) -> Option<Mark> {
        match self {
            Leave::Free { mark, .. } if mark != last => Some(Mark::of(mark)),
            _ => None,
        }
    }
}

pub fn leave(last: u32, rest: &[u8], capacity: usize) -> Leave {
    if let Some(first) = holds(last, rest, capacity).first() {
        return Leave::Held(first.number());
    }
    let kind = &KINDS[kind_of(rest).unwrap()];
    let numbers = kind.read(rest);
    let covered = numbers.iter().all(|&n| n <= last);
    let raised = numbers.iter().map(|&n| L.min(n + MARGIN)).max().unwrap();
    Leave::Free { length: kind.length, mark: if covered { last } else { raised } }
}
