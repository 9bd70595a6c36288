// Change request 4 with the rooms of change request 9, written from documents 01 and 02: the sync record, what a desk
// makes of its words in a room, and who came along by a sheet of such records. A sheet is one room's; nothing on it
// says which.
use crate::model::{has_seat, number, View, L, ROOMS, VIEW};
use crate::seat::{self, Machine};

pub const BYTES: usize = 11;
pub const MOST: usize = 512;
pub const LONGEST: usize = 5632;

// Records

#[derive(Clone, Copy, Debug, PartialEq)]
pub struct Sync {
    pub seat: u8,
    pub start: u32,
    pub previous: u32,
}

impl Sync {
    pub fn read(record: &[u8]) -> Sync {
        Sync { seat: record[2], start: number(record, 3), previous: number(record, 7) }
    }

    pub fn bytes(&self) -> [u8; BYTES] {
        let (s, p) = (self.start.to_be_bytes(), self.previous.to_be_bytes());
        [0x53, 0x59, self.seat, s[0], s[1], s[2], s[3], p[0], p[1], p[2], p[3]]
    }

    // Its start number is the one that the view has for its seat's office.
    pub fn counts_for(&self, view: &View) -> bool {
        view.starts.get(self.seat as usize / 4) == Some(&self.start)
    }
}

// The records of a sheet; what is left at its end is none.
pub fn records(sheet: &[u8]) -> Vec<Sync> {
    sheet.chunks_exact(BYTES).map(Sync::read).collect()
}

pub fn bytes(records: &[Sync]) -> Vec<u8> {
    records.iter().flat_map(Sync::bytes).collect()
}

// What bars a sync record, by include/room.h: not a desk's words, its seat, the room, the output.
pub fn bars(words: &[u32], room: u8, capacity: usize) -> [bool; 4] {
    [words.len() != seat::WORDS, words.first() > Some(&63), room as usize >= ROOMS, capacity < BYTES]
}

// The record of a desk with these words in a room.
pub fn made(words: &[u32], room: u8, capacity: usize) -> Option<Sync> {
    if bars(words, room, capacity).contains(&true) {
        return None;
    }
    let Machine { start, view, .. } = Machine::of(words, room as usize);
    Some(Sync { seat: words[0] as u8, start, previous: view })
}

// Refusals

// The reasons to refuse, in checking order; the last four are met record by record.
#[derive(Clone, Copy, Debug, PartialEq)]
pub enum Reason {
    ViewMark,
    ViewLength,
    ViewRoomAbove7,
    ViewNumberAboveL,
    ViewStartAboveL,
    OwnNumberAboveL,
    ViewStartOutside,
    SheetTooLong,
    SheetNotOfRecords,
    Mark,
    SeatAbove63,
    StartAboveL,
    PreviousAboveL,
}

use Reason::*;

// The same with their numbers; some share one.
pub const REASONS: [(Reason, u8); 13] = [
    (ViewMark, 4),
    (ViewLength, 5),
    (ViewRoomAbove7, 20),
    (ViewNumberAboveL, 8),
    (ViewStartAboveL, 8),
    (OwnNumberAboveL, 8),
    (ViewStartOutside, 10),
    (SheetTooLong, 17),
    (SheetNotOfRecords, 17),
    (Mark, 4),
    (SeatAbove63, 6),
    (StartAboveL, 8),
    (PreviousAboveL, 8),
];

impl Reason {
    pub fn number(self) -> u8 {
        REASONS[self as usize].1
    }
}

// A reason that applies; where it is a record's, with the record's place on the sheet.
#[derive(Clone, Copy, Debug, PartialEq)]
pub struct Found {
    pub reason: Reason,
    pub record: Option<usize>,
}

fn applying(checks: &[(Reason, bool)]) -> Vec<Reason> {
    checks.iter().filter(|(_, applies)| *applies).map(|&(reason, _)| reason).collect()
}

// Where 4 or 5 applies the view has no numbers and no members; one's own number is there all the same, and the byte of
// a room may be.
fn of_view(view: &[u8], own: u32) -> Vec<Reason> {
    let marked = view.starts_with(&[0x56, 0x57]);
    let read = (marked && view.len() == VIEW).then(|| seat::view(view));
    let of_read = |applies: fn(&View) -> bool| read.as_ref().is_some_and(applies);
    applying(&[
        (ViewMark, !marked),
        (ViewLength, marked && read.is_none()),
        (ViewRoomAbove7, view.get(2).is_some_and(|&room| room as usize >= ROOMS)),
        (ViewNumberAboveL, of_read(|v| v.number > L)),
        (ViewStartAboveL, of_read(|v| v.starts.iter().any(|&start| start > L))),
        (OwnNumberAboveL, own > L),
        (ViewStartOutside, of_read(|v| (0..16).any(|o| !has_seat(v.members, o) && v.starts[o] != 0))),
    ])
}

fn of_sheet(sheet: &[u8]) -> Vec<Reason> {
    applying(&[(SheetTooLong, sheet.len() > LONGEST), (SheetNotOfRecords, sheet.len() % BYTES != 0)])
}

fn of_record(record: &[u8]) -> Vec<Reason> {
    let Sync { seat, start, previous } = Sync::read(record);
    applying(&[
        (Mark, record[..2] != [0x53, 0x59]),
        (SeatAbove63, seat > 63),
        (StartAboveL, start > L),
        (PreviousAboveL, previous > L),
    ])
}

// Every reason that applies, in checking order.
pub fn reasons(sheet: &[u8], view: &[u8], own: u32) -> Vec<Found> {
    let before = of_view(view, own).into_iter().chain(of_sheet(sheet)).map(|reason| Found { reason, record: None });
    let records = sheet.chunks_exact(BYTES).enumerate();
    let behind = records
        .flat_map(|(at, record)| of_record(record).into_iter().map(move |reason| Found { reason, record: Some(at) }));
    before.chain(behind).collect()
}

// The answer

#[derive(Clone, Copy, Debug, PartialEq)]
pub enum Answer {
    Refused(u8),
    Missing(usize),
    Came(u64),
}

impl Answer {
    // By include/room.h: the refusal + 256 x (0, or 1 + the missing seat).
    pub fn number(self) -> u32 {
        match self {
            Answer::Refused(n) => n as u32,
            Answer::Missing(seat) => 256 * (1 + seat as u32),
            Answer::Came(_) => 0,
        }
    }
}

pub fn is_in(set: u64, seat: usize) -> bool {
    set >> seat & 1 == 1
}

// The records of a seat that count for a view, in the order of the sheet; the first decides.
pub fn counting<'a>(records: &'a [Sync], view: &'a View, seat: usize) -> impl Iterator<Item = &'a Sync> {
    records.iter().filter(move |record| record.seat as usize == seat && record.counts_for(view))
}

pub fn came_along(sheet: &[u8], view: &[u8], own: u32) -> Answer {
    if let Some(first) = reasons(sheet, view, own).first() {
        return Answer::Refused(first.reason.number());
    }
    let (records, view) = (records(sheet), seat::view(view));
    let members: Vec<usize> = (0..64).filter(|&seat| is_in(view.members, seat)).collect();
    let decides = |seat| counting(&records, &view, seat).next();
    if let Some(&missing) = members.iter().find(|&&seat| decides(seat).is_none()) {
        return Answer::Missing(missing);
    }
    let came = members.into_iter().filter(|&seat| decides(seat).is_some_and(|record| record.previous == own));
    Answer::Came(came.map(|seat| 1 << seat).sum())
}
