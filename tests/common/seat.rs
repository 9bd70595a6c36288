// The desk of change requests 3 and 9, written from documents 01 and 02: a seat, and for each of eight rooms a machine
// that takes the start notices and views of that room. Its words are those of include/room.h.
use crate::model::{has_seat, number, set, View, L, NOTICE, ROOMS, VIEW};
use std::ops::Range;

pub const WORDS: usize = 25;

pub type Desk = [u32; WORDS];

// The reasons to refuse, in checking order.
#[derive(Clone, Copy, Debug, PartialEq)]
pub enum Reason {
    NotADesk,
    SeatAbove63,
    Mark,
    Length,
    RoomAbove7,
    LastStartAboveL,
    LastViewAboveL,
    NumberAboveL,
    StartAboveL,
    NotAMember,
    StartOutside,
    NotAboveLastStart,
    BelowLastView,
    NotOpen,
    OtherStart,
    ViewNotAbove,
}

use Reason::*;

// The same with their numbers; some share one.
pub const REASONS: [(Reason, u8); 16] = [
    (NotADesk, 6),
    (SeatAbove63, 6),
    (Mark, 4),
    (Length, 5),
    (RoomAbove7, 20),
    (LastStartAboveL, 8),
    (LastViewAboveL, 8),
    (NumberAboveL, 8),
    (StartAboveL, 8),
    (NotAMember, 9),
    (StartOutside, 10),
    (NotAboveLastStart, 14),
    (BelowLastView, 14),
    (NotOpen, 15),
    (OtherStart, 15),
    (ViewNotAbove, 16),
];

impl Reason {
    pub fn number(self) -> u8 {
        REASONS[self as usize].1
    }
}

fn applying(checks: &[(Reason, bool)]) -> Vec<Reason> {
    checks.iter().filter(|(_, applies)| *applies).map(|&(reason, _)| reason).collect()
}

// Records

// The number of a notice or view.
pub fn number_of(record: &[u8]) -> u32 {
    number(record, 3)
}

pub fn members(record: &[u8]) -> u64 {
    set(record, 7)
}

pub fn view(record: &[u8]) -> View {
    let starts = std::array::from_fn(|o| number(record, 15 + 4 * o));
    View { number: number_of(record), members: members(record), starts }
}

// Checks 4 and 5, with the marks of a notice and a view.
fn layout(record: &[u8]) -> Option<Reason> {
    let length = match record {
        [0x53, 0x43, ..] => NOTICE,
        [0x56, 0x57, ..] => VIEW,
        _ => return Some(Mark),
    };
    (record.len() != length).then_some(Length)
}

// What is wrong with the form of a record. The byte of a room stands behind any mark.
fn of_form(record: &[u8]) -> Vec<Reason> {
    let (layout, room) = (layout(record), record.get(2));
    applying(&[
        (Mark, layout == Some(Mark)),
        (Length, layout == Some(Length)),
        (RoomAbove7, room.is_some_and(|&room| room as usize >= ROOMS)),
    ])
}

// A machine

// The last start number, the last view number, and whether a change is open.
#[derive(Clone, Copy, Debug, PartialEq)]
pub struct Machine {
    pub start: u32,
    pub view: u32,
    pub open: bool,
}

// The words of a room's machine.
pub fn place(room: usize) -> Range<usize> {
    1 + 3 * room..4 + 3 * room
}

impl Machine {
    pub fn of(desk: &[u32], room: usize) -> Machine {
        let words = &desk[place(room)];
        Machine { start: words[0], view: words[1], open: words[2] != 0 }
    }

    fn words(&self) -> [u32; 3] {
        [self.start, self.view, self.open as u32]
    }

    // A record that nothing refuses.
    fn take(&mut self, record: &[u8]) {
        if record.len() == NOTICE {
            self.start = number_of(record);
            self.open = true;
        } else {
            self.view = number_of(record);
            self.open = false;
        }
    }

    // Its own reasons and the record's, in checking order. Where 4 or 5 applies the record has no numbers and no
    // members.
    pub fn reasons(&self, seat: u32, record: &[u8]) -> Vec<Reason> {
        let mut all = applying(&[(LastStartAboveL, self.start > L), (LastViewAboveL, self.view > L)]);
        all.extend(match layout(record) {
            Some(_) => Vec::new(),
            None if record.len() == NOTICE => self.of_notice(seat, number_of(record), members(record)),
            None => self.of_view(seat, &view(record)),
        });
        all
    }

    fn of_notice(&self, seat: u32, start: u32, members: u64) -> Vec<Reason> {
        applying(&[
            (NumberAboveL, start > L),
            (NotAMember, !is_in(seat, members)),
            (NotAboveLastStart, start <= self.start),
            (BelowLastView, start < self.view),
        ])
    }

    fn of_view(&self, seat: u32, v: &View) -> Vec<Reason> {
        applying(&[
            (NumberAboveL, v.number > L),
            (StartAboveL, v.starts.iter().any(|&start| start > L)),
            (NotAMember, !is_in(seat, v.members)),
            (StartOutside, (0..16).any(|o| !has_seat(v.members, o) && v.starts[o] != 0)),
            (NotOpen, !self.open),
            (OtherStart, v.starts.get(seat as usize / 4) != Some(&self.start)),
            (ViewNotAbove, v.number <= self.start),
        ])
    }
}

fn is_in(seat: u32, members: u64) -> bool {
    seat <= 63 && members >> seat & 1 == 1
}

// The desk

// A seat above 63 gets 6, and the fresh desk of seat 0 comes with it. Words of another length get 6 and stay.
pub fn fresh(seat: u8, words: &mut [u32]) -> u8 {
    if words.len() != WORDS {
        return 6;
    }
    words.fill(0);
    if seat > 63 {
        return 6;
    }
    words[0] = seat as u32;
    0
}

// Every reason that applies, in checking order. Above 7 a room has no machine; the one that the low bits pick is asked
// all the same, so that it is known what else would refuse the record.
pub fn reasons(words: &[u32], record: &[u8]) -> Vec<Reason> {
    if words.len() != WORDS {
        return [NotADesk].into_iter().chain(of_form(record)).collect();
    }
    let seat = applying(&[(SeatAbove63, words[0] > 63)]);
    let machine = record.get(2).map(|&room| Machine::of(words, room as usize % ROOMS));
    let of_machine = machine.map_or(Vec::new(), |machine| machine.reasons(words[0], record));
    [seat, of_form(record), of_machine].concat()
}

// The number of the requests, with the words as they then are: a refusal leaves all, a record that is accepted those
// of the other rooms.
pub fn hear(words: &mut [u32], record: &[u8]) -> u8 {
    if let Some(reason) = reasons(words, record).first() {
        return reason.number();
    }
    let room = record[2] as usize;
    let mut machine = Machine::of(words, room);
    machine.take(record);
    words[place(room)].copy_from_slice(&machine.words());
    0
}
