// What was met by the questions who came along, by the model.
use crate::model::{has_seat, View, L, ROOMS};
use crate::seat;
use crate::sheet::{
    bars, came_along, counting, is_in, reasons, records, Answer, Found, Reason, Sync, LONGEST, MOST, REASONS,
};
use crate::tally::Tally;

const OF_RECORD: usize = Reason::Mark as usize;

// What a sheet that is answered says of a seat.
const OF_SEAT: [&str; 10] = [
    "missing",
    "missing, with a record of another start number",
    "missing, with a record that counts of another seat of its office",
    "missing, as is a higher member",
    "came along",
    "named another number",
    "two count, and only the first names the number",
    "two count, and only the second names the number",
    "came along, behind a record of another start number",
    "no member, with a record that has its office's start number and names the number",
];

const HIGHER_TOO: usize = 3;
const NO_MEMBER: usize = 9;

pub struct Reached {
    // sync records made, and not made by one reason alone: the words, the seat, the room, the output
    made: [u64; 5],
    // of each room: made, where no other room of the desk has its numbers; of each byte: not made by it alone
    made_rooms: [u64; ROOMS],
    made_above: [u64; 256],
    pub sheets: u64,
    // refused by a number, and 0
    answers: [u64; 21],
    // of each room of a view: refused, a seat missing, a set; of each byte: refused by it alone
    rooms: [[u64; 3]; ROOMS],
    above: [u64; 256],
    // the only reason that applies
    alone: [u64; REASONS.len()],
    // the reason that decides, and one of another number that applies too: in the same record or after the view and
    // the sheet; in a later record
    orders: [[[u64; REASONS.len()]; REASONS.len()]; 2],
    // of each office: the only start number above L, the only one outside the members
    offices: [[u64; 2]; 16],
    // of each place on a sheet: the only bad record, by each reason
    places: [[u64; 4]; MOST],
    // of each place on a sheet that is answered by a set: a member's only record that counts, the first of two that
    // name different numbers
    deciding: [[u64; 2]; MOST],
    seats: [[u64; OF_SEAT.len()]; 64],
    // of 512 records: refused, a seat missing, a set
    full: [u64; 3],
    // a set: of nobody from no record, of nobody from some, empty though there are members, all members
    sets: [u64; 4],
}

impl Reached {
    pub fn new() -> Reached {
        let (alone, orders) = ([0; REASONS.len()], [[[0; REASONS.len()]; REASONS.len()]; 2]);
        let (places, deciding, seats) = ([[0; 4]; MOST], [[0; 2]; MOST], [[0; OF_SEAT.len()]; 64]);
        Reached {
            made: [0; 5],
            made_rooms: [0; ROOMS],
            made_above: [0; 256],
            sheets: 0,
            answers: [0; 21],
            rooms: [[0; 3]; ROOMS],
            above: [0; 256],
            alone,
            orders,
            offices: [[0; 2]; 16],
            places,
            deciding,
            seats,
            full: [0; 3],
            sets: [0; 4],
        }
    }

    pub fn count_made(&mut self, words: &[u32], room: u8, capacity: usize) {
        let bars = bars(words, room, capacity);
        let all: Vec<usize> = (0..bars.len()).filter(|&at| bars[at]).collect();
        match all[..] {
            [] => {
                self.made[0] += 1;
                let numbers = |room| &words[seat::place(room)][..2];
                let own = numbers(room as usize);
                let alike = (0..ROOMS).filter(|&other| numbers(other).iter().any(|n| own.contains(n)));
                self.made_rooms[room as usize] += (alike.count() == 1) as u64;
            }
            [only] => {
                self.made[1 + only] += 1;
                self.made_above[room as usize] += (only == 2) as u64;
            }
            _ => (),
        }
    }

    // Counts a question, and answers it.
    pub fn count(&mut self, sheet: &[u8], view: &[u8], own: u32) -> Answer {
        self.sheets += 1;
        let answer = came_along(sheet, view, own);
        match answer {
            Answer::Refused(_) => self.count_refusal(&reasons(sheet, view, own), view),
            _ => self.count_answer(&records(sheet), &seat::view(view), own, answer),
        }
        let kind = match answer {
            Answer::Refused(_) => 0,
            Answer::Missing(_) => 1,
            Answer::Came(_) => 2,
        };
        self.full[kind] += (sheet.len() == LONGEST) as u64;
        // what the view's form refuses is no room's
        if !matches!(answer, Answer::Refused(5 | 20)) && view.starts_with(b"VW") {
            self.rooms[view[2] as usize][kind] += 1;
        }
        answer
    }

    fn count_refusal(&mut self, found: &[Found], view: &[u8]) {
        let first = found[0];
        self.answers[first.reason.number() as usize] += 1;
        for later in found.iter().filter(|later| later.reason.number() != first.reason.number()) {
            let apart = first.record.is_some() && later.record != first.record;
            self.orders[apart as usize][first.reason as usize][later.reason as usize] += 1;
        }
        let [Found { reason, record }] = *found else { return };
        self.alone[reason as usize] += 1;
        if reason == Reason::ViewRoomAbove7 {
            self.above[view[2] as usize] += 1;
        }
        if let Some(at) = record {
            self.places[at][reason as usize - OF_RECORD] += 1;
        }
        self.count_office(reason, view);
    }

    fn count_office(&mut self, reason: Reason, view: &[u8]) {
        let (at, applies): (usize, fn(&View, usize) -> bool) = match reason {
            Reason::ViewStartAboveL => (0, |v, o| v.starts[o] > L),
            Reason::ViewStartOutside => (1, |v, o| !has_seat(v.members, o) && v.starts[o] != 0),
            _ => return,
        };
        let v = seat::view(view);
        let all: Vec<usize> = (0..16).filter(|&o| applies(&v, o)).collect();
        if let [only] = all[..] {
            self.offices[only][at] += 1;
        }
    }

    fn count_answer(&mut self, records: &[Sync], view: &View, own: u32, answer: Answer) {
        self.answers[0] += 1;
        for seat in 0..64 {
            for (n, holds) in self.seats[seat].iter_mut().zip(said_of(seat, records, view, own, answer)) {
                *n += holds as u64;
            }
        }
        if let Answer::Came(set) = answer {
            (0..64)
                .filter(|&seat| is_in(view.members, seat))
                .for_each(|seat| self.count_deciding(seat, records, view));
            let nobody = view.members == 0;
            let said = [
                nobody && records.is_empty(),
                nobody && !records.is_empty(),
                !nobody && set == 0,
                !nobody && set == view.members,
            ];
            for (n, holds) in self.sets.iter_mut().zip(said) {
                *n += holds as u64;
            }
        }
    }

    fn count_deciding(&mut self, seat: usize, records: &[Sync], view: &View) {
        let of_seat = |at: &usize| records[*at].seat as usize == seat && records[*at].counts_for(view);
        let places: Vec<usize> = (0..records.len()).filter(of_seat).collect();
        match places[..] {
            [only] => self.deciding[only][0] += 1,
            [first, second, ..] if records[first].previous != records[second].previous => self.deciding[first][1] += 1,
            _ => (),
        }
    }
}

// By OF_SEAT.
fn said_of(seat: usize, records: &[Sync], view: &View, own: u32, answer: Answer) -> [bool; OF_SEAT.len()] {
    let count: Vec<&Sync> = counting(records, view, seat).collect();
    if !is_in(view.members, seat) {
        let mut said = [false; OF_SEAT.len()];
        said[NO_MEMBER] = count.iter().any(|record| record.previous == own);
        return said;
    }
    let missing = answer == Answer::Missing(seat);
    let answered = matches!(answer, Answer::Came(_));
    let none = |seat| counting(records, view, seat).next().is_none();
    let first = records.iter().find(|record| record.seat as usize == seat);
    let names = |at: usize| count.get(at).is_some_and(|record| record.previous == own);
    let names_other = |at: usize| count.get(at).is_some_and(|record| record.previous != own);
    [
        missing,
        missing && first.is_some(),
        missing && (seat / 4 * 4..seat / 4 * 4 + 4).any(|mate| !none(mate)),
        missing && (seat + 1..64).any(|higher| is_in(view.members, higher) && none(higher)),
        answered && names(0),
        answered && names_other(0),
        answered && names(0) && names_other(1),
        answered && names_other(0) && names(1),
        answered && names(0) && first.is_some_and(|record| !record.counts_for(view)),
        false,
    ]
}

// What must have been met, and how often at least.

// Where 4 or 5 refuses the view, none of its own numbers is read.
fn can_meet(first: Reason, later: Reason) -> bool {
    use Reason::*;
    let unread = [ViewMark, ViewLength].contains(&first);
    let reads = [ViewLength, ViewNumberAboveL, ViewStartAboveL, ViewStartOutside].contains(&later);
    (first as usize) < later as usize && first.number() != later.number() && !(unread && reads)
}

impl Tally<Reached> {
    pub fn met(&mut self) {
        let bars = ["the words", "the seat", "the room", "the output"].map(|bar| format!("none for {bar} alone"));
        for (what, n) in ["sync records made".to_string()].iter().chain(&bars).zip(self.reached.made) {
            self.often(what, n, 1000);
        }
        self.met_rooms();
        self.met_refusals();
        self.met_places();
        self.met_orders();
        self.met_answers();
    }

    fn met_rooms(&mut self) {
        let made = *self.reached.made_rooms.iter().min().unwrap();
        self.often("sync records of numbers that no other room has, of the room with fewest", made, 100);
        let barred = *self.reached.made_above[ROOMS..].iter().min().unwrap();
        self.often("none for the room alone, of the byte above 7 with fewest", barred, 10);
        for (at, what) in ["refused by another number", "a seat missing", "a set"].into_iter().enumerate() {
            let least = self.reached.rooms.iter().map(|n| n[at]).min().unwrap();
            self.often(&format!("{what}, of the room of a view with fewest"), least, 1000);
        }
        let above = *self.reached.above[ROOMS..].iter().min().unwrap();
        self.often("20 and nothing else, of the byte above 7 with fewest", above, 3);
    }

    fn met_refusals(&mut self) {
        for n in [0, 4, 5, 6, 8, 10, 17, 20] {
            self.often(&format!("answer {n}"), self.reached.answers[n], 1000);
        }
        for (reason, n) in REASONS {
            self.often(&format!("{n} by {reason:?} alone"), self.reached.alone[reason as usize], 300);
        }
        for (at, what) in ["8 by a single start number", "10 by a single start number"].into_iter().enumerate() {
            let least = self.reached.offices.iter().map(|n| n[at]).min().unwrap();
            self.often(&format!("{what}, of the office with fewest"), least, 20);
        }
    }

    fn met_places(&mut self) {
        for (reason, n) in &REASONS[OF_RECORD..] {
            let least = self.reached.places.iter().map(|n| n[*reason as usize - OF_RECORD]).min().unwrap();
            self.often(&format!("{n} by {reason:?} alone, of the place with fewest"), least, 2);
        }
        let only = self.reached.deciding.iter().map(|n| n[0]).min().unwrap();
        self.often("a member's only record that counts, of the place with fewest", only, 1);
        // behind the last place there is none
        let first = self.reached.deciding[..MOST - 1].iter().map(|n| n[1]).min().unwrap();
        self.often("the first of two records that name different numbers, of the place with fewest", first, 2);
    }

    fn met_orders(&mut self) {
        for (first, later) in REASONS.iter().flat_map(|&(first, _)| REASONS.map(|(later, _)| (first, later))) {
            let [same, apart] = [0, 1].map(|at| self.reached.orders[at][first as usize][later as usize]);
            if can_meet(first, later) {
                self.often(&format!("{} by {first:?} where {} by {later:?} applies too",
                    first.number(), later.number()), same, 100);
            }
            let of_records = first as usize >= OF_RECORD && later as usize >= OF_RECORD;
            if of_records && first.number() != later.number() {
                self.often(&format!("{} by {first:?} before a record with {} by {later:?}",
                    first.number(), later.number()), apart, 100);
            }
        }
    }

    fn met_answers(&mut self) {
        for (at, what) in OF_SEAT.iter().enumerate() {
            // above the highest seat there is none
            let seats = if *what == OF_SEAT[HIGHER_TOO] { 63 } else { 64 };
            let least = self.reached.seats[..seats].iter().map(|n| n[at]).min().unwrap();
            self.often(&format!("{what}, of the seat with fewest"), least, 10);
        }
        for (at, what) in
            ["512 records, refused", "512 records, a seat missing", "512 records, a set"].into_iter().enumerate()
        {
            self.often(what, self.reached.full[at], 500);
        }
        let sets = [
            "nobody, from no record",
            "nobody, from some records",
            "a set of none of the members",
            "a set of all members",
        ];
        for (at, what) in sets.into_iter().enumerate() {
            self.often(what, self.reached.sets[at], 100);
        }
    }
}
