// The calls for C that make a desk and hand it a record, beside the model of change requests 3 and 9: every answer,
// every word of all eight rooms and every byte. Each case is a kind of input; it passes when the two agree on all of
// its inputs.
#[path = "common/choice.rs"]
mod choice;
#[allow(dead_code)]
#[path = "common/hearing.rs"]
mod hearing;
#[allow(dead_code)]
#[path = "common/inputs.rs"]
mod inputs;
#[path = "common/lent.rs"]
mod lent;
#[allow(dead_code)]
#[path = "common/model.rs"]
mod model;
#[path = "common/play.rs"]
mod play;
#[path = "common/random.rs"]
mod random;
#[allow(dead_code)]
#[path = "common/repeats.rs"]
mod repeats;
#[allow(dead_code)]
#[path = "common/rows.rs"]
mod rows;
#[path = "common/seat.rs"]
mod seat;
#[path = "common/tally.rs"]
mod tally;
#[path = "common/verdicts.rs"]
mod verdicts;

use choice::choice;
use hearing::{change, damaged, fill_others, Day, Event};
use inputs::some;
use lent::{around, AROUND, BYTE, WORD};
use model::{has_seat, notice, View, L, ROOMS, VIEW};
use random::Random;
use seat::{members, place, Desk, Machine, Reason, REASONS, WORDS};
use std::ops::Range;

#[link(name = "room", kind = "static")]
extern "C" {
    fn room_desk_fresh(seat: u8, desk: *mut u32, words: usize) -> u8;
    fn room_desk_hear(desk: *mut u32, words: usize, record: *const u8, length: usize) -> u8;
}

const NUMBERS: usize = 21;

// The first reason that looks at a machine.
const OF_MACHINE: usize = Reason::LastStartAboveL as usize;

// What another room's machine is where a record is accepted; the last, where it is refused.
const BESIDE: [&str; 6] = [
    "has a last start number above L",
    "has a last view number above L",
    "has an open word that is neither 0 nor 1",
    "has an open change",
    "would refuse it",
    "would accept it, though it is refused",
];

// What was met, by the model.
struct Reached {
    records: u64,
    answers: [u64; NUMBERS],
    // a reason that alone has the number answered
    alone: [u64; REASONS.len()],
    // the number answered, and one behind it in the order that applies too
    orders: [[u64; NUMBERS]; NUMBERS],
    // of each seat: a notice accepted, a view accepted, members without it
    seats: [[u64; 3]; 64],
    // of each office: the only start number above L, the only one outside the members, another one than the seat's
    offices: [[u64; 3]; 16],
    // of each room: a notice accepted, a view accepted; a reason that alone has the number answered
    rooms: [[u64; 2]; ROOMS],
    rooms_alone: [[u64; REASONS.len()]; ROOMS],
    // of each byte of a room, in a notice and in a view: accepted, or refused by it alone
    bytes: [[u64; 2]; 256],
    // of each room and each other one: by BESIDE
    beside: [[[u64; BESIDE.len()]; ROOMS]; ROOMS],
}

impl Reached {
    fn new() -> Reached {
        Reached {
            records: 0,
            answers: [0; NUMBERS],
            alone: [0; REASONS.len()],
            orders: [[0; NUMBERS]; NUMBERS],
            seats: [[0; 3]; 64],
            offices: [[0; 3]; 16],
            rooms: [[0; 2]; ROOMS],
            rooms_alone: [[0; REASONS.len()]; ROOMS],
            bytes: [[0; 2]; 256],
            beside: [[[0; BESIDE.len()]; ROOMS]; ROOMS],
        }
    }

    fn count(&mut self, desk: &[u32], record: &[u8]) {
        self.records += 1;
        let reasons = seat::reasons(desk, record);
        let answer = reasons.first().map_or(0, |r| r.number());
        self.answers[answer as usize] += 1;
        let (same, mut later): (Vec<Reason>, Vec<Reason>) = reasons.iter().partition(|r| r.number() == answer);
        later.dedup_by_key(|r| r.number());
        for reason in later {
            self.orders[answer as usize][reason.number() as usize] += 1;
        }
        if let [reason] = same[..] {
            self.alone[reason as usize] += 1;
            self.count_office(desk, record, reason);
        }
        let is_view = (record.len() == VIEW) as usize;
        match answer {
            0 => self.seats[desk[0] as usize][is_view] += 1,
            9 => self.seats[desk[0] as usize][2] += 1,
            _ => (),
        }
        if reasons.is_empty() || reasons == [Reason::RoomAbove7] {
            self.bytes[record[2] as usize][is_view] += 1;
        }
        if reasons.first().is_none_or(|&first| first as usize >= OF_MACHINE) {
            self.count_room(desk, record, &same);
        }
    }

    fn count_office(&mut self, desk: &[u32], record: &[u8], reason: Reason) {
        let (at, applies): (usize, fn(&View, usize) -> bool) = match reason {
            Reason::StartAboveL => (0, |v, o| v.starts[o] > L),
            Reason::StartOutside => (1, |v, o| !has_seat(v.members, o) && v.starts[o] != 0),
            Reason::OtherStart => return self.offices[desk[0] as usize / 4][2] += 1,
            _ => return,
        };
        let v = seat::view(record);
        let all: Vec<usize> = (0..16).filter(|&o| applies(&v, o)).collect();
        if let [only] = all[..] {
            self.offices[only][at] += 1;
        }
    }

    // A record that is its machine's to answer, with the reasons that have its number; the other machines beside it.
    fn count_room(&mut self, desk: &[u32], record: &[u8], same: &[Reason]) {
        let room = record[2] as usize;
        match *same {
            [] => self.rooms[room][(record.len() == VIEW) as usize] += 1,
            [only] => self.rooms_alone[room][only as usize] += 1,
            _ => (),
        }
        let accepted = same.is_empty();
        for other in (0..ROOMS).filter(|&other| other != room) {
            let (words, accepts) = (&desk[place(other)], Machine::of(desk, other).reasons(desk[0], record).is_empty());
            let said = [
                accepted && words[0] > L,
                accepted && words[1] > L,
                accepted && words[2] > 1,
                accepted && words[2] == 1,
                accepted && !accepts,
                !accepted && accepts,
            ];
            for (n, holds) in self.beside[room][other].iter_mut().zip(said) {
                *n += holds as u64;
            }
        }
    }
}

// Inputs are desks made and records heard.
type Tally = tally::Tally<Reached>;

impl Tally {
    // A fresh desk over some words.
    fn make(&mut self, seat: u8, desk: &mut [u32]) {
        let mut lent = around(desk, WORD);
        let expected = seat::fresh(seat, desk);
        let got = unsafe { room_desk_fresh(seat, lent.as_mut_ptr().add(AROUND), desk.len()) };
        let same = got == expected && lent == around(desk, WORD);
        self.compared(same, || {
            format!("seat {seat} in {} words: got {got}, expected {expected}, desk {:?}", desk.len(), &lent[AROUND..])
        });
    }

    // A part of some bytes is handed to a desk, which is then as the model leaves it: what the call answered.
    fn hear_part(&mut self, desk: &mut [u32], all: &[u8], part: Range<usize>) -> u8 {
        let record = &all[part.clone()];
        self.reached.count(desk, record);
        let (mut lent, mut bytes, before) = (around(desk, WORD), all.to_vec(), desk.to_vec());
        let expected = seat::hear(desk, record);
        let got = unsafe {
            let (words, handed) = (lent.as_mut_ptr().add(AROUND), bytes.as_mut_ptr().add(part.start));
            room_desk_hear(words, desk.len(), handed, record.len())
        };
        let same = got == expected && lent == around(desk, WORD) && bytes == all;
        self.compared(same, || {
            let left = &lent[AROUND..AROUND + desk.len()];
            format!("desk {before:?}, record {record:02x?}: got {got} and {left:?}, expected {expected} and {desk:?}")
        });
        got
    }

    fn hear(&mut self, desk: &mut [u32], record: &[u8]) -> u8 {
        self.hear_part(desk, &around(record, BYTE), AROUND..AROUND + record.len())
    }

    // The same, and the desk stays as it was.
    fn aside(&mut self, desk: &[u32], record: &[u8]) -> u8 {
        self.hear(&mut desk.to_vec(), record)
    }

    fn fresh(&mut self, seat: usize) -> Desk {
        let mut desk = [WORD; WORDS];
        self.make(seat as u8, &mut desk);
        desk
    }
}

// Every seat in words of every length about a desk's, over any words.
fn making(t: &mut Tally) {
    t.case("every seat made in 0 to 33 words", |t| {
        let mut r = Random(1);
        for seat in 0..=255 {
            for words in 0..=33 {
                for _ in 0..if words == WORDS { 30 } else { 2 } {
                    let mut desk: Vec<u32> = (0..words).map(|_| r.next() as u32).collect();
                    t.make(seat, &mut desk);
                }
            }
        }
    });
}

// A seat's comings and goings in a room through a day.
#[derive(Clone, Copy, Default)]
struct Stay {
    // it has been in the net view, and it is now
    been: bool,
    here: bool,
    // it has left and come back
    back: bool,
    // records were written since it left
    missed: bool,
    // it has accepted records of other rooms since it left
    heard: bool,
}

// How often seats left, came back and what they then heard, and how far they came.
#[derive(Default)]
struct Returns {
    // to an office that had written records meanwhile
    missed_some: u64,
    // to an office that had not: it had no seat
    missed_none: u64,
    views_after: u64,
    // after they had heard records of other rooms meanwhile
    heard_others: u64,
    // of each seat: it left a room and stayed in another
    left_one: Vec<u64>,
    // desks that accepted views of every room, and those whose numbers rose to L in a room
    all_rooms: u64,
    at_l: u64,
}

impl Returns {
    fn event(&mut self, stays: &mut [Stay; ROOMS], seat: usize, event: &Event) {
        let (room, here, written) = (event.room, event.net >> seat & 1 == 1, !event.records.is_empty());
        let elsewhere = (0..ROOMS).any(|other| other != room && stays[other].here);
        let stay = &mut stays[room];
        if here && stay.been && !stay.here {
            self.missed_some += stay.missed as u64;
            self.missed_none += !stay.missed as u64;
            self.heard_others += stay.heard as u64;
            stay.back = true;
        }
        self.left_one[seat] += (stay.here && !here && elsewhere) as u64;
        stay.missed = !here && (stay.missed || written);
        stay.heard &= !here;
        stay.been |= here;
        stay.here = here;
    }
}

// A fresh desk through a day in all its rooms: whether each record whose members hold the seat is accepted, and each
// other gets 9 and changes nothing.
fn sit_through(t: &mut Tally, day: &Day, seat: usize, returns: &mut Returns) -> bool {
    let (mut desk, mut stays, mut right) = (t.fresh(seat), [Stay::default(); ROOMS], true);
    for event in &day.events {
        let room = event.room;
        returns.event(&mut stays, seat, event);
        for record in &event.records {
            let (before, holds) = (desk, members(record) >> seat & 1 == 1);
            let got = t.hear(&mut desk, record);
            right &= if holds { got == 0 } else { got == 9 && desk == before };
            returns.views_after += (stays[room].back && holds && record.len() == VIEW) as u64;
            for other in (0..ROOMS).filter(|&other| other != room) {
                stays[other].heard |= holds && !stays[other].here;
            }
        }
    }
    let machines: [Machine; ROOMS] = std::array::from_fn(|room| Machine::of(&desk, room));
    returns.all_rooms += machines.iter().all(|machine| machine.view > 0) as u64;
    returns.at_l += machines.iter().any(|machine| machine.start == L) as u64;
    right
}

fn days(t: &mut Tally) {
    let (mut right, mut returns) = (true, Returns { left_one: vec![0; 64], ..Returns::default() });
    t.case("days in one room or more: fresh desks and their fresh office", |t| {
        let mut r = Random(0x9e37_79b9_7f4a_7c15);
        for k in 0..800 {
            let day = Day::new(&mut r, k % 16, 500);
            for seat in day.seats() {
                right &= sit_through(t, &day, seat, &mut returns);
            }
        }
    });
    t.verdicts.check("days: records that hold the seat are accepted, others get 9 and change nothing", right);
    t.often("seats that came back to an office that had gone on", returns.missed_some, 1000);
    t.often("seats that came back to an office without seats", returns.missed_none, 1000);
    t.often("views heard by seats that had come back", returns.views_after, 1000);
    t.often("seats that came back to a room after they had heard another", returns.heard_others, 1000);
    let least = *returns.left_one.iter().min().unwrap();
    t.often("one room left and another stayed in, of the seat with fewest", least, 50);
    t.often("desks that accepted views of all eight rooms", returns.all_rooms, 100);
    t.often("desks whose start number rose to L in a room", returns.at_l, 10);
}

fn damaged_records(t: &mut Tally) {
    t.case("days with damaged records", |t| {
        let mut r = Random(2);
        for k in 0..320 {
            let day = Day::new(&mut r, k % 16, 300);
            for seat in day.seats() {
                let mut desk = t.fresh(seat);
                for record in day.records() {
                    for _ in 0..3 {
                        let bad = damaged(&mut r, &desk, record);
                        t.aside(&desk, &bad);
                    }
                    t.hear(&mut desk, record);
                }
            }
        }
    });
}

// A record left out, heard twice, after a later one, before an earlier one, or in its place.
fn disordered(t: &mut Tally, random: &mut Random, desk: &mut Desk, records: &[&[u8]], at: usize) {
    let other = 1 + random.below(4);
    match random.below(8) {
        0 => return,
        1 => _ = t.hear(desk, records[at]),
        2 => _ = t.hear(desk, records[(at + other).min(records.len() - 1)]),
        _ => (),
    }
    t.hear(desk, records[at]);
    if random.below(8) == 0 {
        t.hear(desk, records[at.saturating_sub(other)]);
    }
}

fn disorder(t: &mut Tally) {
    t.case("days with records repeated, left out and out of order", |t| {
        let mut r = Random(3);
        for k in 0..320 {
            let day = Day::new(&mut r, k % 16, 300);
            for seat in day.seats() {
                let (mut desk, records) = (t.fresh(seat), day.records());
                for at in 0..records.len() {
                    disordered(t, &mut r, &mut desk, &records, at);
                }
            }
        }
    });
}

// Each day is at another office than the one before it, whose records are heard beside it.
fn other_offices(t: &mut Tally) {
    let mut holding = 0;
    t.case("days with records of another office", |t| {
        let mut r = Random(4);
        let mut other = Day::new(&mut r, 0, 300);
        for k in 1..480 {
            let day = Day::new(&mut r, 5 * k % 16, 300);
            for seat in day.seats() {
                let mut desk = t.fresh(seat);
                for (record, foreign) in day.records().into_iter().zip(other.records()) {
                    holding += members(foreign) >> seat & 1;
                    t.aside(&desk, foreign);
                    t.hear(&mut desk, record);
                }
            }
            other = day;
        }
    });
    t.often("records of another office that hold the seat", holding, 1000);
}

fn changed_desks(t: &mut Tally) {
    t.case("desks of days with none, one or two words changed", |t| {
        let mut r = Random(5);
        for k in 0..320 {
            let day = Day::new(&mut r, k % 16, 300);
            for seat in day.seats() {
                let mut desk = t.fresh(seat);
                for record in day.records() {
                    for _ in 0..2 {
                        let mut other = desk;
                        for _ in 0..r.below(3) {
                            change(&mut r, &mut other, record);
                        }
                        t.aside(&other, record);
                        let bad = damaged(&mut r, &other, record);
                        t.aside(&other, &bad);
                    }
                    t.hear(&mut desk, record);
                }
            }
        }
    });
}

// Rooms

fn in_room(record: &[u8], room: u8) -> Vec<u8> {
    let mut other = record.to_vec();
    other[2] = room;
    other
}

// Whatever stands in the other seven machines, a record is answered as beside those of the day.
fn other_machines(t: &mut Tally) {
    let mut right = true;
    t.case("days with any words in the other seven machines", |t| {
        let mut r = Random(7);
        for k in 0..320 {
            let day = Day::new(&mut r, k % 16, 200);
            for seat in day.seats() {
                let mut desk = t.fresh(seat);
                for record in day.records() {
                    let bad = damaged(&mut r, &desk, record);
                    for record in [record, &bad] {
                        let mut filled = desk;
                        fill_others(&mut r, &mut filled, record.get(2).map_or(0, |&room| room as usize % ROOMS));
                        right &= t.aside(&filled, record) == t.aside(&desk, record);
                    }
                    t.hear(&mut desk, record);
                }
            }
        }
    });
    t.verdicts.check("no other machine changes an answer", right);
}

// A record of one room handed as one of each other, to the desk of the day and to one whose machines are all alike.
fn every_room(t: &mut Tally) {
    let mut right = true;
    t.case("days with records under each byte of a room", |t| {
        let mut r = Random(8);
        for k in 0..64 {
            let day = Day::new(&mut r, k % 16, 40);
            for seat in day.seats() {
                let mut desk = t.fresh(seat);
                for (at, record) in day.records().into_iter().enumerate() {
                    (0..ROOMS as u8).for_each(|room| _ = t.aside(&desk, &in_room(record, room)));
                    if (at + seat) % 3 == 0 {
                        right &= alike(t, &desk, record);
                    }
                    t.hear(&mut desk, record);
                }
            }
        }
    });
    t.verdicts.check("where all machines are alike, each room answers alike and all above get 20", right);
}

fn alike(t: &mut Tally, desk: &Desk, record: &[u8]) -> bool {
    let mut same = *desk;
    for room in 0..ROOMS {
        same[place(room)].copy_from_slice(&desk[place(record[2] as usize)]);
    }
    let answers: Vec<u8> = (0..=255).map(|room| t.aside(&same, &in_room(record, room))).collect();
    answers[..ROOMS].iter().all(|&answer| answer == answers[0]) && answers[ROOMS..].iter().all(|&answer| answer == 20)
}

// What stands before and behind is a record too, and would change the answer if it were read.
fn parts(t: &mut Tally) {
    t.case("records that are parts of runs", |t| {
        let mut r = Random(10);
        for k in 0..32 {
            let day = Day::new(&mut r, k % 16, 100);
            let (run, mut desk, mut from) = (day.records().concat(), t.fresh(4 * day.office + k / 8), 0);
            for record in day.records() {
                for length in [0, 1, 2, 3, 14, 15, 16, 78, 79, 80] {
                    let to = run.len().min(from + length);
                    t.hear_part(&mut { desk }, &run, from..to);
                }
                t.hear_part(&mut desk, &run, from..from + record.len());
                from += record.len();
            }
        }
    });
}

fn lengths(t: &mut Tally) {
    let mut right = true;
    t.case("desks of 0 to 40 words, but not 25", |t| {
        let mut r = Random(6);
        for k in 0..32 {
            let day = Day::new(&mut r, k % 16, 200);
            let mut desk = t.fresh(day.seats().start);
            for (at, record) in day.records().into_iter().enumerate() {
                let bad = damaged(&mut r, &desk, record);
                for words in (0..=40).filter(|&words| words != WORDS && (at + words) % 4 == 0) {
                    let mut lent = desk.to_vec();
                    lent.resize(words, some(&mut r, &[0, 1, WORD]));
                    let kept = lent.clone();
                    right &= t.hear(&mut lent, record) == 6 && t.hear(&mut lent, &bad) == 6 && lent == kept;
                }
                t.hear(&mut desk, record);
            }
        }
    });
    t.verdicts.check("desks of other lengths get 6 and stay", right);
}

// A number, and those behind it in the order that can apply with it to one record and a desk.
const ORDERS: [(usize, &[usize]); 8] = [
    (6, &[4, 5, 20, 8, 9, 10, 14, 15, 16]),
    (4, &[20, 8]),
    (5, &[20, 8]),
    (20, &[8, 9, 10, 14, 15, 16]),
    (8, &[9, 10, 14, 15, 16]),
    (9, &[10, 14, 15, 16]),
    (10, &[15, 16]),
    (15, &[16]),
];

fn reached(t: &mut Tally) {
    for n in [0, 4, 5, 6, 8, 9, 10, 14, 15, 16, 20] {
        t.often(&format!("answer {n}"), t.reached.answers[n], 1000);
    }
    for (reason, n) in REASONS {
        t.often(&format!("{n} by {reason:?} alone"), t.reached.alone[reason as usize], 300);
    }
    for (first, later) in ORDERS.iter().flat_map(|&(first, all)| all.iter().map(move |&later| (first, later))) {
        t.often(&format!("{first} where {later} applies too"), t.reached.orders[first][later], 100);
    }
    for (what, at) in [("notices accepted", 0), ("views accepted", 1), ("9", 2)] {
        let least = t.reached.seats.iter().map(|n| n[at]).min().unwrap();
        t.often(&format!("{what}, of the seat with fewest"), least, 100);
    }
    for (what, at) in
        [("8 by a single start number", 0), ("10 by a single start number", 1), ("15 by another start number", 2)]
    {
        let least = t.reached.offices.iter().map(|n| n[at]).min().unwrap();
        t.often(&format!("{what}, of the office with fewest"), least, 20);
    }
}

fn reached_rooms(t: &mut Tally) {
    for (at, what) in ["notices", "views"].into_iter().enumerate() {
        let least = t.reached.rooms.iter().map(|n| n[at]).min().unwrap();
        t.often(&format!("{what} accepted, of the room with fewest"), least, 1000);
        let (good, bad) = t.reached.bytes.split_at(ROOMS);
        let [good, bad] = [good, bad].map(|bytes| bytes.iter().map(|n| n[at]).min().unwrap());
        t.often(&format!("{what} accepted, of the byte of a room with fewest"), good, 100);
        t.often(&format!("{what} refused by 20 alone, of the byte above 7 with fewest"), bad, 100);
    }
    for (reason, n) in &REASONS[OF_MACHINE..] {
        let least = t.reached.rooms_alone.iter().map(|all| all[*reason as usize]).min().unwrap();
        t.often(&format!("{n} by {reason:?} alone, of the room with fewest"), least, 100);
    }
    for (at, what) in BESIDE.into_iter().enumerate() {
        let others = |room| (0..ROOMS).filter(move |&other| other != room).map(move |other| (room, other));
        let counts = (0..ROOMS).flat_map(others).map(|(room, other)| t.reached.beside[room][other][at]);
        let least = counts.min().unwrap();
        t.often(&format!("a record of a room where another's machine {what}, of the pair with fewest"), least, 100);
    }
}

// A view with the start numbers of two offices; the others' are 0.
fn view(room: u8, number: u32, members: u64, starts: [(usize, u32); 2]) -> Vec<u8> {
    let mut view = View { number, members, starts: [0; 16] };
    starts.into_iter().for_each(|(office, start)| view.starts[office] = start);
    view.bytes(room)
}

const EDGES: [u32; 8] = [0, 1, 2, 3, L - 1, L, L + 1, u32::MAX];

// The rooms in turn, and some above them.
const EDGE_ROOMS: [u8; 11] = [0, 1, 2, 3, 4, 5, 6, 7, 8, 128, 255];

// Every choice of edge numbers: a desk, a notice and a view for it. The second office is another one than the seat's.
// The machines of the other rooms have edge numbers too.
fn edges(t: &mut Tally) {
    t.case("every choice of edge numbers, in each room in turn", |t| {
        let mut r = Random(9);
        for case in 0.. {
            let (mut rest, room) = (case, EDGE_ROOMS[case % EDGE_ROOMS.len()]);
            let seat = choice(&mut rest, &[0, 29, 63, 64]);
            let machine = [choice(&mut rest, &EDGES), choice(&mut rest, &EDGES), choice(&mut rest, &[0, 1, 256])];
            let mut desk: Desk = std::array::from_fn(|_| some(&mut r, &EDGES));
            desk[0] = seat;
            desk[place(room as usize % ROOMS)].copy_from_slice(&machine);
            let (own, second) = (seat as usize % 64 / 4, (seat as usize + 20) % 64 / 4);
            let (ours, theirs) = (1 << (seat % 64), 1 << (4 * second));
            let (n, members) = (choice(&mut rest, &EDGES), choice(&mut rest, &[ours, ours | theirs, theirs]));
            if rest == 0 {
                t.aside(&desk, &notice(room, n, members));
            }
            let starts = [(own, choice(&mut rest, &EDGES)), (second, choice(&mut rest, &[0, 1, L, L + 1]))];
            if rest != 0 {
                return;
            }
            t.aside(&desk, &view(room, n, members, starts));
        }
    });
}

fn main() {
    let mut tally = Tally::new(Reached::new());
    let t = &mut tally;

    making(t);
    days(t);
    damaged_records(t);
    disorder(t);
    other_offices(t);
    changed_desks(t);
    other_machines(t);
    every_room(t);
    parts(t);
    lengths(t);
    t.verdicts.check("half a million records", t.reached.records >= 500_000);
    reached(t);
    reached_rooms(t);
    edges(t);

    println!("seat: {} inputs compared, {} of them records heard", tally.inputs, tally.reached.records);
    tally.verdicts.end();
}
