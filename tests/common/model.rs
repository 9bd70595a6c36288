// The office of document 01, its two calls and its program, with the eight rooms of change request 9 and reading apart
// from acting of change request 10, written from the two documents. Numbers are those of document 01, and the parts
// stand in its order. The room travels beside the rest:
//   report, notice, Proposal::bytes and View::bytes   a record's bytes, the room given first; any byte may be one
//   room_of, number, set, Proposal::read              parts of a record's bytes; what is read has no room
//   mark_length, written_length                       lengths by a mark
//   Event                                             what a record says: its room, and a report or a proposal
//   read                                              the reading call for an office: 1, 4, 5, 20, 6 to 10 and 19, or
//                                                     the event
//   Office                                            the state of one room at one office
//   Office::act                                       one event on it: 20, 6 to 10 and 19 for its own office, then 11,
//                                                     12 and 13
//   Office::makes_above                               what 13 asks, whatever else is wrong with the event
//   Office::waiting_for                               change request 1 of this state, 2 of this state alone
//   Table                                             eight states, each with its own office number
//   Table::act                                        the acting call: 2 of all eight, 3, then the event's room acts
//   Table::step                                       both in turn: a record read for an office, then acted on
//   Table::waiting_for                                2 of all eight, then 20, then the answer of that room
//   program                                           the program: the records of an input, a line for each
use std::io::Read;

pub const L: u32 = 2_000_000_000;
pub const ROOMS: usize = 8;
// The output that a step asks for: a notice and two proposals.
pub const CAPACITY: usize = 185;

pub const REPORT: usize = 19;
pub const PROPOSAL: usize = 85;
pub const NOTICE: usize = 15;
pub const VIEW: usize = 79;

pub const FAST: u8 = 1;
pub const SLOW: u8 = 2;

// Seat s belongs to office s / 4.
pub fn has_seat(set: u64, office: usize) -> bool {
    set >> (4 * office) & 15 != 0
}

pub fn offices(set: u64) -> impl Iterator<Item = usize> {
    (0..16).filter(move |&office| has_seat(set, office))
}

// Records

pub fn number(record: &[u8], at: usize) -> u32 {
    u32::from_be_bytes(record[at..at + 4].try_into().unwrap())
}

pub fn set(record: &[u8], at: usize) -> u64 {
    u64::from_be_bytes(record[at..at + 8].try_into().unwrap())
}

fn put_sixteen(out: &mut Vec<u8>, numbers: &[u32; 16]) {
    for n in numbers {
        out.extend(n.to_be_bytes());
    }
}

// The room of a record that has its mark's length.
pub fn room_of(record: &[u8]) -> u8 {
    record[2]
}

pub fn report(room: u8, joining: u64, leaving: u64) -> Vec<u8> {
    let mut record = vec![0x4e, 0x45, room];
    record.extend(joining.to_be_bytes());
    record.extend(leaving.to_be_bytes());
    record
}

pub fn notice(room: u8, start: u32, members: u64) -> Vec<u8> {
    let mut record = vec![0x53, 0x43, room];
    record.extend(start.to_be_bytes());
    record.extend(members.to_be_bytes());
    record
}

#[derive(Clone, Copy, PartialEq)]
pub struct Proposal {
    pub sender: u8,
    pub kind: u8,
    pub members: u64,
    pub start: u32,
    pub number: u32,
    pub used: [u32; 16],
}

impl Proposal {
    pub fn read(record: &[u8]) -> Proposal {
        let mut used = [0; 16];
        for (k, u) in used.iter_mut().enumerate() {
            *u = number(record, 21 + 4 * k);
        }
        Proposal {
            sender: record[3],
            kind: record[4],
            members: set(record, 5),
            start: number(record, 13),
            number: number(record, 17),
            used,
        }
    }

    fn write(&self, room: u8, out: &mut Vec<u8>) {
        out.extend([0x50, 0x52, room, self.sender, self.kind]);
        out.extend(self.members.to_be_bytes());
        out.extend(self.start.to_be_bytes());
        out.extend(self.number.to_be_bytes());
        put_sixteen(out, &self.used);
    }

    pub fn bytes(&self, room: u8) -> Vec<u8> {
        let mut out = Vec::new();
        self.write(room, &mut out);
        out
    }
}

#[derive(Clone, Copy, PartialEq)]
pub struct View {
    pub number: u32,
    pub members: u64,
    pub starts: [u32; 16],
}

impl View {
    fn write(&self, room: u8, out: &mut Vec<u8>) {
        out.extend([0x56, 0x57, room]);
        out.extend(self.number.to_be_bytes());
        out.extend(self.members.to_be_bytes());
        put_sixteen(out, &self.starts);
    }

    pub fn bytes(&self, room: u8) -> Vec<u8> {
        let mut out = Vec::new();
        self.write(room, &mut out);
        out
    }
}

// The length that a report's or a proposal's mark calls for.
pub fn mark_length(record: &[u8]) -> Option<usize> {
    match record {
        [0x4e, 0x45, ..] => Some(REPORT),
        [0x50, 0x52, ..] => Some(PROPOSAL),
        _ => None,
    }
}

// The length of the record in front of what an office wrote.
pub fn written_length(rest: &[u8]) -> usize {
    mark_length(rest).unwrap_or(if rest[0] == b'S' { NOTICE } else { VIEW })
}

// Events

#[derive(Clone, Copy, PartialEq)]
pub enum What {
    Report { joining: u64, leaving: u64 },
    Proposal(Proposal),
}

// What a record says. Any byte may be its room.
#[derive(Clone, Copy, PartialEq)]
pub struct Event {
    pub room: u8,
    pub what: What,
}

impl Event {
    // Of a record that has its mark's length.
    pub fn of(record: &[u8]) -> Event {
        let what = match record.len() {
            REPORT => What::Report { joining: set(record, 3), leaving: set(record, 11) },
            _ => What::Proposal(Proposal::read(record)),
        };
        Event { room: room_of(record), what }
    }
}

// A number, and whether that reason to refuse applies; it is asked only where none before it does.
type Reason<'a> = (u8, &'a dyn Fn() -> bool);

// The first in checking order that applies; 0 where none does.
fn first(reasons: &[Reason]) -> u8 {
    reasons.iter().find(|(_, applies)| applies()).map_or(0, |&(number, _)| number)
}

// The reading call.
pub fn read(office: u8, record: &[u8]) -> Result<Event, u8> {
    let length = mark_length(record);
    let refusal =
        first(&[(1, &|| office > 15), (4, &|| length.is_none()), (5, &|| length != Some(record.len()))]);
    if refusal != 0 {
        return Err(refusal);
    }
    let event = Event::of(record);
    match form_refusal(office as usize, &event) {
        0 => Ok(event),
        refusal => Err(refusal),
    }
}

// What an office, by its number alone, says to an event: 20, 6 to 10 and 19. Both calls ask it.
fn form_refusal(office: usize, event: &Event) -> u8 {
    let above = || event.room as usize >= ROOMS;
    let What::Proposal(p) = &event.what else { return first(&[(20, &above)]) };
    let sender = p.sender as usize;
    first(&[
        (20, &above),
        (6, &|| sender > 15 || sender == office),
        (7, &|| p.kind != FAST && p.kind != SLOW),
        (8, &|| p.start == 0 || p.start > L || p.number == 0 || p.number > L || p.used.iter().any(|&u| u > L)),
        (9, &|| !has_seat(p.members, sender) || !has_seat(p.members, office)),
        (10, &|| (0..16).any(|o| !has_seat(p.members, o) && p.used[o] != 0)),
        // Change request 8.
        (19, &|| p.used[sender] >= p.number),
    ])
}

// State

#[derive(Clone, Copy, PartialEq)]
pub enum Mode {
    None,
    Fast,
    Slow,
}

// The answers to the question whom an office waits for.
#[derive(Clone, Copy, PartialEq)]
pub enum Waiting {
    Refused(u8),
    Nobody,
    Met,
    Office(usize),
}

#[derive(Clone, Copy, PartialEq)]
pub struct Office {
    pub own: usize,
    pub mode: Mode,
    pub net: u64,
    pub stored: [Option<Proposal>; 16],
    pub accepted: [u32; 16],
    pub view: View,
    pub start: u32,
    pub number: u32,
    pub used: [u32; 16],
}

impl Office {
    pub fn fresh(own: usize) -> Office {
        let view = View { number: 0, members: 0, starts: [0; 16] };
        Office {
            own,
            mode: Mode::None,
            net: 0,
            stored: [None; 16],
            accepted: [0; 16],
            view,
            start: 0,
            number: 0,
            used: [0; 16],
        }
    }

    // One event at this state: the number of document 01, where 2 and 3 do not apply. What is written carries the
    // event's room and stands in `out`; a refusal leaves the office as it was and `out` empty.
    pub fn act(&mut self, event: &Event, out: &mut Vec<u8>) -> u8 {
        out.clear();
        let refusal = match form_refusal(self.own, event) {
            0 => self.late_refusal(event),
            refusal => refusal,
        };
        if refusal != 0 {
            return refusal;
        }
        let course = self.course(event, out);
        if course.largest > L {
            out.clear();
            return 13;
        }
        *self = course.office;
        0
    }

    // What this state says to an event of good form, but for 13.
    fn late_refusal(&self, event: &Event) -> u8 {
        let What::Proposal(p) = &event.what else { return 0 };
        let last = self.accepted[p.sender as usize];
        first(&[(11, &|| p.number <= last), (12, &|| p.used[self.own] > self.number)])
    }

    // The event by the rules, whatever its form; a sender is an office.
    fn course<'a>(&self, event: &Event, out: &'a mut Vec<u8>) -> Course<'a> {
        let mut course = Course { office: *self, room: event.room, largest: 0, out };
        match event.what {
            What::Report { joining, leaving } => course.report(joining, leaving),
            What::Proposal(p) => course.proposal(p),
        }
        course
    }

    // The event would make a number above L, if nothing else were wrong with it. A sender above 15 has no place here.
    pub fn makes_above(&self, event: &Event) -> bool {
        match event.what {
            What::Proposal(p) if p.sender > 15 => false,
            _ => self.course(event, &mut Vec::new()).largest > L,
        }
    }

    pub fn malformed(&self) -> bool {
        self.own > 15 || self.numbers().any(|n| n > L)
    }

    fn numbers(&self) -> impl Iterator<Item = u32> + '_ {
        let stored = self.stored.iter().flatten().flat_map(|p| p.used.into_iter().chain([p.start, p.number]));
        let own = [self.view.number, self.start, self.number].into_iter();
        own.chain(self.accepted).chain(self.view.starts).chain(self.used).chain(stored)
    }

    // The stored proposals of other offices whose members equal the net view.
    fn matching(&self) -> impl Iterator<Item = &Proposal> {
        let others = self.stored.iter().enumerate().filter(|(o, _)| *o != self.own);
        others.filter_map(|(_, p)| p.as_ref()).filter(|p| p.members == self.net)
    }

    // 1 + the largest of the own proposal number and the stored ones of the net view's offices.
    fn next_number(&self) -> u32 {
        let stored = offices(self.net).filter_map(|o| self.stored[o]).map(|p| p.number);
        stored.fold(self.number, u32::max).saturating_add(1)
    }

    fn slow_called_for(&self) -> bool {
        match self.mode {
            Mode::None => true,
            Mode::Fast => self.matching().any(|p| p.kind == SLOW || p.used[self.own] == self.number),
            Mode::Slow => {
                self.matching().any(|p| p.used[self.own] == self.number || p.kind == SLOW && p.number > self.number)
            }
        }
    }

    // The proposal of an office that the agreement test asks for is there.
    fn agrees(&self, o: usize) -> bool {
        match (&self.stored[o], self.mode) {
            (Some(p), Mode::Fast) => p.kind == FAST && p.members == self.net,
            (Some(p), Mode::Slow) => p.kind == SLOW && p.members == self.net && p.number == self.number,
            _ => false,
        }
    }

    fn agreed(&self) -> bool {
        offices(self.net).all(|o| self.agrees(o))
    }

    // Change request 1. Every one of the sixteen is looked at.
    pub fn waiting_for(&self) -> Waiting {
        if self.malformed() {
            Waiting::Refused(2)
        } else if self.mode == Mode::None || !has_seat(self.net, self.own) {
            Waiting::Nobody
        } else if self.agreed() {
            Waiting::Met
        } else {
            let without: Vec<usize> = (0..16).filter(|&o| has_seat(self.net, o) && !self.agrees(o)).collect();
            Waiting::Office(*without.iter().min().unwrap())
        }
    }
}

// The office as an event leaves it, the largest number that the event made, and what it writes.
struct Course<'a> {
    office: Office,
    room: u8,
    largest: u32,
    out: &'a mut Vec<u8>,
}

impl Course<'_> {
    fn make(&mut self, n: u32) -> u32 {
        self.largest = self.largest.max(n);
        n
    }

    // A report arrives.
    fn report(&mut self, joining: u64, leaving: u64) {
        let before = self.office.net;
        self.office.net = (before | joining) & !leaving;
        // Change request 2: a report that leaves the net view equal to what it was does nothing. It makes no number,
        // so 13 is not met.
        if self.office.net == before {
            return;
        }
        if !has_seat(self.office.net, self.office.own) {
            return;
        }
        self.open();
        self.office.mode = Mode::Fast;
        self.office.number = self.make(self.office.next_number());
        let has_recipient = offices(self.office.net).any(|o| o != self.office.own);
        self.propose(FAST, has_recipient);
        self.tests();
    }

    // Step 3, but for the mode.
    fn open(&mut self) {
        self.office.start = self.make(self.office.view.number.max(self.office.start.saturating_add(1)));
        self.out.extend(notice(self.room, self.office.start, self.office.net));
    }

    fn propose(&mut self, kind: u8, written: bool) {
        let o = &mut self.office;
        let mut used = o.used;
        for (k, u) in used.iter_mut().enumerate() {
            if !has_seat(o.net, k) {
                *u = 0;
            }
        }
        let p = Proposal { sender: o.own as u8, kind, members: o.net, start: o.start, number: o.number, used };
        o.stored[o.own] = Some(p);
        if written {
            p.write(self.room, self.out);
        }
    }

    // A proposal arrives.
    fn proposal(&mut self, p: Proposal) {
        self.office.stored[p.sender as usize] = Some(p);
        self.office.accepted[p.sender as usize] = p.number;
        if p.members == self.office.net {
            self.tests();
        }
    }

    fn tests(&mut self) {
        if self.office.slow_called_for() {
            self.slow();
        }
        if self.office.agreed() {
            self.agree();
        }
    }

    fn slow(&mut self) {
        if self.office.mode == Mode::None {
            self.open();
        }
        let above = self.office.matching().filter(|p| p.kind == SLOW && p.number > self.office.number);
        let largest = above.map(|p| p.number).max();
        let n = largest.unwrap_or_else(|| self.office.next_number());
        self.office.number = self.make(n);
        self.propose(SLOW, true);
        self.office.mode = Mode::Slow;
    }

    fn agree(&mut self) {
        let mut starts = [0; 16];
        for k in offices(self.office.net) {
            let p = self.office.stored[k].take().unwrap();
            starts[k] = p.start;
            self.office.used[k] = p.number;
        }
        let number = self.make(starts.into_iter().max().unwrap().saturating_add(1));
        self.office.view = View { number, members: self.office.net, starts };
        self.office.mode = Mode::None;
        self.office.view.write(self.room, self.out);
    }
}

// Eight rooms: change request 9

#[derive(Clone, PartialEq)]
pub struct Table {
    pub rooms: [Office; ROOMS],
}

impl Table {
    pub fn fresh(own: usize) -> Table {
        Table { rooms: [Office::fresh(own); ROOMS] }
    }

    // The acting call, on an event that was read or built by hand.
    pub fn act(&mut self, event: &Event, capacity: usize, out: &mut Vec<u8>) -> u8 {
        out.clear();
        let room = event.room as usize;
        let refusal =
            first(&[(2, &|| self.malformed()), (3, &|| capacity < CAPACITY), (20, &|| room >= ROOMS)]);
        match refusal {
            0 => self.rooms[room].act(event, out),
            refusal => refusal,
        }
    }

    // Both in turn.
    pub fn step(&mut self, office: u8, record: &[u8], capacity: usize, out: &mut Vec<u8>) -> u8 {
        out.clear();
        match read(office, record) {
            Ok(event) => self.act(&event, capacity, out),
            Err(refusal) => refusal,
        }
    }

    pub fn malformed(&self) -> bool {
        self.rooms.iter().any(|office| office.malformed())
    }

    pub fn waiting_for(&self, room: u8) -> Waiting {
        if self.malformed() {
            return Waiting::Refused(2);
        }
        self.rooms.get(room as usize).map_or(Waiting::Refused(20), |office| office.waiting_for())
    }
}

// The program

// A line of the program, with its record, the table as the event left it, the bytes that the event wrote and the view
// number that is printed.
pub struct Line<'a> {
    pub number: u64,
    pub refusal: u8,
    pub record: &'a [u8],
    pub table: &'a Table,
    pub bytes: &'a [u8],
    pub view_number: u32,
}

pub fn program(input: &mut impl Read, mut each: impl FnMut(Line)) {
    let mut record = [0; PROPOSAL];
    if fill(input, &mut record[..1]) == 0 || record[0] > 15 {
        let table = &Table::fresh(0);
        return each(Line { number: 0, refusal: 1, record: &[], table, bytes: &[], view_number: 0 });
    }
    let office = record[0];
    let mut table = Table::fresh(office as usize);
    let mut out = Vec::new();
    for number in 1.. {
        let mut got = fill(input, &mut record[..2]);
        if got == 0 {
            return;
        }
        if let Some(length) = mark_length(&record[..got]) {
            got += fill(input, &mut record[2..length]);
        }
        let record = &record[..got];
        let refusal = table.step(office, record, CAPACITY, &mut out);
        let view_number = match refusal {
            4 | 5 | 20 => 0,
            _ => table.rooms[room_of(record) as usize].view.number,
        };
        each(Line { number, refusal, record, table: &table, bytes: &out, view_number });
        if refusal == 4 || refusal == 5 {
            return;
        }
    }
}

// Reads until the part is full or the input ends: how many bytes.
fn fill(input: &mut impl Read, part: &mut [u8]) -> usize {
    let mut got = 0;
    while got < part.len() {
        match input.read(&mut part[got..]).unwrap() {
            0 => break,
            n => got += n,
        }
    }
    got
}
