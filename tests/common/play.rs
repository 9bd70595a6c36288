// Plays of several offices that run by the model in one room or more, with reports that come late, differ or repeat,
// lost and re-ordered proposals, and forged ones. A link carries the proposals of all rooms in one row. What one
// office is handed on the way is an input of the program.
//   Play::new          fresh offices with a table each; the rooms are those in use, each below 8
//   go, go_telling     events in all these rooms, one after another at random
//   hand               one event at one office
//   table, office      the table of the office whose input is kept, and its state in a room
use crate::model::{has_seat, offices, report, room_of, written_length};
use crate::model::{Office, Proposal, Table, CAPACITY, FAST, L, PROPOSAL, REPORT, ROOMS, SLOW};
use crate::random::Random;
use crate::repeats::{is_repeat, repeat};
use std::collections::VecDeque;

// How many in a thousand events are of each kind; the others are reports and deliveries.
pub struct Habits {
    pub change: usize,
    pub own_report: usize,
    // seats leave and come back at one office
    pub back: usize,
    // reports that change nothing
    pub repeat: usize,
    pub loss: usize,
    pub swap: usize,
    pub forged: usize,
    pub damaged: usize,
    // reports and proposals with a room above 7
    pub stray: usize,
}

pub struct Play {
    pub random: Random,
    habits: Habits,
    // the seats that come and go
    pool: u64,
    // the office whose input is kept
    kept: usize,
    rooms: Vec<u8>,
    offices: Vec<Table>,
    links: Vec<VecDeque<Vec<u8>>>,
    // for each office and room
    reports: Vec<VecDeque<(u64, u64)>>,
    // the last report of each office and room that was no repeat
    last: Vec<Vec<u8>>,
    // the office of the last event, and what it wrote
    at: usize,
    out: Vec<u8>,
    pub input: Vec<u8>,
    pub records: usize,
}

impl Play {
    pub fn new(random: Random, habits: Habits, pool: u64, kept: usize, rooms: &[u8]) -> Play {
        Play {
            random,
            habits,
            pool,
            kept,
            rooms: rooms.to_vec(),
            offices: (0..16).map(Table::fresh).collect(),
            links: vec![VecDeque::new(); 256],
            reports: vec![VecDeque::new(); 16 * ROOMS],
            last: vec![Vec::new(); 16 * ROOMS],
            at: kept,
            out: Vec::new(),
            input: vec![kept as u8],
            records: 0,
        }
    }

    // The office whose input is kept, as its last event left it.
    pub fn table(&self) -> &Table {
        &self.offices[self.kept]
    }

    pub fn office(&self, room: u8) -> &Office {
        &self.table().rooms[room as usize]
    }

    // Events until the input has so many records.
    pub fn go(&mut self, records: usize) {
        self.go_telling(records, |_, _| ());
    }

    // The same; each office that writes something is told of, with what it writes.
    pub fn go_telling(&mut self, records: usize, mut tell: impl FnMut(usize, &[u8])) {
        for room in self.rooms.clone() {
            let first = self.some_seats() | 1 << (4 * self.kept);
            self.tell_all(room, first, 0);
        }
        while self.records < records {
            self.out.clear();
            self.event();
            if !self.out.is_empty() {
                tell(self.at, &self.out);
            }
        }
    }

    fn event(&mut self) {
        let h = &self.habits;
        let bounds = [h.change, h.own_report, h.back, h.repeat, h.loss, h.swap, h.forged, h.damaged, h.stray];
        let mut at = self.random.below(1000);
        let mut kind = 0;
        while kind < bounds.len() && at >= bounds[kind] {
            at -= bounds[kind];
            kind += 1;
        }
        let room = self.some_room();
        match kind {
            0 => {
                let (joining, leaving) = (self.some_seats(), self.some_seats());
                self.tell_all(room, joining, leaving);
            }
            1 => {
                let to = self.some_office();
                let (joining, leaving) = (self.some_seats(), self.some_seats());
                self.hand(to, &report(room, joining, leaving));
            }
            2 => self.back(room),
            3 => {
                let to = self.some_office();
                let net = self.offices[to].rooms[room as usize].net;
                let record = repeat(&mut self.random, room, net, &self.last[of(to, room)]);
                self.hand(to, &record);
            }
            4 => self.lose(),
            5 => self.swap(),
            6 => {
                let p = self.forged(room);
                self.hand(self.kept, &p.bytes(room));
            }
            7 => {
                let p = self.forged(room);
                let p = self.damaged(room, p);
                // as often as one field of it, the room is another
                let other = if self.random.below(8) == 0 { self.random.next() as u8 % 9 } else { room };
                self.hand(self.kept, &p.bytes(other));
            }
            8 => {
                let above = self.above();
                let p = self.forged(room);
                let (joining, leaving) = (self.some_seats(), self.some_seats());
                let record = if self.random.below(2) == 0 { report(above, joining, leaving) } else { p.bytes(above) };
                self.hand(self.kept, &record);
            }
            _ => self.report_or_delivery(room),
        }
    }

    // A room above 7, one of the next to it or any.
    fn above(&mut self) -> u8 {
        let any = 8 + self.random.below(248) as u8;
        [8, 9, 15, 16, 128, 255, any, any][self.random.below(8)]
    }

    // Seats leave one office's net view with its next report and come back with the one after, so that it proposes
    // anew what others may have agreed on, and what slow proposals are stored for. In one case of four all seats but
    // its own.
    fn back(&mut self, room: u8) {
        let to = self.some_office();
        let some = if self.random.below(4) == 0 { !(15 << (4 * to)) } else { self.some_seats() };
        let seats = some & self.offices[to].rooms[room as usize].net;
        if seats != 0 {
            self.reports[of(to, room)].push_front((seats, 0));
            self.reports[of(to, room)].push_front((0, seats));
        }
    }

    fn lose(&mut self) {
        let link = self.some_link();
        let n = self.links[link].len();
        if n > 0 {
            let at = self.random.below(n);
            self.links[link].remove(at);
        }
    }

    fn swap(&mut self) {
        let link = self.some_link();
        let n = self.links[link].len();
        if n > 1 {
            let at = self.random.below(n);
            self.links[link].swap(0, at);
        }
    }

    // The oldest proposal on a link is of any room.
    fn report_or_delivery(&mut self, room: u8) {
        let to = self.some_office();
        if self.random.below(4) == 0 {
            if let Some((joining, leaving)) = self.reports[of(to, room)].pop_front() {
                self.hand(to, &report(room, joining, leaving));
                return;
            }
        }
        let from = self.some_office();
        if let Some(record) = self.links[16 * from + to].pop_front() {
            let refusal = self.hand(to, &record);
            assert_ne!(refusal, 19, "an office sends no proposal that claims to have used itself");
        }
    }

    // The same change for each office, to be handed to it some time later.
    fn tell_all(&mut self, room: u8, joining: u64, leaving: u64) {
        for to in offices(self.pool | 1 << (4 * self.kept)) {
            self.reports[of(to, room)].push_back((joining, leaving));
        }
    }

    // One event at one office: its answer. Each proposal written joins the link to each recipient.
    pub fn hand(&mut self, to: usize, record: &[u8]) -> u8 {
        if to == self.kept {
            self.input.extend_from_slice(record);
            self.records += 1;
        }
        let room = room_of(record);
        if record.len() == REPORT && (room as usize) < ROOMS {
            if !is_repeat(self.offices[to].rooms[room as usize].net, record) {
                self.last[of(to, room)] = record.to_vec();
            }
        }
        self.at = to;
        let refusal = self.offices[to].step(to as u8, record, CAPACITY, &mut self.out);
        let mut rest = &self.out[..];
        while !rest.is_empty() {
            let length = written_length(rest);
            assert_eq!(room_of(rest), room, "what an event writes is of the room of its record");
            if length == PROPOSAL {
                let p = Proposal::read(rest);
                assert!(p.used[to] < p.number, "what an office has used of its own is below its next number");
                for other in offices(p.members).filter(|&o| o != to) {
                    self.links[16 * to + other].push_back(rest[..PROPOSAL].to_vec());
                }
            }
            rest = &rest[length..];
        }
        refusal
    }

    fn some_seats(&mut self) -> u64 {
        match self.random.below(8) {
            0 => 0,
            1 => self.pool,
            2 => self.pool & self.random.next() & self.random.next() & self.random.next(),
            _ => self.pool & self.random.next() & self.random.next(),
        }
    }

    // An office of the pool; the kept one more often than any other.
    fn some_office(&mut self) -> usize {
        let all: Vec<usize> = offices(self.pool).collect();
        if all.is_empty() || self.random.below(3) == 0 {
            return self.kept;
        }
        all[self.random.below(all.len())]
    }

    // With one room no random number is taken, so that the rest of a play does not depend on there being rooms.
    fn some_room(&mut self) -> u8 {
        match self.rooms[..] {
            [room] => room,
            _ => self.rooms[self.random.below(self.rooms.len())],
        }
    }

    fn some_link(&mut self) -> usize {
        16 * self.some_office() + self.some_office()
    }

    fn near(&mut self, n: u32) -> u32 {
        n.saturating_add(self.random.below(3) as u32).saturating_sub(self.random.below(2) as u32)
    }

    // A proposal that passes the checks more often than not, with numbers that matter to the office.
    fn forged(&mut self, room: u8) -> Proposal {
        let o = *self.office(room);
        let others: Vec<usize> = offices(o.net).filter(|&k| k != o.own).collect();
        let sender = if others.is_empty() { self.random.below(16) } else { others[self.random.below(others.len())] };
        let mut members = o.net;
        if self.random.below(6) == 0 || others.is_empty() {
            members = self.some_seats() | 1 << (4 * o.own) | 1 << (4 * sender);
        }
        let base = match self.random.below(5) {
            0 => o.number,
            1 => o.stored.iter().flatten().map(|p| p.number).max().unwrap_or(0),
            _ => o.accepted[sender],
        };
        let mut used = [0; 16];
        for k in offices(members) {
            used[k] = match self.random.below(4) {
                0 => o.number,
                1 => 0,
                _ => o.used[k],
            };
        }
        let kind = if self.random.below(2) == 0 { FAST } else { SLOW };
        let start = self.near(o.start).max(1);
        let number = (o.accepted[sender] + 1).max(self.near(base)).min(L);
        used[sender] = used_for_sender(&mut self.random, number, used[sender]);
        Proposal { sender: sender as u8, kind, members, start, number, used }
    }

    // One or two fields of a proposal changed.
    fn damaged(&mut self, room: u8, p: Proposal) -> Proposal {
        let mut p = p;
        let o = *self.office(room);
        for _ in 0..1 + self.random.below(2) {
            let office = self.random.below(16);
            let number = [0, 1, L - 1, L, L + 1, u32::MAX, o.number, o.start][self.random.below(8)];
            match self.random.below(12) {
                0 => p.sender = [16, 255, o.own as u8, office as u8][self.random.below(4)],
                1 => p.kind = [0, 1, 2, 3, 255][self.random.below(5)],
                2 => p.members ^= 1 << self.random.below(64),
                3 => p.members &= !(15 << (4 * o.own)),
                4 => p.members &= !(15_u64.checked_shl(4 * p.sender as u32).unwrap_or(0)),
                5 => p.start = number,
                6 => p.number = number,
                7 => p.number = o.accepted[(p.sender % 16) as usize] + self.random.below(2) as u32,
                8 => p.used[office] = number,
                9 => p.used[o.own] = self.near(o.number),
                10 => p.used[office] |= !has_seat(p.members, office) as u32,
                _ => p.members = self.random.next(),
            }
        }
        match p.used.get_mut(p.sender as usize) {
            Some(used) if self.random.below(4) != 0 => *used = used_for_sender(&mut self.random, p.number, *used),
            _ => (),
        }
        p
    }
}

// The place of an office's reports in a room.
fn of(office: usize, room: u8) -> usize {
    ROOMS * office + room as usize
}

// A used number for the sender of a proposal with this number: the one given or less, so that it is below the
// proposal's own; but in one case of 24 equal to it or above, and in two just below.
pub fn used_for_sender(random: &mut Random, number: u32, given: u32) -> u32 {
    match random.below(24) {
        0 => number.saturating_add(random.below(4) as u32).min(L),
        1 | 2 => number.saturating_sub(1),
        _ => given.min(number.saturating_sub(1)),
    }
}
