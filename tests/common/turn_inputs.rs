// What the order of both calls in turn is tried with: proposals that pass, read for the own office of their room's row
// or for another, with none, one or two faults.
use crate::inputs::some;
use crate::model::{has_seat, Proposal, CAPACITY, FAST, L, PROPOSAL, ROOMS, SLOW};
use crate::random::Random;
use crate::rows::{self, place, TABLE, WORDS};

// A proposal for a table whose rows have any own offices, with an output of a length.
pub struct Turn {
    pub office: u8,
    pub table: Vec<u32>,
    pub capacity: usize,
    // of the table, in the end
    words: usize,
    // any room byte whose low bits are the room of the row, any mark, any length
    room: u8,
    mark: [u8; 2],
    length: usize,
    p: Proposal,
    own: usize,
    sender: usize,
    absent: usize,
    // what is put into the row or the record at the end, when the sender and the members are known
    uses_itself: bool,
    old: bool,
    unreached: bool,
    too_high: bool,
}

impl Turn {
    // One that is accepted. The table's rows pass check 2.
    pub fn sound(random: &mut Random, mut table: Vec<u32>, room: u8, other: bool) -> Turn {
        let row = &mut table[place(room as usize)];
        let own = row[rows::OWN] as usize;
        let mut all: Vec<usize> = (0..16).filter(|&o| o != own).collect();
        (0..14).for_each(|k| all.swap(k, k + random.below(15 - k)));
        let (office, sender, absent) = (if other { all[0] } else { own }, all[1], all[2]);
        let some_seats = random.next() & !(15 << (4 * absent));
        let members = [own, office, sender].iter().fold(some_seats, |set, &o| set | 1 << (4 * o + random.below(4)));
        // low enough that the event makes no number above L, and that 12 can be made to apply
        row[rows::MODE] = random.below(3) as u32;
        row[rows::NET] = members as u32;
        row[rows::NET + 1] = (members >> 32) as u32;
        let low = random.below(1000) as u32;
        [rows::START, rows::NUMBER, rows::VIEW_NUMBER].into_iter().for_each(|at| row[at] = low);
        (0..16).for_each(|o| rows::put_stored(row, o, None));
        let number = 2 + random.below(1000) as u32;
        row[rows::ACCEPTED + sender] = random.below(number as usize) as u32;
        let mut used = [0; 16];
        (0..16).filter(|&k| has_seat(members, k)).for_each(|k| used[k] = random.below(L as usize) as u32);
        used[sender] = random.below(number as usize) as u32;
        used[own] = random.below(low as usize + 1) as u32;
        let (kind, start) = (some(random, &[FAST, SLOW]), 1 + random.below(1000) as u32);
        Turn {
            office: office as u8,
            table,
            capacity: CAPACITY,
            words: TABLE,
            room,
            mark: *b"PR",
            length: PROPOSAL,
            p: Proposal { sender: sender as u8, kind, members, start, number, used },
            own,
            sender,
            absent,
            uses_itself: false,
            old: false,
            unreached: false,
            too_high: false,
        }
    }

    fn row(&mut self) -> &mut [u32] {
        let room = self.room as usize % ROOMS;
        &mut self.table[place(room)]
    }

    fn without(&mut self, office: usize) {
        self.p.members &= !(15 << (4 * office));
        self.p.used[office] = 0;
    }

    // The record, once all faults are in.
    pub fn record(&mut self, random: &mut Random) -> Vec<u8> {
        let mut p = self.p;
        let sender = p.sender as usize;
        if self.unreached {
            p.used[self.own] = self.row()[rows::NUMBER] + 1;
        }
        if self.uses_itself && sender < 16 {
            p.used[sender] = p.number.saturating_add(random.below(2) as u32);
        } else if sender < 16 && p.used[sender] >= p.number {
            // a sender that is another than at first
            p.number = (p.used[sender] + 1).min(L);
        }
        let (old, too_high) = (self.old, self.too_high);
        let row = self.row();
        if sender < 16 {
            row[rows::ACCEPTED + sender] = if old { p.number.min(L) } else { 0 };
        }
        // by the next start number; the slow test is called for
        row[rows::NET] = p.members as u32;
        row[rows::NET + 1] = (p.members >> 32) as u32;
        if too_high {
            row[rows::MODE] = 0;
            row[rows::START] = L;
        }
        self.table.resize(self.words, 0);
        let mut record = p.bytes(self.room);
        record[..2].copy_from_slice(&self.mark);
        record.resize(self.length, random.next() as u8);
        record
    }
}

pub type Fault = fn(&mut Turn, &mut Random);

// None, then a fault for each reason and each part of it, in checking order. Those of the row's own office are others
// where it is the office given.
pub const FAULTS: [Fault; 34] = [
    |_, _| (),
    // 1
    |t, _| t.office = 16,
    |t, r| t.office = 16 + r.below(240) as u8,
    // 4 and 5
    |t, r| t.mark = some(r, &[*b"NP", *b"EN", *b"RP", *b"SC", *b"VW", *b"SY", *b"HM", [0, 0]]),
    |t, _| t.length += 1,
    |t, r| t.length += 1 + r.below(100),
    |t, r| t.length = r.below(PROPOSAL),
    |t, _| t.mark = *b"NE",
    // 20
    |t, _| t.room |= 8,
    |t, r| t.room |= 8 << r.below(5),
    |t, _| t.room |= 248,
    // 6
    |t, r| t.p.sender = 16 + r.below(240) as u8,
    |t, _| t.p.sender = t.office % 16,
    // 7 and 8
    |t, r| t.p.kind = some(r, &[0, 3, 255]),
    |t, r| t.p.start = some(r, &[0, L + 1, u32::MAX]),
    |t, r| t.p.number = some(r, &[0, L + 1, u32::MAX]),
    |t, _| (0..16).filter(|&k| has_seat(t.p.members, k) && k != t.own).take(1).for_each(|k| t.p.used[k] = L + 1),
    // 9 for the sender, and for the office given
    |t, _| t.without(t.sender),
    |t, _| t.without(t.office as usize % 16),
    // 10 and 19
    |t, r| t.p.used[t.absent] = 1 + r.below(L as usize) as u32,
    |t, _| t.uses_itself = true,
    // 2, by the room's own row, by another, by the own office of another, by the length
    |t, r| t.row()[rows::ACCEPTED + r.below(16)] = L + 1,
    |t, _| t.row()[rows::PRESENT] |= 65_536,
    |t, r| {
        let other = (t.room as usize + 1 + r.below(ROOMS - 1)) % ROOMS;
        t.table[place(other)][rows::START] = L + 1;
    },
    |t, r| {
        let other = (t.room as usize + 1 + r.below(ROOMS - 1)) % ROOMS;
        t.table[place(other)][rows::OWN] = 16;
    },
    |t, r| t.words = some(r, &[0, WORDS, TABLE - 1, TABLE + 1]),
    // 3
    |t, r| t.capacity = r.below(CAPACITY),
    |t, _| t.capacity = CAPACITY - 1,
    // 6 and 9 of the row's own office
    |t, _| t.p.sender = t.own as u8,
    |t, _| t.without(t.own),
    // 11, 12 and 13
    |t, _| t.old = true,
    |t, _| t.unreached = true,
    |t, _| t.too_high = true,
    |t, _| (t.old, t.too_high) = (true, true),
];
