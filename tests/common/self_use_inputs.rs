// What check 19 is tried with: proposals that pass, with none, one or two faults, and with used numbers for the sender
// about the proposal's own.
use crate::inputs::some;
use crate::model::{has_seat, offices, Proposal, CAPACITY, FAST, L, SLOW};
use crate::net_view;
use crate::random::Random;
use crate::rows::{ACCEPTED, NUMBER, OWN, START};

// A proposal for the row of a room, with an output of a length.
pub struct Asked {
    pub room: u8,
    pub row: Vec<u32>,
    pub p: Proposal,
    pub capacity: usize,
    own: usize,
    sender: usize,
    // two others: one with a seat in the net view if there is any, one without a seat in the members
    third: usize,
    absent: usize,
}

impl Asked {
    // One that passes all before 13, with any used number for the sender below the proposal's own. Most are of an
    // office of the net view, if there is another than this one.
    pub fn sound(random: &mut Random, room: u8, row: &[u32]) -> Asked {
        let (own, net, number) = (row[OWN] as usize, net_view(row), row[NUMBER]);
        let mut senders: Vec<usize> = offices(net).filter(|&k| k != own).collect();
        if senders.is_empty() || random.below(4) == 0 {
            senders = (0..16).filter(|&k| k != own).collect();
        }
        let sender = some(random, &senders);
        let mut rest: Vec<usize> = (0..16).filter(|&k| k != own && k != sender).collect();
        rest.sort_by_key(|&k| !has_seat(net, k));
        let (third, absent) = (rest[0], rest[rest.len() - 1]);
        let mut members = net & !(15 << (4 * absent)) | 1 << (4 * own) | 1 << (4 * sender);
        if random.below(3) == 0 {
            members |= 1 << (4 * third);
        }
        let any = 1 + random.below(L as usize) as u32;
        let n = some(random, &[1, 2, 3, number.max(1), number.max(1), number + 1, any, any, L - 1, L]).min(L);
        let mut used = [0; 16];
        for k in offices(members).filter(|&k| k != sender) {
            used[k] = some(random, &[0, 0, 1, number, number / 2]).min(number);
        }
        let mut row = row.to_vec();
        row[ACCEPTED + sender] = random.below(n as usize) as u32;
        let start = some(random, &[1, 2, row[START].max(1), any]);
        let p = Proposal { sender: sender as u8, kind: some(random, &[FAST, SLOW]), members, start, number: n, used };
        Asked { room, row, p, capacity: CAPACITY, own, sender, third, absent }
    }

    // With this used number for the sender, where that is an office.
    pub fn using(mut self, n: u32) -> Asked {
        if let Some(used) = self.p.used.get_mut(self.p.sender as usize) {
            *used = n;
        }
        self
    }
}

pub type Fault = fn(&mut Asked);

// None, then a fault for each reason and each part of it; the last two are none where 12 and 10 do not apply.
pub const FAULTS: [Fault; 21] = [
    |_| (),
    // 2 and 3
    |a| a.row[NUMBER] = L + 1,
    |a| a.capacity = CAPACITY - 1,
    // 6 and 7
    |a| a.p.sender = a.own as u8,
    |a| a.p.sender = 16,
    |a| a.p.kind = 0,
    |a| a.p.kind = 3,
    // 8
    |a| a.p.start = 0,
    |a| a.p.start = L + 1,
    |a| a.p.number = 0,
    |a| a.p.number = L + 1,
    |a| a.p.used[a.third] = L + 1,
    // 9 and 10
    |a| a.p.members &= !(15 << (4 * a.own)),
    |a| a.p.members &= !(15 << (4 * a.sender)),
    |a| a.p.used[a.absent] = 1,
    // 11 and 12
    |a| a.row[ACCEPTED + a.sender] = a.p.number.min(L),
    |a| a.p.used[a.own] = a.row[NUMBER] + 1,
    // 13, by a proposal number and by a view number
    |a| (a.p.number, a.p.kind, a.p.used[a.own]) = (L, FAST, a.row[NUMBER]),
    |a| a.p.start = L,
    |a| a.p.used[a.own] = a.p.number,
    |a| a.p.used[a.third] = a.p.number,
];

// The used number for the sender by the proposal's own number.
pub const RELATIONS: [fn(u32) -> u32; 9] = [
    |_| 0,
    |n| n / 2,
    |n| n.saturating_sub(2),
    |n| n.saturating_sub(1),
    |n| n,
    |n| n.saturating_add(1),
    |n| n.saturating_add(n),
    |_| L,
    |_| L + 1,
];
