// Change request 10, the order of the reasons to refuse of both calls in turn: all that apply to an input, each looked
// at by itself, and which of them came together.
use crate::model::{has_seat, Event, Proposal, What, CAPACITY, FAST, L, PROPOSAL, REPORT, ROOMS, SLOW};
use crate::rows::{self, place, TABLE};
use crate::verdicts::Verdicts;

// The numbers in checking order. 6 and 9 come twice: for the office given, and for the own office of the room's row
// where that is another.
pub const ORDER: [u8; 17] = [1, 4, 5, 20, 6, 7, 8, 9, 10, 19, 2, 3, 6, 9, 11, 12, 13];
const OWN_6: usize = 12;
const OWN_9: usize = 13;
const OWN_12: usize = 15;

// The first is never answered where the second applies too. A sender that is the office given is not the row's own
// office, where that is another. Where the sender is the row's own office and has no seat in the members, 9 is
// answered; where that office has no seat there and a used number above 0, 10.
const NEVER: [(usize, usize); 3] = [(4, OWN_6), (OWN_6, OWN_9), (OWN_9, OWN_12)];

// Places in ORDER.
pub type Reasons = [bool; ORDER.len()];

// A table with a record that is read for an office, and an output of a length.
pub struct Input<'a> {
    pub office: u8,
    pub table: &'a [u32],
    pub sound: bool,
    pub record: &'a [u8],
    pub capacity: usize,
}

impl Input<'_> {
    // The fields at their places, also under another mark or with more bytes.
    fn proposal(&self) -> Option<Proposal> {
        let is_report = self.record.starts_with(b"NE");
        (!is_report && self.record.len() >= PROPOSAL).then(|| Proposal::read(&self.record[..PROPOSAL]))
    }

    fn event(&self) -> Option<Event> {
        let room = *self.record.get(2)? % ROOMS as u8;
        if let Some(p) = self.proposal() {
            return Some(Event { room, what: What::Proposal(p) });
        }
        let is_report = self.record.starts_with(b"NE") && self.record.len() >= REPORT;
        is_report.then(|| Event { room, ..Event::of(&self.record[..REPORT]) })
    }

    // Above 7 a room has no row; the one that the low bits pick is asked all the same, so that it is known what else
    // would refuse the record.
    fn row(&self) -> Option<&[u32]> {
        let room = *self.record.get(2)? as usize % ROOMS;
        (self.table.len() == TABLE).then(|| &self.table[place(room)])
    }

    // All that apply, in checking order. 13 where it is the answer, or would be if nothing else were wrong with the
    // event.
    pub fn reasons(&self, answer: u8) -> Reasons {
        let (record, length, office) = (self.record, self.record.len(), self.office as usize);
        let mark = [b"NE", b"PR"].into_iter().position(|mark| record.starts_with(mark));
        let lengths = mark.map_or(&[REPORT, PROPOSAL][..], |at| [&[REPORT][..], &[PROPOSAL]][at]);
        let proposal = self.proposal();
        let said = |applies: &dyn Fn(&Proposal) -> bool| proposal.as_ref().is_some_and(applies);
        let row = self.row().filter(|row| row[rows::OWN] <= 15);
        // with the own office of the row
        let by_row = |applies: &dyn Fn(&Proposal, &[u32], usize) -> bool| match (&proposal, row) {
            (Some(p), Some(row)) => applies(p, row, row[rows::OWN] as usize),
            _ => false,
        };
        let seat = |p: &Proposal, office: usize| office <= 15 && has_seat(p.members, office);
        let mut all = [
            (1, self.office > 15),
            (4, mark.is_none()),
            (5, !lengths.contains(&length)),
            (20, record.get(2).is_some_and(|&room| room > 7)),
            (6, said(&|p| p.sender > 15 || p.sender == self.office)),
            (7, said(&|p| ![FAST, SLOW].contains(&p.kind))),
            (8, said(&|p| [p.start, p.number].contains(&0) || p.used.iter().chain([&p.start, &p.number]).any(above))),
            (9, said(&|p| !(seat(p, p.sender as usize) && seat(p, office)))),
            (10, said(&|p| (0..16).any(|k| p.used[k] > 0 && !seat(p, k)))),
            (19, said(&|p| p.used.get(p.sender as usize).is_some_and(|&used| p.number <= used))),
            (2, !self.sound),
            (3, self.capacity < CAPACITY),
            (6, by_row(&|p, _, own| own != office && p.sender as usize == own)),
            (9, by_row(&|p, _, own| own != office && !seat(p, own))),
            (11, by_row(&|p, row, _| p.sender <= 15 && row[rows::ACCEPTED + p.sender as usize] >= p.number)),
            (12, by_row(&|p, row, own| row[rows::NUMBER] < p.used[own])),
            (13, answer == 13),
        ];
        if all[..16].iter().any(|&(_, applies)| applies) {
            all[16].1 = self.makes_above();
        }
        assert_eq!(all.map(|(number, _)| number), ORDER);
        all.map(|(_, applies)| applies)
    }

    fn makes_above(&self) -> bool {
        let row = self.row().filter(|row| rows::passes(row));
        let (Some(office), Some(event)) = (row.and_then(rows::read), self.event()) else { return false };
        office.makes_above(&event)
    }
}

fn above(number: &u32) -> bool {
    *number > L
}

#[derive(Clone, Default)]
pub struct Orders {
    // nothing else applies
    pub alone: [u64; ORDER.len()],
    // the first is answered, and the second applies too
    pub pairs: [[u64; ORDER.len()]; ORDER.len()],
    // answers that are not the first of the reasons
    pub wrong: u64,
}

impl Orders {
    pub fn count(&mut self, reasons: &Reasons, answer: u8) {
        let mut applying = (0..ORDER.len()).filter(|&at| reasons[at]);
        let Some(first) = applying.next() else {
            self.wrong += (answer != 0) as u64;
            return;
        };
        self.wrong += (answer != ORDER[first]) as u64;
        let mut alone = true;
        for later in applying {
            self.pairs[first][later] += 1;
            alone = false;
        }
        self.alone[first] += alone as u64;
    }

    // Each reason by itself, and each two that can apply at once, the first answered.
    pub fn met(&self, verdicts: &mut Verdicts, least: u64) {
        verdicts.check("each answer is the first of the reasons that apply", self.wrong == 0);
        let mut often = |what: String, n: u64| {
            verdicts.check(&format!("{what}: at least {least}, came {n}"), n >= least);
        };
        let mut fewest = u64::MAX;
        for first in 0..ORDER.len() {
            often(format!("{} alone", name(first)), self.alone[first]);
            for later in first + 1..ORDER.len() {
                let n = self.pairs[first][later];
                if !NEVER.contains(&(first, later)) {
                    often(format!("{} where {} applies too", name(first), name(later)), n);
                    fewest = fewest.min(n);
                }
            }
        }
        println!("  two reasons at once, of the 133 pairs that with fewest: {fewest}");
        verdicts.check("no pair came that cannot", NEVER.iter().all(|&(first, later)| self.pairs[first][later] == 0));
    }
}

fn name(at: usize) -> String {
    let own = [OWN_6, OWN_9].contains(&at);
    format!("{}{}", ORDER[at], if own { " of the row's own office" } else { "" })
}
