// Reports that change nothing: how they are made, and of which kinds those are that an office was handed.
use crate::model::{has_seat, report, room_of, set, Event, Mode, Office, What, ROOMS};
use crate::random::Random;

// A report that leaves a net view equal to what it was.
pub fn is_repeat(net: u64, record: &[u8]) -> bool {
    (net | set(record, 3)) & !set(record, 11) == net
}

// A repeat for an office with this net view in a room. The last report again is one unless it was refused; before the
// first there is none.
pub fn repeat(random: &mut Random, room: u8, net: u64, last: &[u8]) -> Vec<u8> {
    let (some, more) = (random.next(), random.next());
    match random.below(6) {
        0 | 1 if !last.is_empty() => last.to_vec(),
        2 => report(room, some, (some | more) & !net),
        3 => report(room, 0, some & more & !net),
        4 => report(room, some & net, 0),
        _ => report(room, 0, 0),
    }
}

pub const KINDS: [&str; 7] = [
    "the last report again",
    "the last report again, after agreement",
    "an empty report",
    "a seat in both sets, nothing changed",
    "only absent seats leave",
    "only present seats join",
    "a seat in both sets, the net view changed",
];

// The reports that an office was handed, by kind. Repeats count where it has a seat in the net view: without one
// nothing happens in any case.
#[derive(Clone, Default)]
pub struct Reports {
    // the last that was no repeat, of each room
    pub last: [Vec<u8>; ROOMS],
    pub repeats: u64,
    // repeats that would be refused 13 if they were heard
    pub at_ceiling: u64,
    // repeats that wrote a byte or changed the state
    pub heard: u64,
    pub kinds: [u64; 7],
}

impl Reports {
    // A report that passed all before 13, the office in its room as it found it, and whether it was accepted
    // with 0 bytes and the state as it was.
    pub fn count(&mut self, office: &Office, record: &[u8], nothing: bool) {
        let (joining, leaving, last) = (set(record, 3), set(record, 11), &mut self.last[room_of(record) as usize]);
        let both = joining & leaving != 0;
        if !is_repeat(office.net, record) {
            self.kinds[6] += both as u64;
            *last = record.to_vec();
        } else if !nothing {
            self.heard += 1;
        } else if has_seat(office.net, office.own) {
            let (again, agreed) = (record == &last[..], office.mode == Mode::None);
            let (nobody_joins, nobody_leaves) = (joining == 0, leaving == 0);
            let kinds = [
                again,
                again && agreed,
                nobody_joins && nobody_leaves,
                both,
                nobody_joins && !nobody_leaves,
                nobody_leaves && !nobody_joins,
            ];
            for (n, holds) in self.kinds.iter_mut().zip(kinds) {
                *n += holds as u64;
            }
            self.repeats += 1;
            self.at_ceiling += refuses_if_heard(office) as u64;
        }
    }

    pub fn add(&mut self, other: &Reports) {
        self.repeats += other.repeats;
        self.at_ceiling += other.at_ceiling;
        self.heard += other.heard;
        for (n, more) in self.kinds.iter_mut().zip(other.kinds) {
            *n += more;
        }
    }
}

// A report that is heard and comes to the same net view, from the empty one, is refused 13.
fn refuses_if_heard(office: &Office) -> bool {
    let other = Office { net: 0, ..*office };
    other.makes_above(&Event { room: 0, what: What::Report { joining: office.net, leaving: 0 } })
}
