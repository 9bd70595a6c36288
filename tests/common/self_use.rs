// Change request 8, proposals that claim to have used themselves, or nearly do: which kinds of them an office was
// handed, and what offices that follow the rules sent.
use crate::model::{has_seat, written_length, Event, Office, Proposal, What, FAST, L, PROPOSAL, SLOW};

// The reasons to refuse a proposal, in checking order.
const ORDER: [u8; 9] = [6, 7, 8, 9, 10, 19, 11, 12, 13];

// All that apply, each looked at by itself; 13 where it is the answer, or would be without 19.
fn reasons(o: &Office, p: &Proposal, answer: u8) -> Vec<u8> {
    let sender = p.sender as usize;
    let (known, seat) = (sender < 16, |office| has_seat(p.members, office));
    let applies = |reason| match reason {
        6 => !known || sender == o.own,
        7 => ![FAST, SLOW].contains(&p.kind),
        8 => [p.start, p.number].contains(&0) || p.used.iter().chain([&p.start, &p.number]).any(|&n| n > L),
        9 => !known || !seat(sender) || !seat(o.own),
        10 => (0..16).any(|k| p.used[k] > 0 && !seat(k)),
        19 => known && p.number <= p.used[sender],
        11 => known && o.accepted[sender] >= p.number,
        12 => o.number < p.used[o.own],
        _ => false,
    };
    let mut all: Vec<u8> = ORDER.into_iter().filter(|&reason| applies(reason)).collect();
    let high = match all[..] {
        [] => answer == 13,
        [19] => o.makes_above(&Event { room: 0, what: What::Proposal(*p) }),
        _ => false,
    };
    all.extend(high.then_some(13));
    all
}

pub const KINDS: [&str; 24] = [
    "19 alone, the used number for the sender equal to the proposal's own",
    "19 alone, above it",
    "19 alone, number 1 and used number 1",
    "19 alone, number L and used number L",
    "19 alone, the members not the net view",
    "accepted, the used number for the sender just below the proposal's own",
    "accepted, number 1 and used number 0",
    "accepted, number L and used number L - 1",
    "accepted, the used number for this office equal to the proposal's own or above",
    "12 alone, the used number for this office equal to the proposal's own or above",
    "accepted, a third office's used number equal to the proposal's own or above",
    "11 alone, the used number for the sender just below the proposal's own",
    "13, the used number for the sender just below the proposal's own",
    "6 where 19 alone applies too",
    "7 where 19 alone applies too",
    "8 for the start number where 19 alone applies too",
    "8 for number 0 where 19 and 11 apply too",
    "8 for the used number for the sender where 19 alone applies too",
    "9 for no seat of this office where 19 alone applies too",
    "9 for no seat of the sender where 10 and 19 apply too",
    "10 where 19 alone applies too",
    "19 where 11 alone applies too",
    "19 where 12 alone applies too",
    "19 where 13 alone applies too",
];

// The proposals that an office was handed. By sender and by office: 19 alone, and accepted with the used number for
// the sender just below the proposal's own.
#[derive(Clone)]
pub struct SelfUses {
    pub kinds: [u64; KINDS.len()],
    pub senders: [[u64; 2]; 16],
    pub offices: [[u64; 2]; 16],
    // the used number differs from the proposal's own by this bit alone: 19 alone, and accepted
    pub bits: [[u64; 2]; 31],
    // each answer was the first of the reasons
    pub agree: bool,
}

impl Default for SelfUses {
    fn default() -> SelfUses {
        let (kinds, each) = ([0; KINDS.len()], [[0; 2]; 16]);
        SelfUses { kinds, senders: each, offices: each, bits: [[0; 2]; 31], agree: true }
    }
}

impl SelfUses {
    // A proposal to which 1 to 5 and 20 do not apply, read for the own office of its room's state; that state as it
    // found it, and its answer.
    pub fn count(&mut self, o: &Office, record: &[u8], refusal: u8) {
        let p = Proposal::read(record);
        let reasons = reasons(o, &p, refusal);
        self.agree &= refusal == reasons.first().copied().unwrap_or(0);
        let sender = p.sender as usize;
        if sender > 15 {
            return;
        }
        for (n, holds) in self.kinds.iter_mut().zip(said_of(o, &p, &reasons)) {
            *n += holds as u64;
        }
        let (used, only) = (p.used[sender], [reasons == [19], reasons.is_empty()]);
        let near = [only[0], only[1] && used + 1 == p.number];
        for at in 0..2 {
            self.senders[sender][at] += near[at] as u64;
            self.offices[o.own][at] += near[at] as u64;
            let differ = used ^ p.number;
            if differ.is_power_of_two() && only[at] {
                self.bits[differ.trailing_zeros() as usize][at] += 1;
            }
        }
    }

    pub fn add(&mut self, other: &SelfUses) {
        fn each<const N: usize>(all: &mut [[u64; 2]; N], more: &[[u64; 2]; N]) {
            all.as_flattened_mut().iter_mut().zip(more.as_flattened()).for_each(|(n, more)| *n += more);
        }
        self.kinds.iter_mut().zip(other.kinds).for_each(|(n, more)| *n += more);
        each(&mut self.senders, &other.senders);
        each(&mut self.offices, &other.offices);
        each(&mut self.bits, &other.bits);
        self.agree &= other.agree;
    }
}

// By KINDS.
fn said_of(o: &Office, p: &Proposal, reasons: &[u8]) -> [bool; KINDS.len()] {
    let (sender, n) = (p.sender as usize, p.number);
    let (used, ours) = (p.used[sender], p.used[o.own]);
    let (alone, accepted) = (reasons == [19], reasons.is_empty());
    let just_below = n.checked_sub(1) == Some(used);
    let other = used < n && (0..16).any(|k| k != sender && k != o.own && p.used[k] >= n);
    let bad_start = p.start == 0 || p.start > L;
    [
        alone && used == n,
        alone && used > n,
        alone && (n, used) == (1, 1),
        alone && (n, used) == (L, L),
        alone && p.members != o.net,
        accepted && just_below,
        accepted && (n, used) == (1, 0),
        accepted && (n, used) == (L, L - 1),
        accepted && used < n && ours >= n,
        reasons == [12] && used < n && ours >= n,
        accepted && other,
        reasons == [11] && just_below,
        reasons == [13] && just_below,
        reasons == [6, 19],
        reasons == [7, 19],
        reasons == [8, 19] && bad_start && used <= L,
        reasons == [8, 19, 11] && !bad_start && n == 0,
        reasons == [8, 19] && !bad_start && n <= L && used > L,
        reasons == [9, 19],
        reasons == [9, 10, 19] && has_seat(p.members, o.own),
        reasons == [10, 19],
        reasons == [19, 11],
        reasons == [19, 12],
        reasons == [19, 13],
    ]
}

// Proposals of offices that follow the rules, from a fresh or restarted state.
#[derive(Clone, Copy, Default)]
pub struct Sent {
    pub proposals: u64,
    // the used number for the sender is not below the proposal's own; is just below
    pub self_uses: u64,
    pub just_below: u64,
}

impl Sent {
    // What an event wrote.
    pub fn count(&mut self, written: &[u8]) {
        let mut rest = written;
        while !rest.is_empty() {
            let length = written_length(rest);
            if length == PROPOSAL {
                let p = Proposal::read(rest);
                let used = p.used[p.sender as usize];
                self.proposals += 1;
                self.self_uses += (used >= p.number) as u64;
                self.just_below += (used.checked_add(1) == Some(p.number)) as u64;
            }
            rest = &rest[length..];
        }
    }

    pub fn add(&mut self, other: &Sent) {
        self.proposals += other.proposals;
        self.self_uses += other.self_uses;
        self.just_below += other.just_below;
    }
}
