// Numbers near L: offices and events whose numbers are low but for one or two that the event can build on, or but for
// those that it builds on never.
use crate::inputs::some;
use crate::model::{has_seat, number, offices, report, written_length};
use crate::model::{Mode, Office, Proposal, View, CAPACITY, FAST, L, NOTICE, PROPOSAL, ROOMS, SLOW};
use crate::random::Random;
use crate::{rows, Compared, Tally};

// Distances from L, from 0 on.
const FAR: usize = 5;
// Offices in the net view.
const MOST: usize = 4;
const MODES: [Mode; 3] = [Mode::None, Mode::Fast, Mode::Slow];

#[derive(Clone, Copy, PartialEq)]
enum Event {
    Repeat,
    Change,
    // the report takes this office's own seats out
    Out,
    Proposal { matches: bool, kind: u8, uses: bool },
}

const EVENTS: [(&str, Event); 11] = [
    ("a repeat", Event::Repeat),
    ("a report that changes the net view", Event::Change),
    ("a report that takes the own seats out", Event::Out),
    ("fast, matching", Event::Proposal { matches: true, kind: FAST, uses: false }),
    ("slow, matching", Event::Proposal { matches: true, kind: SLOW, uses: false }),
    ("fast, matching, using the own number", Event::Proposal { matches: true, kind: FAST, uses: true }),
    ("slow, matching, using the own number", Event::Proposal { matches: true, kind: SLOW, uses: true }),
    ("fast, not matching", Event::Proposal { matches: false, kind: FAST, uses: false }),
    ("slow, not matching", Event::Proposal { matches: false, kind: SLOW, uses: false }),
    ("fast, not matching, using the own number", Event::Proposal { matches: false, kind: FAST, uses: true }),
    ("slow, not matching, using the own number", Event::Proposal { matches: false, kind: SLOW, uses: true }),
];

// Those that make a number.
fn makes(event: Event) -> bool {
    matches!(event, Event::Change | Event::Proposal { matches: true, .. })
}

// A number that an event can build on. The round is the number that all slow proposals have in common.
#[derive(Clone, Copy, PartialEq)]
enum Base {
    Start,
    Number,
    View,
    StoredStart(usize),
    StoredNumber(usize),
    ReceivedStart,
    ReceivedNumber,
    Round,
}

// Its kinds, each with the distance from which on no event gets above L where this number alone is high. A start
// number can rise by 1 and the view be 1 above it; a report can raise a proposal number twice, as in day I.
const KINDS: [(&str, usize); 12] = [
    ("the start number", 2),
    ("the proposal number", 2),
    ("the view number", 1),
    ("the received start number", 1),
    ("the received proposal number", 1),
    ("the number of a slow round", 2),
    ("the own stored start number", 1),
    ("the own stored proposal number", 2),
    ("a stored start number", 1),
    ("a stored proposal number", 2),
    ("a start number replaced or stored outside the net view", 0),
    ("a proposal number replaced or stored outside the net view", 0),
];

// An office in a room, and an event at it.
#[derive(Clone)]
struct Case {
    room: u8,
    office: Office,
    event: Event,
    report: Vec<u8>,
    received: Option<Proposal>,
    // the offices whose stored proposals are to name the own number, as it is at the slow test, as used
    using: Vec<usize>,
    // the net view as the event leaves it
    net: u64,
}

fn seats(random: &mut Random, o: usize) -> u64 {
    (1 + random.below(15) as u64) << (4 * o)
}

fn low(random: &mut Random) -> u32 {
    1 + random.below(6) as u32
}

fn high(random: &mut Random) -> u32 {
    L - random.below(FAR) as u32
}

impl Case {
    // So many offices in the net view, this one among them unless the report takes it out. All numbers are low.
    fn new(random: &mut Random, count: usize, mode: Mode, event: Event) -> Case {
        let mut all: Vec<usize> = (0..16).collect();
        (0..15).for_each(|k| all.swap(k, k + random.below(16 - k)));
        let (own, sender, absent) = (all[0], all[1], all[15]);
        let inside = &all[..count];
        let before = inside.iter().fold(0, |set, &o| set | seats(random, o));
        let net = if event == Event::Out { before & !(15 << (4 * own)) } else { before };
        let round = 1 + low(random);
        let number = if mode == Mode::Slow { round } else { round - random.below(2) as u32 };
        let view = View { number: low(random), members: before, starts: [0; 16] };
        let office = Office { mode, net: before, view, start: low(random), number, ..Office::fresh(own) };
        let room = random.below(ROOMS) as u8;
        let mut case = Case { room, office, event, report: Vec::new(), received: None, using: Vec::new(), net };
        case.store(random, inside, round);
        if let Event::Proposal { matches, kind, .. } = event {
            let members = if matches { net } else { net | 1 << (4 * own) | 1 << (4 * sender) | 1 << (4 * absent) };
            let number = if random.below(4) == 0 { low(random) } else { round };
            let (sender, start) = (sender as u8, low(random));
            case.received = Some(Proposal { sender, kind, members, start, number, used: [0; 16] });
        } else {
            case.make_report(random, inside);
        }
        case
    }

    // Mostly the other offices of the net view all have fast proposals with it, or all slow ones of one round, so that
    // agreement is near. Some offices outside have one too.
    fn store(&mut self, random: &mut Random, inside: &[usize], round: u32) {
        let (own, mode, habit) = (self.office.own, self.office.mode, random.below(4));
        for o in 0..16 {
            let any = 1 + random.below(2) as u8;
            let (there, kind) = match mode {
                Mode::Fast if o == own => (true, FAST),
                Mode::Slow if o == own => (true, SLOW),
                Mode::None if o == own => (random.below(8) == 0, any),
                _ if !inside.contains(&o) => (random.below(10) == 0, any),
                _ => [(true, FAST), (true, SLOW), (true, any), (random.below(2) == 0, any)][habit],
            };
            if !there {
                continue;
            }
            let matches = inside.contains(&o) && habit < 3 || random.below(2) == 0;
            let members = if matches { self.net } else { self.net ^ seats(random, o) };
            let (start, number) = match o == own {
                true => (self.office.start, self.office.number),
                _ if kind == SLOW && random.below(8) != 0 => (low(random), round),
                _ => (low(random), low(random)),
            };
            self.office.stored[o] = Some(Proposal { sender: o as u8, kind, members, start, number, used: [0; 16] });
            if random.below(6) == 0 {
                self.using.push(o);
            }
        }
    }

    // The report, and the net view before it. Seats that are there may join, and a seat may be in both sets.
    fn make_report(&mut self, random: &mut Random, inside: &[usize]) {
        let (net, any) = (self.net, random.next() & random.next());
        if self.event == Event::Change {
            let o = some(random, inside);
            let came = seats(random, o) & net;
            let (came, went) = some(random, &[(came, 0), (came, any & !net), (0, any & !net)]);
            let nobody = came | went == 0;
            self.office.net = net & !came | if nobody { 1 << (!net).trailing_zeros() } else { went };
        }
        let (before, both) = (self.office.net, any & !net & random.next());
        self.report = report(self.room, net & !before | any & net | both, before & !net | both);
    }

    fn bases(&self) -> Vec<Base> {
        let mut all = vec![Base::Start, Base::Number, Base::View, Base::Round];
        for o in (0..16).filter(|&o| self.office.stored[o].is_some()) {
            all.extend([Base::StoredStart(o), Base::StoredNumber(o)]);
        }
        if self.received.is_some() {
            all.extend([Base::ReceivedStart, Base::ReceivedNumber]);
        }
        all
    }

    fn kind(&self, base: Base) -> usize {
        let of = |o: usize| match () {
            _ if !has_seat(self.net, o) || self.received.is_some_and(|p| p.sender as usize == o) => 10,
            _ if o == self.office.own => 6,
            _ => 8,
        };
        match base {
            Base::Start => 0,
            Base::Number => 1,
            Base::View => 2,
            Base::ReceivedStart => 3,
            Base::ReceivedNumber => 4,
            Base::Round => 5,
            Base::StoredStart(o) => of(o),
            Base::StoredNumber(o) => of(o) + 1,
        }
    }

    fn raise(&mut self, base: Base, n: u32) {
        let office = &mut self.office;
        match base {
            Base::Start => office.start = n,
            Base::Number => office.number = n,
            Base::View => office.view.number = n,
            Base::StoredStart(o) => office.stored[o].as_mut().unwrap().start = n,
            Base::StoredNumber(o) => office.stored[o].as_mut().unwrap().number = n,
            Base::ReceivedStart => self.received.as_mut().unwrap().start = n,
            Base::ReceivedNumber => self.received.as_mut().unwrap().number = n,
            Base::Round => {
                if office.mode == Mode::Slow {
                    office.number = n;
                }
                let all = office.stored.iter_mut().chain([&mut self.received]).flatten();
                all.filter(|p| p.kind == SLOW).for_each(|p| p.number = n);
            }
        }
    }

    // The numbers that no event builds on: last accepted, used, start numbers of the view.
    fn raise_idle(&mut self, random: &mut Random) {
        let (office, net) = (&mut self.office, self.net);
        for numbers in [&mut office.accepted, &mut office.used, &mut office.view.starts] {
            numbers.fill_with(|| high(random));
        }
        for p in office.stored.iter_mut().flatten() {
            p.used.fill_with(|| high(random));
        }
        if let Some(p) = &mut self.received {
            offices(p.members & net).for_each(|k| p.used[k] = high(random));
        }
    }

    // The record, with used numbers that go with the numbers as they now are; it passes all checks before 13.
    fn record(&mut self, random: &mut Random) -> Vec<u8> {
        let office = &mut self.office;
        let stored = offices(self.net).filter_map(|o| office.stored[o]).map(|p| p.number);
        let next = stored.fold(office.number, u32::max) + 1;
        let own_number = if self.event == Event::Change { next.min(L) } else { office.number };
        for &o in &self.using {
            office.stored[o].as_mut().unwrap().used[office.own] = own_number;
        }
        let (Some(p), Event::Proposal { uses, .. }) = (&mut self.received, self.event) else {
            return self.report.clone();
        };
        let sender = p.sender as usize;
        p.used[sender] = some(random, &[0, p.number - 1]);
        p.used[office.own] = if uses { office.number } else { office.number - 1 };
        office.accepted[sender] = some(random, &[0, p.number - 1]);
        p.bytes(self.room)
    }

    fn row(&self) -> Vec<u32> {
        let mut row = rows::fresh(self.office.own);
        rows::put(&mut row, &self.office);
        (0..16).for_each(|o| rows::put_stored(&mut row, o, self.office.stored[o]));
        row
    }
}

// Any words, most of them high, where nothing is stored.
fn fill_empty(random: &mut Random, row: &mut [u32]) {
    let empty: Vec<usize> = (0..16).filter(|&o| !rows::present(row, o)).collect();
    for o in empty {
        let any = random.next() as u32;
        let mut word = || some(random, &[L - 1, L, L + 1, u32::MAX, any]);
        row[rows::slot(o)..][..4].fill_with(&mut word);
        row[rows::slot_numbers(o)..][..18].fill_with(&mut word);
    }
}

// By the model: 13, and accepted.
type Answers = [u64; 2];

#[derive(Default)]
struct Met {
    // where a number alone is high, by that number and its distance
    alone: [[Answers; FAR]; 12],
    // where two are, by their distances
    pairs: [[Answers; FAR]; FAR],
    // by event, mode and offices in the net view
    events: [[[Answers; MOST]; 3]; 11],
    // by room
    rooms: [Answers; ROOMS],
    // accepted, with a notice, a proposal, a view of number L
    made: [u64; 3],
    idle: u64,
    // answers that are neither, and 13 where by document 01 nothing above L is made
    strange: u64,
}

impl Met {
    // The answer's place.
    fn count(&mut self, room: u8, refusal: u8, written: &[u8], low_enough: bool) -> usize {
        self.rooms[room as usize][(refusal == 0) as usize] += 1;
        self.strange += (![0, 13].contains(&refusal) || refusal == 13 && low_enough) as u64;
        let mut rest = written;
        while !rest.is_empty() {
            let (record, more) = rest.split_at(written_length(rest));
            let (kind, at) = match record.len() {
                NOTICE => (0, 3),
                PROPOSAL => (1, 17),
                _ => (2, 3),
            };
            self.made[kind] += (number(record, at) == L) as u64;
            rest = more;
        }
        (refusal == 0) as usize
    }
}

// A case for each event, mode and number of offices, as often as given. Where the own office is alone, nothing of
// another matches.
fn each(random: &mut Random, times: usize, mut run: impl FnMut(&mut Random, Case, [usize; 3])) {
    for at in 0..11 * 3 * MOST * times {
        let (event, mode, count) = (at % 11, at / 11 % 3, at / 33 % MOST);
        if count > 0 || !matches!(EVENTS[event].1, Event::Proposal { matches: true, .. }) {
            let case = Case::new(random, count + 1, MODES[mode], EVENTS[event].1);
            run(random, case, [event, mode, count]);
        }
    }
}

fn alone(c: &mut Compared, met: &mut Met) {
    each(&mut Random(8), 120, |r, case, [event, mode, count]| {
        for base in case.bases() {
            for distance in 0..FAR {
                let mut raised = case.clone();
                raised.raise(base, L - distance as u32);
                let record = raised.record(r);
                let refusal = c.aside_row(case.room, &raised.row(), &record, CAPACITY);
                let kind = case.kind(base);
                let low_enough = !makes(case.event) || distance >= KINDS[kind].1;
                let answer = met.count(case.room, refusal, &c.written, low_enough);
                met.alone[kind][distance][answer] += 1;
                met.events[event][mode][count][answer] += 1;
            }
        }
    });
}

fn pairs(c: &mut Compared, met: &mut Met) {
    each(&mut Random(9), 80, |r, case, [event, mode, count]| {
        let bases = case.bases();
        for (k, &first) in bases.iter().enumerate() {
            for &second in &bases[..k] {
                let distances = [r.below(FAR), r.below(FAR)];
                let mut raised = case.clone();
                if r.below(2) == 0 {
                    raised.raise_idle(r);
                }
                raised.raise(first, L - distances[0] as u32);
                raised.raise(second, L - distances[1] as u32);
                let record = raised.record(r);
                let mut row = raised.row();
                if r.below(2) == 0 {
                    fill_empty(r, &mut row);
                }
                let refusal = c.aside_row(case.room, &row, &record, CAPACITY);
                // an event adds at most 2
                let low_enough = !makes(case.event) || distances.iter().all(|&d| d >= 2);
                let answer = met.count(case.room, refusal, &c.written, low_enough);
                met.pairs[distances[0]][distances[1]][answer] += 1;
                met.events[event][mode][count][answer] += 1;
            }
        }
    });
}

fn idle(c: &mut Compared, met: &mut Met) {
    each(&mut Random(10), 400, |r, mut case, _| {
        case.raise_idle(r);
        let record = case.record(r);
        let mut row = case.row();
        fill_empty(r, &mut row);
        let refusal = c.aside_row(case.room, &row, &record, CAPACITY);
        met.count(case.room, refusal, &c.written, true);
        met.idle += 1;
    });
}

pub fn all(t: &mut Tally) {
    let mut met = Met::default();
    t.case("one number near L, all others low", |c| alone(c, &mut met));
    t.case("two numbers near L", |c| pairs(c, &mut met));
    t.case("near L only what no event builds on, and where nothing is stored", |c| idle(c, &mut met));
    t.verdicts.check("near L: 13 only where a number above L is made, and no other refusal", met.strange == 0);
    for (answer, what) in ["13", "accepted"].into_iter().enumerate() {
        let least = met.rooms.iter().map(|n| n[answer]).min().unwrap();
        t.often(&format!("near L: {what}, of the room with fewest"), least, 5000);
    }
    t.often("high numbers that no event builds on", met.idle, 40_000);
    for (k, what) in ["notices", "proposals", "views"].into_iter().enumerate() {
        t.often(&format!("{what} of number L"), met.made[k], 1000);
    }
    for (k, (what, reach)) in KINDS.into_iter().enumerate() {
        for distance in 0..FAR {
            let [refused, accepted] = met.alone[k][distance];
            let what = format!("{what} at L - {distance}, all others low");
            if distance < reach {
                t.often(&format!("{what}: 13"), refused, 200);
            }
            t.often(&format!("{what}: accepted"), accepted, 2000);
        }
    }
    let least = |answer: usize, to: usize| {
        let near = (0..FAR * FAR).filter(|at| (at / FAR).min(at % FAR) < to);
        near.map(|at| met.pairs[at / FAR][at % FAR][answer]).min().unwrap()
    };
    t.often("two numbers near L: 13, at the distances with fewest", least(0, 2), 100);
    t.often("two numbers near L: accepted, at the distances with fewest", least(1, FAR), 1000);
    for (k, (what, event)) in EVENTS.into_iter().enumerate() {
        let alone = matches!(event, Event::Proposal { matches: true, .. }) as usize;
        let came = met.events[k].iter().flat_map(|counts| &counts[alone..]);
        let least = |answer: usize| came.clone().map(|n| n[answer]).min().unwrap();
        t.often(&format!("near L, {what}: accepted, of the mode and offices with fewest"), least(1), 300);
        if makes(event) {
            t.often(&format!("near L, {what}: 13, of the mode and offices with fewest"), least(0), 100);
        }
    }
}
