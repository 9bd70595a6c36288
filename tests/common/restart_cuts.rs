// Plays of an office in one room or more whose server is cut and begins again: marks of all rooms go into one file
// before records leave, and a cut comes after any byte or any record. The office steps by the model.
use crate::Tally;
use crate::inputs::{a_play, some};
use crate::marks::{kind_of, Leave, BYTES, KINDS};
use crate::model::{number, report, room_of, Table, CAPACITY, L, PROPOSAL, ROOMS};
use crate::random::Random;
use crate::restart_inputs::{file_of, slowest};
use crate::rows::{self, place, TABLE};
use crate::self_use::Sent;

struct Cut;

// A cut after so many bytes of a record's mark comes before the record leaves, one at LEFT behind it.
const LEFT: usize = BYTES + 1;

// What left of one room, and what the server knew there.
#[derive(Clone, Copy, Default)]
struct Room {
    // the last number sent in a notice, as a proposal number, as a view's
    sent: [u32; 3],
    // the last mark that a record of this room called for, or that the server began at
    called: u32,
    // the net view that a cut has made it forget
    forgotten: u64,
    // records left in this room before the last restart, and since
    before: bool,
    since: bool,
}

#[derive(Clone, Copy, Default)]
struct Counts {
    // cuts inside a mark, between a mark and its record, behind a record that left
    cuts: [u64; 3],
    // records free to leave only since another room had called for a mark
    covered: u64,
    // restarts with two rooms or more that had sent before and after the one before
    both: u64,
}

struct Server {
    own: usize,
    table: Table,
    file: Vec<u8>,
    // the last mark of the file
    last: u32,
    rooms: [Room; ROOMS],
    // each number sent was above those sent before in its room
    rising: bool,
    // its proposals that left
    proposals: Sent,
    // one record in so many meets a cut
    calm: usize,
    counts: Counts,
}

impl Server {
    fn new(own: usize, file: Vec<u8>, calm: usize) -> Server {
        Server {
            own,
            table: Table::fresh(own),
            file,
            last: 0,
            rooms: [Room::default(); ROOMS],
            rising: true,
            proposals: Sent::default(),
            calm,
            counts: Counts::default(),
        }
    }

    // The first bytes of a mark, over an unfinished one.
    fn append(&mut self, mark: &[u8]) {
        let place = self.file.len() / BYTES * BYTES;
        let length = self.file.len().max(place + mark.len());
        self.file.resize(length, 0);
        self.file[place..place + mark.len()].copy_from_slice(mark);
    }

    // The records of one event leave in their order.
    fn send(&mut self, t: &mut Tally, random: &mut Random, written: &[u8]) -> Result<(), Cut> {
        let mut rest = written;
        while !rest.is_empty() {
            let capacity = BYTES + random.below(3);
            let out = random.bytes(capacity);
            let answer = t.before(self.last, rest, &out);
            let Leave::Free { length, mark } = answer else { panic!("a record by the rules may leave") };
            let inside = random.below(BYTES);
            let cut = if random.below(self.calm) == 0 { some(random, &[inside, BYTES, LEFT]) } else { usize::MAX };
            if let Some(due) = answer.due(self.last) {
                self.append(&due.bytes()[..cut.min(BYTES)]);
                self.last = mark;
                self.rooms[room_of(rest) as usize].called = mark;
                self.counts.cuts[0] += (1..BYTES).contains(&cut) as u64;
                self.counts.cuts[1] += (cut == BYTES) as u64;
            }
            if cut < LEFT {
                return Err(Cut);
            }
            self.note(&rest[..length]);
            rest = &rest[length..];
            if cut == LEFT {
                self.counts.cuts[2] += 1;
                return Err(Cut);
            }
        }
        Ok(())
    }

    fn note(&mut self, record: &[u8]) {
        let kind = kind_of(record).unwrap();
        let room = &mut self.rooms[room_of(record) as usize];
        let n = number(record, if record.len() == PROPOSAL { 17 } else { 3 });
        self.rising &= n > room.sent[kind];
        room.sent[kind] = n;
        room.since = true;
        self.counts.covered += KINDS[kind].read(record).iter().any(|&n| n > room.called) as u64;
        self.proposals.count(record);
    }

    // It begins again from its file, in all rooms at one number.
    fn restart(&mut self, t: &mut Tally) {
        let (refusal, table) = t.ask(self.own as u8, &self.file, TABLE);
        self.rising &= refusal == 0;
        self.last = table[rows::NUMBER];
        self.counts.both += (self.rooms.iter().filter(|room| room.before && room.since).count() > 1) as u64;
        for (at, room) in self.rooms.iter_mut().enumerate() {
            let net = self.table.rooms[at].net;
            self.table.rooms[at] = rows::read(&table[place(at)]).unwrap();
            room.forgotten = if net == 0 { room.forgotten } else { net };
            room.called = self.last;
            room.before |= room.since;
            room.since = false;
        }
    }

    // A record; before it, until no cut comes between, a report of the seats that the server knew of in its room.
    fn hand(&mut self, t: &mut Tally, random: &mut Random, record: &[u8]) {
        let room = room_of(record);
        while let Some(known @ 1..) = self.rooms.get(room as usize).map(|room| room.forgotten) {
            self.rooms[room as usize].forgotten = 0;
            self.event(t, random, &report(room, known, 0));
        }
        self.event(t, random, record);
    }

    fn event(&mut self, t: &mut Tally, random: &mut Random, record: &[u8]) {
        let mut out = Vec::new();
        self.table.step(self.own as u8, record, CAPACITY, &mut out);
        if self.send(t, random, &out).is_err() {
            self.restart(t);
        }
    }
}

pub fn all(t: &mut Tally) {
    let (mut rising, mut proposals, mut counts, mut at_l) = (true, Sent::default(), Counts::default(), 0);
    t.case("plays with cuts", |t| {
        let (mut r, slowest) = (Random(21), slowest());
        for case in 0..900 {
            let (own, records) = a_play(&mut r, 150);
            // one in five comes near the top
            let before = if case % 5 == 0 { 1985 + r.below(16) } else { 0 };
            let mut server = Server::new(own, file_of(&slowest[..before]), 2 + r.below(12));
            server.restart(t);
            records.iter().for_each(|record| server.hand(t, &mut r, record));
            rising &= server.rising;
            proposals.add(&server.proposals);
            (0..3).for_each(|kind| counts.cuts[kind] += server.counts.cuts[kind]);
            counts.covered += server.counts.covered;
            counts.both += server.counts.both;
            at_l += (server.last == L) as u64;
        }
    });
    t.verdicts.check("plays with cuts: every number sent is above those sent before in its room", rising);
    t.verdicts.check("plays with cuts: no proposal that left claims to have used itself", proposals.self_uses == 0);
    t.often("proposals that left", proposals.proposals, 10_000);
    t.often("proposals that left, the used number for the sender just below", proposals.just_below, 500);
    let said = ["cuts inside a mark", "cuts between a mark and its record", "cuts behind a record that left"];
    for (what, n) in said.into_iter().zip(counts.cuts) {
        t.often(what, n, 1000);
    }
    t.often("records that left under a mark of another room", counts.covered, 1000);
    t.often("restarts of two rooms or more that had sent before and after the one before", counts.both, 1000);
    t.often("plays whose last mark rose to L", at_l, 10);
}
