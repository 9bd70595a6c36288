// Sixteen offices by the calls for C that hand each other only what they sent, in one room or more. A link carries the
// proposals of all rooms in one row. Each office keeps one file of high marks for all its rooms; now and then one is
// cut, after any byte put into its file or any record that left, and begins again from it, in all rooms.
use crate::inputs::{rooms, some};
use crate::model::{number, offices, report, room_of, Proposal, CAPACITY, L, NOTICE, PROPOSAL, ROOMS};
use crate::net_view;
use crate::random::Random;
use crate::restart_calls::{room_mark_before, room_restart};
use crate::room_fresh;
use crate::rows::{fresh_table, place, NUMBER, START, TABLE, VIEW_NUMBER};
use crate::self_use::Sent;
use std::collections::VecDeque;

const MARK: usize = 10;
// More actions than an event has: a notice, two proposals and a mark for each.
const ALL: usize = 40;

#[derive(Default)]
pub struct Met {
    pub sent: Sent,
    // all events, and deliveries of proposals
    pub answers: [u64; 21],
    pub delivered: [u64; 21],
    pub lost: u64,
    // from a file with a mark, and the proposals sent after one, by room
    pub restarts: u64,
    pub after_restart: [u64; ROOMS],
    // restarts at which more than one room had given numbers out, and those that left a room at another number
    pub shared: u64,
    pub wrong_restarts: u64,
    // records that need no mark because of another room's, and numbers that are not above the last that left the room
    // as a number of their kind
    pub covered: u64,
    pub twice: u64,
    // proposals that found one of another room before them on their link
    pub behind: u64,
}

struct Server {
    table: Vec<u32>,
    file: Vec<u8>,
    // the last mark of the file
    last: u32,
    restarted: bool,
    // for each room the last number that left as a proposal number, in a notice and as a view number
    gone: [[u32; 3]; ROOMS],
    // for each room the last mark of a file of its own
    alone: [u32; ROOMS],
}

impl Server {
    fn fresh(own: usize) -> Server {
        let mut table = vec![0; TABLE];
        let refusal = unsafe { room_fresh(own as u8, table.as_mut_ptr(), TABLE) };
        assert_eq!(refusal, 0, "a fresh office is made");
        let gone = [[0; 3]; ROOMS];
        Server { table, file: Vec::new(), last: 0, restarted: false, gone, alone: [0; ROOMS] }
    }

    // The file is all that it has.
    fn begin_again(&mut self, own: usize, met: &mut Met) {
        let (table, file) = (&mut self.table, &self.file);
        let refusal = unsafe { room_restart(own as u8, file.as_ptr(), file.len(), table.as_mut_ptr(), TABLE) };
        assert_eq!(refusal, 0, "a file that was kept by the calls is taken");
        self.last = file[..file.len() / MARK * MARK].rchunks(MARK).next().map_or(0, |mark| number(mark, 2));
        let mut expected = fresh_table(own);
        for (room, at) in (0..ROOMS).flat_map(|room| [START, NUMBER, VIEW_NUMBER].map(|at| (room, at))) {
            expected[place(room)][at] = self.last;
        }
        met.wrong_restarts += (*table != expected) as u64;
        met.restarts += (self.last > 0) as u64;
        met.shared += (self.gone.iter().filter(|numbers| **numbers != [0; 3]).count() > 1) as u64;
        self.restarted |= self.last > 0;
    }

    // What an event wrote leaves, record by record, and before each its mark goes into the file; an action is a byte
    // of a mark or a record. After so many the current is lost. The records that left.
    fn send<'a>(&mut self, written: &'a [u8], mut actions: usize, met: &mut Met) -> Vec<&'a [u8]> {
        let (mut left, mut rest) = (Vec::new(), written);
        while !rest.is_empty() {
            let mut mark = [0; MARK];
            let answer = unsafe { room_mark_before(self.last, rest.as_ptr(), rest.len(), mark.as_mut_ptr(), MARK) };
            assert_eq!(answer % 256, 0, "what an event wrote may leave");
            let (length, next) = ((answer / 256 % 256) as usize, (answer / 65536) as u32);
            met.covered += (self.due_alone(&rest[..length]) && next == self.last) as u64;
            if next != self.last {
                let at = self.file.len() / MARK * MARK;
                let put = actions.min(MARK);
                self.file.resize(self.file.len().max(at + put), 0);
                self.file[at..at + put].copy_from_slice(&mark[..put]);
                self.last = next;
                actions -= put;
            }
            if actions == 0 {
                break;
            }
            actions -= 1;
            self.leaves(&rest[..length], met);
            left.push(&rest[..length]);
            rest = &rest[length..];
        }
        left
    }

    // Request 7 on numbers, per room.
    fn leaves(&mut self, record: &[u8], met: &mut Met) {
        let room = room_of(record) as usize;
        let (kind, at) = match record.len() {
            PROPOSAL => (0, 17),
            NOTICE => (1, 3),
            _ => (2, 3),
        };
        let n = number(record, at);
        met.twice += (n <= self.gone[room][kind]) as u64;
        self.gone[room][kind] = n;
    }

    // Whether a mark would be due before a record if its room had a file of its own.
    fn due_alone(&mut self, record: &[u8]) -> bool {
        let (last, mut mark) = (&mut self.alone[room_of(record) as usize], [0; MARK]);
        let answer = unsafe { room_mark_before(*last, record.as_ptr(), record.len(), mark.as_mut_ptr(), MARK) };
        let before = std::mem::replace(last, (answer / 65536) as u32);
        *last != before
    }
}

// The step for an office on a table of words, with a record and an output of a length: its answer, and what it wrote.
pub trait Step: FnOnce(u8, &mut Vec<u32>, &[u8], usize) -> (u8, Vec<u8>) {}
impl<F: FnOnce(u8, &mut Vec<u32>, &[u8], usize) -> (u8, Vec<u8>)> Step for F {}

pub struct Sixteen<'a> {
    random: &'a mut Random,
    // the seats that come and go
    pool: u64,
    // one event in so many meets each kind of trouble
    calm: usize,
    rooms: Vec<u8>,
    servers: Vec<Server>,
    links: Vec<VecDeque<Vec<u8>>>,
    // room, joining and leaving: to be handed to each office, in this order
    reports: Vec<VecDeque<(u8, u64, u64)>>,
}

impl Sixteen<'_> {
    // All fresh with empty files, or some of them restarted near the top.
    pub fn new<'a>(random: &'a mut Random, high: bool, met: &mut Met) -> Sixteen<'a> {
        let mut servers: Vec<Server> = (0..16).map(Server::fresh).collect();
        if high {
            for own in (0..16).step_by(1 + random.below(4)) {
                let far = some(random, &[60, 60, 2_000_000]);
                let number = (L - random.below(far) as u32).to_be_bytes();
                servers[own].file = [&b"HM"[..], &number, &number].concat();
                servers[own].begin_again(own, met);
            }
        }
        // of all offices, of some, of two to five
        let (any, few) = (random.next(), random.next() & random.next() & random.next());
        let near = (0..2 + random.below(4)).fold(0, |set, _| set | 15 << (4 * random.below(16)));
        let pool = some(random, &[u64::MAX, any, few, near, near, near & any]);
        let (calm, rooms) = (some(random, &[20, 100, 500]), rooms(random));
        let (links, reports) = (vec![VecDeque::new(); 256], vec![VecDeque::new(); 16]);
        Sixteen { random, pool, calm, rooms, servers, links, reports }
    }

    // A loss, a proposal that overtakes others, a cut, a change before the last is through; or a report or a delivery.
    pub fn event(&mut self, met: &mut Met, step: impl Step) {
        let busy: Vec<usize> = (0..256).filter(|&link| !self.links[link].is_empty()).collect();
        let told: Vec<usize> = (0..16).filter(|&to| !self.reports[to].is_empty()).collect();
        match self.random.below(self.calm) {
            0 if !busy.is_empty() => {
                let link = &mut self.links[some(self.random, &busy)];
                link.remove(self.random.below(link.len()));
                met.lost += 1;
            }
            1 if !busy.is_empty() => {
                let link = &mut self.links[some(self.random, &busy)];
                link.swap(0, self.random.below(link.len()));
            }
            2 => {
                let own = self.random.below(16);
                self.cut(own, met);
            }
            n if n == 3 || busy.is_empty() && told.is_empty() => self.change(),
            _ if busy.is_empty() || !told.is_empty() && self.random.below(4) == 0 => {
                let to = some(self.random, &told);
                let (room, joining, leaving) = self.reports[to].pop_front().unwrap();
                self.hand(to, &report(room, joining, leaving), met, step);
            }
            _ => {
                let link = some(self.random, &busy);
                let record = self.links[link].pop_front().unwrap();
                let refusal = self.hand(link % 16, &record, met, step);
                met.delivered[refusal as usize] += 1;
            }
        }
    }

    // The same change of one room for each office.
    fn change(&mut self) {
        let room = some(self.random, &self.rooms);
        let [joining, leaving] = [0, 1].map(|_| self.pool & self.random.next() & self.random.next());
        self.reports.iter_mut().for_each(|all| all.push_back((room, joining, leaving)));
    }

    // One event at one office, now and then with too little room for output or with a cut. Its answer.
    fn hand(&mut self, to: usize, record: &[u8], met: &mut Met, step: impl Step) -> u8 {
        let capacity = if self.random.below(self.calm) == 0 { CAPACITY - 1 } else { CAPACITY };
        let is_cut = self.random.below(2 * self.calm) == 0;
        let server = &mut self.servers[to];
        let (refusal, written) = step(to as u8, &mut server.table, record, capacity);
        met.answers[refusal as usize] += 1;
        for record in server.send(&written, if is_cut { self.random.below(ALL) } else { ALL }, met) {
            met.sent.count(record);
            if record.len() == PROPOSAL {
                met.after_restart[room_of(record) as usize] += server.restarted as u64;
                for other in offices(Proposal::read(record).members).filter(|&other| other != to) {
                    let link = &mut self.links[16 * to + other];
                    met.behind += link.back().is_some_and(|before| room_of(before) != room_of(record)) as u64;
                    link.push_back(record.to_vec());
                }
            }
        }
        if is_cut {
            self.cut(to, met);
        }
        refusal
    }

    // An office begins again and hears of the seats that it knew of in each room; each other hears that its seats
    // leave and come back.
    fn cut(&mut self, own: usize, met: &mut Met) {
        let seats = self.pool & 15 << (4 * own);
        let nets: Vec<(u8, u64)> =
            self.rooms.iter().map(|&k| (k, net_view(&self.servers[own].table[place(k as usize)]))).collect();
        self.servers[own].begin_again(own, met);
        for to in 0..16 {
            for &(room, net) in &nets {
                let told = if to == own { vec![(room, net, 0)] } else { vec![(room, 0, seats), (room, seats, 0)] };
                self.reports[to].extend(told);
            }
        }
    }
}
