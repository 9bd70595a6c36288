// Runs of fresh offices by the calls for C, in one room or more, on links that keep order and forge and double
// nothing, with losses and with cuts as in change request 7. What happened at each office is kept, in order.
use crate::inputs::{rooms, some};
use crate::model::{offices, report, room_of, set, written_length, Mode, Office, Proposal};
use crate::model::{CAPACITY, L, PROPOSAL, REPORT, ROOMS, SLOW, VIEW};
use crate::random::Random;
use crate::restart_calls::{room_last_mark, room_mark_before, room_restart};
use crate::rows::{self, place, TABLE};
use crate::uses::{Happened, Record, What};
use crate::{room_fresh, room_step};
use std::collections::VecDeque;

const MARK: usize = 10;

// What a server does wrong, by its words, by its file or by what it is handed.
#[derive(Clone, Copy, PartialEq)]
pub enum Wrong {
    Nothing,
    // a used proposal stays stored
    KeepsUsed,
    // it begins again from an empty file
    LosesFile,
    // in mode slow a lower number counts as its own
    TakesLower,
}

#[derive(Default)]
pub struct Met {
    pub answers: [u64; 21],
    // deliveries that were refused, but for 3 and 13
    pub refused: u64,
    pub lost: u64,
    // proposals that three others or more passed by on their way to the same office
    pub passed_by: u64,
    // inside a mark, and such ones after a record of the answer left; between a mark and its record; between two
    // records of an answer; before the first; behind the last; where nothing was written
    pub cuts: [u64; 7],
    // restarts at L
    pub at_l: u64,
}

struct Server {
    table: Vec<u32>,
    file: Vec<u8>,
    // the last mark of the file
    last: u32,
    // by its accepted reports since it began
    nets: [u64; ROOMS],
}

impl Server {
    fn fresh(own: usize) -> Server {
        let mut table = vec![0; TABLE];
        let refusal = unsafe { room_fresh(own as u8, table.as_mut_ptr(), TABLE) };
        assert_eq!(refusal, 0, "a fresh office is made");
        Server { table, file: Vec::new(), last: 0, nets: [0; ROOMS] }
    }

    // The number of the answer, and the records written.
    fn step(&mut self, own: usize, record: &[u8], capacity: usize) -> (u8, Vec<Record>) {
        let (table, mut out) = (self.table.as_mut_ptr(), [0; CAPACITY]);
        let (bytes, length) = (record.as_ptr(), record.len());
        let answer = unsafe { room_step(own as u8, table, TABLE, bytes, length, out.as_mut_ptr(), capacity) };
        let (mut rest, mut written) = (&out[..answer as usize / 256], Vec::new());
        while !rest.is_empty() {
            let (first, more) = rest.split_at(written_length(rest));
            written.push(first.into());
            rest = more;
        }
        if answer % 256 == 0 && length == REPORT {
            let net = &mut self.nets[room_of(record) as usize];
            *net = (*net | set(record, 3)) & !set(record, 11);
        }
        ((answer % 256) as u8, written)
    }

    // The mark that is due before each record of an answer, or no bytes; and the last mark then.
    fn marks(&self, written: &[Record]) -> (Vec<Vec<u8>>, u32) {
        let (mut last, mut marks) = (self.last, Vec::new());
        for record in written {
            let mut mark = vec![0; MARK];
            let answer = unsafe { room_mark_before(last, record.as_ptr(), record.len(), mark.as_mut_ptr(), MARK) };
            assert_eq!(answer % 256, 0, "what an office wrote may leave");
            let before = std::mem::replace(&mut last, (answer / 65536) as u32);
            mark.truncate(if last == before { 0 } else { MARK });
            marks.push(mark);
        }
        (marks, last)
    }

    // The first bytes of a mark, over an unfinished one.
    fn put(&mut self, mark: &[u8]) {
        let at = self.file.len() / MARK * MARK;
        self.file.resize(self.file.len().max(at + mark.len()), 0);
        self.file[at..at + mark.len()].copy_from_slice(mark);
    }

    // An answer leaves, each record behind its mark. Each byte of a mark and each record is an action, and after some
    // number of them the current may be lost. How many records left.
    fn send(&mut self, written: &[Record], cut: Option<&mut Random>, met: &mut Met) -> usize {
        let (marks, last) = self.marks(written);
        let all: usize = marks.iter().map(|mark| mark.len() + 1).sum();
        let is_cut = cut.is_some();
        let mut actions = cut.map_or(all, |random| random.below(all + 1));
        for (left, mark) in marks.iter().enumerate() {
            let put = actions.min(mark.len());
            self.put(&mark[..put]);
            actions -= put;
            if actions == 0 {
                let inside = 0 < put && put < MARK;
                met.cuts[0] += inside as u64;
                met.cuts[1] += (inside && left > 0) as u64;
                met.cuts[2] += (put == MARK) as u64;
                met.cuts[if left > 0 { 3 } else { 4 }] += 1;
                return left;
            }
            actions -= 1;
        }
        self.last = last;
        met.cuts[if written.is_empty() { 6 } else { 5 }] += is_cut as u64;
        written.len()
    }

    fn begin_again(&mut self, own: usize) {
        let (file, table) = (&self.file, &mut self.table);
        let refusal = unsafe { room_restart(own as u8, file.as_ptr(), file.len(), table.as_mut_ptr(), TABLE) };
        let answer = unsafe { room_last_mark(file.as_ptr(), file.len()) };
        assert_eq!((refusal, answer % 256), (0, 0), "a file that was kept by the calls is taken");
        self.last = (answer / 256) as u32;
        self.nets = [0; ROOMS];
    }
}

// A link that is held back until an event, and how many passed its oldest proposal by.
#[derive(Default)]
struct Held {
    link: usize,
    until: usize,
    passed_by: u64,
}

pub struct Run<'a> {
    random: &'a mut Random,
    wrong: Wrong,
    // those that take part, and their seats, which come and go
    offices: Vec<usize>,
    seats: u64,
    rooms: Vec<u8>,
    // one event in so many is of each kind of trouble, and one answer in so many meets a cut
    calm: usize,
    cuts: usize,
    // where both are there, one event in so many is a report and no delivery
    eager: usize,
    servers: Vec<Server>,
    links: Vec<VecDeque<Record>>,
    held: Held,
    events: usize,
    // room, joining and leaving: to be handed to each office, in this order
    reports: Vec<VecDeque<(u8, u64, u64)>>,
    pub log: Vec<Happened>,
}

impl Run<'_> {
    // Of so many offices.
    pub fn new(random: &mut Random, count: usize, wrong: Wrong) -> Run<'_> {
        let mut all: Vec<usize> = (0..16).collect();
        (0..15).for_each(|k| all.swap(k, k + random.below(16 - k)));
        all.truncate(count);
        // one seat of each office, at times two of one
        let mut seats = all.iter().fold(0, |set, &o| set | 1 << (4 * o + random.below(4)));
        if random.below(3) == 0 {
            seats |= 1 << (4 * all[0] + random.below(4));
        }
        let mut rooms = rooms(random);
        rooms.truncate(some(random, &[1, 1, 2, 3, ROOMS]));
        Run {
            wrong,
            seats,
            rooms,
            // a round of so many offices has about their square of proposals
            calm: 8.max(count * count * some(random, &[1, 3, 12])),
            cuts: count * some(random, &[2, 6, 25, 120]),
            eager: some(random, &[2, 4, 16]),
            offices: all,
            servers: (0..16).map(Server::fresh).collect(),
            links: vec![VecDeque::new(); 256],
            held: Held::default(),
            events: 0,
            reports: vec![VecDeque::new(); 16],
            log: Vec::new(),
            random,
        }
    }

    pub fn go(&mut self, events: usize, met: &mut Met) {
        for _ in 0..events {
            self.event(met);
            self.events += 1;
        }
    }

    // One office, alone in a room, is cut behind each of its answers, so that its next mark is L.
    pub fn climb(&mut self, met: &mut Met) {
        let own = self.offices[0];
        let record: Record = report(self.rooms[0], self.seats_of(own), 0).into();
        for _ in 0..L / 1_000_001 {
            let (_, written) = self.servers[own].step(own, &record, CAPACITY);
            let left = self.servers[own].send(&written, None, met);
            let what = What::Accepted { handed: record.clone(), written, left };
            self.log.push(Happened { office: own, what });
            self.begin_again(own, met);
        }
    }

    // The seats that it knew of.
    fn begin_again(&mut self, own: usize, met: &mut Met) -> [u64; ROOMS] {
        let server = &mut self.servers[own];
        let nets = server.nets;
        if self.wrong == Wrong::LosesFile {
            server.file.clear();
        }
        server.begin_again(own);
        met.at_l += (server.last == L) as u64;
        self.log.push(Happened { office: own, what: What::Restarted(server.last) });
        nets
    }

    fn event(&mut self, met: &mut Met) {
        let is_held = |link| link == self.held.link && self.events < self.held.until;
        let full: Vec<usize> = (0..256).filter(|&link| !self.links[link].is_empty()).collect();
        let busy: Vec<usize> = full.iter().copied().filter(|&link| !is_held(link)).collect();
        let told: Vec<usize> = (0..16).filter(|&to| !self.reports[to].is_empty()).collect();
        match self.random.below(self.calm) {
            0 if !full.is_empty() => {
                let link = some(self.random, &full);
                let at = self.random.below(self.links[link].len());
                self.links[link].remove(at);
                self.held.passed_by *= (link != self.held.link || at > 0) as u64;
                met.lost += 1;
            }
            1 => self.change(),
            2 | 3 => self.out_and_back(),
            4 | 5 if !full.is_empty() && self.events >= self.held.until => {
                let until = self.events + self.offices.len() * some(self.random, &[5, 20, 60]);
                self.held = Held { link: some(self.random, &full), until, passed_by: 0 };
            }
            6 if self.random.below(self.cuts) < 3 => {
                met.cuts[6] += 1;
                let own = some(self.random, &self.offices);
                self.cut(own, met);
            }
            _ if busy.is_empty() && told.is_empty() => self.change(),
            _ if busy.is_empty() || !told.is_empty() && self.random.below(self.eager) == 0 => {
                let to = some(self.random, &told);
                let (room, joining, leaving) = self.reports[to].pop_front().unwrap();
                self.hand(to, report(room, joining, leaving).into(), met);
            }
            _ => {
                let link = some(self.random, &busy);
                self.passes(link, met);
                let record = self.links[link].pop_front().unwrap();
                let refusal = self.hand(link % 16, record, met);
                met.refused += ![0, 3, 13].contains(&refusal) as u64;
            }
        }
    }

    // A delivery on a link: of the proposal that was held back, or of one that passes it by.
    fn passes(&mut self, link: usize, met: &mut Met) {
        let (is_held, held) = (self.events < self.held.until, &mut self.held);
        if link == held.link {
            met.passed_by += (held.passed_by >= 3) as u64;
            held.passed_by = 0;
        } else if is_held && link % 16 == held.link % 16 && !self.links[held.link].is_empty() {
            held.passed_by += 1;
        }
    }

    fn seats_of(&self, office: usize) -> u64 {
        self.seats & 15 << (4 * office)
    }

    // The same change of one room for every office: all are in, one office is out or back, or any seats.
    fn change(&mut self) {
        let (room, one) = (some(self.random, &self.rooms), some(self.random, &self.offices));
        let (all, one, any) = (self.seats, self.seats_of(one), self.random.next());
        let (joining, leaving) =
            some(self.random, &[(all, 0), (all, 0), (0, one), (one, 0), (all, one), (all & any, !any)]);
        self.offices.iter().for_each(|&to| self.reports[to].push_back((room, joining, leaving)));
    }

    // One office alone hears that the seats of one are out and back, or all but its own.
    fn out_and_back(&mut self) {
        let (to, one) = (some(self.random, &self.offices), some(self.random, &self.offices));
        let (room, one, others) = (some(self.random, &self.rooms), self.seats_of(one), !self.seats_of(to));
        let out = self.servers[to].nets[room as usize] & some(self.random, &[one, one, others]);
        self.reports[to].extend([(room, 0, out), (room, out, 0)]);
    }

    // One event at one office, now and then with too little room for output or with a cut. Its answer.
    fn hand(&mut self, to: usize, record: Record, met: &mut Met) -> u8 {
        let capacity = if self.random.below(60) == 0 { CAPACITY - 1 } else { CAPACITY };
        let (refusal, written) = self.step(to, &record, capacity);
        met.answers[refusal as usize] += 1;
        // where a view is at stake a cut comes more often
        let is_cut = self.random.below(if has_view(&written) { self.cuts / 2 } else { self.cuts }) == 0;
        let left = self.servers[to].send(&written, is_cut.then_some(&mut *self.random), met);
        for record in written[..left].iter().filter(|record| record.len() == PROPOSAL) {
            for other in offices(set(record, 5)).filter(|&other| other != to) {
                self.links[16 * to + other].push_back(record.clone());
            }
        }
        if refusal == 0 {
            self.log.push(Happened { office: to, what: What::Accepted { handed: record, written, left } });
        }
        if is_cut {
            self.cut(to, met);
        }
        refusal
    }

    // An office begins again and mostly hears of the seats that it knew; mostly every other one hears that its seats
    // are out and back.
    fn cut(&mut self, own: usize, met: &mut Met) {
        let nets = self.begin_again(own, met);
        let (is_told, tells) = (self.random.below(8) != 0, self.random.below(4) != 0);
        let seats = self.seats_of(own);
        for &room in &self.rooms {
            let net = nets[room as usize];
            if is_told && net != 0 {
                self.reports[own].push_front((room, net, 0));
            }
            for &to in self.offices.iter().filter(|&&to| tells && to != own) {
                self.reports[to].extend([(room, 0, seats), (room, seats, 0)]);
            }
        }
    }

    // The step, and around it what a wrong server does.
    fn step(&mut self, to: usize, record: &[u8], capacity: usize) -> (u8, Vec<Record>) {
        let (server, row) = (&mut self.servers[to], place(room_of(record) as usize));
        let before = rows::read(&server.table[row.clone()]).unwrap();
        match self.wrong {
            Wrong::Nothing | Wrong::LosesFile => server.step(to, record, capacity),
            Wrong::KeepsUsed => {
                let answer = server.step(to, record, capacity);
                if has_view(&answer.1) {
                    let (stored, row) = (stored_with(&before, record), &mut server.table[row]);
                    (0..16).filter(|&o| o != to).for_each(|o| rows::put_stored(row, o, stored[o]));
                }
                answer
            }
            Wrong::TakesLower => server.step(to, &raised(&before, record), capacity),
        }
    }
}

fn has_view(written: &[Record]) -> bool {
    written.last().is_some_and(|record| record.len() == VIEW)
}

// What an office has stored, with a record that is a proposal.
fn stored_with(office: &Office, record: &[u8]) -> [Option<Proposal>; 16] {
    let mut stored = office.stored;
    if record.len() == PROPOSAL {
        stored[record[3] as usize] = Some(Proposal::read(record));
    }
    stored
}

// A record; a slow proposal with the net view of an office in mode slow has its number raised to the office's own.
fn raised(office: &Office, record: &[u8]) -> Vec<u8> {
    let mut raised = record.to_vec();
    if record.len() == PROPOSAL && office.mode == Mode::Slow {
        let p = Proposal::read(record);
        if p.kind == SLOW && p.members == office.net {
            raised[17..21].copy_from_slice(&p.number.max(office.number).to_be_bytes());
        }
    }
    raised
}
