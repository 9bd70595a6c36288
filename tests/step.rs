// The calls for C that make, change and ask a table of rooms, read a record or write a report, beside the model: every
// answer, every word of all eight rows and every byte. Each case is a kind of input; it passes when the two agree on
// all of its inputs, and on each the step keeps to what the reading call answers.
#[path = "common/inputs.rs"]
mod inputs;
#[path = "common/lent.rs"]
mod lent;
#[allow(dead_code)]
#[path = "common/model.rs"]
mod model;
#[path = "common/near_limit.rs"]
mod near_limit;
#[path = "common/office_calls.rs"]
mod office_calls;
#[path = "common/order.rs"]
mod order;
#[path = "common/play.rs"]
mod play;
#[path = "common/random.rs"]
mod random;
#[path = "common/readings.rs"]
mod readings;
#[allow(dead_code)]
#[path = "common/repeats.rs"]
mod repeats;
#[allow(dead_code)]
#[path = "common/restart_calls.rs"]
mod restart_calls;
#[path = "common/rows.rs"]
mod rows;
#[allow(dead_code)]
#[path = "common/self_use.rs"]
mod self_use;
#[path = "common/self_use_inputs.rs"]
mod self_use_inputs;
#[path = "common/sixteen.rs"]
mod sixteen;
#[path = "common/turn_inputs.rs"]
mod turn_inputs;
#[path = "common/verdicts.rs"]
mod verdicts;

use inputs::{a_play, a_play_in, bad_words, change, make_sound, some, some_row, some_table, ROWS};
use lent::{AROUND, BYTE, WORD};
use model::{offices, report, room_of, Proposal, CAPACITY, FAST, L, PROPOSAL, REPORT, ROOMS, SLOW};
use order::{Input, Orders};
use play::used_for_sender;
use random::Random;
use repeats::{repeat, Reports, KINDS};
use rows::{place, TABLE, WORDS};
use self_use::{SelfUses, Sent};
use self_use_inputs::{Asked, FAULTS, RELATIONS};
use sixteen::{Met, Sixteen};
use turn_inputs::Turn;
use verdicts::Verdicts;

#[link(name = "room", kind = "static")]
extern "C" {
    fn room_fresh(office: u8, table: *mut u32, words: usize) -> u8;
    fn room_read(office: u8, record: *const u8, length: usize) -> u8;
    fn room_step(
        office: u8, table: *mut u32, words: usize, record: *const u8, length: usize, out: *mut u8, capacity: usize,
    ) -> u32;
}

const ANSWERS: [usize; 16] = [0, 1, 2, 3, 4, 5, 6, 7, 8, 9, 10, 11, 12, 13, 19, 20];
// Those that a room's own row decides.
const OF_ROOM: [usize; 10] = [0, 6, 7, 8, 9, 10, 11, 12, 13, 19];
const EIGHT: [u8; ROOMS] = [0, 1, 2, 3, 4, 5, 6, 7];

// What was met, by the model: each answer, the reasons that apply together, and what the proposals said of themselves.
#[derive(Default)]
struct Reached {
    answers: [u64; 21],
    // by the room of the record
    rooms: [[u64; 21]; ROOMS],
    orders: Orders,
    // by how the office given stands to the own office of the record's row: the same, another, above 15
    given: [[u64; 21]; 3],
    // 6 and 9 of the row's own office, by the office given and by the own office
    second: [[[u64; 2]; 16]; 2],
    self_uses: SelfUses,
    // rooms asked for their view: those that have one, those with a number above 0 in its place in a table that fails
    // check 2, and those above 7
    views: [u64; 3],
}

struct Compared<'a> {
    // the office given with each record
    office: u8,
    table: Vec<u32>,
    expected: Vec<u32>,
    out: Vec<u8>,
    written: Vec<u8>,
    // a table that passes check 2, for the rooms that nobody asks for
    others: Vec<u32>,
    random: Random,
    inputs: u64,
    wrong: u64,
    reached: &'a mut Reached,
    reports: Reports,
    name: &'a str,
}

impl Compared<'_> {
    // One record for the office on a table, with an output of a length: both answers, and every word as both leave it.
    // The table stays in `table` with the words around it.
    fn hand(&mut self, record: &[u8], capacity: usize) -> u8 {
        let (office, words) = (self.office, self.table.len() - 2 * AROUND);
        let lent = AROUND..AROUND + words;
        let sound = rows::passes_table(&self.table[lent.clone()]);
        self.expected.clone_from(&self.table);
        let refusal = rows::step_table(office, &mut self.expected[lent], record, capacity, &mut self.written);
        let answer = 256 * self.written.len() as u32 + refusal as u32;
        self.count(record, capacity, sound, refusal);
        let view = self.asks_view(record, sound);
        let read = readings::as_the_model(office, record);

        self.out.clear();
        self.out.resize(capacity + 2 * AROUND, BYTE);
        let kept = record.to_vec();
        let got = unsafe {
            let (table, out) = (self.table.as_mut_ptr().add(AROUND), self.out.as_mut_ptr().add(AROUND));
            room_step(office, table, words, record.as_ptr(), record.len(), out, capacity)
        };
        let end = AROUND + self.written.len();
        let bytes = self.out[AROUND..end] == self.written[..]
            && self.out[..AROUND].iter().chain(&self.out[end..]).all(|&b| b == BYTE);
        let keeps = read.is_some_and(|read| self.keeps_to(read, got, record));
        let same = got == answer && self.table == self.expected && bytes && record == kept && view && keeps;
        self.inputs += 1;
        self.reached.answers[refusal as usize] += 1;
        if !same {
            self.wrong += 1;
            if self.wrong <= 5 {
                let at = (0..self.table.len()).find(|&k| self.table[k] != self.expected[k]);
                println!("{}: office {office}, {words} words, record {:02x?}, output {capacity}: got {got}, expected \
                    {answer}, first word that differs {:?}, bytes {bytes}, view number {view}, read {read:?}, kept to \
                    {keeps}", self.name, &record[..record.len().min(20)], at.map(|k| k as isize - AROUND as isize));
            }
            self.table.clone_from(&self.expected);
        }
        refusal
    }

    // What the reading call answers, the step answers and does nothing, as the bytes and words show; where it answers
    // 0, only 2, 3, 11, 12 and 13 are left to refuse, and 6 and 9 where the row has another own office.
    fn keeps_to(&self, read: u8, got: u32, record: &[u8]) -> bool {
        if read != 0 {
            return got == read as u32;
        }
        match got % 256 {
            0 | 2 | 3 | 11 | 12 | 13 => true,
            6 | 9 => self.words().get(WORDS * room_of(record) as usize) != Some(&(self.office as u32)),
            _ => false,
        }
    }

    // The view number of a room before the table changes, mostly of the record's: its word, or 0 where the table fails
    // check 2 or the room is above 7.
    fn asks_view(&mut self, record: &[u8], sound: bool) -> bool {
        let any = (self.inputs / 4) as u8;
        let room = match self.inputs % 4 {
            0 => any,
            1 => any % ROOMS as u8,
            _ => record.get(2).copied().unwrap_or(any),
        };
        let place = WORDS * room as usize + rows::VIEW_NUMBER;
        let known = (room as usize) < ROOMS;
        let number = if known { self.words().get(place).copied().unwrap_or(0) } else { 0 };
        self.reached.views[!sound as usize] += (number > 0) as u64;
        self.reached.views[2] += !known as u64;
        office_calls::view_number(self.words(), room) == Some(if sound { number } else { 0 })
    }

    // What kind of record came, by the model, before the table changes.
    fn count(&mut self, record: &[u8], capacity: usize, sound: bool, refusal: u8) {
        let input = Input { office: self.office, table: self.words(), sound, record, capacity };
        let reasons = input.reasons(refusal);
        self.reached.orders.count(&reasons, refusal);
        let room = record.get(2).map_or(ROOMS, |&room| room as usize);
        if !sound || room >= ROOMS {
            self.reached.given[2][refusal as usize] += (self.office > 15) as u64;
            return;
        }
        let own = self.row(room as u8)[rows::OWN] as usize;
        let given = if self.office > 15 { 2 } else { (self.office as usize != own) as usize };
        self.reached.given[given][refusal as usize] += 1;
        if OF_ROOM.contains(&(refusal as usize)) {
            self.reached.rooms[room][refusal as usize] += 1;
        }
        let second = [6, 9].iter().position(|&n| n == refusal);
        if let (Some(at), true) = (second, given == 1 && model::read(self.office, record).is_ok()) {
            self.reached.second[at][self.office as usize][0] += 1;
            self.reached.second[at][own][1] += 1;
        }
        if record.len() == REPORT && [0, 13].contains(&refusal) {
            let nothing = refusal == 0 && self.written.is_empty() && self.expected == self.table;
            let office = rows::read(self.row(room_of(record))).unwrap();
            self.reports.count(&office, record, nothing);
        }
        if given == 0 && refusal != 3 && record.len() == PROPOSAL && record.starts_with(b"PR") {
            let office = rows::read(self.row(room_of(record))).unwrap();
            self.reached.self_uses.count(&office, record, refusal);
        }
    }

    // One record for an office on another table; then the table stands there that stood there, with its office and
    // its last reports.
    fn aside(&mut self, office: u8, table: &[u32], record: &[u8], capacity: usize) -> u8 {
        let (kept, last) = (self.words().to_vec(), self.reports.last.clone());
        let own = std::mem::replace(&mut self.office, office);
        self.lend(table);
        let refusal = self.hand(record, capacity);
        self.lend(&kept);
        (self.office, self.reports.last) = (own, last);
        refusal
    }

    // One record on a table with this row for a room, for its own office. The other seven are any rows that pass check
    // 2, with any own offices, also near L.
    fn aside_row(&mut self, room: u8, row: &[u32], record: &[u8], capacity: usize) -> u8 {
        if self.inputs % 16 == 0 {
            let (other, kind) = (self.random.below(ROOMS), self.random.below(ROWS.len()));
            self.others[place(other)].copy_from_slice(&some_row(&mut self.random, kind));
        }
        let mut table = self.others.clone();
        table[place(room as usize)].copy_from_slice(row);
        self.aside(row[rows::OWN] as u8, &table, record, capacity)
    }

    fn ask(&mut self, asked: Asked) {
        self.aside_row(asked.room, &asked.row, &asked.p.bytes(asked.room), asked.capacity);
    }

    // A fresh office: it has had no report.
    fn fresh(&mut self, own: usize) {
        self.office = own as u8;
        self.lend(&rows::fresh_table(own));
        self.reports.last = Default::default();
    }

    fn lend(&mut self, table: &[u32]) {
        self.table.clear();
        self.table.resize(AROUND, WORD);
        self.table.extend_from_slice(table);
        self.table.resize(table.len() + 2 * AROUND, WORD);
    }

    fn words(&self) -> &[u32] {
        &self.table[AROUND..self.table.len() - AROUND]
    }

    fn row(&self, room: u8) -> &[u32] {
        &self.words()[place(room as usize)]
    }
}

struct Tally {
    reached: Reached,
    inputs: u64,
    verdicts: Verdicts,
}

impl Tally {
    fn case(&mut self, name: &str, run: impl FnOnce(&mut Compared)) -> Reports {
        let mut compared = Compared {
            office: 0,
            table: vec![WORD; 2 * AROUND],
            expected: Vec::new(),
            out: Vec::new(),
            written: Vec::new(),
            others: rows::fresh_table(0),
            random: Random(0x2545_f491_4f6c_dd1d),
            inputs: 0,
            wrong: 0,
            reached: &mut self.reached,
            reports: Reports::default(),
            name,
        };
        run(&mut compared);
        let (inputs, wrong, reports) = (compared.inputs, compared.wrong, compared.reports);
        println!("{name}: {inputs} compared");
        self.inputs += inputs;
        self.verdicts.check(name, wrong == 0 && inputs > 0);
        self.verdicts.check(&format!("{name}: each repeat is accepted with 0 bytes, and every word stays"),
            reports.heard == 0);
        reports
    }

    // A case that is to meet repeats, and reports of every kind.
    fn met(&mut self, name: &str, reports: &Reports) {
        println!("  {} repeats", reports.repeats);
        self.verdicts.check(&format!("{name}: repeats"), reports.repeats > 0);
        for (kind, n) in KINDS.iter().zip(reports.kinds) {
            println!("  {kind}: {n}");
            self.verdicts.check(&format!("{name}: {kind}"), n > 0);
        }
    }

    fn met_at_ceiling(&mut self, name: &str, reports: &Reports) {
        let what = "repeats that would be refused 13 if they were heard";
        println!("  {what}: {}", reports.at_ceiling);
        self.verdicts.check(&format!("{name}: {what}"), reports.at_ceiling > 0);
    }

    fn often(&mut self, what: &str, n: u64, least: u64) {
        println!("  {what}: {n}");
        self.verdicts.check(&format!("{what}: at least {least}"), n >= least);
    }

    // What offices that follow the rules sent.
    fn met_sent(&mut self, name: &str, sent: &Sent, least: u64) {
        self.often(&format!("{name}: proposals sent"), sent.proposals, least);
        self.often(&format!("{name}: their used number for the sender just below"), sent.just_below, least / 10);
        self.verdicts.check(&format!("{name}: none claims to have used itself"), sent.self_uses == 0);
    }

    // Each kind of proposal about check 19, at every office and of every sender.
    fn met_self_uses(&mut self) {
        let SelfUses { kinds, senders, offices, bits, agree } = self.reached.self_uses.clone();
        self.verdicts.check("each proposal is answered by the first reason that applies", agree);
        for (kind, n) in self_use::KINDS.iter().zip(kinds) {
            self.often(kind, n, 100);
        }
        let said = ["19 alone", "accepted, the used number just below"];
        for (at, what) in said.into_iter().enumerate() {
            let least = |all: &[[u64; 2]]| all.iter().map(|n| n[at]).min().unwrap();
            self.often(&format!("{what}, of the sender with fewest"), least(&senders), 300);
            self.often(&format!("{what}, of the office with fewest"), least(&offices), 300);
        }
        for (at, what) in ["19 alone", "accepted"].into_iter().enumerate() {
            let least = bits.iter().map(|n| n[at]).min().unwrap();
            self.often(&format!("{what}, a single bit apart, of the bit with fewest"), least, 20);
        }
    }

    // What came in turn: every order of two, and the office given beside the own one of the row.
    fn met_in_turn(&mut self) {
        self.reached.orders.clone().met(&mut self.verdicts, 100);
        let [same, another, above] = self.reached.given;
        println!("  office given is the row's own: {}", tallied(&same));
        println!("  another: {}", tallied(&another));
        println!("  above 15: {}", tallied(&above));
        self.often("records for another office than the row's own", another.iter().sum(), 100_000);
        for answer in OF_ROOM {
            self.often(&format!("answer {answer}, for another office than the row's own"), another[answer], 300);
        }
        self.often("records for an office above 15", above.iter().sum(), 20_000);
        self.verdicts.check("for an office above 15 all are answered 1", above.iter().sum::<u64>() == above[1]);
        for (at, number) in [6, 9].into_iter().enumerate() {
            for (by, whose) in ["the office given", "the row's own office"].into_iter().enumerate() {
                let least = self.reached.second[at].iter().map(|n| n[by]).min().unwrap();
                self.often(&format!("{number} of the row's own office, by {whose} with fewest"), least, 50);
            }
        }
    }
}

fn net_view(row: &[u32]) -> u64 {
    row[rows::NET] as u64 | (row[rows::NET + 1] as u64) << 32
}

// A record for the row of a room: one of the play in this room, a report, a repeat, or a proposal that the row's
// numbers make likely to pass.
fn some_record(random: &mut Random, room: u8, row: &[u32], last: &[u8], of_play: &[u8]) -> Vec<u8> {
    let net = net_view(row);
    let own = row[rows::OWN] as usize % 16;
    match random.below(5) {
        0 => in_room(room, of_play),
        1 => report(
            room,
            random.next() & random.next() & random.next() | 1 << (4 * own),
            random.next() & random.next() & random.next(),
        ),
        2 => repeat(random, room, net, last),
        _ => {
            let sender = (own + 1 + random.below(15)) % 16;
            let members = if random.below(3) == 0 { net } else { net | 1 << (4 * own) | 1 << (4 * sender) };
            let number =
                some(random, &[row[rows::NUMBER], row[rows::ACCEPTED + sender].saturating_add(1), L, L - 1]).max(1);
            let start = some(random, &[row[rows::START].max(1), 1, L, 1 << 30]);
            let mut used = [0; 16];
            for k in offices(members) {
                used[k] = some(random, &[0, row[rows::NUMBER], 1]);
            }
            used[sender] = used_for_sender(random, number, used[sender]);
            let kind = some(random, &[FAST, SLOW]);
            Proposal { sender: sender as u8, kind, members, start, number, used }.bytes(room)
        }
    }
}

// The record with another room byte.
fn in_room(room: u8, record: &[u8]) -> Vec<u8> {
    let mut record = record.to_vec();
    if let Some(byte) = record.get_mut(2) {
        *byte = room;
    }
    record
}

// Every office in words of some lengths, and some offices in words of every length.
fn making() -> bool {
    let made = |office: u8, words: usize| {
        let mut lent = vec![WORD; words + 2 * AROUND];
        let got = unsafe { room_fresh(office, lent.as_mut_ptr().add(AROUND), words) };
        let mut expected = vec![WORD; words + 2 * AROUND];
        let made = if office <= 15 { office as usize } else { 0 };
        if words == TABLE {
            expected[AROUND..AROUND + TABLE].copy_from_slice(&rows::fresh_table(made));
        }
        let number = if office > 15 { 1 } else if words != TABLE { 2 } else { 0 };
        got == number && lent == expected
    };
    let lengths = [0, 1, WORDS - 1, WORDS, WORDS + 1, 7 * WORDS, TABLE - 1, TABLE, TABLE + 1, TABLE + WORDS];
    (0..=255).all(|office| lengths.into_iter().all(|words| made(office, words)))
        && [0, 7, 15, 16, 255].into_iter().all(|office| (0..=TABLE + 75).all(|words| made(office, words)))
}

fn plays(t: &mut Tally) {
    let name = "the records of plays in all eight rooms";
    let mut sent = Sent::default();
    // by room, and where the room is another than that of the record before
    let (mut rooms, mut turns, before) = ([0; ROOMS], 0, t.inputs);
    let met = t.case(name, |c| {
        let mut r = Random(0x9e37_79b9_7f4a_7c15);
        for _ in 0..1040 {
            let (own, records) = a_play_in(&mut r, &EIGHT, 1000);
            c.fresh(own);
            let mut last = 0;
            for record in &records {
                let room = room_of(record);
                if let Some(n) = rooms.get_mut(room as usize) {
                    *n += 1;
                }
                turns += (room != std::mem::replace(&mut last, room)) as u64;
                c.hand(record, CAPACITY);
                sent.count(&c.written);
            }
        }
    });
    t.often(name, t.inputs - before, 1_000_000);
    t.often(&format!("{name}: of the room with fewest"), *rooms.iter().min().unwrap(), 100_000);
    t.often(&format!("{name}: another room than before"), turns, 800_000);
    t.met(name, &met);
    t.met_sent(name, &sent, 50_000);
    let name = "the records of plays in one room or more, for another office and then for the own";
    let mut accepted = 0_u64;
    t.case(name, |c| {
        let mut r = Random(12);
        for _ in 0..200 {
            let (own, records) = a_play(&mut r, 500);
            c.fresh(own);
            for record in &records {
                c.office = some_office(&mut r);
                // what another office accepts, the row's own has acted on
                let refusal = c.hand(record, CAPACITY);
                accepted += (refusal == 0 && c.office as usize != own) as u64;
                c.office = own as u8;
                if refusal != 0 {
                    c.hand(record, CAPACITY);
                }
            }
        }
    });
    t.often(&format!("{name}: accepted for another"), accepted, 10_000);
}

// Mostly an office, now and then a number above 15.
fn some_office(random: &mut Random) -> u8 {
    let above = 16 + random.below(240) as u8;
    let office = random.below(16) as u8;
    some(random, &[office, office, office, office, office, office, 16, above])
}

// Each room has an office of its own and a play of its own; the records come mixed. One is handed to its room for its
// own office, for another or for none; now and then to another room, for the office that it is meant for or for any.
fn offices_apart(t: &mut Tally) {
    let name = "eight rooms of different offices";
    let (mut views, mut differ) = ([0_u64; ROOMS], 0);
    t.case(name, |c| {
        let mut r = Random(13);
        for _ in 0..300 {
            let mut plays: Vec<_> = EIGHT.iter().map(|&room| a_play_in(&mut r, &[room], 100)).collect();
            c.fresh(0);
            let table: Vec<u32> = plays.iter().flat_map(|(own, _)| rows::fresh(*own)).collect();
            differ += plays.iter().any(|(own, _)| *own != plays[0].0) as u64;
            c.lend(&table);
            plays.iter_mut().for_each(|(_, records)| records.reverse());
            while plays.iter().any(|(_, records)| !records.is_empty()) {
                let (own, records) = &mut plays[r.below(ROOMS)];
                let Some(record) = records.pop() else { continue };
                let other = in_room(r.below(ROOMS) as u8, &record);
                let any = some_office(&mut r);
                match r.below(4) {
                    0 => c.office = any,
                    1 => {
                        let table = c.words().to_vec();
                        let office = some(&mut r, &[*own as u8, *own as u8, any]);
                        c.aside(office, &table, &other, CAPACITY);
                        c.office = *own as u8;
                    }
                    _ => c.office = *own as u8,
                }
                if c.hand(&record, CAPACITY) != 0 && c.office != *own as u8 {
                    c.office = *own as u8;
                    c.hand(&record, CAPACITY);
                }
                if c.written.windows(2).any(|mark| mark == b"VW") {
                    views[room_of(&record) as usize] += 1;
                }
            }
        }
    });
    t.often(&format!("{name}: tables"), differ, 200);
    t.often(&format!("{name}: views in the room with fewest"), *views.iter().min().unwrap(), 100);
}

fn changed_rows(t: &mut Tally) {
    let name = "tables of plays with none, one or two words changed";
    let (mut changed, mut passed) = (0, 0);
    // by the only room whose row fails check 2, and by the record's
    let mut alone = [[0_u64; ROOMS]; ROOMS];
    let met = t.case(name, |c| {
        let mut r = Random(2);
        while changed < 375_000 {
            let (own, records) = a_play(&mut r, 200);
            c.fresh(own);
            for record in &records {
                c.hand(record, CAPACITY);
                for _ in 0..2 {
                    let mut table = c.words().to_vec();
                    let mut room = r.below(ROOMS);
                    for _ in 0..r.below(3) {
                        change(&mut r, &mut table[place(room)]);
                        room = some(&mut r, &[room, room, (room + 1) % ROOMS]);
                    }
                    let other = r.below(ROOMS);
                    room = some(&mut r, &[room, room, other]);
                    let last = &c.reports.last[room];
                    let record = some_record(&mut r, room as u8, &table[place(room)], last, record);
                    changed += 1;
                    passed += rows::passes_table(&table) as usize;
                    let (row_own, any) = (table[place(room)][rows::OWN] as u8, some_office(&mut r));
                    let office = some(&mut r, &[own as u8, row_own, row_own, row_own, any]);
                    c.aside(office, &table, &record, CAPACITY);
                    let bad: Vec<usize> = (0..ROOMS).filter(|&k| !rows::passes(&table[place(k)])).collect();
                    if let [bad] = bad[..] {
                        alone[bad][room] += 1;
                    }
                }
            }
        }
    });
    println!("{changed} tables, {passed} of them pass check 2");
    t.verdicts.check("half of the tables pass check 2", changed >= 100_000 && 2 * passed >= changed);
    let least = *alone.iter().flatten().min().unwrap();
    t.often(&format!("{name}: one row fails, of that row and the record's room with fewest"), least, 100);
    t.met(name, &met);
    t.met_at_ceiling(name, &met);
}

// Each way in which one word makes a row malformed, in each of the eight rows, with a report and a proposal of every
// room, and of one above 7. Every other row passes; so does every row before the word is changed. The office given is
// the own one of the record's row as it was: a record that it does not read gets that number, any other gets 2.
fn malformed(t: &mut Tally) {
    let name = "one word of one row that fails check 2";
    let (mut refused, mut passed, mut asked) = ([[[0_u64; 3]; ROOMS + 1]; ROOMS], 0, 0);
    t.case(name, |c| {
        let mut r = Random(14);
        for (k, (at, word)) in bad_words().into_iter().enumerate() {
            for room in 0..ROOMS {
                let sound = some_table(&mut r, k % ROWS.len(), at);
                let mut table = sound.clone();
                table[WORDS * room + at] = word;
                for of in 0..=ROOMS {
                    let of = if of == ROOMS { 8 + r.below(248) } else { of };
                    let row = &sound[place(of % ROOMS)];
                    let joining = report(0, r.next(), 0);
                    let record = some_record(&mut r, of as u8, row, &[], &joining);
                    let capacity = if asked % 8 == 0 { 0 } else { CAPACITY };
                    let office = row[rows::OWN] as u8;
                    let read = model::read(office, &record).err();
                    let answer = c.aside(office, &table, &record, capacity);
                    let kind = match read {
                        None if answer == 2 => 0,
                        Some(number) if answer == number => 1,
                        _ => 2,
                    };
                    refused[room][of.min(ROOMS)][kind] += 1;
                    passed += (c.aside(office, &sound, &record, CAPACITY) != 2) as u64;
                    asked += 1;
                }
            }
        }
    });
    t.verdicts.check(&format!("{name}: 2, or before it what reading answers"),
        refused.as_flattened().iter().all(|n| n[2] == 0));
    let least = refused.iter().flat_map(|of| &of[..ROOMS]).map(|n| n[0]).min().unwrap();
    t.often(&format!("{name}: 2, of that row and the record's room with fewest"), least, 500);
    let least = refused.iter().flat_map(|of| &of[..ROOMS]).map(|n| n[1]).min().unwrap();
    t.often(&format!("{name}: before 2, of that row and the record's room with fewest"), least, 50);
    t.verdicts.check(&format!("{name}: 20 before 2 for a room above 7"), refused.iter().all(|of| of[ROOMS][0] == 0));
    t.verdicts.check(&format!("{name}: the same table passes with that word sound"), passed == asked);
}

// Every room byte, with records that any other reason refuses, or none. By the byte and the answer that room 0 gives
// to the same record.
fn above_seven(t: &mut Tally) {
    let name = "every room byte";
    let mut came = vec![[0_u64; 21]; 256];
    let mut wrong = 0;
    t.case(name, |c| {
        let mut r = Random(15);
        for _ in 0..12 {
            // the eight rows are one row: that of room 0 after a play there
            let (own, records) = a_play_in(&mut r, &[0], 60);
            c.fresh(own);
            for record in &records {
                c.hand(record, CAPACITY);
            }
            let row = c.row(0).to_vec();
            let mut asked: Vec<(Vec<u32>, Vec<u8>, usize)> = Vec::new();
            for fault in FAULTS {
                for relation in [RELATIONS[0], RELATIONS[4]] {
                    let mut a = Asked::sound(&mut r, 0, &row);
                    fault(&mut a);
                    let used = relation(a.p.number);
                    let a = a.using(used);
                    asked.push((a.row.repeat(ROOMS), a.p.bytes(0), a.capacity));
                }
            }
            let reports = [report(0, r.next(), r.next()), report(0, 0, 0), repeat(&mut r, 0, net_view(&row), &[])];
            asked.extend(reports.map(|record| (row.repeat(ROOMS), record, CAPACITY)));
            let mut high = row.clone();
            high[rows::START] = L;
            asked.push((high.repeat(ROOMS), report(0, u64::MAX, 0), CAPACITY));
            // 4 and 5: other marks, a byte less and more, up to the room byte alone
            let (p, n) = (Asked::sound(&mut r, 0, &row).p.bytes(0), report(0, r.next(), 0));
            for record in [&p, &n] {
                let more = [&record[..], &[0]].concat();
                let marks = [*b"EN", *b"SC", *b"VW", *b"NR", *b"PE"].map(|mark| [&mark[..], &record[2..]].concat());
                let cut = [&record[..3], &record[..record.len() - 1], &more].map(|part| part.to_vec());
                asked.extend(marks.into_iter().chain(cut).map(|record| (row.repeat(ROOMS), record, CAPACITY)));
            }
            asked.push((row.repeat(ROOMS), [&b"NE"[..], &p[2..]].concat(), CAPACITY));
            asked.push((row.repeat(ROOMS), [&b"PR"[..], &n[2..]].concat(), CAPACITY));
            for (table, record, capacity) in asked {
                let mut first = 0;
                for byte in 0..=255 {
                    let answer = c.aside(own as u8, &table, &in_room(byte, &record), capacity);
                    if byte == 0 {
                        first = answer;
                    }
                    let before = [4, 5].contains(&first);
                    let expected = if byte > 7 && !before { 20 } else { first };
                    wrong += (answer != expected) as u64;
                    came[byte as usize][first as usize] += 1;
                }
            }
        }
    });
    t.verdicts.check(&format!("{name}: 20 above 7, after 4 and 5 and before all others"), wrong == 0);
    for answer in ANSWERS.into_iter().filter(|&n| n != 1 && n != 20) {
        let least = came.iter().map(|n| n[answer]).min().unwrap();
        t.often(&format!("{name}: a record that gets {answer} in room 0, of the byte with fewest"), least, 10);
    }
}

fn near_the_ceiling(t: &mut Tally) {
    let name = "a table near the ceiling, record after record";
    let met = t.case(name, |c| {
        let mut r = Random(3);
        for _ in 0..2000 {
            let (own, records) = a_play(&mut r, 75);
            c.fresh(own);
            let mut table = rows::fresh_table(own);
            // all rooms, or all but some
            for room in (0..ROOMS).step_by(1 + r.below(3)) {
                for at in [rows::START, rows::NUMBER, rows::VIEW_NUMBER] {
                    table[WORDS * room + at] = L - r.below(20) as u32;
                }
            }
            c.lend(&table);
            for record in &records {
                let room = record[2] % ROOMS as u8;
                let last = &c.reports.last[room as usize];
                let record = some_record(&mut r, room, c.row(room), last, record);
                c.hand(&record, CAPACITY);
            }
        }
    });
    t.met(name, &met);
    t.met_at_ceiling(name, &met);
}

fn lengths(t: &mut Tally) {
    t.case("words, outputs and records of every length", |c| {
        let mut r = Random(4);
        let (own, records) = a_play_in(&mut r, &EIGHT, 300);
        c.fresh(own);
        for record in &records[..280] {
            c.hand(record, CAPACITY);
        }
        let table = c.words().to_vec();
        let repeats: Vec<_> = EIGHT.iter().map(|&room| {
            repeat(&mut r, room, net_view(c.row(room)), &c.reports.last[room as usize])
        }).collect();
        // equal to the proposal's own number, and above
        let self_uses = [0, 1].map(|more| {
            let asked = Asked::sound(&mut r, 6 + more as u8, c.row(6 + more as u8));
            let used = asked.p.number + more;
            let asked = asked.using(used);
            asked.p.bytes(asked.room)
        });
        for record in records[280..].iter().chain(&repeats).chain(&self_uses) {
            for words in 0..=TABLE + 75 {
                let mut lent = table.clone();
                lent.resize(words, 0);
                c.aside(own as u8, &lent, record, CAPACITY);
            }
            for capacity in 0..=2 * CAPACITY {
                c.aside(own as u8, &table, record, capacity);
            }
            for length in 0..=200 {
                let mut part = record.clone();
                part.resize(length, 0);
                c.aside(own as u8, &table, &part, CAPACITY);
                // of a bad record, whatever table and output
                c.aside(own as u8, &table[..TABLE - 1], &part, length % 2 * CAPACITY);
            }
        }
    });
}

// One or two bits of the word turned over: slots appear with any words in them, slots are gone, bits of no office.
fn presence(t: &mut Tally) {
    let name = "presence, any one and any two bits turned over";
    // of records that are read: by 2 answered, and by check 2 passed
    let (mut refused, mut early) = ([[0_u64; 2]; 2], 0_u64);
    t.case(name, |c| {
        let mut r = Random(11);
        for k in 0..24 {
            let row = some_row(&mut r, 1);
            for bits in (0..32).flat_map(|a| (0..32).map(move |b| 1_u32 << a | 1 << b)) {
                let mut turned = row.clone();
                turned[rows::PRESENT] ^= bits;
                let joining = report(0, r.next(), 0);
                let record = some_record(&mut r, EIGHT[k % ROOMS], &turned, &[], &joining);
                let answer = c.aside_row(EIGHT[k % ROOMS], &turned, &record, CAPACITY);
                match model::read(row[rows::OWN] as u8, &record) {
                    Ok(_) => refused[(answer == 2) as usize][rows::passes(&turned) as usize] += 1,
                    Err(number) => early += (answer == number) as u64,
                }
            }
        }
    });
    // two bits of offices pass
    t.verdicts.check(&format!("{name}: 2 for every bit of no office"), refused[0][0] + refused[1][1] == 0);
    t.often(&format!("{name}: 2"), refused[1][0], 10_000);
    t.often(&format!("{name}: before it what reading answers"), early, 300);
}

fn random_words(t: &mut Tally) {
    t.case("random words and random bytes", |c| {
        let mut r = Random(5);
        for _ in 0..50_000 {
            let mut table: Vec<u32> = (0..TABLE).map(|_| r.next() as u32 % (2 * L)).collect();
            let spared = if r.below(4) == 0 { r.below(ROOMS) } else { ROOMS };
            (0..ROOMS).filter(|&room| room != spared).for_each(|room| make_sound(&mut table[place(room)]));
            let room = r.below(ROOMS);
            let record = match r.below(3) {
                0 => r.bytes(REPORT),
                1 => report(room as u8, r.next(), r.next()),
                _ => some_record(&mut r, room as u8, &table[place(room)], &[], &[]),
            };
            let any = some_office(&mut r);
            let office = some(&mut r, &[table[place(room)][rows::OWN] as u8 % 16, any]);
            c.aside(office, &table, &record, CAPACITY);
        }
    });
}

// Proposals that pass but for none, one or two faults, with each relation of the used number for the sender to the
// proposal's own number.
fn near_self_uses(t: &mut Tally) {
    t.case("proposals that claim to have used themselves, or nearly", |c| {
        let mut r = Random(6);
        for case in 0..64 {
            let (room, records) = (EIGHT[case % ROOMS], 5 + r.below(60));
            let (own, records) = a_play_in(&mut r, &[room], records);
            c.fresh(own);
            for record in &records {
                c.hand(record, CAPACITY);
            }
            let mut row = c.row(room).to_vec();
            if case / 8 % 4 == 0 {
                row[rows::NUMBER] = L - r.below(3) as u32;
            }
            for (first, second) in FAULTS.iter().flat_map(|first| FAULTS.map(|second| (first, second))) {
                for relation in RELATIONS {
                    let mut asked = Asked::sound(&mut r, room, &row);
                    first(&mut asked);
                    second(&mut asked);
                    let used = relation(asked.p.number);
                    c.ask(asked.using(used));
                }
            }
            // a single bit apart
            for bit in (0..31).cycle().take(31 * 16) {
                let asked = Asked::sound(&mut r, room, &row);
                let used = asked.p.number ^ 1 << bit;
                c.ask(asked.using(used));
            }
        }
    });
}

// Proposals from servers that follow the rules from a fresh or restarted state are never hit.
fn sixteen_offices(t: &mut Tally) {
    let name = "sixteen offices, cut and restarted, that hand each other only what they sent";
    let mut met = Met::default();
    t.case(name, |c| {
        let mut r = Random(7);
        for case in 0..300 {
            let mut play = Sixteen::new(&mut r, case % 5 == 0, &mut met);
            for _ in 0..2500 {
                play.event(&mut met, |office, table, record, capacity| {
                    c.reports.last = Default::default();
                    c.office = office;
                    c.lend(table);
                    let refusal = c.hand(record, capacity);
                    table.copy_from_slice(c.words());
                    (refusal, c.written.clone())
                });
            }
        }
    });
    println!("  all answers: {}; of deliveries: {}", tallied(&met.answers), tallied(&met.delivered));
    t.verdicts.check(&format!("{name}: none is answered 19"), met.answers[19] == 0);
    t.often("proposals delivered", met.delivered.iter().sum(), 100_000);
    t.often("proposals delivered and accepted", met.delivered[0], 100_000);
    for n in [3, 11, 13] {
        t.often(&format!("events answered {n}"), met.answers[n], 100);
    }
    t.often("proposals lost", met.lost, 1000);
    t.often("restarts from a file with a mark", met.restarts, 1000);
    t.often("restarts after more than one room had given numbers out", met.shared, 500);
    t.verdicts.check(&format!("{name}: each restart leaves every room at the last mark"), met.wrong_restarts == 0);
    let least = *met.after_restart.iter().min().unwrap();
    t.often("proposals sent after a restart, in the room with fewest", least, 1000);
    t.often("records that need no mark because of another room's", met.covered, 1000);
    t.often("proposals behind one of another room on a link", met.behind, 5000);
    t.verdicts.check(&format!("{name}: in each room every number that leaves is above the last"), met.twice == 0);
    t.met_sent(name, &met.sent, 30_000);
}

// Each two faults of a proposal, of its table and of its output, in both orders. The rows of the table have any own
// offices; the office given is the own one of the proposal's row, or another.
fn in_turn(t: &mut Tally) {
    let name = "proposals read for the row's own office or for another, with none, one or two faults";
    let mut accepted = [0_u64; 2];
    t.case(name, |c| {
        let mut r = Random(16);
        for case in 0..128 {
            let (room, other) = (EIGHT[case % ROOMS], case / ROOMS % 4 > 0);
            let table = some_table(&mut r, case % ROWS.len(), 0);
            for (first, second) in turn_inputs::FAULTS.iter().flat_map(|a| turn_inputs::FAULTS.map(|b| (a, b))) {
                let mut turn = Turn::sound(&mut r, table.clone(), room, other);
                first(&mut turn, &mut r);
                second(&mut turn, &mut r);
                let record = turn.record(&mut r);
                let answer = c.aside(turn.office, &turn.table, &record, turn.capacity);
                accepted[other as usize] += (answer == 0) as u64;
            }
        }
    });
    t.often(&format!("{name}: accepted for the own"), accepted[0], 50);
    t.often(&format!("{name}: accepted for another"), accepted[1], 100);
}

// Each number as often as it came.
fn tallied(answers: &[u64]) -> String {
    let came = answers.iter().enumerate().filter(|(_, &n)| n > 0);
    came.map(|(answer, n)| format!("{answer}: {n}")).collect::<Vec<_>>().join(", ")
}

fn main() {
    let mut tally = Tally { reached: Reached::default(), inputs: 0, verdicts: Verdicts::default() };
    let t = &mut tally;

    t.verdicts.check("every office, and words of every length", making());
    office_calls::reports(&mut t.verdicts);
    office_calls::view_numbers(&mut t.verdicts);
    plays(t);
    offices_apart(t);
    changed_rows(t);
    malformed(t);
    above_seven(t);
    near_the_ceiling(t);
    near_limit::all(t);
    lengths(t);
    presence(t);
    random_words(t);
    near_self_uses(t);
    in_turn(t);
    sixteen_offices(t);
    readings::all(t);

    let answers = t.reached.answers;
    println!("answers: {}", tallied(&answers));
    t.verdicts.check("each answer was reached", ANSWERS.iter().all(|&n| answers[n] > 0));
    t.met_self_uses();
    t.met_in_turn();
    for answer in OF_ROOM {
        let least = t.reached.rooms.iter().map(|n| n[answer]).min().unwrap();
        t.often(&format!("answer {answer}, of the room with fewest"), least, 1000);
    }
    let [views, none, above] = t.reached.views;
    t.often("rooms asked for a view that they have", views, 500_000);
    t.often("tables that fail check 2 with a view's number in the room asked", none, 50_000);
    t.often("view numbers asked of a room above 7", above, 500_000);
    println!("step: {} inputs compared", tally.inputs);
    tally.verdicts.end();
}
