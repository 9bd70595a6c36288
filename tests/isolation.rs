// A room alone decides its answers: tables that pass check 2 and agree on one room, the other seven changed at will,
// answer its records alike, whatever office they are read for. By the calls for C beside each other; no answer is
// expected from a model here, which only makes the inputs. Each case passes when all tables of all its inputs agree:
// on the answer, on every byte, on the room's row after it, on its view number and on whom it waits for; and when in
// each table the other seven rows stay word for word.
#[allow(dead_code)]
#[path = "common/inputs.rs"]
mod inputs;
#[allow(dead_code)]
#[path = "common/model.rs"]
mod model;
#[path = "common/play.rs"]
mod play;
#[allow(dead_code)]
#[path = "common/random.rs"]
mod random;
#[allow(dead_code)]
#[path = "common/repeats.rs"]
mod repeats;
#[allow(dead_code)]
#[path = "common/rows.rs"]
mod rows;
#[path = "common/tally.rs"]
mod tally;
#[path = "common/verdicts.rs"]
mod verdicts;

use inputs::{a_play_in, change, handed, rooms, some, some_row, ROWS};
use model::{offices, report, room_of, written_length, Proposal, CAPACITY, FAST, L, ROOMS, SLOW};
use random::Random;
use rows::place;

#[link(name = "room", kind = "static")]
extern "C" {
    fn room_step(
        office: u8, table: *mut u32, words: usize, record: *const u8, length: usize, out: *mut u8, capacity: usize,
    ) -> u32;
    fn room_view_number(table: *const u32, words: usize, room: u8) -> u32;
    fn room_waiting_for(table: *const u32, words: usize, room: u8) -> u32;
}

const BYTE: u8 = 0x5a;
// What a room's own row and record decide.
const ANSWERS: [usize; 10] = [0, 6, 7, 8, 9, 10, 11, 12, 13, 19];
const LENGTHS: [usize; 8] = [0, 79, 85, 94, 100, 164, 179, 185];
// How the other seven rows are made: rows of one kind, of all kinds, or those of a play in all rooms.
const KINDS: usize = ROWS.len() + 2;

#[derive(Default)]
struct Reached {
    // by room: answers, and bytes written at acceptance
    answers: [[u64; 21]; ROOMS],
    lengths: [[u64; LENGTHS.len()]; ROOMS],
    // accepted and refused by how the other rows were made
    kinds: [[u64; 2]; KINDS],
    // others with another own office, by the room of the record
    offices: [u64; ROOMS],
    // by room, for another office than the row's own: accepted and refused, and the answers of an office above 15
    given: [[u64; 2]; ROOMS],
    above: [u64; 21],
}

type Tally = tally::Tally<Reached>;

// All that a room shows of a call: the answer, the output, its row, its view number before and after, and whom it
// waits for before and after.
#[derive(PartialEq)]
struct Shown {
    answer: u32,
    out: Vec<u8>,
    row: Vec<u32>,
    asked: [u32; 4],
}

fn step(office: u8, table: &mut [u32], record: &[u8]) -> (u32, Vec<u8>) {
    let mut out = vec![BYTE; CAPACITY + 8];
    let (words, length, capacity) = (table.len(), record.len(), out.len());
    let answer = unsafe {
        room_step(office, table.as_mut_ptr(), words, record.as_ptr(), length, out.as_mut_ptr(), capacity)
    };
    (answer, out)
}

fn questions(table: &[u32], room: u8) -> [u32; 2] {
    let (words, length) = (table.as_ptr(), table.len());
    unsafe { [room_view_number(words, length, room), room_waiting_for(words, length, room)] }
}

// One record for an office on one table; none where a word of another room was touched.
fn shown(office: u8, table: &mut [u32], record: &[u8]) -> Option<Shown> {
    let (room, before) = (room_of(record), table.to_vec());
    let first = questions(table, room);
    let (answer, out) = step(office, table, record);
    let second = questions(table, room);
    let own = place(room as usize);
    let stays = table[..own.start] == before[..own.start] && table[own.end..] == before[own.end..];
    let asked = [first[0], second[0], first[1], second[1]];
    stays.then(|| Shown { answer, out, row: table[own].to_vec(), asked })
}

// A record for a row: one of its play, a report, or a proposal about the row's numbers that may be refused for
// anything.
fn some_record(random: &mut Random, room: u8, row: &[u32], of_play: &[u8]) -> Vec<u8> {
    let net = row[rows::NET] as u64 | (row[rows::NET + 1] as u64) << 32;
    let own = row[rows::OWN] as usize;
    if random.below(3) == 0 {
        return of_play.to_vec();
    }
    if random.below(3) == 0 {
        return report(room, random.next() & random.next() | 1 << (4 * own), random.next() & random.next());
    }
    let sender = (own + 1 + random.below(15)) % 16;
    let members = if random.below(2) == 0 { net } else { net | 1 << (4 * own) | 1 << (4 * sender) };
    let above = row[rows::ACCEPTED + sender].saturating_add(1);
    let number = some(random, &[row[rows::NUMBER], above, above, L, L - 1, 1]).max(1);
    let mut used = [0; 16];
    offices(members).for_each(|k| used[k] = some(random, &[0, row[rows::NUMBER], 1]));
    used[sender] = used[sender].min(number - 1);
    let start = some(random, &[row[rows::START].max(1), 1, L]);
    let mut p = Proposal { sender: sender as u8, kind: some(random, &[FAST, SLOW]), members, start, number, used };
    match random.below(24) {
        0 => p.sender = some(random, &[own as u8, 16]),
        1 => p.kind = 3,
        2 => p.start = some(random, &[0, L + 1]),
        3 => p.members &= !(15 << (4 * own)),
        4 => p.used[(0..16).find(|&k| members >> (4 * k) & 15 == 0).unwrap_or(sender)] = 1,
        5 => p.used[sender] = number,
        6 => p.used[own] = row[rows::NUMBER].saturating_add(1).min(L),
        _ => (),
    }
    p.bytes(room)
}

// Eight rows that pass check 2, made in one of the KINDS ways.
fn some_others(random: &mut Random, kind: usize, of_play: &[u32]) -> Vec<u32> {
    if kind == ROWS.len() + 1 {
        return of_play.to_vec();
    }
    let all = [0; ROOMS].map(|_| if kind < ROWS.len() { kind } else { random.below(ROWS.len()) });
    all.iter().flat_map(|&kind| some_row(random, kind)).collect()
}

// A room and its row, one record for an office, and tables that have this row: with the other rows of each kind.
fn one_event(t: &mut Tally, random: &mut Random, row: &[u32], record: &[u8], of_play: &[u32]) {
    let room = room_of(record);
    let office = some_office(random, row[rows::OWN] as u8);
    let mut first: Option<Option<Shown>> = None;
    for kind in 0..KINDS {
        let mut table = some_others(random, kind, of_play);
        table[place(room as usize)].copy_from_slice(row);
        let apart = (0..ROOMS).any(|k| table[place(k)][rows::OWN] != row[rows::OWN]);
        t.reached.offices[room as usize] += apart as u64;
        let got = shown(office, &mut table, record);
        if let Some(s) = &got {
            let refused = (s.answer % 256 != 0) as usize;
            t.reached.kinds[kind][refused] += 1;
            match office {
                16.. => t.reached.above[(s.answer % 256).min(20) as usize] += 1,
                office if office as u32 != row[rows::OWN] => t.reached.given[room as usize][refused] += 1,
                _ => count(&mut t.reached, room, s.answer),
            }
        }
        let same = got.is_some() && first.as_ref().is_none_or(|first| *first == got);
        t.compared(same, || {
            let touched = if got.is_none() { "another row was touched" } else { "not as with other rows" };
            let head = &record[..record.len().min(20)];
            format!("office {office}, room {room}, record {head:02x?}, other rows by {kind}: {touched}")
        });
        first.get_or_insert(got);
    }
}

// Mostly the row's own office, now and then any other, also above 15.
fn some_office(random: &mut Random, own: u8) -> u8 {
    let (office, any) = (random.below(16) as u8, random.next() as u8);
    some(random, &[own, own, own, own, own, own, own, own, own, office, office, any])
}

fn count(reached: &mut Reached, room: u8, answer: u32) {
    let (refusal, bytes) = (answer as usize % 256, answer as usize / 256);
    if let Some(n) = reached.answers[room as usize].get_mut(refusal) {
        *n += 1;
    }
    if let (0, Some(at)) = (refusal, LENGTHS.iter().position(|&length| length == bytes)) {
        reached.lengths[room as usize][at] += 1;
    }
}

// A play in these rooms of one to three offices, so that they often agree.
fn small_play(random: &mut Random, rooms: &[u8], records: usize) -> (usize, Vec<Vec<u8>>) {
    let own = random.below(16);
    let pool = (0..random.below(3)).fold(15 << (4 * own), |set, _| set | 15 << (4 * random.below(16)));
    (own, handed(random, pool, own, rooms, records))
}

// Half the plays are gone through as they are, half with words of the row and records changed.
fn one_event_each(t: &mut Tally) {
    t.case("one event, the other seven rows at will", |t| {
        let mut r = Random(1);
        for case in 0..1600 {
            let (room, as_is) = ((case % ROOMS) as u8, case / ROOMS % 2 == 0);
            let (own, records) = small_play(&mut r, &[room], 40);
            let (mut row, mut out) = (rows::fresh(own), Vec::new());
            if case % 5 == 0 {
                [rows::START, rows::NUMBER, rows::VIEW_NUMBER].iter().for_each(|&at| row[at] = L - r.below(6) as u32);
            }
            let of_play = a_table(&mut r);
            for record in records.iter().filter(|record| room_of(record) == room) {
                let mut changed = row.clone();
                if as_is {
                    one_event(t, &mut r, &row, record, &of_play);
                } else {
                    (0..r.below(3)).for_each(|_| change(&mut r, &mut changed));
                    let from = if rows::passes(&changed) { &changed } else { &row };
                    let record = some_record(&mut r, room, from, record);
                    one_event(t, &mut r, from, &record, &of_play);
                }
                if let Ok(event) = model::read(own as u8, record) {
                    rows::act(&mut row, &event, &mut out);
                }
            }
        }
    });
}

// A table as a play in some rooms leaves it.
fn a_table(random: &mut Random) -> Vec<u32> {
    let rooms = rooms(random);
    let (own, records) = a_play_in(random, &rooms, 40);
    let (mut table, mut out) = (rows::fresh_table(own), Vec::new());
    for record in &records {
        rows::step_table(own as u8, &mut table, record, CAPACITY, &mut out);
    }
    table
}

// The same row and record in each of the eight rooms, all else at will: the answers are the same but for the room
// bytes.
fn any_room(t: &mut Tally) {
    t.case("the same row in every room", |t| {
        let mut r = Random(2);
        for _ in 0..300 {
            let (own, records) = small_play(&mut r, &[0], 30);
            let (mut row, mut out) = (rows::fresh(own), Vec::new());
            for record in records.iter().filter(|record| room_of(record) == 0) {
                let record = if r.below(3) == 0 { some_record(&mut r, 0, &row, record) } else { record.clone() };
                let (mut first, office): (Option<Shown>, _) = (None, some_office(&mut r, own as u8));
                for room in 0..ROOMS as u8 {
                    let kind = r.below(ROWS.len() + 1);
                    let mut table = some_others(&mut r, kind, &[]);
                    table[place(room as usize)].copy_from_slice(&row);
                    let mut there = record.clone();
                    there[2] = room;
                    let got = shown(office, &mut table, &there).and_then(|s| in_room_0(room, s));
                    let same = got.is_some() && (first.is_none() || got == first);
                    t.compared(same, || format!("room {room} is not as room 0, record {:02x?}", &record[..19]));
                    if first.is_none() {
                        first = got;
                    }
                }
                if let Ok(event) = model::read(own as u8, &record) {
                    rows::act(&mut row, &event, &mut out);
                }
            }
        }
    });
}

// What is shown with room byte 0 in each record written; none where one has another room than the record's.
fn in_room_0(room: u8, mut shown: Shown) -> Option<Shown> {
    let (mut at, end) = (0, shown.answer as usize / 256);
    while at < end {
        if shown.out[at + 2] != room {
            return None;
        }
        shown.out[at + 2] = 0;
        at += written_length(&shown.out[at..end]);
    }
    Some(shown)
}

// A run in all rooms on one table, and for each room a table that is handed this room's records alone, its other rows
// at will at first. Rooms above 7 are handed to all.
fn whole_runs(t: &mut Tally) {
    t.case("runs of all rooms beside runs of one", |t| {
        let mut r = Random(3);
        for case in 0..150 {
            let eight: Vec<u8> = (0..ROOMS as u8).collect();
            let (own, records) =
                if case % 2 == 0 { small_play(&mut r, &eight, 800) } else { a_play_in(&mut r, &eight, 800) };
            let mut row = rows::fresh(own);
            if case % 4 == 0 {
                [rows::START, rows::NUMBER, rows::VIEW_NUMBER].iter().for_each(|&at| row[at] = L - r.below(40) as u32);
            }
            let mut all = row.repeat(ROOMS);
            let mut alone: Vec<Vec<u32>> = (0..ROOMS).map(|room| {
                let mut table = some_others(&mut r, room % (ROWS.len() + 1), &[]);
                table[place(room)].copy_from_slice(&row);
                table
            }).collect();
            let seven: Vec<Vec<u32>> = alone.clone();
            for record in &records {
                let Some(by_itself) = alone.get_mut(room_of(record) as usize) else {
                    let before = all.clone();
                    let refused = step(own as u8, &mut all, record) == (20, vec![BYTE; CAPACITY + 8]) && all == before;
                    t.compared(refused, || format!("room {} is refused by 20 and touches nothing", room_of(record)));
                    continue;
                };
                let (in_all, by_itself) = (shown(own as u8, &mut all, record), shown(own as u8, by_itself, record));
                let same = in_all.is_some() && in_all == by_itself;
                if let Some(s) = &in_all {
                    count(&mut t.reached, room_of(record), s.answer);
                }
                t.compared(same, || format!("room {}: not as by itself", room_of(record)));
            }
            // after the whole run: the room's row in both, and the rows that nobody asked for as they were
            for room in 0..ROOMS {
                let mut expected = seven[room].clone();
                expected[place(room)].copy_from_slice(&all[place(room)]);
                t.compared(alone[room] == expected, || format!("room {room} after a run"));
            }
        }
    });
}

fn main() {
    let mut tally = Tally::new(Reached::default());
    let t = &mut tally;
    one_event_each(t);
    any_room(t);
    whole_runs(t);

    for answer in ANSWERS {
        let least = t.reached.answers.iter().map(|n| n[answer]).min().unwrap();
        t.often(&format!("answer {answer}, of the room with fewest"), least, 100);
    }
    for (at, length) in LENGTHS.into_iter().enumerate() {
        let least = t.reached.lengths.iter().map(|n| n[at]).min().unwrap();
        t.often(&format!("{length} bytes written, of the room with fewest"), least, 10);
    }
    let names = ROWS.into_iter().chain(["of all these kinds", "of a play"]);
    for (kind, what) in names.enumerate() {
        let [accepted, refused] = t.reached.kinds[kind];
        t.often(&format!("other rows {what}: accepted"), accepted, 10_000);
        t.often(&format!("other rows {what}: refused"), refused, 5000);
    }
    let least = *t.reached.offices.iter().min().unwrap();
    t.often("other rows with another own office, of the room with fewest", least, 10_000);
    for (at, what) in ["accepted", "refused"].into_iter().enumerate() {
        let least = t.reached.given.iter().map(|n| n[at]).min().unwrap();
        t.often(&format!("{what} for another office than the row's own, of the room with fewest"), least, 500);
    }
    let above = t.reached.above;
    t.often("answered 1, for an office above 15", above[1], 5000);
    t.verdicts.check("for an office above 15 all are answered 1", above.iter().sum::<u64>() == above[1]);
    println!("isolation: {} inputs compared", tally.inputs);
    tally.verdicts.end();
}
