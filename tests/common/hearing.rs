// What desks are tried with: the days of an office in its rooms, damaged records, and desks with a word changed.
use crate::inputs::{handed, rooms, some};
use crate::model::{room_of, written_length, Table, CAPACITY, L, PROPOSAL, ROOMS, VIEW};
use crate::play::{Habits, Play};
use crate::random::Random;
use crate::seat::{members, number_of, place, view, Desk};

// One event at an office: its room, the net view there after it, and what it has written to its seats.
pub struct Event {
    pub room: usize,
    pub net: u64,
    pub records: Vec<Vec<u8>>,
}

// A play of an office in one room or more.
pub struct Day {
    pub office: usize,
    pub events: Vec<Event>,
}

impl Day {
    pub fn new(random: &mut Random, office: usize, records: usize) -> Day {
        let (pool, rooms) = (some_pool(random, office), rooms(random));
        let (mut table, mut out) = (Table::fresh(office), Vec::new());
        let event = |record: Vec<u8>| {
            table.step(office as u8, &record, CAPACITY, &mut out);
            // a room above 7 has no state, and nothing is written
            let room = room_of(&record) as usize % ROOMS;
            Event { room, net: table.rooms[room].net, records: to_seats(&out) }
        };
        Day { office, events: handed(random, pool, office, &rooms, records).into_iter().map(event).collect() }
    }

    pub fn seats(&self) -> std::ops::Range<usize> {
        4 * self.office..4 * self.office + 4
    }

    pub fn records(&self) -> Vec<&[u8]> {
        self.events.iter().flat_map(|event| &event.records).map(|record| &record[..]).collect()
    }
}

// Seats of an office and of at most three others, so that they often agree.
fn some_pool(random: &mut Random, office: usize) -> u64 {
    let pool = (0..random.below(4)).fold(15 << (4 * office), |set, _| set | 15 << (4 * random.below(16)));
    pool & (random.next() | random.next())
}

// A play of several offices in some rooms: the notices and views of all, each with its office, in the order written.
// Forged proposals come to the one given.
pub fn told(random: &mut Random, habits: Habits, office: usize, records: usize) -> Vec<(usize, Vec<u8>)> {
    let (pool, rooms) = (some_pool(random, office), rooms(random));
    let (mut play, mut all) = (Play::new(Random(random.next() | 1), habits, pool, office, &rooms), Vec::new());
    play.go_telling(records, |office, written| {
        all.extend(to_seats(written).into_iter().map(|record| (office, record)))
    });
    all
}

// The notices and views among what is written; proposals go to other offices.
fn to_seats(written: &[u8]) -> Vec<Vec<u8>> {
    let (mut all, mut rest) = (Vec::new(), written);
    while !rest.is_empty() {
        let (record, more) = rest.split_at(written_length(rest));
        if record.len() != PROPOSAL {
            all.push(record.to_vec());
        }
        rest = more;
    }
    all
}

// A number about those of a record and of a desk in its room, or an edge.
fn some_number(random: &mut Random, desk: &Desk, record: &[u8]) -> u32 {
    let machine = &desk[place(record[2] as usize % ROOMS)];
    let near = some(random, &[machine[0], machine[1], number_of(record)]);
    let any = random.next() as u32;
    some(random, &[near, near.wrapping_add(1), near.wrapping_sub(1), 0, L, L + 1, u32::MAX, any])
}

// Another room, the first above them, or any byte.
fn some_room(random: &mut Random) -> u8 {
    let (other, any) = (random.below(ROOMS) as u8, random.next() as u8);
    some(random, &[other, other, 8, 8 | other, 255, any])
}

// One field of a notice or view changed: its room, its number, its members, a start number of a view.
fn alter(random: &mut Random, desk: &Desk, record: &mut [u8]) {
    let number = some_number(random, desk, record).to_be_bytes();
    let (own, any) = (desk[0] as usize % 64, random.below(64));
    match random.below(5) {
        0 => record[3..7].copy_from_slice(&number),
        1 => {
            let seats = some(random, &[1 << own, 1 << any, 15 << (own / 4 * 4), 15 << (any / 4 * 4)]);
            let changed = members(record) ^ seats;
            record[7..15].copy_from_slice(&changed.to_be_bytes());
        }
        2 => record[2] = some_room(random),
        _ if record.len() == VIEW => {
            let at = 15 + 4 * some(random, &[any / 4, any / 4, own / 4]);
            record[at..at + 4].copy_from_slice(&number);
        }
        _ => (),
    }
}

// A record cut, lengthened, under another mark, or with one or two bytes or fields changed; one of four has another
// room besides.
pub fn damaged(random: &mut Random, desk: &Desk, record: &[u8]) -> Vec<u8> {
    let mut record = record.to_vec();
    let (times, length) = (1 + random.below(2), record.len());
    if random.below(4) == 0 {
        record[2] = some_room(random);
    }
    match random.below(12) {
        0 => record.truncate(random.below(length)),
        1 => {
            let more = 1 + random.below(80);
            record.extend(random.bytes(more));
        }
        2 => record.resize(some(random, &[2, 3, 14, 15, 78, 79, length - 1, length + 1]), 0),
        3 => {
            let mark = some(random, &[b"SC", b"VW", b"NE", b"PR", b"CS", b"WV", b"SW", b"VC"]);
            record[..2].copy_from_slice(mark);
        }
        4..=6 => (0..times).for_each(|_| record[random.below(length)] = random.next() as u8),
        _ => (0..times).for_each(|_| alter(random, desk, &mut record)),
    }
    record
}

// One word of a desk changed, in half of the cases one of the record's room: the edges of seats and numbers, any word,
// and about the numbers of an undamaged record.
pub fn change(random: &mut Random, desk: &mut Desk, record: &[u8]) {
    let any = random.next() as u32;
    let mut near = number_of(record);
    if record.len() == VIEW && random.below(2) == 0 {
        near = view(record).starts[desk[0] as usize % 64 / 4];
    }
    let in_room = place(room_of(record) as usize % ROOMS).start + random.below(3);
    let anywhere = random.below(desk.len());
    let at = some(random, &[0, in_room, in_room, in_room, anywhere, anywhere]);
    desk[at] = match (at % 3, random.below(3)) {
        (0, 0) if at == 0 => any % 64,
        (0, 1) if at == 0 => desk[0] | 256,
        (1 | 2, 0 | 1) => some(random, &[near, near.wrapping_add(1), near.wrapping_sub(1)]),
        (0, 0 | 1) if at > 0 => some(random, &[0, 1, 2, 256, 1 << 31]),
        _ => some(random, &[any, L, L + 1, 63, 64, 0, u32::MAX]),
    };
}

// The machines of all rooms but one filled: with numbers above L, any words, numbers of days, or those of the one.
pub fn fill_others(random: &mut Random, desk: &mut Desk, room: usize) {
    let own: Vec<u32> = desk[place(room)].to_vec();
    for other in (0..ROOMS).filter(|&other| other != room) {
        let [a, b, c] = [0; 3].map(|_| random.next() as u32);
        let high = some(random, &[L + 1, 1 << 31, u32::MAX]);
        let words = match random.below(6) {
            0 => [a, b, c],
            1 => [high, b % L, c % 2],
            2 => [a % L, high, c % 2],
            3 => [high, high, some(random, &[0, 1, 2, 256, u32::MAX])],
            4 => [a % 16, b % 16, c % 3],
            _ => [own[0], own[1], own[2]],
        };
        desk[place(other)].copy_from_slice(&words);
    }
}
