// What the question who came along is tried with: views, sheets for them, and damage to both.
use crate::inputs::some;
use crate::model::{has_seat, number, View, L, ROOMS, VIEW};
use crate::random::Random;
use crate::sheet::{is_in, Sync, BYTES};

// A question: a sheet, a view and one's own previous view number.
#[derive(Clone)]
pub struct Asked {
    pub sheet: Vec<u8>,
    pub view: Vec<u8>,
    pub own: u32,
}

impl Asked {
    pub fn bytes(&self) -> Vec<u8> {
        [&self.sheet[..], &self.view, &self.own.to_be_bytes()].concat()
    }

    pub fn flipped(&self, bit: usize) -> Asked {
        let mut all = self.bytes();
        all[bit / 8] ^= 1 << (bit % 8);
        let (sheet, rest) = all.split_at(self.sheet.len());
        let (view, own) = rest.split_at(self.view.len());
        Asked { sheet: sheet.to_vec(), view: view.to_vec(), own: number(own, 0) }
    }
}

// Numbers

// Small, so that two are often the same, about L, or any.
pub fn some_number(random: &mut Random) -> u32 {
    let any = random.next() as u32 % (L + 1);
    some(random, &[0, 1, 2, 3, 4, L - 1, L, any])
}

// Another number that is not above L: the next ones, one bit away, an edge.
pub fn other(random: &mut Random, n: u32) -> u32 {
    loop {
        let bit = n ^ 1 << random.below(31);
        let tried = some(random, &[n.wrapping_add(1), n.wrapping_sub(1), bit, bit, 0, L]);
        if tried != n && tried <= L {
            return tried;
        }
    }
}

// The edges, and beyond.
fn any_edge(random: &mut Random) -> u32 {
    some(random, &[0, 1, L - 1, L, L + 1, 1 << 31, u32::MAX])
}

// Views

// No seat, one, an office's four, some, all.
pub fn some_members(random: &mut Random) -> u64 {
    let seat = random.below(64);
    let half = random.next();
    let quarter = half & random.next();
    let eighth = quarter & random.next();
    some(
        random,
        &[0, 1 << seat, 15 << (seat / 4 * 4), u64::MAX, half, quarter, eighth, eighth, eighth & half.rotate_left(9)],
    )
}

pub fn some_view(random: &mut Random, members: u64) -> View {
    let starts = std::array::from_fn(|o| if has_seat(members, o) { some_number(random) } else { 0 });
    View { number: some_number(random), members, starts }
}

// Any room.
pub fn some_room(random: &mut Random) -> u8 {
    random.below(ROOMS) as u8
}

// One above them: the next, one that is a room but for its high bits, or any.
pub fn room_above(random: &mut Random) -> u8 {
    let (room, any) = (some_room(random), 8 + random.below(248) as u8);
    some(random, &[8, 8 | room, 128 | room, 255, any, any])
}

pub fn seats(members: u64) -> impl Iterator<Item = usize> {
    (0..64).filter(move |&seat| is_in(members, seat))
}

// Sheets

// A seat's record that counts for a view.
pub fn counted(view: &View, seat: usize, previous: u32) -> Sync {
    Sync { seat: seat as u8, start: view.starts[seat / 4], previous }
}

// One record for each member that counts; three of four name the number.
pub fn whole(random: &mut Random, view: &View, own: u32) -> Vec<Sync> {
    let named = |random: &mut Random| if random.below(4) == 0 { other(random, own) } else { own };
    let mut records: Vec<Sync> = seats(view.members).map(|seat| counted(view, seat, named(random))).collect();
    shuffle(random, &mut records);
    records
}

// A record of any seat, with the start number of its office, of any office, or another; it names the number or
// another.
pub fn beside(random: &mut Random, view: &View, own: u32) -> Sync {
    let seat = random.below(64);
    let right = view.starts[seat / 4];
    let (wrong, previous, office) = (other(random, right), other(random, own), random.below(16));
    let start = some(random, &[right, right, wrong, view.starts[office]]);
    Sync { seat: seat as u8, start, previous: some(random, &[own, previous]) }
}

// The same beside a sheet's records, anywhere among them.
pub fn add_beside(random: &mut Random, records: &mut Vec<Sync>, view: &View, own: u32, times: usize) {
    for _ in 0..times {
        let (at, record) = (random.below(records.len() + 1), beside(random, view, own));
        records.insert(at, record);
    }
}

// The records of a row in their order, anywhere among others.
pub fn among(random: &mut Random, others: &[Sync], row: &[Sync]) -> Vec<Sync> {
    let (mut all, mut at) = (others.to_vec(), 0);
    for &record in row {
        at += random.below(all.len() + 1 - at);
        all.insert(at, record);
        at += 1;
    }
    all
}

pub fn shuffle<T>(random: &mut Random, all: &mut [T]) {
    for last in (1..all.len()).rev() {
        all.swap(last, random.below(last + 1));
    }
}

// Damage

// The ways in which a record is bad, each by itself or with what comes after it in the order; and edges that are not
// bad.
pub const BAD: [fn(&mut [u8]); 14] = [
    |record| record[0] = 0x52,
    |record| record[1] = 0x43,
    |record| record[..2].copy_from_slice(b"YS"),
    |record| record[2] = 64,
    |record| record[2] = 255,
    |record| put(record, 3, L + 1),
    |record| put(record, 3, u32::MAX),
    |record| put(record, 7, L + 1),
    |record| put(record, 7, u32::MAX),
    |record| record[1..3].copy_from_slice(&[0x58, 64]),
    |record| record.fill(0xff),
    |record| record[2..].fill(0xff),
    |record| record[3..].fill(0xff),
    |record| (record[1], record[7]) = (0x5a, 0xff),
];

pub const NOT_BAD: [fn(&mut [u8]); 4] =
    [|record| record[2] = 63, |record| put(record, 3, L), |record| put(record, 7, L), |record| record[3..].fill(0)];

pub fn put(bytes: &mut [u8], at: usize, number: u32) {
    bytes[at..at + 4].copy_from_slice(&number.to_be_bytes());
}

fn damage_bytes(random: &mut Random, bytes: &mut Vec<u8>) {
    let length = bytes.len();
    let at = random.below(length + 1);
    match random.below(6) {
        0 => bytes.truncate(at),
        1 => {
            let more = 1 + random.below(30);
            bytes.extend(random.bytes(more));
        }
        2 if at < length => bytes[at] = random.next() as u8,
        3 if at < length => _ = bytes.remove(at),
        _ if at < length => bytes[at] ^= 1 << random.below(8),
        _ => bytes.push(0),
    }
}

// A record left out, doubled, elsewhere, bad, or at an edge.
fn damage_sheet(random: &mut Random, sheet: &mut Vec<u8>) {
    let mut records: Vec<Vec<u8>> = sheet.chunks(BYTES).map(<[u8]>::to_vec).collect();
    if records.is_empty() || records.last().unwrap().len() != BYTES {
        return damage_bytes(random, sheet);
    }
    let (from, to) = (random.below(records.len()), random.below(records.len()));
    match random.below(6) {
        0 => _ = records.remove(from),
        1 => records.insert(to, records[from].clone()),
        2 => records.swap(from, to),
        3 | 4 => some(random, &BAD)(&mut records[from]),
        _ => some(random, &NOT_BAD)(&mut records[from]),
    }
    *sheet = records.concat();
}

fn damage_view(random: &mut Random, view: &mut Vec<u8>) {
    let edge = any_edge(random);
    match random.below(7) {
        0 if view.len() >= 2 => {
            view[..2].copy_from_slice(some(random, &[b"SC", b"PR", b"NE", b"SY", b"WV", b"VV", b"WW"]))
        }
        1 if view.len() == VIEW => put(view, 3, edge),
        2 if view.len() == VIEW => view[7 + random.below(8)] ^= 1 << random.below(8),
        3 | 4 if view.len() == VIEW => put(view, 15 + 4 * random.below(16), edge),
        5 if view.len() > 2 => view[2] = room_above(random),
        _ => damage_bytes(random, view),
    }
}

// One to three things changed.
pub fn damage(random: &mut Random, asked: &mut Asked) {
    for _ in 0..1 + random.below(3) {
        match random.below(9) {
            0 => asked.own = any_edge(random),
            1..=3 => damage_view(random, &mut asked.view),
            4 | 5 => damage_bytes(random, &mut asked.sheet),
            _ => damage_sheet(random, &mut asked.sheet),
        }
    }
}
