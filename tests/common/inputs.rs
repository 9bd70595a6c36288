// What the calls for C on a table are tried with: the records of plays, and rows with a word changed.
use crate::model::{mark_length, offices, L, ROOMS};
use crate::play::{Habits, Play};
use crate::random::Random;
use crate::rows::{self, WORDS};

pub fn habits(random: &mut Random) -> Habits {
    let (forged, damaged) = match random.below(3) {
        0 => (0, 0),
        1 => (100 + random.below(400), random.below(60)),
        _ => (random.below(200), 200 + random.below(300)),
    };
    Habits {
        change: 4 + random.below(40),
        own_report: random.below(40),
        back: random.below(30),
        repeat: random.below(60),
        loss: random.below(20),
        swap: random.below(20),
        forged,
        damaged,
        stray: random.below(12),
    }
}

// The rooms of a play: one, two or three, or mostly all, in any order.
pub fn rooms(random: &mut Random) -> Vec<u8> {
    let mut all: Vec<u8> = (0..ROOMS as u8).collect();
    (0..ROOMS - 1).for_each(|k| all.swap(k, k + random.below(ROOMS - k)));
    let count = some(random, &[1, 1, 2, 3, ROOMS, ROOMS, ROOMS, ROOMS]);
    all.truncate(count);
    all
}

// The office of a play in some rooms and the records that it is handed.
pub fn a_play(random: &mut Random, records: usize) -> (usize, Vec<Vec<u8>>) {
    let rooms = rooms(random);
    a_play_in(random, &rooms, records)
}

// The same in these rooms.
pub fn a_play_in(random: &mut Random, rooms: &[u8], records: usize) -> (usize, Vec<Vec<u8>>) {
    let pool = random.next() & random.next() | 0xff;
    let all: Vec<usize> = offices(pool).collect();
    let kept = all[random.below(all.len())];
    (kept, handed(random, pool, kept, rooms, records))
}

// The records that an office is handed in a play in these rooms with some seats that come and go.
pub fn handed(random: &mut Random, pool: u64, kept: usize, rooms: &[u8], records: usize) -> Vec<Vec<u8>> {
    let habits = habits(random);
    let mut play = Play::new(Random(random.next() | 1), habits, pool, kept, rooms);
    play.go(records);
    let mut rest = &play.input[1..];
    let mut handed = Vec::new();
    while !rest.is_empty() {
        let (record, more) = rest.split_at(mark_length(rest).unwrap());
        handed.push(record.to_vec());
        rest = more;
    }
    handed
}

pub fn some<T: Copy>(random: &mut Random, of: &[T]) -> T {
    of[random.below(of.len())]
}

// Words that pass check 2, made from any.
pub fn make_sound(row: &mut [u32]) {
    row[rows::OWN] %= 16;
    row[rows::MODE] %= 3;
    row[rows::PRESENT] %= 65_536;
    for word in &mut row[rows::START..] {
        *word %= L + 1;
    }
}

// Each way in which one word alone makes a row malformed: its place, and what stands there. A number of a stored
// proposal counts where one is stored.
pub fn bad_words() -> Vec<(usize, u32)> {
    let mut all = Vec::new();
    all.extend([16, 17, 31, 256, u32::MAX].map(|word| (rows::OWN, word)));
    all.extend([3, 4, 255, 256, u32::MAX].map(|word| (rows::MODE, word)));
    all.extend((16..32).map(|bit| (rows::PRESENT, 1 << bit)).chain([(rows::PRESENT, u32::MAX)]));
    all.extend((rows::START..WORDS).flat_map(|at| [L + 1, 1 << 31, u32::MAX].map(|word| (at, word))));
    all
}

// Eight rows of one kind that pass check 2; every slot is present where a word of one is to be bad.
pub fn some_table(random: &mut Random, kind: usize, at: usize) -> Vec<u32> {
    let mut rows = Vec::new();
    for _ in 0..ROOMS {
        let mut row = some_row(random, kind);
        if at >= rows::slot_numbers(0) {
            row[rows::PRESENT] = 65_535;
            make_sound(&mut row);
        }
        rows.extend(row);
    }
    rows
}

// How the rows of rooms that nobody asks for are made; each passes check 2.
pub const ROWS: [&str; 5] =
    ["fresh", "any words", "numbers near L", "every number L", "numbers near L, and above it where nothing is stored"];

pub fn some_row(random: &mut Random, kind: usize) -> Vec<u32> {
    let mut row: Vec<u32> = (0..WORDS).map(|_| random.next() as u32).collect();
    make_sound(&mut row);
    match kind {
        0 => return rows::fresh(row[rows::OWN] as usize),
        1 => (),
        2 => row[rows::START..].fill_with(|| L - random.below(5) as u32),
        3 => row[rows::START..].fill(L),
        _ => {
            row[rows::START..].fill_with(|| L - random.below(5) as u32);
            for o in (0..16).filter(|&o| row[rows::PRESENT] >> o & 1 == 0).collect::<Vec<_>>() {
                let at = rows::slot_numbers(o);
                row[at..at + 18].fill_with(|| some(random, &[L, L + 1, u32::MAX]));
            }
        }
    }
    row
}

// One word of a row changed: numbers about L and about the numbers there, modes, presence, what stands behind an
// empty slot, sets at will.
pub fn change(random: &mut Random, row: &mut [u32]) {
    let o = random.below(16);
    let low = (1 << 30) - 1;
    let near = row[rows::NUMBER];
    let any = random.next() as u32;
    match random.below(16) {
        0 => row[rows::MODE] = some(random, &[0, 1, 2, 0, 1, 2, 3, u32::MAX]),
        1 => change_presence(random, row, o),
        2 => row[rows::OWN] = some(random, &[o as u32, 15, 0, 16, 256]),
        3 => row[rows::slot(o)] = any,
        4 => row[rows::slot(o) + 1] = some(random, &[0, 1, 2, 3, 257, 258, u32::MAX]),
        5 => {
            let at = rows::NET + random.below(4);
            row[at] = some(random, &[0, any, row[rows::NET], 1 << (any % 32)]);
        }
        6 => row[rows::slot(o) + 2 + random.below(2)] = some(random, &[0, row[rows::NET], row[rows::NET + 1], any]),
        7 => {
            row[some(random, &[rows::START, rows::NUMBER, rows::VIEW_NUMBER])] =
                some(random, &[L - 2, L - 1, L, low, low + 1])
        }
        8 => {
            let at = rows::slot_numbers(o) + random.below(2);
            row[at] = some(random, &[L - 1, L, low, low + 1, near, near + 1]);
        }
        9 => {
            // behind an empty slot any word stands
            if let Some(o) = (0..16).map(|k| (o + k) % 16).find(|&o| !rows::present(row, o)) {
                let (slot, numbers) = (rows::slot(o) + random.below(4), rows::slot_numbers(o) + random.below(18));
                row[some(random, &[slot, numbers, numbers, numbers])] = any;
            }
        }
        10 => row[rows::ACCEPTED + o] = some(random, &[0, L, near]),
        11 => row[rows::START + random.below(WORDS - rows::START)] = some(random, &[L + 1, u32::MAX]),
        _ => {
            let at = rows::START + random.below(WORDS - rows::START);
            row[at] = some(random, &[L, L - 1, 0, near, near + 1, low]);
        }
    }
}

// The bit of an office set or cleared, or bits that no office has. Where a slot comes to be present, half the time its
// other words are any, with numbers that pass.
fn change_presence(random: &mut Random, row: &mut [u32], o: usize) {
    let (bits, bit) = (row[rows::PRESENT], 1 << o);
    row[rows::PRESENT] =
        some(random, &[bits & !bit, bits | bit, bits & !bit, bits | bit, bits | bit, bits | bit << 16, u32::MAX]);
    if bits & bit == 0 && rows::present(row, o) && random.below(2) == 0 {
        let (slot, numbers) = (rows::slot(o), rows::slot_numbers(o));
        row[slot..slot + 4].fill_with(|| random.next() as u32);
        row[slot + 1] = some(random, &[1, 2, row[slot + 1]]);
        if random.below(2) == 0 {
            row.copy_within(rows::NET..rows::NET + 2, slot + 2);
        }
        row[numbers..numbers + 18].fill_with(|| (random.next() % (L as u64 + 1)) as u32);
    }
}
