// The question for C whom an office waits for in a room, beside the model, written from change requests 1 and 9. Each
// case is a kind of input; it passes when the two agree on all of its inputs, and no word was touched.
#[allow(dead_code)]
#[path = "common/inputs.rs"]
mod inputs;
#[allow(dead_code)]
#[path = "common/model.rs"]
mod model;
#[path = "common/play.rs"]
mod play;
#[allow(dead_code)]
#[path = "common/random.rs"]
mod random;
#[allow(dead_code)]
#[path = "common/repeats.rs"]
mod repeats;
#[allow(dead_code)]
#[path = "common/rows.rs"]
mod rows;
#[path = "common/verdicts.rs"]
mod verdicts;

use inputs::{a_play, bad_words, change, make_sound, some, some_row, some_table, ROWS};
use model::{room_of, Waiting, CAPACITY, L, ROOMS};
use random::Random;
use rows::{place, TABLE, WORDS};
use verdicts::Verdicts;

#[link(name = "room", kind = "static")]
extern "C" {
    fn room_waiting_for(table: *const u32, words: usize, room: u8) -> u32;
}

// By include/room.h: 256 x the answer + the refusal.
fn number(w: Waiting) -> u32 {
    match w {
        Waiting::Refused(n) => 256 * 17 + n as u32,
        Waiting::Nobody => 256 * 17,
        Waiting::Met => 256 * 16,
        Waiting::Office(o) => 256 * o as u32,
    }
}

// By the model: 2 where the words are no table, then 20, then what the room's state says.
fn expected(table: &[u32], room: u8) -> Waiting {
    if !rows::passes_table(table) {
        return Waiting::Refused(2);
    }
    if room as usize >= ROOMS {
        return Waiting::Refused(20);
    }
    rows::read(&table[place(room as usize)]).unwrap().waiting_for()
}

struct Tally {
    // in each room: each office, met, nobody, as often as it came
    reached: [[u64; 18]; ROOMS],
    // by room byte: 2 and 20
    refused: Vec<[u64; 2]>,
    inputs: u64,
    wrong: u64,
    verdicts: Verdicts,
}

impl Tally {
    // The answer of the model, compared.
    fn ask(&mut self, table: &[u32], room: u8) -> Waiting {
        let expected = expected(table, room);
        let kept = table.to_vec();
        let got = unsafe { room_waiting_for(table.as_ptr(), table.len(), room) };
        self.inputs += 1;
        match expected {
            Waiting::Refused(n) => self.refused[room as usize][(n == 20) as usize] += 1,
            Waiting::Office(o) => self.reached[room as usize][o] += 1,
            Waiting::Met => self.reached[room as usize][16] += 1,
            Waiting::Nobody => self.reached[room as usize][17] += 1,
        }
        if got != number(expected) || table != kept {
            self.wrong += 1;
            if self.wrong <= 5 {
                println!("{} words, room {room}: got {got}, expected {}", table.len(), number(expected));
            }
        }
        expected
    }

    fn case(&mut self, name: &str, run: impl FnOnce(&mut Tally)) {
        let (inputs, wrong) = (self.inputs, self.wrong);
        run(self);
        println!("{name}: {} compared", self.inputs - inputs);
        self.verdicts.check(name, self.wrong == wrong && self.inputs > inputs);
    }

    fn often(&mut self, what: &str, n: u64, least: u64) {
        println!("  {what}: {n}");
        self.verdicts.check(&format!("{what}: at least {least}"), n >= least);
    }
}

// The own proposal's words copied to the slots of the offices from one on, or of all: the agreement test comes close
// to being met, and is met at times. Then a word of a slot, or the own number, may change.
fn fill(random: &mut Random, row: &mut [u32]) {
    let own = row[rows::OWN] as usize;
    let (slot, numbers) = (rows::slot(own), rows::slot_numbers(own));
    let first = if random.below(2) == 0 { 0 } else { random.below(16) };
    for o in first..16 {
        row.copy_within(slot..slot + 4, rows::slot(o));
        row.copy_within(numbers..numbers + 18, rows::slot_numbers(o));
    }
    let filled = 65_536 - (1 << first);
    row[rows::PRESENT] = row[rows::PRESENT] & !filled | if rows::present(row, own) { filled } else { 0 };
    let o = random.below(16);
    match random.below(3) {
        0 => match random.below(4) {
            0 => {
                let (bits, bit) = (row[rows::PRESENT], 1 << o);
                row[rows::PRESENT] = some(random, &[bits & !bit, bits | bit, bits | bit << 16]);
            }
            _ => {
                row[some(random, &[rows::slot(o) + 1, rows::slot(o) + 2, rows::slot_numbers(o) + 1])] =
                    some(random, &[0, 1, 2])
            }
        },
        1 => row[rows::NUMBER] += 1,
        _ => (),
    }
}

// The table after each record of plays, with the office and the record's room.
fn along(random: &mut Random, plays: usize, records: usize, mut each: impl FnMut(&mut Random, &[u32], usize, u8)) {
    for _ in 0..plays {
        let (own, records) = a_play(random, records);
        let (mut table, mut out) = (rows::fresh_table(own), Vec::new());
        for record in &records {
            rows::step_table(own as u8, &mut table, record, CAPACITY, &mut out);
            each(random, &table, own, room_of(record));
        }
    }
}

fn after_each_record(t: &mut Tally) {
    let (mut met, mut itself) = (0, 0);
    t.case("after each record of plays, its room and another", |t| {
        along(&mut Random(0x2545_f491_4f6c_dd1d), 300, 1000, |r, table, own, room| {
            for asked in [room, r.next() as u8 % ROOMS as u8] {
                let answer = t.ask(table, asked);
                met += (answer == Waiting::Met) as u32;
                itself += (answer == Waiting::Office(own)) as u32;
            }
        });
    });
    t.verdicts.check("along a run it is never met and never waits for itself", met == 0 && itself == 0);
}

fn changed_rows(t: &mut Tally) {
    let (mut changed, mut passed) = (0, 0);
    // by the only room whose row fails check 2, and by the one asked for
    let mut alone = [[0_u64; ROOMS]; ROOMS];
    t.case("tables of plays with none, one or two words changed", |t| {
        along(&mut Random(2), 750, 200, |r, table, _, room| {
            for _ in 0..2 {
                let mut other = table.to_vec();
                let mut at = room as usize % ROOMS;
                for _ in 0..r.below(3) {
                    change(r, &mut other[place(at)]);
                    at = (at + r.below(2)) % ROOMS;
                }
                let any = r.below(ROOMS);
                let asked = some(r, &[at, at, any]);
                changed += 1;
                passed += (t.ask(&other, asked as u8) != Waiting::Refused(2)) as usize;
                let bad: Vec<usize> = (0..ROOMS).filter(|&k| !rows::passes(&other[place(k)])).collect();
                if let [bad] = bad[..] {
                    alone[bad][asked] += 1;
                }
            }
        });
    });
    println!("{changed} tables, {passed} of them pass check 2");
    t.verdicts.check("half of the tables pass check 2", changed >= 300_000 && 2 * passed >= changed);
    let least = *alone.iter().flatten().min().unwrap();
    t.often("one row fails check 2, of that row and the room asked for with fewest", least, 50);
}

fn filled_rows(t: &mut Tally) {
    t.case("tables of plays, a row's slots filled from its own one", |t| {
        along(&mut Random(3), 400, 300, |r, table, _, room| {
            let room = room as usize % ROOMS;
            let mut other = table.to_vec();
            fill(r, &mut other[place(room)]);
            t.ask(&other, room as u8);
        });
    });
    t.case("one row of a play, filled or not, the other seven any that pass check 2", |t| {
        along(&mut Random(6), 100, 300, |r, table, _, room| {
            let mut row = table[place(room as usize % ROOMS)].to_vec();
            if r.below(2) == 0 {
                fill(r, &mut row);
            }
            let (at, kinds) = (r.below(ROOMS), [0; ROOMS].map(|_| r.below(ROWS.len())));
            let mut other: Vec<u32> = kinds.iter().flat_map(|&kind| some_row(r, kind)).collect();
            other[place(at)].copy_from_slice(&row);
            t.ask(&other, at as u8);
        });
    });
}

// Each way in which one word makes a row malformed, in each of the eight rows, each room asked for and one above 7.
fn malformed(t: &mut Tally) {
    let name = "one word of one row that fails check 2";
    let (mut refused, mut passed, mut asked) = (0, 0, 0);
    t.case(name, |t| {
        let mut r = Random(8);
        for (k, (at, word)) in bad_words().into_iter().enumerate() {
            for bad in 0..ROOMS {
                let mut table = some_table(&mut r, k % ROWS.len(), at);
                let sound = std::mem::replace(&mut table[WORDS * bad + at], word);
                for room in 0..=ROOMS as u8 {
                    refused += (t.ask(&table, room) == Waiting::Refused(2)) as u64;
                    asked += 1;
                }
                table[WORDS * bad + at] = sound;
                passed += (t.ask(&table, bad as u8) != Waiting::Refused(2)) as u64;
            }
        }
    });
    t.verdicts.check(&format!("{name}: 2 each time, whatever the room"), refused == asked && asked >= 50_000);
    let all = asked / (ROOMS as u64 + 1);
    t.verdicts.check(&format!("{name}: the same table passes with that word sound"), passed == all);
}

fn edges(t: &mut Tally) {
    t.case("every room byte, of tables that pass and of tables that do not", |t| {
        along(&mut Random(7), 20, 10, |r, table, _, _| {
            let mut bad = table.to_vec();
            bad[WORDS * r.below(ROOMS) + rows::OWN] = 16;
            for room in 0..=255 {
                t.ask(table, room);
                t.ask(&bad, room);
                t.ask(&table[..TABLE - 1], room);
            }
        });
    });
    t.case("words of every length", |t| {
        along(&mut Random(4), 1, 100, |r, table, _, _| {
            for words in [0, WORDS, 2 * WORDS, TABLE - 1, TABLE, TABLE + 1] {
                let mut lent = table.to_vec();
                lent.resize(words, 0);
                t.ask(&lent, r.next() as u8 % 9);
            }
        });
        let table = rows::fresh_table(3);
        for words in 0..=TABLE + 75 {
            let mut lent = table.clone();
            lent.resize(words, 0);
            t.ask(&lent, (words % 9) as u8);
        }
    });
    t.case("random words", |t| {
        let mut r = Random(5);
        for _ in 0..50_000 {
            let mut table: Vec<u32> = (0..TABLE).map(|_| r.next() as u32 % (2 * L)).collect();
            let spared = if r.below(4) == 0 { r.below(ROOMS) } else { ROOMS };
            (0..ROOMS).filter(|&room| room != spared).for_each(|room| make_sound(&mut table[place(room)]));
            t.ask(&table, r.next() as u8 % 9);
        }
    });
}

fn main() {
    let (reached, refused, verdicts) = ([[0; 18]; ROOMS], vec![[0; 2]; 256], Verdicts::default());
    let mut tally = Tally { reached, refused, inputs: 0, wrong: 0, verdicts };
    let t = &mut tally;
    after_each_record(t);
    changed_rows(t);
    filled_rows(t);
    malformed(t);
    edges(t);

    for answer in 0..18 {
        let what = match answer {
            16 => "met".to_string(),
            17 => "nobody".to_string(),
            o => format!("office {o}"),
        };
        let least = t.reached.iter().map(|n| n[answer]).min().unwrap();
        t.often(&format!("{what}, of the room with fewest"), least, 30);
    }
    let least = |refusal: usize, from: usize| t.refused[from..].iter().map(|n| n[refusal]).min().unwrap();
    let (two, twenty) = (least(0, 0), least(1, ROOMS));
    t.often("2, of the room byte with fewest", two, 100);
    t.often("20, of the room byte above 7 with fewest", twenty, 100);
    println!("waiting: {} inputs compared", tally.inputs);
    tally.verdicts.end();
}
