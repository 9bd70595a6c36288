// The reading call for C beside the model, without a table: records of plays for every office from 0 to 255, whole,
// damaged and of every length.
use crate::inputs::{a_play, some};
use crate::model::{self, CAPACITY, L, PROPOSAL, REPORT};
use crate::random::Random;
use crate::verdicts::Verdicts;
use crate::{room_read, some_office, Compared, Tally};

// Its numbers for an office, and 1 for any other.
const NUMBERS: [usize; 10] = [0, 4, 5, 20, 6, 7, 8, 9, 10, 19];

// The number for an office; none where it is another than the model's, or a byte of the record was touched.
pub fn as_the_model(office: u8, record: &[u8]) -> Option<u8> {
    let kept = record.to_vec();
    let got = unsafe { room_read(office, record.as_ptr(), record.len()) };
    let expected = model::read(office, record).err().unwrap_or(0);
    (got == expected && record == kept).then_some(got)
}

struct Readings {
    records: u64,
    wrong: u64,
    // by office
    came: Vec<[u64; 21]>,
    // for offices above 15, by what office 0 answers
    above: [u64; 21],
}

impl Readings {
    fn read(&mut self, office: u8, record: &[u8]) {
        self.records += 1;
        let Some(number) = as_the_model(office, record) else {
            self.wrong += 1;
            if self.wrong <= 5 {
                println!("read for office {office}: {} bytes, {:02x?}", record.len(), &record[..record.len().min(20)]);
            }
            return;
        };
        self.came[office as usize][number as usize] += 1;
        if office > 15 {
            self.above[model::read(0, record).err().unwrap_or(0) as usize] += 1;
        }
    }

    fn case(&mut self, v: &mut Verdicts, name: &str, run: impl FnOnce(&mut Readings)) {
        let (records, wrong) = (self.records, self.wrong);
        run(self);
        println!("{name}: {} read", self.records - records);
        v.check(name, self.wrong == wrong && self.records > records);
    }
}

// One or two bytes of a record changed, a number of it, its mark, or its length.
fn damaged(random: &mut Random, record: &[u8]) -> Vec<u8> {
    let mut record = record.to_vec();
    let any = random.next() as u8;
    match random.below(8) {
        0 => {
            let length = random.below(2 * PROPOSAL);
            record.resize(length, any);
        }
        1 => record.resize(some(random, &[0, 1, 2, 3, REPORT - 1, REPORT, REPORT + 1, 84, 85, 86]), any),
        2 => {
            let mark = some(random, &[*b"NE", *b"PR", *b"SC", *b"VW", *b"EN", *b"NR", [0, 0]]);
            record[..2].copy_from_slice(&mark);
        }
        3 if record.len() == PROPOSAL => {
            let at = 13 + 4 * random.below(18);
            let number: u32 = some(random, &[0, 1, L - 1, L, L + 1, u32::MAX]);
            record[at..at + 4].copy_from_slice(&number.to_be_bytes());
        }
        _ => {
            for _ in 0..1 + random.below(2) {
                let at = random.below(record.len());
                record[at] = some(random, &[any, 0, 1, 2, 8, 15, 16, 255]);
            }
        }
    }
    record
}

fn whole(t: &mut Readings) {
    let mut r = Random(17);
    for _ in 0..80 {
        let (_, records) = a_play(&mut r, 60);
        records.iter().for_each(|record| (0..=255).for_each(|office| t.read(office, record)));
    }
}

fn changed(t: &mut Readings) {
    let mut r = Random(18);
    for _ in 0..600 {
        let (own, records) = a_play(&mut r, 200);
        for record in &records {
            for office in [own as u8, own as u8, some_office(&mut r)] {
                t.read(office, &damaged(&mut r, record));
            }
        }
    }
}

fn lengths(t: &mut Readings) {
    let mut r = Random(19);
    for office in 0..=255 {
        let (_, records) = a_play(&mut r, 4);
        for length in 0..=300 {
            for record in &records {
                let mut record = record.clone();
                record.resize(length, 0);
                t.read(office, &record);
            }
        }
    }
}

// Where a record is not read, the step answers that number, whatever table and output.
fn on_any_table(c: &mut Compared, answers: &mut [u64; 21]) {
    let mut r = Random(20);
    for _ in 0..200 {
        let (own, records) = a_play(&mut r, 60);
        c.fresh(own);
        for record in &records {
            let office = [own as u8, own as u8, some_office(&mut r)][r.below(3)];
            let bad = damaged(&mut r, record);
            if model::read(office, &bad).is_err() {
                let words = r.below(8);
                let mut table: Vec<u32> = (0..words).map(|_| r.next() as u32).collect();
                if words > 3 {
                    table = c.words().to_vec();
                    let at = r.below(table.len());
                    table[at] = some(&mut r, &[table[at], u32::MAX, L + 1, 16]);
                }
                let capacity = some(&mut r, &[0, 1, CAPACITY - 1, CAPACITY]);
                answers[c.aside(office, &table, &bad, capacity) as usize] += 1;
            }
            c.hand(record, CAPACITY);
        }
    }
}

pub fn all(t: &mut Tally) {
    let mut readings = Readings { records: 0, wrong: 0, came: vec![[0; 21]; 256], above: [0; 21] };
    readings.case(&mut t.verdicts, "records of plays, for every office from 0 to 255", whole);
    readings.case(&mut t.verdicts, "damaged records, mostly for their own office", changed);
    readings.case(&mut t.verdicts, "records of every length to 300, for every office from 0 to 255", lengths);
    let Readings { records, came, above, .. } = readings;
    println!("read: {records} records compared");
    t.verdicts.check("a million records are read", records >= 1_000_000);
    for number in NUMBERS {
        let least = came[..16].iter().map(|n| n[number]).min().unwrap();
        t.often(&format!("read with {number}, at the office with fewest"), least, 100);
        t.often(&format!("1 for an office above 15 where office 0 reads {number}"), above[number], 100);
    }
    let least = came[16..].iter().map(|n| n[1]).min().unwrap();
    t.often("read with 1, at the office above 15 with fewest", least, 1000);
    let name = "records that are not read, on any table and with any output";
    let mut answers = [0; 21];
    t.case(name, |c| on_any_table(c, &mut answers));
    for number in NUMBERS.into_iter().skip(1).chain([1]) {
        t.often(&format!("{name}: {number}"), answers[number], 30);
    }
    let others: u64 = [0, 2, 3, 11, 12, 13].iter().map(|&n| answers[n]).sum();
    t.verdicts.check(&format!("{name}: no other number"), others == 0);
}
