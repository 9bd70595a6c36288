// The calls for C that begin an office again from its file of high marks and that keep this file, beside the model of
// change requests 7 and 9: every answer, every word of all eight rooms and every byte. Each case is a kind of input;
// it passes when the two agree on all of its inputs.
#[path = "common/choice.rs"]
mod choice;
#[allow(dead_code)]
#[path = "common/inputs.rs"]
mod inputs;
#[path = "common/lent.rs"]
mod lent;
#[path = "common/marks.rs"]
mod marks;
#[allow(dead_code)]
#[path = "common/model.rs"]
mod model;
#[allow(dead_code)]
#[path = "common/play.rs"]
mod play;
#[path = "common/random.rs"]
mod random;
#[allow(dead_code)]
#[path = "common/repeats.rs"]
mod repeats;
#[path = "common/restart_calls.rs"]
mod restart_calls;
#[path = "common/restart_cuts.rs"]
mod restart_cuts;
#[path = "common/restart_inputs.rs"]
mod restart_inputs;
#[path = "common/restart_reached.rs"]
mod restart_reached;
#[path = "common/restart_records.rs"]
mod restart_records;
#[path = "common/restart_worked.rs"]
mod restart_worked;
#[allow(dead_code)]
#[path = "common/rows.rs"]
mod rows;
#[allow(dead_code)]
#[path = "common/self_use.rs"]
mod self_use;
#[path = "common/tally.rs"]
mod tally;
#[path = "common/verdicts.rs"]
mod verdicts;

use choice::choice;
use inputs::some;
use lent::{around, AROUND, BYTE, WORD};
use marks::{restart, Leave, Mark, BYTES, LONGEST, MARGIN, MOST};
use model::{L, ROOMS};
use random::Random;
use restart_calls::{room_last_mark, room_mark_before, room_restart};
use restart_inputs::{damage, file, file_of, slowest, some_marks, table_before, tail, CHANGES};
use restart_reached::{Reached, LENGTHS};
use rows::{place, TABLE, WORDS};
use std::ops::Range;

// Inputs are files, each handed to two calls, and records that are to leave.
type Tally = tally::Tally<Reached>;

impl Tally {
    // A part of some bytes is the file: how it is answered, and the words that are left, by the model.
    fn ask_part(&mut self, office: u8, all: &[u8], lent: Range<usize>, words: usize) -> (u8, Vec<u32>) {
        let (bytes, length) = (&all[lent.clone()], lent.len());
        let mark = self.reached.count_file(office, bytes, words);
        let mut table = table_before(self.inputs, words);
        let (mut left, mut handed) = (around(&table, WORD), all.to_vec());
        let refusal = restart(office, mark, &mut table);
        let last = mark.map_or(18, |n| 256 * n as u64);
        let (got, got_last) = unsafe {
            let start = handed.as_mut_ptr().add(lent.start);
            (room_restart(office, start, length, left.as_mut_ptr().add(AROUND), words), room_last_mark(start, length))
        };
        let right = around(&table, WORD);
        let same = got == refusal && got_last == last && left == right && handed == all;
        self.compared(same, || {
            let (front, back) = (&bytes[..length.min(30)], &bytes[length.saturating_sub(30)..]);
            let differs = left.iter().zip(right).position(|(&l, r)| l != r);
            let word = differs.map(|at| (at as isize - AROUND as isize, left[at]));
            let stays = handed == all;
            format!(
                "office {office}, {length} bytes {front:02x?} .. {back:02x?}, {words} words: got {got} and \
                {got_last:#x}, expected {refusal} and {last:#x}, first other word {word:?}, the file stays: {stays}"
            )
        });
        (refusal, table)
    }

    fn ask(&mut self, office: u8, file: &[u8], words: usize) -> (u8, Vec<u32>) {
        self.ask_part(office, &around(file, BYTE), AROUND..AROUND + file.len(), words)
    }

    // A file for a good office and the words of a table.
    fn ask_file(&mut self, file: &[u8]) -> (u8, Vec<u32>) {
        self.ask((self.inputs % 16) as u8, file, TABLE)
    }

    // A part of some bytes is what is to leave: the model's answer.
    fn before_part(&mut self, last: u32, all: &[u8], lent: Range<usize>, out: &[u8]) -> Leave {
        let (rest, length) = (&all[lent.clone()], lent.len());
        let expected = self.reached.count_record(last, rest, out.len());
        let (mut handed, mut left, mut right) = (all.to_vec(), around(out, BYTE), around(out, BYTE));
        if let Some(mark) = expected.due(last) {
            right[AROUND..AROUND + BYTES].copy_from_slice(&mark.bytes());
        }
        let got = unsafe {
            let (rest, out_at) = (handed.as_mut_ptr().add(lent.start), left.as_mut_ptr().add(AROUND));
            room_mark_before(last, rest, length, out_at, out.len())
        };
        let same = got == expected.answer() && left == right && handed == all;
        self.compared(same, || {
            let (shown, stays, answer) = (&rest[..length.min(90)], handed == all, expected.answer());
            let (written, capacity) = (&left[AROUND - 2..], out.len());
            format!(
                "last {last}, {length} bytes {shown:02x?}, {capacity} bytes lent: got {got:#x} and {written:02x?}, \
                expected {answer:#x}, {expected:?}, the record stays: {stays}"
            )
        });
        expected
    }

    fn before(&mut self, last: u32, rest: &[u8], out: &[u8]) -> Leave {
        self.before_part(last, &around(rest, BYTE), AROUND..AROUND + rest.len(), out)
    }
}

// Files of every kind

// None, unfinished, good, bad, full and too long.
fn kinds_of_files() -> Vec<Vec<u8>> {
    let full = file_of(&slowest());
    vec![
        Vec::new(),
        b"HM\x00".to_vec(),
        file_of(&[5]),
        [&file_of(&[1, 1_500_000])[..], b"HM\x7f\x00\x00\x00\x7f"].concat(),
        full.clone(),
        file_of(&[0]),
        file_of(&[7, 1_000_007]),
        [&file_of(&[7])[..], b"MH\x00\x10\x00\x00\x00\x10\x00\x00"].concat(),
        [&full[..], b"H"].concat(),
    ]
}

fn offices_and_words(t: &mut Tally) {
    let files = kinds_of_files();
    t.case("files of every kind, offices about 15 and 0 to 3,300 words", |t| {
        for (words, file) in (0..LENGTHS).flat_map(|words| files.iter().map(move |file| (words, file))) {
            for office in [0, 15, 16, 255] {
                t.ask(office, file, words);
            }
        }
    });
    t.case("files of every kind, every office and words about a table's", |t| {
        let others = [0, 1, 25, WORDS - 1, WORDS, WORDS + 1, 7 * WORDS, TABLE - 1, TABLE + 1, 9 * WORDS, 2 * TABLE];
        for case in 0.. {
            let mut rest = case;
            let words = choice(&mut rest, &[&others[..], &[TABLE; 11]].concat());
            let office = choice(&mut rest, &(0..=255).collect::<Vec<_>>());
            if rest == files.len() {
                return;
            }
            t.ask(office, &files[rest], words);
        }
    });
}

// Numbers

const FIRSTS: [u32; 15] = [
    0,
    1,
    2,
    MARGIN,
    MARGIN + 1,
    77_777_777,
    L - MARGIN - 2,
    L - MARGIN - 1,
    L - MARGIN,
    L - 1,
    L,
    L + 1,
    1 << 31,
    u32::MAX - MARGIN,
    u32::MAX,
];

// What stands behind a number.
const NEXTS: [fn(u32) -> u32; 17] = [
    |n| n,
    |n| n.wrapping_add(1),
    |n| n.wrapping_add(MARGIN - 1),
    |n| n.wrapping_add(MARGIN),
    |n| n.wrapping_add(MARGIN + 1),
    |n| n.wrapping_add(MARGIN + 2),
    |n| n.wrapping_add(0x1000_0000),
    |n| n.wrapping_sub(1),
    |n| n.wrapping_sub(MARGIN + 1),
    |n| n / 2,
    |_| 0,
    |_| 1,
    |_| L - 1,
    |_| L,
    |_| L + 1,
    |_| (1 << 31) + 1,
    |_| u32::MAX,
];

fn numbers(t: &mut Tally) {
    t.case("one to three marks of edge numbers, with tails", |t| {
        let mut r = Random(1);
        for case in 0.. {
            let mut rest = case;
            let (length, count) = (choice(&mut rest, &[0, 1, 2, 3, 4, 5, 6, 7, 8, 9]), choice(&mut rest, &[1, 2, 3]));
            let mut numbers = vec![choice(&mut rest, &FIRSTS)];
            (1..count).for_each(|_| numbers.push(choice(&mut rest, &NEXTS)(*numbers.last().unwrap())));
            if rest > 0 && count == 3 {
                return;
            }
            // a shorter file comes again with other tails
            let behind = tail(&mut r, numbers.last().copied(), length);
            t.ask_file(&[file_of(&numbers), behind].concat());
        }
    });
    t.case("a first mark, and one behind it, of any number", |t| {
        let mut r = Random(2);
        for case in 0..40_000 {
            let (any, next) = (r.next() as u32, r.next() as u32);
            let first = if case % 2 == 0 { any } else { any % L };
            let near = first.wrapping_add(MARGIN - 50 + r.below(100) as u32);
            let numbers = [first, some(&mut r, &[near, near, next, next % L, L])];
            t.ask_file(&file_of(&numbers[..1 + case / 2 % 2]));
        }
    });
}

fn tails(t: &mut Tally) {
    t.case("no mark, and unfinished records of every length", |t| {
        let mut r = Random(3);
        for case in 0..9000 {
            let behind = tail(&mut r, None, case % BYTES);
            t.ask_file(&behind);
        }
    });
    t.case("good files and unfinished records of every length", |t| {
        let mut r = Random(4);
        for case in 0..30_000 {
            let most = 1 + r.below(6);
            let numbers = some_marks(&mut r, most);
            let behind = tail(&mut r, numbers.last().copied(), case % BYTES);
            t.ask_file(&[file_of(&numbers), behind].concat());
        }
    });
}

// Long files

fn slow(t: &mut Tally) {
    let mut right = true;
    t.case("files that rise as slowly as they may, of 0 to 2,001 marks, with tails of 0 to 9 bytes", |t| {
        let (mut r, slowest) = (Random(5), slowest());
        for count in 0..=MOST {
            let numbers = &slowest[..count];
            let marks = file_of(numbers);
            for length in 0..BYTES {
                let behind = tail(&mut r, numbers.last().copied(), length);
                let (refusal, table) = t.ask_file(&[&marks[..], &behind].concat());
                let good = count < MOST || length == 0;
                let last = numbers.last().copied().unwrap_or(0);
                let begin = (0..ROOMS).all(|room| table[place(room)][rows::NUMBER] == last);
                right &= if good { refusal == 0 && begin } else { refusal == 18 };
            }
        }
    });
    t.verdicts.check("all rooms begin at the last mark of a slow file, and 2,001 marks with a tail get 18", right);
}

// The last number of a file that ends at each place.
fn ends(t: &mut Tally) {
    t.case("slow files of each length with an edge number behind", |t| {
        let slowest = slowest();
        for count in 0..=MOST {
            let before = if count == 0 { 0 } else { slowest[count - 1] };
            let mut marks = file_of(&slowest[..count]);
            marks.extend([0; BYTES]);
            let edges = [before, before + MARGIN, before + MARGIN + 1, L - 1, L, L + 1, u32::MAX];
            for (at, last) in edges.into_iter().enumerate() {
                marks[BYTES * count..].copy_from_slice(&Mark::of(last).bytes());
                // with a tail, and without; a full file has room for none
                let behind = if count < MOST - 1 { at % 4 } else { 0 };
                marks.extend(&[0x48, 0x4d, 0xff][..behind]);
                t.ask_file(&marks);
                marks.truncate(BYTES * (count + 1));
                if last == L {
                    t.ask_file(&[&marks[..], &Mark::of(L).bytes()].concat());
                }
            }
        }
    });
}

fn every_place(t: &mut Tally) {
    t.case("a change at each place of a full file", |t| {
        let good = slowest().into_iter().map(Mark::of).collect::<Vec<_>>();
        for (place, change) in (0..MOST).flat_map(|place| CHANGES.map(|change| (place, change))) {
            let mut marks = good.clone();
            change(&mut marks, place);
            t.ask_file(&file(&marks));
        }
    });
}

fn lengths(t: &mut Tally) {
    t.case("lengths about 20,010 and above, with good and other bytes behind the marks", |t| {
        let (mut r, full) = (Random(6), file_of(&slowest()));
        let (shifted, short) = (full[BYTES..].to_vec(), full[..LONGEST - BYTES].to_vec());
        let fronts = [full, shifted, short, file_of(&[L]), file_of(&[1, 2_000_000, L])];
        // a length is more than its lower sixteen bits
        let more = [30_030, 40_020, 65_536, 65_546, 65_549, 85_546, 131_082];
        for length in (LONGEST - 40..LONGEST + 60).chain(more) {
            let other = [vec![0; BYTES], vec![0xff; BYTES], b"HM".repeat(5), r.bytes(BYTES)];
            let behind = [&[Mark::of(L).bytes().to_vec()], &other[..]].concat();
            for (front, behind) in fronts.iter().flat_map(|front| behind.iter().map(move |behind| (front, behind))) {
                let bytes = [&front[..], &behind.repeat(length / BYTES + 1)].concat();
                t.ask_file(&bytes[..length]);
            }
        }
    });
}

// Damage

fn single_bytes(t: &mut Tally) {
    t.case("every value of every byte of small files", |t| {
        let rows: [&[u32]; 8] = [
            &[1],
            &[L],
            &[1, 1_000_002],
            &[5, L],
            &[0x0101_0101, 0x0202_0202],
            &[1_999_000_000, L - 1, L],
            &[255, 0x0100_0000, 0x0200_0000],
            &[3, 1_000_004, 2_000_005, 3_000_006],
        ];
        for (numbers, behind) in rows.into_iter().flat_map(|numbers| [0, 1, 9].map(|behind| (numbers, behind))) {
            let good = [&file_of(numbers)[..], &b"HM\x77\x00\x00\x00\x77\x00\x00"[..behind]].concat();
            for (at, value) in (0..good.len()).flat_map(|at| (0..=255).map(move |value| (at, value))) {
                let mut bytes = good.clone();
                bytes[at] = value;
                t.ask_file(&bytes);
            }
        }
    });
}

fn damaged(t: &mut Tally) {
    t.case("files with random jumps, none to three records changed and bytes damaged", |t| {
        let mut r = Random(7);
        for case in 0..60_000 {
            let most = some(&mut r, &[1, 2, 3, 5, 8, 20, if case % 50 == 0 { MOST } else { 9 }]);
            let mut marks: Vec<Mark> = some_marks(&mut r, most).into_iter().map(Mark::of).collect();
            for _ in 0..r.below(3).min(marks.len()) {
                let place = r.below(marks.len());
                some(&mut r, &CHANGES)(&mut marks, place);
            }
            let length = r.below(BYTES);
            let behind = tail(&mut r, marks.last().map(|mark| mark.number), length);
            let mut bytes = [file(&marks), behind].concat();
            for _ in 0..r.below(3).saturating_sub(r.below(2)) {
                damage(&mut r, &mut bytes);
            }
            let office = some(&mut r, &[0, 3, 15, 15, 9, 16]);
            let words = some(&mut r, &[TABLE, TABLE, TABLE, 0, WORDS, TABLE + 1]);
            t.ask(office, &bytes, words);
        }
    });
    t.case("random bytes, and marks of random numbers", |t| {
        let mut r = Random(8);
        for case in 0..20_000 {
            let length = r.below(if case % 10 == 0 { 400 } else { 25 });
            let mut bytes = r.bytes(length);
            if case % 2 == 0 {
                bytes.chunks_exact_mut(BYTES).for_each(|record| record[..2].copy_from_slice(b"HM"));
            }
            if case % 4 == 0 {
                bytes.chunks_exact_mut(BYTES).for_each(|record| record.copy_within(2..6, 6));
            }
            t.ask_file(&bytes);
        }
    });
}

// What stands around is a file too, and would change the answer if it were read.
fn parts(t: &mut Tally) {
    t.case("files that are parts of longer ones", |t| {
        let mut r = Random(9);
        for _ in 0..3000 {
            let most = 4 + r.below(20);
            let all = file_of(&some_marks(&mut r, most));
            for _ in 0..12 {
                let place = BYTES * r.below(all.len() / BYTES + 1);
                let from = all.len().min(place + some(&mut r, &[0, 0, 0, 1, 5]));
                let to = from + r.below(all.len() - from + 1);
                t.ask_part(r.below(17) as u8, &all, from..to, TABLE);
            }
        }
    });
}

fn main() {
    let mut tally = Tally::new(Reached::new());
    let t = &mut tally;

    restart_worked::all(t);
    numbers(t);
    tails(t);
    single_bytes(t);
    damaged(t);
    parts(t);
    restart_records::all(t);
    restart_cuts::all(t);
    offices_and_words(t);
    slow(t);
    ends(t);
    every_place(t);
    lengths(t);
    t.verdicts.check("500,000 files and records", t.reached.files + t.reached.records >= 500_000);
    t.met();

    let (inputs, Reached { files, records, .. }) = (tally.inputs, tally.reached);
    println!("restart: {inputs} inputs compared, {files} of them files and {records} records that are to leave");
    tally.verdicts.end();
}
