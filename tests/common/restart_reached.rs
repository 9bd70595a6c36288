// What was met by the calls of change request 7, by the model.
use crate::marks::{holds, kind_of, leave, Fault, File, Found, Hold, Leave, Mark};
use crate::marks::{BYTES, FAULTS, HM, HOLDS, KINDS, LONGEST, MARGIN, MOST};
use crate::model::{L, PROPOSAL, ROOMS};
use crate::rows::TABLE;
use crate::tally::Tally;

// Tables of fewer words than this are counted by their length.
pub const LENGTHS: usize = 3301;

// What applies to a restart: 1, 18 and 2 as the bits of the place.
const RESTARTS: [&str; 8] = [
    "a table restarted",
    "1 alone",
    "18 alone",
    "1 where 18 applies too",
    "2 alone",
    "1 where 2 applies too",
    "18 where 2 applies too",
    "1 where 18 and 2 apply too",
];

// A first number, or a step from a number to the next: the last of a good file, or what alone is wrong with one.
const STEPS: [&str; 13] = [
    "first 1, good",
    "first L, good",
    "first above L, the only fault",
    "1,000,001 above, good",
    "1,000,000 above, the only fault",
    "equal, the only fault",
    "lower, the only fault",
    "L after a number up to 1,000,000 below, good",
    "L after a number more than 1,000,000 below, good",
    "L + 1 after a number more than 1,000,000 below, the only fault",
    "L + 1 after L - 1, the only faults",
    "0 after a number, the only fault",
    "L - 1 after a number up to 1,000,000 below, the only fault",
];

// What a record that may leave says of one of its numbers.
const OF_NUMBER: [&str; 4] = [
    "the only number above the last mark",
    "the largest of several above the last mark",
    "the only number equal to the last mark, and none above",
    "the only number above L",
];

const MARKS_DUE: [&str; 7] = [
    "a mark of the largest number plus 1,000,000, below L",
    "a mark of the largest number plus 1,000,000, which is L",
    "a mark of L, less than the largest number plus 1,000,000",
    "a mark of L for the number L",
    "no mark due, the largest number equal to the last mark",
    "no mark due, the largest number below the last mark",
    "no mark due, the last mark L",
];

const BEHIND: [&str; 3] = ["nothing behind it", "one byte behind it", "a record behind it with a higher number"];

pub struct Reached {
    pub files: u64,
    pub records: u64,
    // the verdict on a file and the list of its faults say the same
    agree: bool,
    restarts: [u64; 8],
    // room_last_mark: 0 and 18
    lasts: [u64; 2],
    // the only fault, of a file handed with a good office and a table's words
    alone: [u64; FAULTS.len()],
    // by the record's place
    places: [[u64; FAULTS.len()]; MOST + 1],
    // too long as the only fault: by so many bytes
    too_long: [u64; BYTES],
    // another mark as the only fault: by its first byte, its second, both
    mark_bytes: [u64; 3],
    // another second number as the only fault: by a single bit, within a single byte
    second_bits: [u64; 32],
    second_bytes: [u64; 4],
    // good files by their marks
    counts: [u64; MOST + 1],
    // good files with a tail of so many bytes: without a mark, behind one and like it, behind one and unlike it
    tails: [[u64; 3]; BYTES],
    steps: [u64; STEPS.len()],
    // by office: restarted above 0, or refused by 1
    offices: [u64; 256],
    // by the number of words: no refusal before 2, 18, 1
    lengths: Vec<[u64; 3]>,
    answers: [u64; 9],
    // the only reason to hold a record, and two of different numbers
    held: [u64; HOLDS.len()],
    orders: [[u64; HOLDS.len()]; HOLDS.len()],
    numbers: [[[u64; OF_NUMBER.len()]; 18]; KINDS.len()],
    due: [u64; MARKS_DUE.len()],
    // no mark due, though four bytes that are no number are above the last mark; by kind
    others: [u64; KINDS.len()],
    behind: [[u64; BEHIND.len()]; KINDS.len()],
    // by kind and the byte of the room: a mark due, none due
    rooms: [[[u64; 2]; 256]; KINDS.len()],
    // by the length that is lent for a mark: refused by 3 alone, a mark written, no mark due
    capacities: [[u64; 3]; 14],
    // 4 for a report, a sync record, a high mark
    foreign: [u64; 3],
}

impl Reached {
    pub fn new() -> Reached {
        Reached {
            files: 0,
            records: 0,
            agree: true,
            restarts: [0; 8],
            lasts: [0; 2],
            alone: [0; FAULTS.len()],
            places: [[0; FAULTS.len()]; MOST + 1],
            too_long: [0; BYTES],
            mark_bytes: [0; 3],
            second_bits: [0; 32],
            second_bytes: [0; 4],
            counts: [0; MOST + 1],
            tails: [[0; 3]; BYTES],
            steps: [0; STEPS.len()],
            offices: [0; 256],
            lengths: vec![[0; 3]; LENGTHS],
            answers: [0; 9],
            held: [0; HOLDS.len()],
            orders: [[0; HOLDS.len()]; HOLDS.len()],
            numbers: [[[0; OF_NUMBER.len()]; 18]; KINDS.len()],
            due: [0; MARKS_DUE.len()],
            others: [0; KINDS.len()],
            behind: [[0; BEHIND.len()]; KINDS.len()],
            rooms: [[[0; 2]; 256]; KINDS.len()],
            capacities: [[0; 3]; 14],
            foreign: [0; 3],
        }
    }

    // Files

    // Counts a file, and answers with its last mark.
    pub fn count_file(&mut self, office: u8, bytes: &[u8], words: usize) -> Option<u32> {
        self.files += 1;
        let file = File::read(bytes);
        let (last, found) = (file.last_mark(), file.faults());
        self.agree &= last.is_some() == found.is_empty();
        let applying = [office > 15, last.is_none(), words != TABLE];
        let [one, eighteen, two] = applying.map(usize::from);
        self.restarts[one | eighteen << 1 | two << 2] += 1;
        self.lasts[last.is_none() as usize] += 1;
        if let Some(n) = self.lengths.get_mut(words) {
            n[if one == 1 { 2 } else { eighteen }] += 1;
        }
        match applying {
            [true, false, false] => self.offices[office as usize] += 1,
            [false, false, false] => {
                self.offices[office as usize] += (last > Some(0)) as u64;
                self.count_good(&file.marks, &bytes[BYTES * file.marks.len()..]);
            }
            [false, true, false] => self.count_bad(&file.marks, bytes.len(), &found),
            _ => (),
        }
        last
    }

    fn count_good(&mut self, marks: &[Mark], tail: &[u8]) {
        self.counts[marks.len()] += 1;
        let like_a_mark = tail.iter().zip(HM).all(|(&byte, right)| byte == right);
        self.tails[tail.len()][if marks.is_empty() { 0 } else { 1 + !like_a_mark as usize }] += 1;
        if !marks.is_empty() {
            self.count_step(marks, marks.len() - 1, &[]);
        }
    }

    fn count_bad(&mut self, marks: &[Mark], length: usize, found: &[Found]) {
        let Found { fault, place } = found[0];
        if found.iter().all(|other| other.place == place) && place < marks.len() {
            self.count_step(marks, place, &found.iter().map(|found| found.fault).collect::<Vec<_>>());
        }
        if found.len() > 1 {
            return;
        }
        self.alone[fault as usize] += 1;
        self.places[place][fault as usize] += 1;
        match fault {
            Fault::TooLong => self.too_long[length - LONGEST] += 1,
            Fault::OtherMark => {
                let [first, second] = [0, 1].map(|at| usize::from(marks[place].mark[at] != HM[at]));
                self.mark_bytes[first + 2 * second - 1] += 1;
            }
            Fault::OtherSecond => self.count_second(marks[place].number ^ marks[place].again),
            _ => (),
        }
    }

    // The record of a place beside the one before it.
    fn count_step(&mut self, marks: &[Mark], place: usize, faults: &[Fault]) {
        let before = place.checked_sub(1).map(|at| marks[at].number);
        for (n, holds) in self.steps.iter_mut().zip(said_of_step(before, marks[place].number, faults)) {
            *n += holds as u64;
        }
    }

    fn count_second(&mut self, differ: u32) {
        if differ.is_power_of_two() {
            self.second_bits[differ.trailing_zeros() as usize] += 1;
        }
        for (byte, n) in self.second_bytes.iter_mut().enumerate() {
            *n += (differ & !(0xff << (8 * byte)) == 0) as u64;
        }
    }

    // Records

    // Counts a record that is to leave, and answers.
    pub fn count_record(&mut self, last: u32, rest: &[u8], capacity: usize) -> Leave {
        self.records += 1;
        let (all, left) = (holds(last, rest, capacity), leave(last, rest, capacity));
        let answer = (left.answer() & 255) as usize;
        self.answers[answer] += 1;
        if let [only] = all[..] {
            self.held[only as usize] += 1;
            self.count_held(only, rest);
        }
        if let [first, later @ ..] = &all[..] {
            for &later in later.iter().filter(|later| later.number() != first.number()) {
                self.orders[*first as usize][later as usize] += 1;
            }
        }
        if let Some(n) = self.capacities.get_mut(capacity) {
            n[0] += (all == [Hold::NoRoom]) as u64;
            n[1] += left.due(last).is_some() as u64;
            n[2] += (answer == 0 && left.due(last).is_none()) as u64;
        }
        if let Leave::Free { mark, .. } = left {
            self.count_free(last, rest, mark);
        }
        left
    }

    fn count_held(&mut self, hold: Hold, rest: &[u8]) {
        if hold == Hold::NoMark {
            let foreign = [b"NE", b"SY", b"HM"].iter().position(|mark| rest.starts_with(&mark[..]));
            foreign.into_iter().for_each(|at| self.foreign[at] += 1);
        }
        if hold == Hold::NumberAboveL {
            let kind = kind_of(rest).unwrap();
            self.count_number(kind, 3, &KINDS[kind].read(rest), |n| n > L);
        }
    }

    // The number that alone has something is counted.
    fn count_number(&mut self, kind: usize, what: usize, numbers: &[u32], has: impl Fn(u32) -> bool) {
        let all: Vec<usize> = (0..numbers.len()).filter(|&at| has(numbers[at])).collect();
        if let [only] = all[..] {
            self.numbers[kind][only][what] += 1;
        }
    }

    fn count_free(&mut self, last: u32, rest: &[u8], mark: u32) {
        let kind = kind_of(rest).unwrap();
        let (record, more) = rest.split_at(KINDS[kind].length);
        let numbers = KINDS[kind].read(record);
        let largest = *numbers.iter().max().unwrap();
        self.count_number(kind, 0, &numbers, |n| n > last);
        if numbers.iter().filter(|&&n| n > last).count() > 1 {
            self.count_number(kind, 1, &numbers, |n| n == largest);
        } else if largest == last && last > 0 {
            self.count_number(kind, 2, &numbers, |n| n == last);
        }
        let (due, plus) = (mark != last, largest as u64 + MARGIN as u64);
        let said = [
            due && plus < L as u64,
            due && plus == L as u64,
            due && plus > L as u64,
            due && largest == L,
            largest == last && last > 0,
            largest < last,
            last == L,
        ];
        for (n, holds) in self.due.iter_mut().zip(said) {
            *n += holds as u64;
        }
        self.rooms[kind][record[2] as usize][!due as usize] += 1;
        let sets = if KINDS[kind].length == PROPOSAL { 2..13 } else { 7..15 };
        let above = |four: &[u8]| u32::from_be_bytes(four.try_into().unwrap()) > last;
        self.others[kind] += (!due && record[sets].windows(4).all(above)) as u64;
        let next = kind_of(more).map(|next| KINDS[next].read(more));
        self.behind[kind][0] += more.is_empty() as u64;
        self.behind[kind][1] += (more.len() == 1) as u64;
        self.behind[kind][2] += next.is_some_and(|next| next.iter().any(|&n| n > last && n > largest)) as u64;
    }
}

// By STEPS, with all that is wrong in the file.
fn said_of_step(before: Option<u32>, n: u32, faults: &[Fault]) -> [bool; STEPS.len()] {
    let (first, above, margin) = (before.is_none(), n as i64 - before.unwrap_or(0) as i64, MARGIN as i64);
    let good = !first && faults.is_empty();
    let high = !first && faults == [Fault::AboveL];
    let near = faults == [Fault::TooNear];
    [
        first && faults.is_empty() && n == 1,
        first && faults.is_empty() && n == L,
        first && faults == [Fault::AboveL],
        good && above == margin + 1,
        near && above == margin,
        near && above == 0,
        near && above < 0,
        good && n == L && above <= margin,
        good && n == L && above > margin,
        high && n == L + 1,
        faults == [Fault::AboveL, Fault::TooNear] && n == L + 1 && above == 2,
        near && n == 0,
        near && n == L - 1 && above > 0,
    ]
}

// What must have been met, and how often at least.

fn can_meet(first: Hold, later: Hold) -> bool {
    use Hold::*;
    match first {
        NoRoom => later != NoRoom,
        UnderTwo | NoMark => later == LastAboveL,
        Cut => later == LastAboveL || later == NumberAboveL,
        _ => false,
    }
}

impl Tally<Reached> {
    pub fn met(&mut self) {
        let agree = self.reached.agree;
        self.verdicts.check("the verdict on a file is that of its faults", agree);
        self.met_restarts();
        self.met_faults();
        self.met_good_files();
        self.met_answers();
        self.met_marks();
    }

    fn met_all(&mut self, what: &[&str], counts: &[u64], least: u64) {
        for (what, &n) in what.iter().zip(counts) {
            self.often(what, n, least);
        }
    }

    fn met_restarts(&mut self) {
        let (restarts, lasts) = (self.reached.restarts, self.reached.lasts);
        self.met_all(&RESTARTS, &restarts, 300);
        self.met_all(&["last marks", "last marks refused by 18"], &lasts, 1000);
        let of_offices = |offices: &[u64]| *offices.iter().min().unwrap();
        let (good, bad) = (of_offices(&self.reached.offices[..16]), of_offices(&self.reached.offices[16..]));
        self.often("restarts above 0, of the office with fewest", good, 100);
        self.often("1 alone, of the office with fewest", bad, 5);
        let said = ["words with no refusal before 2", "words with 18", "words with 1"];
        for (at, what) in said.into_iter().enumerate() {
            let least = self.reached.lengths.iter().map(|n| n[at]).min().unwrap();
            self.often(&format!("{what}, of their number with fewest"), least, 5);
        }
    }

    fn met_faults(&mut self) {
        for (fault, what) in FAULTS {
            self.often(&format!("18 where {what} alone"), self.reached.alone[fault as usize], 100);
        }
        let least = *self.reached.too_long[1..].iter().min().unwrap();
        self.often("too long by 1 to 9 bytes alone, of these with fewest", least, 5);
        use Fault::*;
        for (fault, from) in [(OtherMark, 0), (OtherSecond, 0), (AboveL, 0), (TooNear, 1), (LAgain, 1)] {
            let least = self.reached.places[from..MOST].iter().map(|n| n[fault as usize]).min().unwrap();
            self.often(&format!("18 where {} alone, of the place with fewest", FAULTS[fault as usize].1), least, 1);
        }
        let mark_bytes = self.reached.mark_bytes;
        let by = ["another mark by its first byte alone", "by its second alone", "by both alone"];
        self.met_all(&by, &mark_bytes, 1000);
        let (bits, bytes) = (self.reached.second_bits.iter().min(), self.reached.second_bytes.iter().min());
        let (bits, bytes) = (*bits.unwrap(), *bytes.unwrap());
        self.often("another second number by a single bit alone, of the bit with fewest", bits, 50);
        self.often("another second number within a single byte alone, of the byte with fewest", bytes, 1000);
    }

    fn met_good_files(&mut self) {
        let steps = self.reached.steps;
        self.met_all(&STEPS, &steps, 10);
        let (none, full) = (self.reached.counts[0], self.reached.counts[MOST]);
        self.often("good files of no mark", none, 100);
        self.often("good files of 2,001 marks", full, 10);
        let least = *self.reached.counts.iter().min().unwrap();
        self.often("good files, of the number of marks with fewest", least, 10);
        for length in 1..BYTES {
            let tails = self.reached.tails[length];
            let kinds = ["without a mark", "behind a mark and like one", "behind a mark and unlike one"];
            for (what, n) in kinds.into_iter().zip(tails) {
                self.often(&format!("good files with a tail of {length}, {what}"), n, 100);
            }
        }
    }

    fn met_answers(&mut self) {
        for n in [0, 3, 4, 5, 8] {
            self.often(&format!("records answered {n}"), self.reached.answers[n], 1000);
        }
        for (hold, n) in HOLDS {
            self.often(&format!("{n} by {hold:?} alone"), self.reached.held[hold as usize], 300);
        }
        for (first, later) in HOLDS.iter().flat_map(|&(first, _)| HOLDS.map(|(later, _)| (first, later))) {
            if can_meet(first, later) {
                let [n, m] = [first, later].map(Hold::number);
                let met = self.reached.orders[first as usize][later as usize];
                self.often(&format!("{n} by {first:?} where {m} by {later:?} applies too"), met, 100);
            }
        }
        let foreign = self.reached.foreign;
        self.met_all(&["4 for a report", "4 for a sync record", "4 for a high mark"], &foreign, 10);
        for (capacity, [short, written, none]) in self.reached.capacities.into_iter().enumerate() {
            if capacity < BYTES {
                self.often(&format!("3 alone with {capacity} bytes lent"), short, 100);
            } else {
                self.often(&format!("marks with {capacity} bytes lent"), written, 100);
                self.often(&format!("no mark due with {capacity} bytes lent"), none, 100);
            }
        }
    }

    fn met_marks(&mut self) {
        for (at, kind) in KINDS.iter().enumerate() {
            let (name, numbers) = (kind.name, kind.places().count());
            for (what, said) in OF_NUMBER.iter().enumerate() {
                // a notice has one number
                if numbers > 1 || what != 1 {
                    let least = self.reached.numbers[at][..numbers].iter().map(|n| n[what]).min().unwrap();
                    self.often(&format!("{name}: {said}, of its {numbers} the one with fewest"), least, 100);
                }
            }
            let (others, behind) = (self.reached.others[at], self.reached.behind[at]);
            self.often(&format!("{name}: no mark due, though what is no number is above the last mark"), others, 100);
            for (said, n) in BEHIND.iter().zip(behind) {
                self.often(&format!("{name}: free to leave, {said}"), n, 100);
            }
        }
        let due = self.reached.due;
        self.met_all(&MARKS_DUE, &due, 1000);
        for (kind, bytes) in KINDS.iter().zip(self.reached.rooms) {
            for (at, what) in ["a mark due", "no mark due"].into_iter().enumerate() {
                let least = |bytes: &[[u64; 2]]| bytes.iter().map(|n| n[at]).min().unwrap();
                let (room, above) = (least(&bytes[..ROOMS]), least(&bytes[ROOMS..]));
                self.often(&format!("{}: {what}, of the room with fewest", kind.name), room, 50);
                self.often(&format!("{}: {what}, of the byte above 7 with fewest", kind.name), above, 20);
            }
        }
    }
}
