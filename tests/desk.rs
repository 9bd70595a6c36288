// The four questions of the desk program beside a version written from documents 01 and 02 alone: the three that take
// bytes or a set, and whether an office reads a record. Each case is a kind of input; it passes when the two agree on
// all of its inputs.
#[path = "common/random.rs"]
mod random;

use random::Random;

#[link(name = "room", kind = "static")]
extern "C" {
    fn room_record_check(bytes: *const u8, length: usize) -> u8;
    fn room_offices(set: u64) -> u16;
    fn room_office_count(set: u64) -> u8;
    fn room_read(office: u8, record: *const u8, length: usize) -> u8;
}

const L: u32 = 2_000_000_000;

// Document 01, "Reasons to refuse", 4 and 5, with the lengths of request 9. The room is not looked at.
fn expected_check(record: &[u8]) -> u8 {
    if record.len() < 2 {
        return 4;
    }
    let length = match [record[0], record[1]] {
        [0x4e, 0x45] => 19,
        [0x50, 0x52] => 85,
        _ => return 4,
    };
    if record.len() != length {
        return 5;
    }
    0
}

// Document 01: seat s belongs to office s / 4; the offices of a set are those with at least one seat in it.
fn expected_offices(set: u64) -> u16 {
    let mut offices = 0;
    for seat in 0..64 {
        if set & (1 << seat) != 0 {
            offices |= 1 << (seat / 4);
        }
    }
    offices
}

// Request 6: the number of the offices with a seat in the set. Office o has seats 4 o to 4 o + 3.
fn expected_count(set: u64) -> u8 {
    (0..16).filter(|office| (4 * office..4 * office + 4).any(|seat| set >> seat & 1 == 1)).count() as u8
}

fn number(record: &[u8], at: usize) -> u32 {
    record[at..at + 4].iter().fold(0, |number, &byte| number << 8 | byte as u32)
}

// Request 10: 1 where the office is above 15, then 4, 5, 20, 6 to 10 and 19.
fn expected_read(office: u8, record: &[u8]) -> u8 {
    if office >= 16 {
        return 1;
    }
    match expected_check(record) {
        0 if record[2] >= 8 => 20,
        0 if record[0] == b'P' => expected_of_proposal(office, record),
        refusal => refusal,
    }
}

// Byte 3 the sender, 4 the kind, 5 to 12 the members, from 13 the start number, from 17 the proposal number, from 21
// the used numbers.
fn expected_of_proposal(office: u8, record: &[u8]) -> u8 {
    let (sender, kind, start, own) = (record[3], record[4], number(record, 13), number(record, 17));
    let used: Vec<u32> = (0..16).map(|office| number(record, 21 + 4 * office)).collect();
    let members = (5..13).fold(0, |set, at| set << 8 | record[at] as u64);
    let there = expected_offices(members);
    let lacks = |office: u8| there & 1 << office == 0;
    if sender >= 16 || sender == office {
        return 6;
    }
    if kind == 0 || kind >= 3 {
        return 7;
    }
    if start == 0 || own == 0 || [start, own].iter().chain(&used).any(|&n| n > L) {
        return 8;
    }
    if lacks(sender) || lacks(office) {
        return 9;
    }
    if (0..16).any(|office| lacks(office) && used[office as usize] > 0) {
        return 10;
    }
    if used[sender as usize] < own { 0 } else { 19 }
}

struct Tally {
    inputs: u64,
    passed: u64,
    failed: u64,
    // what reading is to answer, by office
    read: Vec<[u64; 21]>,
}

impl Tally {
    // Every answer of the case as (what was asked, got, expected).
    fn case(&mut self, name: &str, answers: impl Iterator<Item = (String, u16, u16)>) {
        let (mut inputs, mut wrong) = (0, 0);
        for (asked, got, expected) in answers {
            inputs += 1;
            if got != expected {
                wrong += 1;
                if wrong <= 5 {
                    println!("{name}: {asked}: got {got}, expected {expected}");
                }
            }
        }
        self.inputs += inputs;
        if wrong == 0 && inputs > 0 {
            self.passed += 1;
        } else {
            println!("{name}: {wrong} of {inputs} inputs differ");
            self.failed += 1;
        }
    }

    fn records(&mut self, name: &str, records: impl Iterator<Item = Vec<u8>>) {
        self.case(name, records.map(|record| {
            let kept = record.clone();
            let got = unsafe { room_record_check(record.as_ptr(), record.len()) };
            // the bytes are lent for reading: they are as they were
            let expected = if record == kept { expected_check(&kept) } else { 255 };
            let head = &record[..record.len().min(2)];
            (format!("{} bytes, mark {head:02x?}", record.len()), got as u16, expected as u16)
        }));
    }

    // A record for an office.
    fn readings(&mut self, name: &str, asked: impl Iterator<Item = (u8, Vec<u8>)>) {
        let mut read = std::mem::take(&mut self.read);
        self.case(name, asked.map(|(office, record)| {
            let kept = record.clone();
            let got = unsafe { room_read(office, record.as_ptr(), record.len()) };
            let expected = expected_read(office, &kept);
            read[office as usize][expected as usize] += 1;
            let expected = if record == kept { expected } else { 255 };
            let head = &record[..record.len().min(21)];
            let what = if got == expected { String::new() } else { format!("office {office}, {head:02x?}") };
            (what, got as u16, expected as u16)
        }));
        self.read = read;
    }

    fn often(&mut self, what: &str, n: u64, least: u64) {
        println!("  {what}: {n}");
        if n >= least {
            self.passed += 1;
        } else {
            println!("{what}: not {least} times");
            self.failed += 1;
        }
    }

    // Both questions about each set.
    fn sets(&mut self, name: &str, sets: impl Iterator<Item = u64>) {
        let sets: Vec<u64> = sets.collect();
        self.case(
            name,
            sets.iter().map(|&set| (format!("set {set:#018x}"), unsafe { room_offices(set) }, expected_offices(set))),
        );
        self.case(
            &format!("{name}, how many offices"),
            sets.iter().map(|&set| {
                (format!("set {set:#018x}"), unsafe { room_office_count(set) } as u16, expected_count(set) as u16)
            }),
        );
    }
}

const MARKS: [[u8; 2]; 4] = [*b"NE", *b"PR", *b"SC", *b"VW"];
const LENGTHS: [usize; 4] = [19, 85, 15, 79];

fn with_mark(mark: [u8; 2], mut record: Vec<u8>) -> Vec<u8> {
    for (at, byte) in mark.into_iter().enumerate().take(record.len()) {
        record[at] = byte;
    }
    record
}

// A proposal that an office reads.
fn sound(random: &mut Random, office: u8) -> Vec<u8> {
    let sender = (office as usize % 16 + 1 + random.below(15)) % 16;
    let mut seat = |office: usize| 1_u64 << (4 * office + random.below(4));
    let both = seat(sender) | seat(office as usize % 16);
    let members = random.next() & random.next() & random.next() | both;
    let edges = [1, 2, 65_536, L - 1, L, 1 + random.below(L as usize) as u32];
    let (start, own) = (edges[random.below(6)], edges[random.below(6)]);
    let kind = 1 + random.below(2) as u8;
    let mut record = [&[0x50, 0x52, random.below(8) as u8, sender as u8, kind][..], &members.to_be_bytes()].concat();
    record.extend(start.to_be_bytes().into_iter().chain(own.to_be_bytes()));
    for office in 0..16 {
        let any = edges[random.below(6)];
        let used = match expected_offices(members) >> office & 1 {
            0 => 0,
            _ if office == sender => any.min(own - 1),
            _ => any * random.below(2) as u32,
        };
        record.extend(used.to_be_bytes());
    }
    record
}

fn put(record: &mut [u8], at: usize, bytes: &[u8]) {
    if let Some(part) = record.get_mut(at..at + bytes.len()) {
        part.copy_from_slice(bytes);
    }
}

// One thing of a record changed: its length, its mark, its room, its sender, its kind, a number, seats of an office.
fn fault(random: &mut Random, office: u8, record: &mut Vec<u8>) {
    let (any, other) = (random.next() as u8, random.below(16));
    let edge = [0, 1, L - 1, L, L + 1, 1 << 31, u32::MAX][random.below(7)].to_be_bytes();
    match random.below(14) {
        0 => record.resize([0, 1, 2, 3, 18, 19, 20, 84, 86, 200][random.below(10)], any),
        1 => put(record, 0, [b"NE", b"SC", b"VW", b"EN", b"PE", b"NR"][random.below(6)]),
        2 => put(record, 2, &[any]),
        3 => put(record, 2, &[8]),
        4 => put(record, 3, &[office]),
        5 => put(record, 3, &[[any, 16, 255, other as u8][random.below(4)]]),
        6 => put(record, 4, &[[0, 3, any][random.below(3)]]),
        7 => put(record, 13, &edge),
        8 => put(record, 17, &edge),
        9 => put(record, 21 + 4 * other, &edge),
        // the used number for the sender about the proposal's own
        10 if record.len() == 85 && record[3] < 16 => {
            let used = number(record, 17).saturating_add(random.below(3) as u32).saturating_sub(1);
            let at = 21 + 4 * record[3] as usize;
            put(record, at, &used.to_be_bytes());
        }
        // no seats of an office: this one, the sender, any
        _ if record.len() == 85 => {
            let whose = [office as usize % 16, record[3] as usize % 16, other][random.below(3)];
            let at = 12 - whose / 2;
            record[at] &= if whose % 2 == 0 { 0xf0 } else { 0x0f };
        }
        _ => (),
    }
}

fn readings(t: &mut Tally) {
    let all = || (0..=255_u8).flat_map(|office| (0..4).map(move |k| (office, k)));
    t.readings("each mark at every length from 0 to 100, for every office from 0 to 255",
        (0..=100).flat_map(|n| all().map(move |(office, k)| (office, with_mark(MARKS[k], vec![0; n])))));
    let mut r = Random(9);
    t.readings("proposals that are read, under every room byte, for every office from 0 to 255",
        (0..=255_u8).flat_map(|office| (0..=255_u8).map(move |room| (office, room))).map(|(office, room)| {
            let mut record = sound(&mut r, office);
            record[2] = room;
            (office, record)
        }));
    let mut r = Random(10);
    t.readings("reports under every room byte, for every office from 0 to 255",
        (0..=255_u8).flat_map(|office| (0..=255_u8).map(move |room| (office, room))).map(|(office, room)| {
            let mut record = with_mark(*b"NE", r.bytes(19));
            record[2] = room;
            (office, record)
        }));
    let mut r = Random(11);
    t.readings("every sender, for every office from 0 to 255",
        (0..=255_u8).flat_map(|office| (0..=255_u8).map(move |sender| (office, sender))).map(|(office, sender)| {
            let mut record = sound(&mut r, office);
            record[3] = sender;
            (office, record)
        }));
    let mut r = Random(12);
    t.readings("every kind, for every office", (0..16 * 256).map(|k| {
        let mut record = sound(&mut r, k as u8 / 16 % 16);
        record[4] = (k / 16) as u8;
        (k as u8 / 16 % 16, record)
    }));
    let mut r = Random(13);
    t.readings("one bit turned over, at each of the 680 places, for every office",
        (0..16 * 680 * 20).map(|k| {
            let (office, bit) = ((k % 16) as u8, k / 16 % 680);
            let mut record = sound(&mut r, office);
            record[bit / 8] ^= 1 << (bit % 8);
            (office, record)
        }));
    let mut r = Random(14);
    t.readings("proposals with one to three faults", (0..900_000).map(|k| {
        let office = if k % 16 == 0 { r.next() as u8 } else { r.below(16) as u8 };
        let mut record = sound(&mut r, office);
        (0..1 + k % 3).for_each(|_| fault(&mut r, office, &mut record));
        (office, record)
    }));
    let mut r = Random(15);
    t.readings("proposals read for another office than the one they are made for", (0..100_000).map(|k| {
        let office = (k % 16) as u8;
        (r.below(18) as u8, sound(&mut r, office))
    }));
    let mut r = Random(16);
    t.readings("random bytes under each mark", (0..100_000).map(|k| {
        let length = LENGTHS[k / 4 % 4];
        (r.below(18) as u8, with_mark(MARKS[k % 4], r.bytes(length)))
    }));
    let read: u64 = t.read.as_flattened().iter().sum();
    println!("desk: {read} of them records read for an office");
    for number in [0, 4, 5, 20, 6, 7, 8, 9, 10, 19] {
        let least = t.read[..16].iter().map(|n| n[number]).min().unwrap();
        t.often(&format!("read with {number}, at the office with fewest"), least, 500);
    }
    let least = t.read[16..].iter().map(|n| n[1]).min().unwrap();
    t.often("read with 1, at the office above 15 with fewest", least, 500);
}

fn main() {
    let mut tally = Tally { inputs: 0, passed: 0, failed: 0, read: vec![[0; 21]; 256] };
    let t = &mut tally;
    let mut r = Random(0x9e37_79b9_7f4a_7c15);

    t.records("empty and one byte", (0..=256).map(|b| if b == 256 { vec![] } else { vec![b as u8] }));
    t.records("each mark at every length from 0 to 100",
        (0..=100).flat_map(|n| MARKS.map(|m| with_mark(m, vec![0; n]))));
    t.records("each mark at every length from 0 to 100, random bytes",
        (0..20_000).map(|k| with_mark(MARKS[k % 4], r.bytes(k / 4 % 101))));
    let mut r = Random(2);
    t.records("whole records", (0..20_000).map(|k| with_mark(MARKS[k % 4], r.bytes(LENGTHS[k % 4]))));
    let mut r = Random(3);
    t.records("cut records", (0..20_000).map(|k| {
        let n = r.below(LENGTHS[k % 4]);
        with_mark(MARKS[k % 4], r.bytes(n))
    }));
    let mut r = Random(4);
    t.records("records with bytes too many", (0..20_000).map(|k| {
        let n = LENGTHS[k % 4] + 1 + r.below(300);
        with_mark(MARKS[k % 4], r.bytes(n))
    }));
    t.records("every mark at the two lengths", (0..=0xffff_u16).flat_map(|m| {
        [19, 85].map(|n| with_mark(m.to_be_bytes(), vec![0x45; n]))
    }));
    t.records("every room byte in each record, a byte less and a byte more", (0..=255_u8).flat_map(|room| {
        (0..4).flat_map(move |k| [LENGTHS[k] - 1, LENGTHS[k], LENGTHS[k] + 1].map(|n| {
            let mut record = with_mark(MARKS[k], vec![0; n]);
            record[2] = room;
            record
        }))
    }));
    let mut r = Random(5);
    t.records("random bytes", (0..100_000).map(|_| {
        let n = r.below(101);
        r.bytes(n)
    }));
    let mut r = Random(6);
    t.records("a mark further in", (0..20_000).map(|k| {
        let mut record = r.bytes(LENGTHS[k % 2]);
        let at = 1 + r.below(record.len() - 2);
        record[at..at + 2].copy_from_slice(&MARKS[k % 2]);
        record
    }));

    t.sets("no seat, one seat, two seats, and all the others",
        (0..64).flat_map(|a| (0..64).map(move |b| 1_u64 << a | 1 << b)).flat_map(|x| [x, !x, 0, u64::MAX]));
    let mut r = Random(7);
    t.sets("random sets", (0..100_000).map(|_| r.next()));
    let mut r = Random(8);
    t.sets("sets of few seats", (0..100_000).map(|_| r.next() & r.next() & r.next() & r.next()));
    t.sets("every set of offices, by each of the four seats",
        (0..=0xffff_u64).flat_map(|o| {
            let lowest = (0..16).map(|k| (o >> k & 1) << (4 * k)).sum::<u64>();
            [lowest, lowest << 1, lowest << 2, lowest << 3]
        }));

    readings(t);

    println!("desk: {} inputs compared", tally.inputs);
    println!("{} passed, {} failed", tally.passed, tally.failed);
    std::process::exit((tally.failed != 0) as i32);
}
