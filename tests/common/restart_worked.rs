// Files and records worked by hand, byte by byte; 1,000,001 is 00 0F 42 41 and L is 77 35 94 00.
use crate::marks::{Leave, Mark, BYTES};
use crate::model::L;
use crate::restart_inputs::slowest;
use crate::rows::{fresh_table, TABLE};
use crate::Tally;

const GOOD: [(&[u8], u32); 7] = [
    (b"", 0),
    (b"HM\x00\x0f\x42\x41\x00\x0f\x42", 0),
    (b"HM\x00\x00\x00\x01\x00\x00\x00\x01", 1),
    (b"HM\x00\x0f\x42\x41\x00\x0f\x42\x41", 1_000_001),
    (b"HM\x00\x0f\x42\x41\x00\x0f\x42\x41HM\x00\x1e\x84\x82\x00\x1e\x84\x82HM\x77", 2_000_002),
    (b"HM\x77\x35\x94\x00\x77\x35\x94\x00", L),
    (b"HM\x77\x35\x93\xff\x77\x35\x93\xffHM\x77\x35\x94\x00\x77\x35\x94\x00", L),
];

const BAD: [&[u8]; 8] = [
    b"HM\x00\x00\x00\x00\x00\x00\x00\x00",
    b"HM\x77\x35\x94\x01\x77\x35\x94\x01",
    b"HM\x00\x0f\x42\x41\x00\x0f\x42\x40",
    b"MH\x00\x0f\x42\x41\x00\x0f\x42\x41",
    b"HM\x00\x0f\x42\x41\x00\x0f\x42\x41HM\x00\x0f\x42\x41\x00\x0f\x42\x41",
    b"HM\x00\x0f\x42\x41\x00\x0f\x42\x41HM\x00\x1e\x84\x81\x00\x1e\x84\x81",
    b"HM\x77\x35\x94\x00\x77\x35\x94\x00HM\x77\x35\x94\x00\x77\x35\x94\x00",
    b"HM\x77\x35\x94\x00\x77\x35\x94\x00HM\x00\x0f\x42\x41\x00\x0f\x42\x41",
];

// A start notice with a number in room 7, the view of day A in room 0, a proposal in room 255, which is none, with
// used numbers 0 but for office 15.
fn notice(number: [u8; 4]) -> Vec<u8> {
    [b"SC\x07", &number[..], b"\x00\x00\x00\x00\x00\x00\x00\x01"].concat()
}

fn view() -> Vec<u8> {
    [&b"VW\x00\x00\x00\x00\x02\x00\x00\x00\x00\x00\x00\x00\x01\x00\x00\x00\x01"[..], &[0; 60]].concat()
}

fn proposal(used: [u8; 4]) -> Vec<u8> {
    let front = b"PR\xff\x00\x01\xf0\x00\x00\x00\x00\x00\x00\x01\x00\x00\x00\x02\x00\x00\x00\x03";
    [&front[..], &[0; 60], &used].concat()
}

// Each of the eight rows of 410 words has the office in word 0 and the number in words 71, 72 and 73.
fn eight_rows(office: u32, number: u32) -> Vec<u32> {
    let word = |at| match at % 410 {
        0 => office,
        71..=73 => number,
        _ => 0,
    };
    (0..3280).map(word).collect()
}

pub fn all(t: &mut Tally) {
    let mut right = Mark::of(1_000_001).bytes() == *b"HM\x00\x0f\x42\x41\x00\x0f\x42\x41";
    right &= slowest()[1998..] == [1_998_001_999, 1_999_002_000, L];
    t.case("files and records worked by hand", |t| {
        let of_office_0 = eight_rows(0, 0);
        right &= of_office_0 == fresh_table(0);
        for (file, last) in GOOD {
            right &= t.ask(3, file, TABLE) == (0, eight_rows(3, last));
            right &= t.ask(16, file, TABLE) == (1, of_office_0.clone());
        }
        for file in BAD {
            right &= t.ask(3, file, TABLE) == (18, of_office_0.clone());
            right &= t.ask(16, file, TABLE) == (1, of_office_0.clone());
        }
        let leaving = [
            (0, notice([0, 0, 0, 1]), 15, 1_000_001),
            (1, notice([0, 0, 0, 1]), 15, 1),
            (1_000_001, view(), 79, 1_000_001),
            (1, view(), 79, 1_000_002),
            (2, proposal([0, 0, 0, 0]), 85, 1_000_003),
            (3, proposal([0, 0, 0, 0]), 85, 3),
            (3, proposal([0, 0, 0, 4]), 85, 1_000_004),
            (3, proposal([0x77, 0x26, 0x51, 0xbf]), 85, L - 1),
            (3, proposal([0x77, 0x26, 0x51, 0xc0]), 85, L),
            (3, proposal([0x77, 0x26, 0x51, 0xc1]), 85, L),
            (L - 1, notice([0x77, 0x35, 0x94, 0]), 15, L),
            (L, notice([0x77, 0x35, 0x94, 0]), 15, L),
        ];
        for (last, record, length, mark) in leaving {
            right &= t.before(last, &record, &[0; BYTES]) == Leave::Free { length, mark };
            right &= t.before(last, &record[..length - 1], &[0; BYTES]) == Leave::Held(5);
        }
        right &= t.before(0, &notice([0x77, 0x35, 0x94, 1]), &[0; BYTES]) == Leave::Held(8);
    });
    t.verdicts.check("the model on files and records worked by hand", right);
}
