// Worked sheets: the sync record that a desk makes in a room, who came along by a sheet, the refusals and their order.
// What is expected is written from documents 01 and 02. A try is one call: its answer, the bytes or the set after it.
// Bytes and sets that are not written are 170, as they were lent.
use crate::sheet_calls::{room_came_along, room_desk_sync};
use crate::{Tally, L, LENT_BYTE};

const LENT_SET: u64 = 170;

// The room of the views and of the sheet, where none is named.
const ROOM: u8 = 5;

fn in_room(room: u8, record: &[u8]) -> Vec<u8> {
    [&record[..2], &[room], &record[3..]].concat()
}

fn notice(start: u32, members: u64) -> Vec<u8> {
    [&b"SC"[..], &[ROOM], &start.to_be_bytes(), &members.to_be_bytes()].concat()
}

// The start numbers of offices 0 and 1 are given, the others are 0.
fn view(number: u32, members: u64, start_0: u32, start_1: u32) -> Vec<u8> {
    let starts = [&start_0.to_be_bytes()[..], &start_1.to_be_bytes(), &[0; 56]].concat();
    [&b"VW"[..], &[ROOM], &number.to_be_bytes(), &members.to_be_bytes(), &starts].concat()
}

// The words of a desk with this seat and, in one room, this start number, view number and open word; in each other
// room are other words.
fn desk(seat: u32, room: usize, machine: [u32; 3]) -> Vec<u32> {
    let mut words = vec![seat];
    for other in 0..8 {
        words.extend(if other == room { machine } else { [100 + other as u32, 200 + other as u32, 1] });
    }
    words
}

fn sync(seat: u8, start: u32, previous: u32) -> Vec<u8> {
    [&b"SY"[..], &[seat], &start.to_be_bytes(), &previous.to_be_bytes()].concat()
}

// The answer's refusal, its value, and the set after it.
fn asked(sheet: &[u8], view: &[u8], previous: u32) -> (u32, u32, u64) {
    let mut members = LENT_SET;
    let answer =
        unsafe { room_came_along(sheet.as_ptr(), sheet.len(), view.as_ptr(), view.len(), previous, &mut members) };
    (answer % 256, answer / 256, members)
}

impl Tally {
    // The record of a desk in a room: the count and the whole output.
    fn makes(&mut self, name: &str, words: &[u32], room: u8, capacity: usize, expected: (usize, Vec<u8>)) {
        let mut out = vec![LENT_BYTE; capacity];
        let count = unsafe { room_desk_sync(words.as_ptr(), words.len(), room, out.as_mut_ptr(), capacity) };
        self.say(name, (count, out) == expected);
    }

    fn came(&mut self, name: &str, sheet: &[Vec<u8>], view: &[u8], previous: u32, set: u64) {
        self.say(name, asked(&sheet.concat(), view, previous) == (0, 0, set));
    }

    fn missing(&mut self, name: &str, sheet: &[Vec<u8>], view: &[u8], previous: u32, seat: u32) {
        self.say(name, asked(&sheet.concat(), view, previous) == (0, 1 + seat, LENT_SET));
    }

    fn not_read(&mut self, name: &str, sheet: &[Vec<u8>], view: &[u8], previous: u32, refusal: u32) {
        self.say(name, asked(&sheet.concat(), view, previous) == (refusal, 0, LENT_SET));
    }
}

// View 3 of seats 0, 1 and 4, with start number 2 of office 0 and 1 of office 1. Seats 0 and 1 come from view 2,
// seat 4 from none.
fn view_3() -> Vec<u8> {
    view(3, 0x13, 2, 1)
}

fn three_desks() -> [Vec<u8>; 3] {
    [sync(0, 2, 2), sync(1, 2, 2), sync(4, 1, 0)]
}

pub fn all(t: &mut Tally) {
    sync_records(t);
    three(t);
    two_of_one_seat(t);
    other_starts(t);
    empty(t);
    full(t);
    view_refusals(t);
    sheet_refusals(t);
    order_in_the_view(t);
    order_on_the_sheet(t);
}

fn sync_records(t: &mut Tally) {
    let record = [0x53, 0x59, 4, 0, 0, 0, 1, 0, 0, 0, 2];
    let (four, made) = (desk(4, 0, [1, 2, 1]), (11, record.to_vec()));
    let unwritten = |capacity| (0, vec![LENT_BYTE; capacity]);
    t.makes("seat 4 with start number 1 and view 2 in room 0", &four, 0, 11, made.clone());
    t.makes("the same desk in room 1", &four, 1, 11, (11, sync(4, 101, 201)));
    t.makes("the same desk in room 7", &four, 7, 11, (11, sync(4, 107, 207)));
    t.makes("room 8 is none", &four, 8, 11, unwritten(11));
    t.makes("room 128 is none", &four, 128, 11, unwritten(11));
    t.makes("room 255 is none", &four, 255, 11, unwritten(11));
    t.makes("seat 4 with start number 1 and view 2 in room 7", &desk(4, 7, [1, 2, 1]), 7, 11, made.clone());
    t.makes("12 bytes lent: the last stays", &four, 0, 12, (11, [&record[..], &[LENT_BYTE]].concat()));
    t.makes("10 bytes lent", &four, 0, 10, unwritten(10));
    t.makes("no byte lent", &four, 0, 0, unwritten(0));
    t.makes("no change open: the same record", &desk(4, 3, [1, 2, 0]), 3, 11, made);
    t.makes("a fresh desk", &[&[63][..], &[0; 24]].concat(), 6, 11, (11, sync(63, 0, 0)));
    t.makes("numbers of four bytes",
        &desk(0, 2, [0x0102_0304, 0x0506_0708, 1]), 2, 11, (11, b"SY\x00\x01\x02\x03\x04\x05\x06\x07\x08".to_vec()));
    t.makes("numbers above L are written as they are",
        &desk(0, 4, [L + 1, u32::MAX, 1]), 4, 11, (11, sync(0, L + 1, u32::MAX)));
    t.makes("numbers above L in another room", &desk(0, 4, [L + 1, u32::MAX, 1]), 3, 11, (11, sync(0, 103, 203)));
    t.makes("seat 64 is none", &desk(64, 0, [1, 2, 1]), 0, 11, unwritten(11));
    t.makes("seat 260 is none", &desk(260, 0, [1, 2, 1]), 0, 11, unwritten(11));
    t.makes("four words are no desk", &[4, 1, 2, 1], 0, 11, unwritten(11));
    t.makes("24 words are no desk", &four[..24], 0, 11, unwritten(11));
    t.makes("26 words are no desk", &[&four[..], &[0]].concat(), 0, 11, unwritten(11));
}

fn three(t: &mut Tally) {
    let [zero, one, four] = three_desks();
    t.came("three desks, from view 2", &three_desks(), &view_3(), 2, 0x03);
    t.came("three desks, from no view", &three_desks(), &view_3(), 0, 0x10);
    t.came("three desks, from view 1: nobody", &three_desks(), &view_3(), 1, 0);
    t.came("three desks, in room 0", &three_desks(), &in_room(0, &view_3()), 2, 0x03);
    t.came("three desks, in room 7", &three_desks(), &in_room(7, &view_3()), 2, 0x03);
    t.came("three desks, in another order", &[four.clone(), one.clone(), zero.clone()], &view_3(), 2, 0x03);
    let no_members = [sync(2, 2, 2), sync(5, 1, 2), sync(63, 0, 2)];
    t.came("records of seats 2, 5 and 63, which are no members",
        &[&no_members[..], &three_desks()].concat(), &view_3(), 2, 0x03);
    t.came("the last seat of all", &[sync(63, 0, 2)], &view(3, 1 << 63, 0, 0), 2, 1 << 63);
    t.came("numbers up to L", &[sync(0, L, L)], &view(L, 0x01, L, 0), L, 0x01);
    t.missing("without seat 0", &[one.clone(), four.clone()], &view_3(), 2, 0);
    t.missing("without seat 1", &[zero.clone(), four.clone()], &view_3(), 2, 1);
    t.missing("without seat 4", &[zero.clone(), one], &view_3(), 2, 4);
    t.missing("without seats 1 and 4", &[zero], &view_3(), 2, 1);
    t.missing("without the last seat of all", &[four], &view(3, 1 << 63 | 0x10, 0, 1), 2, 63);
}

fn two_of_one_seat(t: &mut Tally) {
    let [zero, one, four] = three_desks();
    let from_1 = sync(1, 2, 1);
    t.came("two records of seat 1, the first from view 2",
        &[zero.clone(), one.clone(), from_1.clone(), four.clone()], &view_3(), 2, 0x03);
    t.came("two records of seat 1, the first from view 1",
        &[zero.clone(), from_1.clone(), one.clone(), four.clone()], &view_3(), 2, 0x01);
    t.came("the same two, not side by side",
        &[from_1.clone(), zero.clone(), four.clone(), one.clone()], &view_3(), 2, 0x01);
    t.came("the same two, asked from view 1", &[from_1, zero, four, one], &view_3(), 1, 0x02);
}

// A record with another start number does not count, and is not bad.
fn other_starts(t: &mut Tally) {
    let [zero, one, four] = three_desks();
    let old = sync(1, 1, 2);
    t.missing("start number 1 of seat 1", &[zero.clone(), old.clone(), four.clone()], &view_3(), 2, 1);
    t.missing("a later start number", &[zero.clone(), sync(1, 3, 2), four.clone()], &view_3(), 2, 1);
    t.missing("office 0's start number at office 1", &[zero.clone(), one.clone(), sync(4, 2, 0)], &view_3(), 2, 4);
    t.came("start number 1 of seat 1, then the right one",
        &[zero.clone(), old.clone(), one.clone(), four.clone()], &view_3(), 2, 0x03);
    t.came("the right one, then start number 1", &[zero.clone(), one, old.clone(), four.clone()], &view_3(), 2, 0x03);
    t.came("start number 1 from view 2, then the right one from view 1",
        &[zero, old, sync(1, 2, 1), four], &view_3(), 2, 0x01);
}

fn empty(t: &mut Tally) {
    t.missing("an empty sheet", &[], &view_3(), 2, 0);
    t.came("an empty sheet and an empty view", &[], &view(3, 0, 0, 0), 2, 0);
    t.came("an empty view and records that name the number", &[sync(0, 0, 2), sync(4, 1, 2)], &view(3, 0, 0, 0), 2, 0);
}

fn full(t: &mut Tally) {
    let last = |before: Vec<u8>, records: usize, last: Vec<u8>| [vec![before; records - 1], vec![last]].concat();
    let of_0 = view(3, 0x01, 2, 0);
    t.came("512 records, of which the last counts", &last(sync(0, 1, 1), 512, sync(0, 2, 2)), &of_0, 2, 0x01);
    t.came("512 records that count, of which the last comes from another view",
        &last(sync(0, 2, 2), 512, sync(0, 2, 1)), &of_0, 2, 0x01);
    t.missing("512 records, of which none counts", &vec![sync(0, 1, 2); 512], &of_0, 2, 0);
    t.not_read("512 records, of which the last has seat 64", &last(sync(0, 2, 2), 512, sync(64, 2, 2)), &of_0, 2, 6);
    t.not_read("513 records get 17", &last(sync(0, 1, 1), 513, sync(0, 2, 2)), &of_0, 2, 17);
}

fn view_refusals(t: &mut Tally) {
    let sheet = three_desks();
    t.not_read("no byte of a view gets 4", &sheet, &[], 2, 4);
    t.not_read("one byte of a view gets 4", &sheet, b"V", 2, 4);
    t.not_read("a start notice gets 4", &sheet, &notice(2, 0x13), 2, 4);
    t.not_read("a view under a start notice's mark gets 4", &sheet, &[b"SC", &view_3()[2..]].concat(), 2, 4);
    t.not_read("a report gets 4", &sheet, &[&b"NE\x05"[..], &[0; 16]].concat(), 2, 4);
    t.not_read("a proposal gets 4", &sheet, &[&b"PR\x05\x01\x01"[..], &[0; 80]].concat(), 2, 4);
    t.not_read("a sync record gets 4", &sheet, &sync(0, 2, 2), 2, 4);
    t.not_read("the mark of a view alone gets 5", &sheet, b"VW", 2, 5);
    t.not_read("a view of 78 bytes gets 5", &sheet, &view_3()[..78], 2, 5);
    t.not_read("a view without its room gets 5", &sheet, &[b"VW", &view_3()[3..]].concat(), 2, 5);
    t.not_read("a view of 80 bytes gets 5", &sheet, &[view_3(), vec![0]].concat(), 2, 5);
    for room in [8, 9, 16, 127, 128, 255] {
        t.not_read(&format!("a view of room {room} gets 20"), &sheet, &in_room(room, &view_3()), 2, 20);
    }
    t.not_read("a view number above L gets 8", &sheet, &view(L + 1, 0x13, 2, 1), 2, 8);
    t.not_read("a start number above L gets 8", &sheet, &view(3, 0x13, 2, L + 1), 2, 8);
    t.not_read("a start number above L of an office without a seat gets 8", &sheet, &view(3, 0x10, L + 1, 1), 2, 8);
    t.not_read("an own number above L gets 8", &sheet, &view_3(), L + 1, 8);
    t.not_read("a start number of office 1 without its seats gets 10", &sheet, &view(3, 0x03, 2, 1), 2, 10);
    t.not_read("a start number of office 0 without its seats gets 10", &sheet, &view(3, 0x10, 2, 1), 2, 10);
}

fn sheet_refusals(t: &mut Tally) {
    let with = |record: &[u8]| [&three_desks()[..], &[record.to_vec()]].concat();
    t.not_read("a byte behind the records gets 17", &with(b"S"), &view_3(), 2, 17);
    t.not_read("ten bytes of a record get 17", &with(&sync(1, 2, 2)[..10]), &view_3(), 2, 17);
    t.not_read("a record under another mark gets 4",
        &with(b"SC\x01\x00\x00\x00\x02\x00\x00\x00\x02"), &view_3(), 2, 4);
    t.not_read("a record of seat 64 gets 6", &with(&sync(64, 2, 2)), &view_3(), 2, 6);
    t.not_read("a record of seat 255 gets 6", &with(&sync(255, 2, 2)), &view_3(), 2, 6);
    t.not_read("a record's start number above L gets 8", &with(&sync(1, L + 1, 2)), &view_3(), 2, 8);
    t.not_read("a record's previous view number above L gets 8", &with(&sync(1, 2, L + 1)), &view_3(), 2, 8);
    t.not_read("a bad record of a seat that is no member gets its number",
        &with(&sync(63, L + 1, 2)), &view_3(), 2, 8);
    t.not_read("a bad record behind a sheet without seat 0 gets its number",
        &with(&sync(1, 2, L + 1))[1..], &view_3(), 2, 8);
    t.not_read("a bad record before an empty view gets its number", &[sync(64, 0, 0)], &view(3, 0, 0, 0), 2, 6);
}

// Each input is wrong in what comes after the number it gets.
fn order_in_the_view(t: &mut Tally) {
    let (cut, bad) = ([vec![b'?'; 10]], [vec![b'?'; 11]]);
    let above = |view: &[u8]| in_room(8, view);
    t.not_read("4 before 20", &three_desks(), b"??\xff", 2, 4);
    t.not_read("a start notice gets 4 before 20", &three_desks(), &above(&notice(2, 0x13)), 2, 4);
    t.not_read("5 before 20", &three_desks(), &above(&view_3()[..78]), 2, 5);
    t.not_read("20 before 8, a view number", &three_desks(), &above(&view(L + 1, 0x13, 2, 1)), 2, 20);
    t.not_read("20 before 8, a start number", &three_desks(), &above(&view(3, 0x13, 2, L + 1)), 2, 20);
    t.not_read("20 before 8, the own number", &three_desks(), &above(&view_3()), L + 1, 20);
    t.not_read("20 before 10", &three_desks(), &above(&view(3, 0x03, 2, 1)), 2, 20);
    t.not_read("20 before 17", &cut, &above(&view_3()), 2, 20);
    t.not_read("20 before a bad record's 4", &bad, &above(&view_3()), 2, 20);
    t.not_read("4 before 8, the own number", &three_desks(), b"??", L + 1, 4);
    t.not_read("a start notice gets 4 before 8, the own number", &three_desks(), &notice(2, 0x13), L + 1, 4);
    t.not_read("5 before 8, the own number", &three_desks(), b"VW", L + 1, 5);
    t.not_read("8 before 10, a view number", &three_desks(), &view(L + 1, 0x03, 2, 1), 2, 8);
    t.not_read("8 before 10, a start number", &three_desks(), &view(3, 0x03, 2, L + 1), 2, 8);
    t.not_read("8 before 10, the own number", &three_desks(), &view(3, 0x03, 2, 1), L + 1, 8);
    t.not_read("4 before 17", &cut, b"??", 2, 4);
    t.not_read("5 before 17", &cut, b"VW", 2, 5);
    t.not_read("8 before 17", &cut, &view_3(), L + 1, 8);
    t.not_read("10 before 17", &cut, &view(3, 0x03, 2, 1), 2, 10);
    t.not_read("10 before 17, 513 records", &vec![sync(0, 2, 2); 513], &view(3, 0x03, 2, 1), 2, 10);
    t.not_read("5 before a bad record's 4", &bad, b"VW", 2, 5);
    t.not_read("8 before a bad record's 4", &bad, &view_3(), L + 1, 8);
    t.not_read("10 before a bad record's 4", &bad, &view(3, 0x03, 2, 1), 2, 10);
    t.not_read("4 before a bad record's 6", &[sync(64, 2, 2)], b"??", 2, 4);
}

fn order_on_the_sheet(t: &mut Tally) {
    let (mark, seat, number) = (b"??\x01\x00\x00\x00\x02\x00\x00\x00\x02".to_vec(), sync(64, 2, 2), sync(1, 2, L + 1));
    t.not_read("17 before a bad record's 4, a byte too many", &[mark.clone(), b"S".to_vec()], &view_3(), 2, 17);
    t.not_read("17 before a bad record's 4, 513 records", &vec![mark.clone(); 513], &view_3(), 2, 17);
    t.not_read("4 before 6 and 8 in one record", &[vec![0xff; 11]], &view_3(), 2, 4);
    t.not_read("4 before 6 in one record", &[b"??\x40\x00\x00\x00\x02\x00\x00\x00\x02".to_vec()], &view_3(), 2, 4);
    t.not_read("6 before 8 in one record, the start number", &[sync(64, L + 1, 2)], &view_3(), 2, 6);
    t.not_read("6 before 8 in one record, the previous view number", &[sync(64, 2, L + 1)], &view_3(), 2, 6);
    t.not_read("of two bad records the first, 6 and then 4", &[seat.clone(), mark.clone()], &view_3(), 2, 6);
    t.not_read("of two bad records the first, 8 and then 4", &[number.clone(), mark.clone()], &view_3(), 2, 8);
    t.not_read("of two bad records the first, 8 and then 6", &[number.clone(), seat.clone()], &view_3(), 2, 8);
    t.not_read("of two bad records the first, 4 and then 8", &[mark, number], &view_3(), 2, 4);
    t.not_read("a bad record before a missing seat", &[sync(0, 2, 2), seat], &view_3(), 2, 6);
}
