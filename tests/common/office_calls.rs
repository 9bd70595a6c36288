// The calls beside the step that an office makes: a report's bytes, and the number of a room's current view.
use crate::lent::{around, AROUND, BYTE, WORD};
use crate::model::{report, Proposal, CAPACITY, FAST, L, REPORT, ROOMS};
use crate::random::Random;
use crate::rows::{self, place, TABLE, WORDS};
use crate::verdicts::Verdicts;
use crate::{room_fresh, room_step};

#[link(name = "room", kind = "static")]
extern "C" {
    fn room_report_write(room: u8, joining: u64, leaving: u64, out: *mut u8, capacity: usize) -> u32;
    fn room_view_number(table: *const u32, words: usize, room: u8) -> u32;
}

// The view number of a room by some words; none where a word in or around them was touched.
pub fn view_number(table: &[u32], room: u8) -> Option<u32> {
    let lent = around(table, WORD);
    let kept = lent.clone();
    let got = unsafe { room_view_number(lent.as_ptr().add(AROUND), table.len(), room) };
    (lent == kept).then_some(got)
}

// The answer, and the output with the bytes around it.
fn write(room: u8, joining: u64, leaving: u64, capacity: usize) -> (u32, Vec<u8>) {
    let mut out = vec![BYTE; capacity + 2 * AROUND];
    let got = unsafe { room_report_write(room, joining, leaving, out.as_mut_ptr().add(AROUND), capacity) };
    (got, out)
}

fn as_the_model(room: u8, joining: u64, leaving: u64, capacity: usize) -> bool {
    let mut expected = (0, vec![BYTE; capacity + 2 * AROUND]);
    if capacity >= REPORT && (room as usize) < ROOMS {
        expected.0 = REPORT as u32;
        expected.1[AROUND..AROUND + REPORT].copy_from_slice(&report(room, joining, leaving));
    }
    write(room, joining, leaving, capacity) == expected
}

pub fn reports(v: &mut Verdicts) {
    let (joining, leaving) = (0x0102_0304_0506_0708, 0x090a_0b0c_0d0e_0f10);
    let bytes: Vec<u8> = [0x4e, 0x45, 5].into_iter().chain(1..=16).collect();
    let behind = [&bytes[..], &[BYTE]].concat();
    let none = |capacity| (0, vec![BYTE; capacity + 2 * AROUND]);
    v.check("a report in 19 bytes", write(5, joining, leaving, 19) == (19, around(&bytes, BYTE)));
    v.check("a report in 20 bytes", write(5, joining, leaving, 20) == (19, around(&behind, BYTE)));
    v.check("no report in 18 bytes", write(5, joining, leaving, 18) == none(18));
    v.check("no report in no bytes", write(5, joining, leaving, 0) == none(0));
    let all = [&[0x4e, 0x45, 7][..], &[0xff; 16]].concat();
    v.check("a report of all seats twice", write(7, u64::MAX, u64::MAX, 19) == (19, around(&all, BYTE)));
    v.check("no report of room 8", write(8, joining, leaving, 19) == none(19));
    v.check("reports of every room byte, at every capacity to 40",
        (0..=255).all(|room| (0..=40).all(|capacity| as_the_model(room, joining, leaving, capacity))));

    let sets: Vec<u64> = (0..64).flat_map(|s| [1 << s, !(1 << s)]).chain([0, u64::MAX]).collect();
    let edges = sets.iter().flat_map(|&a| sets.iter().map(move |&b| (a, b)));
    v.check("reports of no, one, all and all but one, at every capacity to 40",
        edges.enumerate().all(|(k, (a, b))| (0..=40).all(|capacity| as_the_model((k % ROOMS) as u8, a, b, capacity))));
    let mut r = Random(8);
    v.check("random reports", (0..100_000).all(|k| {
        let (room, capacity) = (if k % 4 == 0 { r.next() as u8 } else { (k / 4 % ROOMS) as u8 }, r.below(100));
        as_the_model(room, r.next(), r.next(), capacity)
    }));
}

// The day of README.md at office 0 in a room, all other rooms fresh: the table, and the room's view number at first
// and after each record.
fn a_day(room: u8) -> (Vec<u32>, Vec<Option<u32>>) {
    let proposal = Proposal { sender: 1, kind: FAST, members: 0x11, start: 1, number: 1, used: [0; 16] }.bytes(room);
    let seats = [1, 0x10].map(|joining| write(room, joining, 0, REPORT).1[AROUND..AROUND + REPORT].to_vec());
    let (mut table, mut out) = (vec![WORD; TABLE], [0; CAPACITY]);
    unsafe { room_fresh(0, table.as_mut_ptr(), TABLE) };
    let mut views = vec![view_number(&table, room)];
    for record in seats.iter().chain([&proposal, &proposal]) {
        let (lent, length) = (table.as_mut_ptr(), record.len());
        unsafe { room_step(0, lent, TABLE, record.as_ptr(), length, out.as_mut_ptr(), CAPACITY) };
        views.push(view_number(&table, room));
    }
    (table, views)
}

pub fn view_numbers(v: &mut Verdicts) {
    // what one word of a room's row does to the view number of the room whose day was played, if it is that room's
    let edges: [(&str, fn(&mut [u32]), u32); 12] = [
        ("own office 15", |row| row[rows::OWN] = 15, 3),
        ("own office 16", |row| row[rows::OWN] = 16, 0),
        ("mode 2", |row| row[rows::MODE] = 2, 3),
        ("mode 3", |row| row[rows::MODE] = 3, 0),
        ("every slot present", |row| row[rows::PRESENT] = 65_535, 3),
        ("presence, the lowest bit of no office", |row| row[rows::PRESENT] = 65_536, 0),
        ("presence, every bit", |row| row[rows::PRESENT] = u32::MAX, 0),
        ("view number L", |row| row[rows::VIEW_NUMBER] = L, L),
        ("view number above L", |row| row[rows::VIEW_NUMBER] = L + 1, 0),
        ("start number above L", |row| row[rows::START] = L + 1, 0),
        ("proposal number above L", |row| row[rows::NUMBER] = L + 1, 0),
        ("a last accepted number above L", |row| row[rows::ACCEPTED + 15] = u32::MAX, 0),
    ];
    let days: Vec<_> = (0..ROOMS as u8).map(|room| (room, a_day(room))).collect();
    for (room, (table, views)) in &days {
        v.check(&format!("room {room}: the views of a day, fresh at first"), *views == [0, 2, 2, 3, 3].map(Some));
        let right = |asked| view_number(table, asked) == Some(if asked == *room { 3 } else { 0 });
        v.check(&format!("room {room}: no other has its view, and none above 7 has one"), (0..=255).all(right));
        let longer = [&table[..], &[0]].concat();
        let lengths = [&table[..0], &table[..WORDS], &table[..TABLE - 1], &longer];
        v.check(&format!("room {room}: no words, a row alone, a word too few, a word too many"),
            lengths.iter().all(|words| view_number(words, *room) == Some(0)));
    }
    for (what, change, expected) in edges {
        let right = |(room, (table, _)): &(u8, (Vec<u32>, _)), changed: usize| {
            let mut other = table.clone();
            change(&mut other[place(changed)]);
            let expected = if changed == *room as usize || expected == 0 { expected } else { 3 };
            view_number(&other, *room) == Some(expected)
        };
        v.check(&format!("the view number of every room: {what} in every room"),
            days.iter().all(|day| (0..ROOMS).all(|changed| right(day, changed))));
    }
}
