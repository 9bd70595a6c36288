// Full sheets, of 512 records: the one that decides and bad ones in each place; and sheets of every length up to
// there and some above.
use crate::choice::choice;
use crate::inputs::some;
use crate::model::View;
use crate::random::Random;
use crate::sheet::{bytes, Sync, BYTES, MOST};
use crate::sheet_inputs::{
    beside, counted, other, seats, shuffle, some_members, some_number, some_view, whole, BAD, NOT_BAD,
};
use crate::Tally;

pub fn all(t: &mut Tally) {
    many(t);
    deciding_places(t);
    bad_places(t);
    two_bad(t);
    lengths(t);
}

// 512 records: one that counts for each member, and others among them.
fn full_sheet(random: &mut Random, view: &View, own: u32) -> Vec<Sync> {
    let mut records: Vec<Sync> = (0..MOST).map(|_| beside(random, view, own)).collect();
    let needed = whole(random, view, own);
    records[..needed.len()].copy_from_slice(&needed);
    shuffle(random, &mut records);
    records
}

// None of a seat's records counts any more.
fn uncount(random: &mut Random, records: &mut [Sync], view: &View, seat: usize) {
    for record in records.iter_mut().filter(|record| record.seat as usize == seat) {
        record.start = other(random, view.starts[seat / 4]);
    }
}

fn many(t: &mut Tally) {
    t.case("512 records, then none of a member's that counts, then the last on the sheet", |t| {
        let mut r = Random(7);
        for _ in 0..1200 {
            let (members, own) = (some_members(&mut r), some_number(&mut r));
            let view = some_view(&mut r, members);
            let mut records = full_sheet(&mut r, &view, own);
            t.ask_of(&records, &view, own);
            let members: Vec<usize> = seats(members).collect();
            if members.is_empty() {
                continue;
            }
            let seat = some(&mut r, &members);
            uncount(&mut r, &mut records, &view, seat);
            t.ask_of(&records, &view, own);
            records[MOST - 1] = counted(&view, seat, own);
            t.ask_of(&records, &view, own);
        }
    });
}

fn deciding_places(t: &mut Tally) {
    t.case("512 records, with the one that decides in each place", |t| {
        let mut r = Random(18);
        for at in 0..MOST {
            let (seat, own) = (r.below(64), some_number(&mut r));
            let view = some_view(&mut r, 1 << seat);
            let mut records = full_sheet(&mut r, &view, own);
            uncount(&mut r, &mut records, &view, seat);
            let [names, names_other] = [own, other(&mut r, own)].map(|previous| counted(&view, seat, previous));
            records[at] = names;
            t.ask_of(&records, &view, own);
            if at + 1 < MOST {
                let behind = at + 1 + r.below(MOST - 1 - at);
                for (first, second) in [(names, names_other), (names_other, names)] {
                    (records[at], records[behind]) = (first, second);
                    t.ask_of(&records, &view, own);
                }
            }
        }
    });
}

fn bad_places(t: &mut Tally) {
    t.case("512 records, with a bad one or one at an edge in each place", |t| {
        let mut r = Random(8);
        for at in 0..MOST {
            let (members, own) = (r.next() & r.next() & r.next(), some_number(&mut r));
            let view = some_view(&mut r, members);
            let sheet = bytes(&full_sheet(&mut r, &view, own));
            for change in BAD.into_iter().chain(NOT_BAD) {
                let mut changed = sheet.clone();
                change(&mut changed[BYTES * at..BYTES * at + BYTES]);
                t.ask_sheet(&changed, &view, own);
            }
        }
    });
}

fn two_bad(t: &mut Tally) {
    t.case("two bad records, near and far", |t| {
        let mut r = Random(9);
        for case in 0..20 * BAD.len() * BAD.len() {
            let (mut rest, members, own) = (case, some_members(&mut r), some_number(&mut r));
            let view = some_view(&mut r, members);
            let records = if r.below(7) == 0 { MOST } else { 2 + r.below(20) };
            let mut sheet: Vec<u8> = (0..records).flat_map(|_| beside(&mut r, &view, own).bytes()).collect();
            let first = r.below(records - 1);
            let second = first + 1 + r.below(records - 1 - first);
            choice(&mut rest, &BAD)(&mut sheet[BYTES * first..BYTES * first + BYTES]);
            choice(&mut rest, &BAD)(&mut sheet[BYTES * second..BYTES * second + BYTES]);
            t.ask_sheet(&sheet, &view, own);
        }
    });
}

fn lengths(t: &mut Tally) {
    t.case("sheets of every length from 0 to 5,700 bytes, and of some far above", |t| {
        let mut r = Random(10);
        let view = some_view(&mut r, 1 << 63 | 1 << 21);
        let long = bytes(&(0..70_000).map(|_| beside(&mut r, &view, 7)).collect::<Vec<Sync>>());
        let far = [600, 1024, 5632, 5958, 65_536, 65_537, 65_536 + 512].map(|records| BYTES * records);
        for length in (0..=5700).chain(far) {
            t.ask_sheet(&long[..length], &view, 7);
        }
    });
}
