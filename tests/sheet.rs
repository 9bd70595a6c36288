// The calls for C that make a sync record and ask who came along, beside the model of change requests 4 and 9: every
// answer, every byte and every word. Each case is a kind of input; it passes when the two agree on all of its inputs.
#[path = "common/choice.rs"]
mod choice;
#[path = "common/desks.rs"]
mod desks;
#[path = "common/full_sheets.rs"]
mod full_sheets;
#[allow(dead_code)]
#[path = "common/hearing.rs"]
mod hearing;
#[allow(dead_code)]
#[path = "common/inputs.rs"]
mod inputs;
#[path = "common/lent.rs"]
mod lent;
#[allow(dead_code)]
#[path = "common/model.rs"]
mod model;
#[allow(dead_code)]
#[path = "common/play.rs"]
mod play;
#[path = "common/random.rs"]
mod random;
#[allow(dead_code)]
#[path = "common/repeats.rs"]
mod repeats;
#[allow(dead_code)]
#[path = "common/rows.rs"]
mod rows;
#[allow(dead_code)]
#[path = "common/seat.rs"]
mod seat;
#[path = "common/sheet.rs"]
mod sheet;
#[path = "common/sheet_calls.rs"]
mod sheet_calls;
#[path = "common/sheet_inputs.rs"]
mod sheet_inputs;
#[path = "common/sheet_reached.rs"]
mod sheet_reached;
#[path = "common/tally.rs"]
mod tally;
#[path = "common/verdicts.rs"]
mod verdicts;

use choice::choice;
use inputs::some;
use lent::{around, AROUND, BYTE, WORD};
use model::{notice, View, L, ROOMS, VIEW};
use random::Random;
use seat::{place, WORDS};
use sheet::{bytes, Answer, Sync, BYTES, MOST};
use sheet_calls::{room_came_along, room_desk_sync};
use sheet_inputs::{
    add_beside, among, counted, damage, other, put, room_above, seats, some_members, some_number, some_room, some_view,
    whole, Asked, BAD,
};
use sheet_reached::Reached;
use std::ops::Range;

// Stands around the members that are lent.
const LONG: u64 = 0xc96e_a5b3_7f1d_e287;

// Some bytes, of which a part is lent; all must stay.
struct Part<'a> {
    all: &'a [u8],
    lent: Range<usize>,
}

impl Part<'_> {
    fn bytes(&self) -> &[u8] {
        &self.all[self.lent.clone()]
    }
}

// Inputs are sync records made and sheets asked.
type Tally = tally::Tally<Reached>;

impl Tally {
    // The sync record of a desk with these words in a room, in an output with these bytes: what the call wrote.
    fn make(&mut self, words: &[u32], room: u8, out: &[u8]) -> Option<Sync> {
        self.reached.count_made(words, room, out.len());
        let (mut desk, mut left, mut expected) = (around(words, WORD), around(out, BYTE), around(out, BYTE));
        let (written, place) = (sheet::made(words, room, out.len()), AROUND..AROUND + BYTES);
        if let Some(record) = written {
            expected[place.clone()].copy_from_slice(&record.bytes());
        }
        let got = unsafe {
            let (words_at, out_at) = (desk.as_mut_ptr().add(AROUND), left.as_mut_ptr().add(AROUND));
            room_desk_sync(words_at, words.len(), room, out_at, out.len())
        };
        let same = got == written.map_or(0, |_| BYTES) && left == expected && desk == around(words, WORD);
        self.compared(same, || {
            format!(
                "words {words:?}, room {room}, {} bytes: got {got} and {:02x?}, expected {written:?}",
                out.len(),
                &left[AROUND..]
            )
        });
        (got == BYTES).then(|| Sync::read(&left[place]))
    }

    // The answer of the model, compared.
    fn ask_parts(&mut self, sheet: Part, view: Part, own: u32) -> Answer {
        let expected = self.reached.count(sheet.bytes(), view.bytes(), own);
        let before = [0, u64::MAX, LONG, !LONG, 1, 1 << 63, u32::MAX as u64][self.inputs as usize % 7];
        let (mut sheets, mut views, mut set) = (sheet.all.to_vec(), view.all.to_vec(), around(&[before], LONG));
        let got = unsafe {
            let (s, v) = (sheets.as_mut_ptr().add(sheet.lent.start), views.as_mut_ptr().add(view.lent.start));
            room_came_along(s, sheet.lent.len(), v, view.lent.len(), own, set.as_mut_ptr().add(AROUND))
        };
        let after = if let Answer::Came(members) = expected { members } else { before };
        let same =
            got == expected.number() && set == around(&[after], LONG) && sheets == sheet.all && views == view.all;
        self.compared(same, || {
            let (records, view, left) = (sheet.bytes(), view.bytes(), set[AROUND]);
            let (length, shown) = (records.len(), &records[..records.len().min(66)]);
            let asked = format!("{length} bytes {shown:02x?}.., view {view:02x?}, own {own}");
            format!("{asked}: got {got} and {left:#x}, expected {expected:x?}")
        });
        expected
    }

    fn ask(&mut self, sheet: &[u8], view: &[u8], own: u32) -> Answer {
        let (sheets, views) = (around(sheet, BYTE), around(view, BYTE));
        let lent = |bytes: &[u8]| AROUND..AROUND + bytes.len();
        self.ask_parts(Part { all: &sheets, lent: lent(sheet) }, Part { all: &views, lent: lent(view) }, own)
    }

    // The view is of each room in turn.
    fn ask_sheet(&mut self, sheet: &[u8], view: &View, own: u32) -> Answer {
        let room = (self.inputs % ROOMS as u64) as u8;
        self.ask(sheet, &view.bytes(room), own)
    }

    fn ask_of(&mut self, records: &[Sync], view: &View, own: u32) -> Answer {
        self.ask_sheet(&bytes(records), view, own)
    }
}

// Sync records

const EDGES: [u32; 6] = [0, 1, L - 1, L, L + 1, u32::MAX];

// The rooms in turn, and some above them.
const EDGE_ROOMS: [u8; 11] = [0, 1, 2, 3, 4, 5, 6, 7, 8, 128, 255];

fn making(t: &mut Tally) {
    t.case("sync records of every seat, edge numbers in each room in turn, outputs about 11", |t| {
        let mut r = Random(1);
        let seats: Vec<u32> = (0..=70).chain([127, 128, 255, 256, 256 + 63, 1 << 16, 1 << 31, u32::MAX]).collect();
        for case in 0.. {
            let (mut rest, room) = (case, EDGE_ROOMS[case % EDGE_ROOMS.len()]);
            let seat = choice(&mut rest, &seats);
            let (start, previous) = (choice(&mut rest, &EDGES), choice(&mut rest, &EDGES));
            let (open, capacity) = (choice(&mut rest, &[0, 1, u32::MAX]), choice(&mut rest, &[11, 12, 10, 0]));
            if rest != 0 {
                return;
            }
            let (mut words, out) = ([0; WORDS].map(|_| r.next() as u32), r.bytes(capacity));
            words[0] = seat;
            words[place(room as usize % ROOMS)].copy_from_slice(&[start, previous, open]);
            t.make(&words, room, &out);
        }
    });
    t.case("sync records in 0 to 33 words, every byte of a room and outputs of 0 to 40 bytes", |t| {
        let mut r = Random(2);
        for case in 0.. {
            let mut rest = case;
            let capacity = choice(&mut rest, &(0..=40).collect::<Vec<_>>());
            let length = choice(&mut rest, &(0..=33).chain([WORDS; 30]).collect::<Vec<_>>());
            if rest == 20 {
                return;
            }
            let mut words: Vec<u32> = (0..length).map(|_| r.next() as u32).collect();
            words.iter_mut().take(1).for_each(|seat| *seat %= 66);
            let (room, out) = (some_room(&mut r), r.bytes(capacity));
            t.make(&words, room, &out);
            t.make(&words, case as u8, &out);
        }
    });
}

// Sheets for a view

fn marks(t: &mut Tally) {
    let mut r = Random(3);
    let view = some_view(&mut r, 0x8000_0000_0010_0003);
    let (view, sheet) = (view.bytes(3), bytes(&whole(&mut r, &view, 7)));
    t.case("every mark of a view", |t| {
        for mark in 0..=u16::MAX {
            t.ask(&sheet, &[&mark.to_be_bytes()[..], &view[2..]].concat(), 7);
        }
    });
    t.case("every mark of a sync record", |t| {
        for mark in 0..=u16::MAX {
            let (mut changed, at) = (sheet.clone(), BYTES * (mark as usize % 4));
            changed[at..at + 2].copy_from_slice(&mark.to_be_bytes());
            t.ask(&changed, &view, 7);
        }
    });
}

fn single_seats(t: &mut Tally) {
    t.case("views of each single seat, a record for them, and edge numbers", |t| {
        let seats: [usize; 64] = std::array::from_fn(|seat| seat);
        for case in 0.. {
            let mut rest = case;
            let seat = choice(&mut rest, &seats);
            let (in_view, start) = (choice(&mut rest, &EDGES), choice(&mut rest, &EDGES));
            let (previous, own) = (choice(&mut rest, &EDGES), choice(&mut rest, &EDGES));
            if rest != 0 {
                return;
            }
            let mut view = View { number: 5, members: 1 << seat, starts: [0; 16] };
            view.starts[seat / 4] = in_view;
            t.ask_of(&[Sync { seat: seat as u8, start, previous }], &view, own);
        }
    });
}

// Whether a record counts, and whether it names the number.
type Kind = (bool, bool);

fn of_kind(random: &mut Random, view: &View, seat: usize, own: u32, (counts, names): Kind) -> Sync {
    let right = counted(view, seat, own);
    let start = if counts { right.start } else { other(random, right.start) };
    Sync { start, previous: if names { own } else { other(random, own) }, ..right }
}

fn pairs_of_seats(t: &mut Tally) {
    t.case("views of each two seats, with no record, one that counts or another of each, in both orders", |t| {
        let mut r = Random(16);
        for case in 0..64 * 64 * 18 {
            let (low, high, mut rest) = (case % 64, case / 64 % 64, case / 64 / 64);
            if low >= high {
                continue;
            }
            let (view, own) = (some_view(&mut r, 1 << low | 1 << high), some_number(&mut r));
            let kinds =
                [low, high].map(|seat| (seat, choice(&mut rest, &[None, Some((true, true)), Some((false, true))])));
            let mut records: Vec<Sync> = kinds
                .iter()
                .flat_map(|&(seat, kind)| kind.map(|kind| of_kind(&mut r, &view, seat, own, kind)))
                .collect();
            if rest == 1 {
                records.reverse();
            }
            t.ask_of(&records, &view, own);
        }
    });
}

fn without(records: &[Sync], seat: usize) -> Vec<Sync> {
    records.iter().filter(|record| record.seat as usize != seat).copied().collect()
}

fn whole_sheets(t: &mut Tally) {
    let mut right = true;
    t.case("whole sheets, and with the records of exactly one seat left out", |t| {
        let mut r = Random(4);
        for case in 0..1200 {
            let (members, own) = (some_members(&mut r), some_number(&mut r));
            let view = some_view(&mut r, members);
            let mut records = whole(&mut r, &view, own);
            add_beside(&mut r, &mut records, &view, own, case % 5);
            right &= matches!(t.ask_of(&records, &view, own), Answer::Came(set) if set & !members == 0);
            for seat in seats(members) {
                right &= t.ask_of(&without(&records, seat), &view, own) == Answer::Missing(seat);
            }
        }
    });
    t.verdicts.check(
        "a whole sheet is answered by a set within the members, one without a seat's records by that seat",
        right,
    );
}

// Every row of up to four kinds, the empty one first.
fn rows_of_kinds() -> Vec<Vec<Kind>> {
    let mut all = vec![Vec::new()];
    for at in 0..1 + 4 + 16 + 64 {
        let longer =
            [(true, true), (true, false), (false, true), (false, false)].map(|kind| [&all[at][..], &[kind]].concat());
        all.extend(longer);
    }
    all
}

fn records_of_one_seat(t: &mut Tally) {
    t.case("every row of up to four records of one seat, among those of the others", |t| {
        let mut r = Random(5);
        for (kinds, seat) in rows_of_kinds().iter().flat_map(|kinds| (0..64).map(move |seat| (kinds, seat))) {
            let (members, own) = (r.next() & r.next() & r.next() | 1 << seat, some_number(&mut r));
            let view = some_view(&mut r, members);
            let others = without(&whole(&mut r, &view, own), seat);
            let row: Vec<Sync> = kinds.iter().map(|&kind| of_kind(&mut r, &view, seat, own, kind)).collect();
            t.ask_of(&among(&mut r, &others, &row), &view, own);
        }
    });
}

fn few_records(t: &mut Tally) {
    let mut right = true;
    t.case("a few records of any seats, and two neighbours of different seats exchanged", |t| {
        let mut r = Random(6);
        for _ in 0..30_000 {
            let (members, own) = (some_members(&mut r) & r.next() & r.next(), some_number(&mut r));
            let view = some_view(&mut r, members);
            let mut records = if r.below(3) == 0 { Vec::new() } else { whole(&mut r, &view, own) };
            let times = r.below(6);
            add_beside(&mut r, &mut records, &view, own, times);
            let answer = t.ask_of(&records, &view, own);
            let at = r.below(records.len().max(2) - 1);
            if records.len() > 1 && records[at].seat != records[at + 1].seat {
                records.swap(at, at + 1);
                right &= t.ask_of(&records, &view, own) == answer;
            }
        }
    });
    t.verdicts.check("neighbours of different seats exchanged change nothing", right);
}

// Numbers of the view and one's own

// A sheet with all its records, with a byte too many, or with too many records; none is bad, or the last by its
// mark, seat, start number or previous view number.
fn a_kind_of_sheet(records: &[Sync], kind: &mut usize) -> Vec<u8> {
    let (long, bad) = (choice(kind, &[0, 1, 2]), choice(kind, &[None, Some(0), Some(3), Some(5), Some(7)]));
    let mut sheet = if long == 2 { bytes(&vec![records[0]; MOST]) } else { Vec::new() };
    sheet.extend(bytes(records));
    if let Some(at) = bad {
        let last = sheet.len() - BYTES;
        BAD[at](&mut sheet[last..]);
    }
    if long == 1 {
        sheet.push(0x53);
    }
    sheet
}

fn numbers(t: &mut Tally) {
    t.case("every choice of edge numbers in a view, at each office, with sheets of all kinds", |t| {
        let mut r = Random(17);
        for case in 0.. {
            let mut rest = case;
            let office = choice(&mut rest, &[0, 1, 2, 3, 4, 5, 6, 7, 8, 9, 10, 11, 12, 13, 14, 15]);
            let (seat, second) = (4 * office + r.below(4), 4 * ((office + 5) % 16) + r.below(4));
            let members = choice(&mut rest, &[1 << second, 1 << second | 1 << seat]);
            let number = choice(&mut rest, &[0, L, L + 1, u32::MAX]);
            let (start, own) = (choice(&mut rest, &EDGES), choice(&mut rest, &[0, L, L + 1, u32::MAX]));
            let mut view = View { number, members, starts: [0; 16] };
            (view.starts[office], view.starts[second / 4]) = (start, 9);
            let record =
                |seat: usize| Sync { start: view.starts[seat / 4].min(L), ..counted(&view, seat, own.min(L)) };
            let records = [record(second), record(seat)];
            let sheet = a_kind_of_sheet(&records, &mut rest);
            if rest != 0 {
                return;
            }
            t.ask_sheet(&sheet, &view, own);
        }
    });
}

fn layouts(t: &mut Tally) {
    t.case("views of every length under each mark, start notices among them, with sheets of all kinds", |t| {
        let mut r = Random(11);
        let view = View {
            number: 3,
            members: 0x13,
            starts: std::array::from_fn(|office| [2, 1].get(office).copied().unwrap_or(0)),
        };
        let records = whole(&mut r, &view, 2);
        for case in 0.. {
            let mut rest = case;
            let length = choice(&mut rest, &(0..=160).collect::<Vec<_>>());
            let (mark, own) = (choice(&mut rest, &[b"VW", b"SC", b"SY"]), choice(&mut rest, &[2, L, L + 1, u32::MAX]));
            let sheet = a_kind_of_sheet(&records, &mut rest);
            if rest != 0 {
                return;
            }
            let room = EDGE_ROOMS[case % EDGE_ROOMS.len()];
            let mut cut = [&mark[..], &view.bytes(room)[2..]].concat();
            cut.resize(length, 0);
            t.ask(&sheet, &cut, own);
            if length < 4 {
                t.ask(&sheet, &notice(room, 2, view.members), own);
            }
        }
    });
}

// Ways in which the view of seats 0, 1 and 4 is refused beside its room, and three in which it is not.
const VIEWS: [fn(&mut Vec<u8>); 9] = [
    |_| (),
    |view| put(view, 3, L),
    |view| view[14] = 0x33,
    |view| put(view, 3, L + 1),
    |view| put(view, 19, u32::MAX),
    |view| put(view, 23, 1),
    |view| view.truncate(78),
    |view| view.push(0),
    |view| view[1] = 0x43,
];

fn rooms(t: &mut Tally) {
    let mut right = true;
    t.case("every byte of a view's room, with views and sheets of all kinds", |t| {
        let mut r = Random(19);
        let mut starts = [0; 16];
        starts[..2].copy_from_slice(&[2, 1]);
        let view = View { number: 3, members: 0x13, starts };
        let records = whole(&mut r, &view, 2);
        for case in 0..VIEWS.len() * 2 * 15 {
            let mut rest = case;
            let (change, own) = (choice(&mut rest, &VIEWS), choice(&mut rest, &[2, L + 1]));
            let sheet = a_kind_of_sheet(&records, &mut rest);
            let mut answers = Vec::new();
            for room in 0..=255 {
                let mut changed = view.bytes(room);
                change(&mut changed);
                answers.push(t.ask(&sheet, &changed, own));
            }
            right &= answers[..ROOMS].iter().all(|&answer| answer == answers[0]);
        }
    });
    t.verdicts.check("the same view and sheet are answered alike in every room", right);
}

// Damage

// A view of a few seats and a whole sheet for it.
fn a_question(random: &mut Random) -> Asked {
    let (members, own) = (some_members(random) & random.next() & random.next(), some_number(random));
    let view = some_view(random, members);
    let mut records = whole(random, &view, own);
    let times = random.below(3);
    add_beside(random, &mut records, &view, own, times);
    let room = if random.below(12) == 0 { room_above(random) } else { some_room(random) };
    Asked { sheet: bytes(&records), view: view.bytes(room), own }
}

fn flips(t: &mut Tally) {
    t.case("each single bit of a sheet, a view and one's own number flipped", |t| {
        let mut r = Random(12);
        for _ in 0..70 {
            let asked = a_question(&mut r);
            for bit in 0..8 * asked.bytes().len() {
                let Asked { sheet, view, own } = asked.flipped(bit);
                t.ask(&sheet, &view, own);
            }
        }
    });
}

fn damaged(t: &mut Tally) {
    t.case("sheets and views with one to three things changed", |t| {
        let mut r = Random(13);
        for _ in 0..12_000 {
            let asked = a_question(&mut r);
            for _ in 0..10 {
                let mut changed = asked.clone();
                damage(&mut r, &mut changed);
                t.ask(&changed.sheet, &changed.view, changed.own);
            }
        }
    });
    t.case("random bytes under the right marks", |t| {
        let mut r = Random(14);
        for _ in 0..20_000 {
            let (mut sheet, mut view) = (Vec::new(), r.bytes(VIEW));
            for _ in 0..r.below(6) {
                sheet.extend([0x53, 0x59, r.below(70) as u8]);
                sheet.extend(r.bytes(8));
            }
            view[..2].copy_from_slice(b"VW");
            view[2] = if r.below(4) == 0 { view[2] } else { some_room(&mut r) };
            let kept = r.below(4);
            (0..16).skip(kept).for_each(|office| put(&mut view, 15 + 4 * office, 0));
            let own = r.next() as u32;
            t.ask(&sheet, &view, own);
        }
    });
}

// What stands around is a sheet and a view too, and would change the answer if it were read.
fn parts(t: &mut Tally) {
    t.case("sheets and views that are parts of longer ones", |t| {
        let mut r = Random(15);
        for _ in 0..1500 {
            let Asked { sheet, view, own } = a_question(&mut r);
            let views = [&view[..], &view, &view].concat();
            for _ in 0..20 {
                let from = BYTES * r.below(sheet.len() / BYTES + 1);
                let whole = from + BYTES * r.below((sheet.len() - from) / BYTES + 1);
                let to = some(
                    &mut r,
                    &[whole, whole, whole, whole.saturating_sub(1).max(from), (whole + 1).min(sheet.len())],
                );
                let length = some(&mut r, &[VIEW, VIEW, VIEW, 0, 1, 2, 3, VIEW - 1, VIEW + 1]);
                let lent = VIEW..VIEW + length;
                t.ask_parts(Part { all: &sheet, lent: from..to }, Part { all: &views, lent }, own);
            }
        }
    });
}

fn main() {
    let mut tally = Tally::new(Reached::new());
    let t = &mut tally;

    making(t);
    marks(t);
    single_seats(t);
    pairs_of_seats(t);
    whole_sheets(t);
    records_of_one_seat(t);
    few_records(t);
    full_sheets::all(t);
    numbers(t);
    layouts(t);
    rooms(t);
    flips(t);
    damaged(t);
    parts(t);
    desks::plays(t);
    t.verdicts.check("300,000 sheets", t.reached.sheets >= 300_000);
    t.met();

    println!("sheet: {} inputs compared, {} of them sheets", tally.inputs, tally.reached.sheets);
    tally.verdicts.end();
}
