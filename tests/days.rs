// The worked days that document 01 does not star and the counts of those that it does, the reports that change
// nothing, the proposals that claim to have used themselves, the edges of lengths, offices and rooms, the order of the
// refusals, and where document 01 decides against Moshe, by the calls for C. A try is one call of the step: its
// refusal, its count, every byte of the output, every word of the rooms that the record is not of, and where it is
// refused or does nothing every word of the table; and beside it the reading call's number for the same record. What
// is expected is written from documents 01 and 02; unwritten bytes are 170, as they were lent. Days are in room 0
// where no room is named, and records are read for office 0 where no office is. Then a desk's own day and its
// refusals: a try is one record heard, its answer and the 25 words of the desk after it. Worked sheets come last.
#[path = "common/sheet_calls.rs"]
mod sheet_calls;
#[path = "common/worked_sheets.rs"]
mod worked_sheets;

#[link(name = "room", kind = "static")]
extern "C" {
    fn room_fresh(office: u8, table: *mut u32, words: usize) -> u8;
    fn room_read(office: u8, record: *const u8, length: usize) -> u8;
    fn room_step(
        office: u8, table: *mut u32, words: usize, record: *const u8, length: usize, out: *mut u8, capacity: usize,
    ) -> u32;
    fn room_view_number(table: *const u32, words: usize, room: u8) -> u32;
    fn room_desk_fresh(seat: u8, desk: *mut u32, words: usize) -> u8;
    fn room_desk_hear(desk: *mut u32, words: usize, record: *const u8, length: usize) -> u8;
}

const L: u32 = 2_000_000_000;
const FAST: u8 = 1;
const SLOW: u8 = 2;

// The longest answer: a start notice and two proposals.
const CAPACITY: usize = 185;

// Rows of eight rooms, and places of a row, by docs/LAYOUT.md.
const ROOMS: usize = 8;
const WORDS: usize = 410;
const TABLE: usize = 3280;
const TOO_FEW: usize = TABLE - 1;
const OWN: usize = 0;
const MODE: usize = 1;
const NET: usize = 2;
const PRESENT: usize = 6;
const START: usize = 71;
const NUMBER: usize = 72;
const VIEW_NUMBER: usize = 73;
const ACCEPTED_0: usize = 90;
const ACCEPTED_1: usize = 91;
const ACCEPTED_15: usize = 105;
const STORED_NUMBER_15: usize = 393;

const LENT_WORD: u32 = 170;
const LENT_BYTE: u8 = 170;

// The words of a desk: its seat, and three of each room.
const DESK: usize = 25;

type Table = Vec<u32>;

struct Proposal {
    sender: u8,
    kind: u8,
    members: u64,
    start: u32,
    number: u32,
    used: [u32; 3],
}

// Records of room 0, most significant byte first; the used numbers of offices 0, 1 and 2 are given, the others are 0.
fn report(joining: u64, leaving: u64) -> Vec<u8> {
    [&b"NE\0"[..], &joining.to_be_bytes(), &leaving.to_be_bytes()].concat()
}

fn notice(start: u32, members: u64) -> Vec<u8> {
    [&b"SC\0"[..], &start.to_be_bytes(), &members.to_be_bytes()].concat()
}

// The same record of another room.
fn in_room(room: u8, mut record: Vec<u8>) -> Vec<u8> {
    record[2] = room;
    record
}

// The start numbers of offices 0 and 1 are given.
fn view(number: u32, members: u64, start_0: u32, start_1: u32) -> Vec<u8> {
    let numbers = [&start_0.to_be_bytes()[..], &start_1.to_be_bytes(), &[0; 56]].concat();
    [&b"VW\0"[..], &number.to_be_bytes(), &members.to_be_bytes(), &numbers].concat()
}

fn bytes(p: Proposal) -> Vec<u8> {
    let mut record =
        [&b"PR\0"[..], &[p.sender, p.kind], &p.members.to_be_bytes(), &p.start.to_be_bytes(), &p.number.to_be_bytes()]
            .concat();
    for office in 0..16 {
        record.extend(p.used.get(office).unwrap_or(&0).to_be_bytes());
    }
    record
}

// P of the worked days, and an own proposal of office 0: members {0, 4}.
fn p(kind: u8, start: u32, number: u32, used_0: u32, used_1: u32) -> Vec<u8> {
    bytes(Proposal { sender: 1, kind, members: 0x11, start, number, used: [used_0, used_1, 0] })
}

fn own(kind: u8, start: u32, number: u32, used_0: u32, used_1: u32) -> Vec<u8> {
    bytes(Proposal { sender: 0, kind, members: 0x11, start, number, used: [used_0, used_1, 0] })
}

// With number L: wrong in more than one way.
fn wrong(sender: u8, kind: u8, members: u64, start: u32, used: [u32; 3]) -> Vec<u8> {
    bytes(Proposal { sender, kind, members, start, number: L, used })
}

// The answer of one call: refusal, count, and the output after it.
fn step(office: u8, table: &mut [u32], record: &[u8], capacity: usize) -> (u32, u32, Vec<u8>) {
    let mut out = vec![LENT_BYTE; capacity];
    let (words, length) = (table.len(), record.len());
    let answer =
        unsafe { room_step(office, table.as_mut_ptr(), words, record.as_ptr(), length, out.as_mut_ptr(), capacity) };
    (answer % 256, answer / 256, out)
}

fn read(office: u8, record: &[u8]) -> u32 {
    unsafe { room_read(office, record.as_ptr(), record.len()) as u32 }
}

// What reading answers where the step answers a number, and 6 and 9 are for the office given.
fn read_before(refusal: u32) -> u32 {
    if [0, 2, 3, 11, 12, 13].contains(&refusal) { 0 } else { refusal }
}

fn made(office: u8, words: usize) -> (u8, Table) {
    let mut table = vec![LENT_WORD; words];
    let refusal = unsafe { room_fresh(office, table.as_mut_ptr(), words) };
    (refusal, table)
}

fn fresh() -> Table {
    made(0, TABLE).1
}

fn view_number(table: &[u32], room: u8) -> u32 {
    unsafe { room_view_number(table.as_ptr(), table.len(), room) }
}

fn made_desk(seat: u8, words: usize) -> (u8, Vec<u32>) {
    let mut made = vec![LENT_WORD; words];
    let refusal = unsafe { room_desk_fresh(seat, made.as_mut_ptr(), words) };
    (refusal, made)
}

// A desk: its seat; in one room the last start number, the last view number, whether a change is open. The other rooms
// have words of their own, which would pass and would do for some records.
fn desk(room: usize, [seat, start, view, open]: [u32; 4]) -> Vec<u32> {
    let mut words = vec![seat];
    words.extend((0..ROOMS as u32).flat_map(|other| [2, 2 + other % 2, other % 3]));
    words[1 + 3 * room..4 + 3 * room].copy_from_slice(&[start, view, open]);
    words
}

// Office 0 and its seat 0, which are in one room.
struct OfficeAndDesk {
    office: Table,
    desk: Vec<u32>,
    room: u8,
}

fn both_fresh(room: u8) -> OfficeAndDesk {
    OfficeAndDesk { office: fresh(), desk: made_desk(0, DESK).1, room }
}

// The notices and views among what is written; proposals go to other offices.
fn to_seats(mut rest: &[u8]) -> Vec<&[u8]> {
    let mut all = Vec::new();
    while !rest.is_empty() {
        let (record, more) = rest.split_at(match rest[0] {
            b'S' => 15,
            b'V' => 79,
            _ => 85,
        });
        if record.len() != 85 {
            all.push(record);
        }
        rest = more;
    }
    all
}

// A desk's answer to one record, and its words after it.
fn hear(desk: &[u32], record: &[u8]) -> (u8, Vec<u32>) {
    let mut after = desk.to_vec();
    let refusal = unsafe { room_desk_hear(after.as_mut_ptr(), after.len(), record.as_ptr(), record.len()) };
    (refusal, after)
}

fn with(place: usize, word: u32) -> Table {
    changed(fresh(), place, word)
}

// A word of room 0, and of any room.
fn changed(table: Table, place: usize, word: u32) -> Table {
    changed_in(0, table, place, word)
}

fn changed_in(room: usize, mut table: Table, place: usize, word: u32) -> Table {
    table[WORDS * room + place] = word;
    table
}

fn after(table: Table, record: Vec<u8>) -> Table {
    after_for(0, table, record)
}

fn after_for(office: u8, mut table: Table, record: Vec<u8>) -> Table {
    let (refusal, ..) = step(office, &mut table, &record, CAPACITY);
    assert_eq!(refusal, 0, "an event before a try is accepted");
    table
}

fn after_a() -> Table {
    after(fresh(), report(0x01, 0))
}

fn after_b() -> Table {
    after(after_a(), report(0x10, 0))
}

fn after_c() -> Table {
    after(after_b(), p(FAST, 1, 1, 0, 0))
}

fn after_g() -> Table {
    after(after_b(), p(FAST, 3, 2, 2, 1))
}

// Its own number is L.
fn at_the_ceiling() -> Table {
    after(after(fresh(), p(SLOW, 1, L - 2, 0, 0)), report(0x11, 0))
}

struct Tally {
    passed: u32,
    failed: u32,
}

impl Tally {
    fn say(&mut self, name: &str, good: bool) {
        if good {
            self.passed += 1;
        } else {
            self.failed += 1;
            println!("{name}: WRONG");
        }
    }

    fn accepted(&mut self, name: &str, table: Table, record: Vec<u8>, written: Vec<u8>) {
        self.accepted_for(0, name, table, record, written);
    }

    fn accepted_for(&mut self, office: u8, name: &str, table: Table, record: Vec<u8>, written: Vec<u8>) {
        let mut left = table.clone();
        let (refusal, count, out) = step(office, &mut left, &record, CAPACITY);
        let mut expected = written.clone();
        expected.resize(CAPACITY, LENT_BYTE);
        // the rows of the other rooms
        let others = (0..TABLE).filter(|at| at / WORDS != record[2] as usize).all(|at| left[at] == table[at]);
        let read = read(office, &record) == 0;
        self.say(name, refusal == 0 && count as usize == written.len() && out == expected && others && read);
    }

    // The number of bytes alone, as request 9 gives it.
    fn counts(&mut self, name: &str, mut table: Table, record: Vec<u8>, bytes: u32) {
        let (refusal, count, _) = step(0, &mut table, &record, CAPACITY);
        self.say(name, refusal == 0 && count == bytes);
    }

    // Every byte and every word stays as it was.
    fn unchanged(&mut self, name: &str, capacity: usize, table: Table, record: &[u8], refusal: u32) {
        self.unchanged_for(0, name, capacity, table, record, [read_before(refusal), refusal]);
    }

    // For an office: what reading answers, and the step.
    fn unchanged_for(&mut self, office: u8, name: &str, capacity: usize, table: Table, record: &[u8],
        [first, refusal]: [u32; 2]) {
        let mut left = table.clone();
        let (got, count, out) = step(office, &mut left, record, capacity);
        let stays = out == vec![LENT_BYTE; capacity] && left == table;
        self.say(name, read(office, record) == first && got == refusal && count == 0 && stays);
    }

    fn refused(&mut self, name: &str, table: Table, record: &[u8], refusal: u32) {
        self.unchanged(name, CAPACITY, table, record, refusal);
    }

    fn refused_for(&mut self, office: u8, name: &str, table: Table, record: &[u8], refusal: u32) {
        self.unchanged_for(office, name, CAPACITY, table, record, [read_before(refusal), refusal]);
    }

    // 6 or 9 of the row's own office: the record is read.
    fn refused_by_row(&mut self, office: u8, name: &str, table: Table, record: &[u8], refusal: u32) {
        self.unchanged_for(office, name, CAPACITY, table, record, [0, refusal]);
    }

    // Accepted, and nothing comes of it.
    fn does_nothing(&mut self, name: &str, table: Table, record: Vec<u8>) {
        self.unchanged(name, CAPACITY, table, &record, 0);
    }

    // One event at the office in its room: what it writes to its seats, each accepted by the desk, and the room's
    // words at the desk after each. The desk's other words stay.
    fn tells(&mut self, name: &str, at: &mut OfficeAndDesk, record: Vec<u8>, told: &[(Vec<u8>, [u32; 3])]) {
        let (refusal, count, out) = step(0, &mut at.office, &in_room(at.room, record), CAPACITY);
        let told: Vec<_> = told.iter().map(|(record, words)| (in_room(at.room, record.clone()), words)).collect();
        let mut good =
            refusal == 0 && to_seats(&out[..count as usize]).into_iter().eq(told.iter().map(|(record, _)| record));
        for (record, words) in told {
            let mut expected = at.desk.clone();
            expected[1 + 3 * at.room as usize..][..3].copy_from_slice(words);
            let (answer, after) = hear(&at.desk, &record);
            good &= answer == 0 && after == expected;
            at.desk = after;
        }
        self.say(name, good);
    }

    fn hears(&mut self, name: &str, seat: [u32; 4], record: &[u8], after: [u32; 4]) {
        self.hears_in(0, name, seat, record, after);
    }

    fn hears_in(&mut self, room: usize, name: &str, seat: [u32; 4], record: &[u8], after: [u32; 4]) {
        self.say(name, hear(&desk(room, seat), record) == (0, desk(room, after)));
    }

    fn not_heard(&mut self, name: &str, seat: [u32; 4], record: &[u8], refusal: u8) {
        self.not_heard_by(name, &desk(0, seat), record, refusal);
    }

    // The words stay, 25 or not.
    fn not_heard_by(&mut self, name: &str, desk: &[u32], record: &[u8], refusal: u8) {
        self.say(name, hear(desk, record) == (refusal, desk.to_vec()));
    }
}

// The counts of request 9, in room 0: what document 01 stars.
fn counts(t: &mut Tally) {
    let both = || report(0x11, 0);
    t.counts("A: 94 bytes", fresh(), report(0x01, 0), 94);
    t.counts("B: 100 bytes", after_a(), report(0x10, 0), 100);
    t.counts("C: 79 bytes", after_b(), p(FAST, 1, 1, 0, 0), 79);
    t.refused("D: 11", after_c(), &p(FAST, 1, 1, 0, 0), 11);
    t.counts("E: 100 bytes", after_c(), p(FAST, 3, 2, 2, 1), 100);
    t.counts("F: 79 bytes", after(after_c(), p(FAST, 3, 2, 2, 1)), p(SLOW, 3, 3, 2, 1), 79);
    t.counts("G: 85 bytes", after_b(), p(FAST, 3, 2, 2, 1), 85);
    t.refused("H: 12", after_b(), &p(FAST, 1, 1, 3, 0), 12);
    t.counts("I: 0 bytes", fresh(), p(SLOW, 1, 5, 0, 0), 0);
    t.counts("I: 185 bytes", after(fresh(), p(SLOW, 1, 5, 0, 0)), both(), 185);
    t.counts("J: 179 bytes", after(fresh(), p(FAST, 1, 1, 0, 0)), both(), 179);
    t.refused("K: 13", after(fresh(), p(FAST, 1, L, 0, 0)), &both(), 13);
    t.counts("N: 0 bytes", after_b(), report(0, 0), 0);
}

// Eight rooms: a day in each, beside whatever stands in the others.
fn rooms(t: &mut Tally) {
    let joins = |room| in_room(room, report(0x01, 0));
    let told = |room| [in_room(room, notice(1, 0x01)), in_room(room, view(2, 0x01, 1, 0))].concat();
    for room in 0..ROOMS as u8 {
        t.accepted(&format!("A in room {room}"), fresh(), joins(room), told(room));
        let busy = || (0..ROOMS as u8).filter(|&other| other != room).fold(fresh(), |table, other| {
            after(after(table, joins(other)), in_room(other, report(0x10, 0)))
        });
        t.accepted(&format!("A in room {room}, after B in all others"), busy(), joins(room), told(room));
        t.accepted(&format!("C in room {room} after B there, and after B in all others"),
            after(after(busy(), joins(room)), in_room(room, report(0x10, 0))), in_room(room, p(FAST, 1, 1, 0, 0)),
            in_room(room, view(3, 0x11, 2, 1)));
        t.accepted(&format!("P in room {room} is no agreement of the others"), busy(),
            in_room(room, p(FAST, 1, 1, 0, 0)), vec![]);
        let written = [notice(1, 0x11), own(FAST, 1, 6, 0, 0), own(SLOW, 1, 7, 0, 0)];
        t.accepted(&format!("I in room {room}, after B in all others"),
            after(busy(), in_room(room, p(SLOW, 1, 5, 0, 0))), in_room(room, report(0x11, 0)),
            written.map(|record| in_room(room, record)).concat());
        let there = after(busy(), joins(room));
        t.say(&format!("the views after A in room {room} and B in all others"),
            (0..ROOMS as u8).all(|asked| view_number(&there, asked) == 2));
        let only = after(fresh(), joins(room));
        t.say(&format!("the views after A in room {room} alone, every byte asked"),
            (0..=255).all(|asked| view_number(&only, asked) == if asked == room { 2 } else { 0 }));
        t.does_nothing(&format!("room {room}, its report again"), only, joins(room));
        let at_the_top = || (0..ROOMS).filter(|&other| other != room as usize).fold(fresh(), |table, other| {
            changed_in(other, changed_in(other, table, NUMBER, L), START, L)
        });
        t.accepted(&format!("A in room {room}, all others at L"), at_the_top(), joins(room), told(room));
        let last = changed_in(room as usize, fresh(), START, L);
        t.refused(&format!("room {room} at L gets 13"), last.clone(), &joins(room), 13);
        let next = (room + 1) % 8;
        t.accepted(&format!("room {next}, that before it at L"), last, joins(next), told(next));
    }
}

// A row has its own office, and acts with it, whatever office a record is read for. Room 3 is office 1's here, the
// others are office 0's.
fn offices_of_rooms(t: &mut Tally) {
    let table = || changed_in(3, fresh(), OWN, 1);
    let here = |record| in_room(3, record);
    let told = || [here(notice(1, 0x10)), here(view(2, 0x10, 0, 1))].concat();
    for office in [0, 1, 2, 15] {
        t.accepted_for(office, &format!("room 3 of office 1, seat 0 joins, for office {office}: 0 bytes"), table(),
            here(report(0x01, 0)), vec![]);
        t.accepted_for(office, &format!("room 3 of office 1, seat 4 joins, for office {office}"), table(),
            here(report(0x10, 0)), told());
        t.accepted_for(office, &format!("room 2 beside it, seat 0 joins, for office {office}"), table(),
            in_room(2, report(0x01, 0)), [in_room(2, notice(1, 0x01)), in_room(2, view(2, 0x01, 1, 0))].concat());
    }
    t.refused_for(1, "room 3 of office 1, its own proposal gets 6", table(), &here(p(FAST, 1, 1, 0, 0)), 6);
    t.accepted_for(1, "room 3 of office 1, office 0's proposal", table(), here(own(FAST, 1, 1, 0, 0)), vec![]);
    t.accepted("room 2 beside it, office 1's proposal", table(), in_room(2, p(FAST, 1, 1, 0, 0)), vec![]);
    t.refused("room 2 beside it, office 0's proposal gets 6", table(), &in_room(2, own(FAST, 1, 1, 0, 0)), 6);
}

// A proposal of offices 0, 1 and 2 with seats in some of them, number 5.
fn of(sender: u8, members: u64, used: [u32; 3]) -> Vec<u8> {
    bytes(Proposal { sender, kind: FAST, members, start: 1, number: 5, used })
}

// Read for another office than the row's own: 6 and 9 come for the first, then for the second, behind 2 and 3.
fn another_office(t: &mut Tally) {
    let table = || changed_in(3, fresh(), OWN, 1);
    let here = |record| in_room(3, record);
    t.refused_by_row(0, "room 3 of office 1, its own proposal read for office 0 gets 6", table(),
        &here(p(FAST, 1, 1, 0, 0)), 6);
    t.refused("room 3 of office 1, office 0's proposal read for office 0 gets 6", table(),
        &here(own(FAST, 1, 1, 0, 0)), 6);
    t.refused_by_row(1, "room 2 of office 0, its own proposal read for office 1 gets 6", table(),
        &in_room(2, own(FAST, 1, 1, 0, 0)), 6);
    t.accepted_for(2, "office 0's proposal to offices 1 and 2, read for office 2", table(),
        here(of(0, 0x111, [0; 3])), vec![]);
    t.refused_for(3, "office 0's proposal to offices 1 and 2, read for office 3, gets 9", table(),
        &here(of(0, 0x111, [0; 3])), 9);
    t.refused_by_row(2, "office 0's proposal to office 2, read for office 2, gets 9 of the row", table(),
        &here(of(0, 0x101, [0; 3])), 9);
    t.refused_for(1, "office 0's proposal to office 2, read for office 1, gets 9", table(),
        &here(of(0, 0x101, [0; 3])), 9);
    t.refused_for(2, "office 2's own proposal read for office 2 gets 6", table(), &here(of(2, 0x111, [0; 3])), 6);
    t.accepted_for(0, "office 2's proposal to offices 0 and 1, read for office 0", table(),
        here(of(2, 0x111, [0; 3])), vec![]);
    // what is accepted does what it does at the row's own office: the third proposal is its own
    let waits = || after_for(2, after(table(), here(report(0x111, 0))), here(of(0, 0x111, [0; 3])));
    let mut agreed = here(view(2, 0x111, 1, 1));
    agreed[26] = 1;
    for office in [0, 1] {
        t.accepted_for(office, &format!("room 3 of office 1 agrees, office 2's proposal read for office {office}"),
            waits(), here(of(2, 0x111, [0; 3])), agreed.clone());
    }
    t.refused_for(2, "and read for office 2, 6", waits(), &here(of(2, 0x111, [0; 3])), 6);
    t.refused_for(3, "and read for office 3, 9", waits(), &here(of(2, 0x111, [0; 3])), 9);

    // the own proposal of office 1, and one that has no seat of it; both are read
    let (six, nine) = (here(of(1, 0x111, [0; 3])), here(of(0, 0x101, [0; 3])));
    for (record, number) in [(&six, 6), (&nine, 9)] {
        let last = [ACCEPTED_1, ACCEPTED_0][(number == 9) as usize];
        let heard = || changed_in(3, table(), last, 5);
        t.refused_by_row(2, &format!("{number} of the row"), table(), record, number);
        t.refused_for(2, &format!("2 before {number} of the row, by another row"),
            changed_in(0, heard(), NUMBER, L + 1), record, 2);
        t.refused_for(2, &format!("2 before {number} of the row, by this row"),
            changed_in(3, heard(), NUMBER, L + 1), record, 2);
        t.unchanged_for(2, &format!("3 before {number} of the row"), 184, heard(), record, [0, 3]);
        t.refused_by_row(2, &format!("{number} of the row before 11"), heard(), record, number);
    }
    t.accepted_for(2, "12 is not for the office given", table(), here(of(0, 0x111, [0, 0, 9])), vec![]);
    t.refused_for(2, "12 is for the row's own office", table(), &here(of(0, 0x111, [0, 1, 0])), 12);
    t.refused_by_row(2, "6 of the row before 12", table(), &here(of(1, 0x111, [0, 1, 0])), 6);
    t.refused_for(2, "19 before 6 of the row", table(), &here(of(1, 0x111, [0, 5, 0])), 19);
    t.refused_for(2, "10 before 9 of the row", table(), &here(of(0, 0x101, [0, 1, 0])), 10);
    t.refused_for(2, "9 before 6 of the row and 9 of the row", table(), &here(of(1, 0x101, [0; 3])), 9);
    t.refused_for(1, "9 before 6 of the row, read for office 1 in office 0's room 2", table(),
        &in_room(2, of(0, 0x101, [0; 3])), 9);
    // in mode none a proposal with the net view calls for a start number
    let at_l = |net| changed_in(3, changed_in(3, table(), NET, net), START, L);
    t.refused_for(2, "13 alone", at_l(0x111), &here(of(0, 0x111, [0; 3])), 13);
    t.refused_by_row(2, "6 of the row before 13", at_l(0x111), &six, 6);
    t.refused_by_row(2, "9 of the row before 13", at_l(0x101), &nine, 9);
}

// An office above 15 reads nothing, whatever the table's own office is.
fn offices_above_15(t: &mut Tally) {
    let joins = report(0x01, 0);
    let sixteen: Table = (0..TABLE).map(|at| if at % WORDS == OWN { 16 } else { 0 }).collect();
    t.refused("own office 16 in all rows, for office 0, gets 2", sixteen.clone(), &joins, 2);
    for office in [16, 17, 128, 255] {
        t.refused_for(office, &format!("own office 16 in all rows, for office {office}, gets 1"), sixteen.clone(),
            &joins, 1);
        t.refused_for(office, &format!("a fresh table, for office {office}, gets 1"), fresh(), &joins, 1);
        t.refused_for(office, &format!("no words, for office {office}, get 1"), vec![], &joins, 1);
        t.unchanged_for(office, &format!("no output, for office {office}, gets 1"), 0, fresh(), &joins, [1, 1]);
        t.refused_for(office, &format!("a proposal, for office {office}, gets 1"), after_b(), &p(FAST, 1, 1, 0, 0), 1);
        t.refused_for(office, &format!("no record, for office {office}, gets 1"), fresh(), &[], 1);
    }
    t.refused_for(16, "1 before 5", fresh(), b"PR\x08", 1);
    t.refused_for(16, "1 before 20", fresh(), &in_room(8, report(0x01, 0)), 1);
    t.refused_for(16, "1 before 6, sender 16", fresh(), &of(16, 0x11, [0; 3]), 1);
    t.refused_for(16, "1 before 19", fresh(), &of(1, 0x11, [0, 5, 0]), 1);
    let last = 1 << 60;
    t.accepted_for(15, "office 15 reads", made(15, TABLE).1, report(last, 0), {
        let mut view = view(2, last, 0, 0);
        view[78] = 1;
        [notice(1, last), view].concat()
    });
}

// A record that is not read is answered by that number, though the table fails check 2, or the output is too short, or
// both. One that is read is answered 2, then 3.
fn bad_records(t: &mut Tally) {
    let seats = |members, used| bytes(Proposal { sender: 1, kind: FAST, members, start: 1, number: 1, used });
    let records = [
        ("no byte", vec![], 4),
        ("one byte", b"N".to_vec(), 4),
        ("a start notice", notice(1, 0x01), 4),
        ("a report of 18 bytes", report(0x01, 0)[..18].to_vec(), 5),
        ("a proposal of 86 bytes", [p(FAST, 1, 1, 0, 0), vec![0]].concat(), 5),
        ("a report of room 8", in_room(8, report(0x01, 0)), 20),
        ("a proposal of room 255", in_room(255, p(FAST, 1, 1, 0, 0)), 20),
        ("its own proposal", own(FAST, 1, 1, 0, 0), 6),
        ("sender 16", seats_of(16), 6),
        ("kind 0", p(0, 1, 1, 0, 0), 7),
        ("start number 0", p(FAST, 0, 1, 0, 0), 8),
        ("number L + 1", p(FAST, 1, L + 1, 0, 0), 8),
        ("no seat of office 0", seats(0x10, [0; 3]), 9),
        ("no seat of office 1", seats(0x01, [0; 3]), 9),
        ("a used number of office 2", seats(0x11, [0, 0, 1]), 10),
        ("its own number used", p(FAST, 1, 1, 0, 1), 19),
    ];
    for (what, record, number) in &records {
        let number = *number;
        t.refused(&format!("{what} gets {number}"), after_b(), record, number);
        t.unchanged(&format!("{what}, an output of 184 bytes: {number}"), 184, after_b(), record, number);
        t.unchanged(&format!("{what}, no output: {number}"), 0, after_b(), record, number);
        t.refused(&format!("{what}, a number above L: {number}"), changed(after_b(), NUMBER, L + 1), record, number);
        t.refused(&format!("{what}, an own office of 16 in room 7: {number}"), changed_in(7, after_b(), OWN, 16),
            record, number);
        t.refused(&format!("{what}, a word too few: {number}"), after_b()[..TOO_FEW].to_vec(), record, number);
        t.unchanged(&format!("{what}, no words and no output: {number}"), 0, vec![], record, number);
    }
    for (what, record) in [("a report", report(0x100, 0)), ("a proposal", p(FAST, 1, 1, 0, 0))] {
        t.unchanged(&format!("{what}, an output of 184 bytes: 3"), 184, after_b(), &record, 3);
        t.refused(&format!("{what}, a number above L: 2"), changed(after_b(), NUMBER, L + 1), &record, 2);
        t.unchanged(&format!("{what}, both: 2"), 184, changed(after_b(), NUMBER, L + 1), &record, 2);
        t.unchanged(&format!("{what}, no words and no output: 2"), 0, vec![], &record, 2);
    }
}

fn seats_of(sender: u8) -> Vec<u8> {
    bytes(Proposal { sender, kind: FAST, members: u64::MAX, start: 1, number: 1, used: [0; 3] })
}

// 20, and its place in the order.
fn rooms_above_7(t: &mut Tally) {
    for room in [8, 9, 127, 128, 254, 255] {
        t.refused(&format!("a report of room {room} gets 20"), fresh(), &in_room(room, report(0x01, 0)), 20);
        t.refused(&format!("an empty report of room {room} gets 20"), after_b(), &in_room(room, report(0, 0)), 20);
        t.refused(&format!("a proposal of room {room} gets 20"), after_b(), &in_room(room, p(FAST, 1, 1, 0, 0)), 20);
    }
    t.accepted("a report of room 7 is accepted", fresh(), in_room(7, report(0x10, 0)), vec![]);
    let above = |record| in_room(8, record);
    t.refused("20 before 2", with(OWN, 16), &above(report(0x01, 0)), 20);
    t.refused("20 before 2, in the last row", changed_in(7, fresh(), NUMBER, L + 1), &above(report(0x01, 0)), 20);
    t.unchanged("20 before 3", 184, fresh(), &above(report(0x01, 0)), 20);
    t.refused("4 before 20", fresh(), &above(notice(1, 0x01)), 4);
    t.refused("5 before 20, a byte too few", fresh(), &above(report(0x01, 0))[..18], 5);
    t.refused("5 before 20, a byte too many", fresh(), &[above(report(0x01, 0)), vec![0]].concat(), 5);
    t.refused("5 before 20, three bytes", fresh(), b"PR\x08", 5);
    t.refused("20 before 6", after_b(), &above(own(FAST, 1, 1, 0, 0)), 20);
    t.refused("20 before 7", after_b(), &above(p(0, 1, 1, 0, 0)), 20);
    t.refused("20 before 8", after_b(), &above(p(FAST, 0, 1, 0, 0)), 20);
    t.refused("20 before 9", after_b(), &above(wrong(1, FAST, 0x10, 1, [0, 0, 0])), 20);
    t.refused("20 before 10", after_b(), &above(wrong(1, FAST, 0x11, 1, [0, 0, 1])), 20);
    t.refused("20 before 19", after_b(), &above(p(FAST, 1, 1, 0, 1)), 20);
    t.refused("20 before 11", after_c(), &above(p(FAST, 1, 1, 0, 0)), 20);
    t.refused("20 before 12", after_b(), &above(p(FAST, 1, 1, 3, 0)), 20);
    t.refused("20 before 13", at_the_ceiling(), &above(report(0x100, 0)), 20);
}

// Check 2 is of all eight rows, whatever room the record is of.
fn tables(t: &mut Tally) {
    for (bad, of) in [(0, 7), (7, 0), (3, 4), (4, 3), (1, 1), (6, 0), (2, 5), (5, 2)] {
        let joins = in_room(of, report(0x01, 0));
        let try_2 = |t: &mut Tally, what: &str, place: usize, word: u32| {
            let name = format!("{what} in room {bad}, a report of room {of}, gets 2");
            t.refused(&name, changed_in(bad, fresh(), place, word), &joins, 2);
        };
        try_2(t, "an own office of 16", OWN, 16);
        try_2(t, "a mode of 3", MODE, 3);
        try_2(t, "presence of 65,536", PRESENT, 65_536);
        try_2(t, "a start number above L", START, L + 1);
        try_2(t, "a view number above L", VIEW_NUMBER, L + 1);
        try_2(t, "a last accepted number above L", ACCEPTED_15, L + 1);
    }
    t.accepted("an own office of 15 in room 6, a report of room 0", changed_in(6, fresh(), OWN, 15), report(0x01, 0),
        [notice(1, 0x01), view(2, 0x01, 1, 0)].concat());
    t.refused("a row alone gets 2", fresh()[..WORDS].to_vec(), &report(0x01, 0), 2);
    t.refused("seven rows get 2", fresh()[..7 * WORDS].to_vec(), &report(0x01, 0), 2);
    t.refused("nine rows get 2", vec![0; 9 * WORDS], &report(0x01, 0), 2);
    t.refused("no words get 2", vec![], &report(0x01, 0), 2);
}

// M; where document 01 decides against Moshe: the slow test looks at every stored matching proposal of the other
// offices, once per event.
fn days(t: &mut Tally) {
    t.does_nothing("M, a seat both joining and leaving", fresh(), report(0x01, 0x01));
    t.accepted("M, then a seat of another office alone", after(fresh(), report(0x01, 0x01)), report(0x10, 0), vec![]);
    t.accepted("after G, a later fast proposal opens no new round", after_g(), p(FAST, 4, 9, 2, 1), vec![]);
    t.accepted("after G, the own number used in mode slow", after_g(), p(FAST, 4, 4, 3, 2), own(SLOW, 2, 5, 1, 0));
    t.accepted("after B, 1 + the largest", after_b(), p(FAST, 3, 9, 2, 1), own(SLOW, 2, 10, 1, 0));
    t.accepted("after B, a slow number that is not above the own one",
        after_b(), p(SLOW, 1, 2, 0, 0), own(SLOW, 2, 3, 1, 0));
    t.accepted("after C, a slow proposal",
        after_c(), p(SLOW, 3, 2, 2, 1), [notice(3, 0x11), own(SLOW, 3, 3, 2, 1)].concat());
}

// A report that leaves the net view equal to what it was, whatever sets it names; and the reports beside it that
// change it.
fn repeats(t: &mut Tally) {
    t.does_nothing("fresh, an empty report", fresh(), report(0, 0));
    t.does_nothing("N, after B, an empty report", after_b(), report(0, 0));
    t.does_nothing("after B, its report again", after_b(), report(0x10, 0));
    t.does_nothing("after B, an absent seat joins and leaves", after_b(), report(0x100, 0x100));
    t.does_nothing("after B, an absent seat leaves", after_b(), report(0, 0x100));
    t.does_nothing("after B, present seats join, and an absent one joins and leaves", after_b(), report(0x111, 0x100));
    t.does_nothing("after C, an empty report", after_c(), report(0, 0));
    t.does_nothing("after C, the last report again", after_c(), report(0x10, 0));
    // the used proposals are gone, so seat 4 comes back without a view
    let left = || after(after_c(), report(0, 0x10));
    t.accepted("after C, seat 4 leaves", after_c(), report(0, 0x10), [notice(3, 0x01), view(4, 0x01, 3, 0)].concat());
    t.does_nothing("after C, seat 4 leaves twice", left(), report(0, 0x10));
    t.accepted(
        "after C, seat 4 leaves and comes back",
        left(),
        report(0x10, 0),
        [notice(4, 0x11), own(FAST, 4, 4, 3, 1)].concat(),
    );
    t.accepted(
        "after B, a present seat joins and leaves",
        after_b(),
        report(0x10, 0x10),
        [notice(3, 0x01), view(4, 0x01, 3, 0)].concat(),
    );
    let heard = |members| {
        [notice(3, members), bytes(Proposal { sender: 0, kind: FAST, members, start: 3, number: 3, used: [1, 0, 0] })]
            .concat()
    };
    t.accepted("after B, a second seat of an office", after_b(), report(0x02, 0), heard(0x13));
    t.accepted("after B, the last seat of all", after_b(), report(1 << 63, 0), heard(0x8000_0000_0000_0011));
    t.does_nothing("no seat here, the report again", after(fresh(), report(0x10, 0)), report(0x10, 0));
    t.does_nothing("words behind an empty slot stay", changed(after_b(), STORED_NUMBER_15, L + 1), report(0x10, 0));
}

// A repeat does not meet 13, and what is heard beside it does. 4, 5, 2 and 3 come first.
fn repeats_and_refusals(t: &mut Tally) {
    t.accepted("numbers up to L", after(fresh(), p(SLOW, 1, L - 2, 0, 0)), report(0x11, 0),
        [notice(1, 0x11), own(FAST, 1, L - 1, 0, 0), own(SLOW, 1, L, 0, 0)].concat());
    t.does_nothing("number L, an empty report", at_the_ceiling(), report(0, 0));
    t.does_nothing("number L, the last report again", at_the_ceiling(), report(0x11, 0));
    t.refused("number L, a seat joins: 13", at_the_ceiling(), &report(0x100, 0), 13);
    t.does_nothing("number L and nobody, an empty report", with(NUMBER, L), report(0, 0));
    t.does_nothing("number L and seat 0, an empty report", changed(with(NUMBER, L), NET, 0x01), report(0, 0));
    t.does_nothing("start number L and seat 0, an empty report", changed(with(START, L), NET, 0x01), report(0, 0));
    t.refused("a repeat on a malformed state gets 2", changed(after_b(), NUMBER, L + 1), &report(0x10, 0), 2);
    t.unchanged("a repeat with an output of 184 bytes gets 3", 184, after_b(), &report(0x10, 0), 3);
    t.refused("two empty sets under another mark get 4", after_b(), &[&b"EN"[..], &[0; 17]].concat(), 4);
    t.refused("an empty report of 18 bytes gets 5", after_b(), &report(0, 0)[..18], 5);
    t.refused("an empty report of 20 bytes gets 5", after_b(), &[report(0, 0), vec![0]].concat(), 5);
}

fn edges(t: &mut Tally) {
    let zeros = vec![0; TABLE];
    let last: Table = (0..TABLE).map(|at| if at % WORDS == OWN { 15 } else { 0 }).collect();
    t.say("office 15 is made, in all rooms", made(15, TABLE) == (0, last));
    t.say("office 16 gets 1, and the table of office 0", made(16, TABLE) == (1, zeros));
    t.say("office 16 in a word too few gets 1", made(16, TOO_FEW) == (1, vec![LENT_WORD; TOO_FEW]));
    t.say("a row alone gets 2", made(0, WORDS) == (2, vec![LENT_WORD; WORDS]));
    t.say("a table in a word too few gets 2", made(0, TOO_FEW) == (2, vec![LENT_WORD; TOO_FEW]));
    t.refused("a record on a word too few gets 2", vec![LENT_WORD; TOO_FEW], &report(0x01, 0), 2);
    t.unchanged("an output of 184 bytes gets 3", 184, fresh(), &report(0x01, 0), 3);
    t.accepted("an output of 185 bytes serves (day I)", after(fresh(), p(SLOW, 1, 5, 0, 0)), report(0x11, 0),
        [notice(1, 0x11), own(FAST, 1, 6, 0, 0), own(SLOW, 1, 7, 0, 0)].concat());
    t.refused("a report of 18 bytes gets 5", fresh(), &report(0x01, 0)[..18], 5);
    t.refused("a report of 20 bytes gets 5", fresh(), &[report(0x01, 0), vec![0]].concat(), 5);
    t.refused("a proposal of 84 bytes gets 5", fresh(), &p(FAST, 1, 1, 0, 0)[..84], 5);
    t.refused("a proposal of 86 bytes gets 5", fresh(), &[p(FAST, 1, 1, 0, 0), vec![0]].concat(), 5);
    t.refused("an empty record gets 4", fresh(), &[], 4);
    t.refused("one byte gets 4", fresh(), b"N", 4);
}

// Words that are no state, and numbers of one. The report is that seat 0 joins.
fn states(t: &mut Tally) {
    let joins = report(0x01, 0);
    t.refused("a proposal number above L in the state gets 2", with(NUMBER, L + 1), &joins, 2);
    t.refused("L itself passes, and the next number gets 13", with(NUMBER, L), &joins, 13);
    t.refused("a number last accepted above L gets 2", with(ACCEPTED_15, L + 1), &joins, 2);
    t.refused("an own office above 15 gets 2", with(OWN, 16), &joins, 2);
    t.refused("a mode of 3 gets 2", with(MODE, 3), &joins, 2);
    t.refused("presence of 65,536 gets 2", with(PRESENT, 65_536), &joins, 2);
    t.refused("presence of every bit gets 2", with(PRESENT, u32::MAX), &joins, 2);
    t.unchanged("presence of 65,535 passes check 2", 1, with(PRESENT, 65_535), &joins, 3);
    let last_present = || changed(with(PRESENT, 1 << 15), STORED_NUMBER_15, L + 1);
    t.refused("a number above L of a stored proposal gets 2", last_present(), &joins, 2);
    t.unchanged("a number above L behind an empty slot passes check 2", 1, with(STORED_NUMBER_15, L + 1), &joins, 3);
}

// 13 where the event would make L + 1, and not where it makes L.
fn limits(t: &mut Tally) {
    let (one, two) = (report(0x01, 0), report(0x11, 0));
    t.refused("start number L, the next gets 13", with(START, L), &two, 13);
    t.accepted("start number L - 1, a notice of L", with(START, L - 1), two.clone(),
        [notice(L, 0x11), own(FAST, L, 1, 0, 0)].concat());
    t.refused("start number L - 1 and a view of L + 1 gets 13", with(START, L - 1), &one, 13);
    t.accepted("start number L - 2, a view of L", with(START, L - 2), one.clone(),
        [notice(L - 1, 0x01), view(L, 0x01, L - 1, 0)].concat());
    t.accepted("view number L, a notice of L", with(VIEW_NUMBER, L), two.clone(),
        [notice(L, 0x11), own(FAST, L, 1, 0, 0)].concat());
    t.refused("view number L and a view of L + 1 gets 13", with(VIEW_NUMBER, L), &one, 13);
    t.accepted("view number L - 1, a view of L", with(VIEW_NUMBER, L - 1), one.clone(),
        [notice(L - 1, 0x01), view(L, 0x01, L - 1, 0)].concat());
    t.accepted("proposal number L - 1, a proposal of L", with(NUMBER, L - 1), two.clone(),
        [notice(1, 0x11), own(FAST, 1, L, 0, 0)].concat());
    t.accepted("proposal number L - 1, a proposal of L that nobody gets", with(NUMBER, L - 1), one,
        [notice(1, 0x01), view(2, 0x01, 1, 0)].concat());
    t.refused("a stored slow number L - 1, the second proposal gets 13", after(fresh(), p(SLOW, 1, L - 1, 0, 0)),
        &two, 13);
    t.accepted("a stored fast number L - 1, a proposal of L", after(fresh(), p(FAST, 1, L - 1, 0, 0)), two.clone(),
        [notice(1, 0x11), own(FAST, 1, L, 0, 0), view(2, 0x11, 1, 1)].concat());
    t.refused("a stored start number L, the view gets 13", after(fresh(), p(FAST, L, 1, 0, 0)), &two, 13);
    t.accepted("a stored start number L - 1, a view of L", after(fresh(), p(FAST, L - 1, 1, 0, 0)), two,
        [notice(1, 0x11), own(FAST, 1, 2, 0, 0), view(L, 0x11, 1, L - 1)].concat());
    t.refused("after B, a start number of L gets 13", after_b(), &p(FAST, L, 1, 0, 0), 13);
    t.accepted("after B, a start number of L - 1", after_b(), p(FAST, L - 1, 1, 0, 0), view(L, 0x11, 2, L - 1));
    t.refused("after B, a number of L that calls for one above it gets 13", after_b(), &p(FAST, 3, L, 2, 1), 13);
    t.accepted("after B, a number of L - 1 that does", after_b(), p(FAST, 3, L - 1, 2, 1), own(SLOW, 2, L, 1, 0));
    t.accepted("after B, a slow number of L, which is taken", after_b(), p(SLOW, 3, L, 2, 1),
        [own(SLOW, 2, L, 1, 0), view(4, 0x11, 2, 3)].concat());
    t.accepted("after A, a number of L for other members", after_a(), p(SLOW, L, L, 0, 0), vec![]);
}

// Each input is wrong in all that comes after the number it gets, as far as that can be.
fn order(t: &mut Tally) {
    let heard = || after(after_b(), p(FAST, 1, L, 0, 0));
    let bad = || changed(heard(), VIEW_NUMBER, L + 1);
    t.unchanged_for(16, "1 before 4, 2 and 3", 1, bad(), &[], [1, 1]);
    t.unchanged("4 before 5, 2 and 3", 1, bad(), b"??", 4);
    t.unchanged("5 before 20, 2 and 3", 1, bad(), b"PR\x08\x10\x00", 5);
    t.unchanged("20 before 6", 1, bad(), &in_room(8, wrong(0, 0, 0x10, 0, [L, L, L + 1])), 20);
    t.unchanged("6 before 7", 1, bad(), &wrong(0, 0, 0x10, 0, [L, L, L + 1]), 6);
    t.unchanged("7 before 8", 1, bad(), &wrong(1, 0, 0x01, 0, [9, L, L + 1]), 7);
    t.unchanged("8 before 9", 1, bad(), &wrong(1, SLOW, 0x01, 0, [9, L, L + 1]), 8);
    t.unchanged("8 for a used number above L", 1, bad(), &wrong(1, SLOW, 0x01, 1, [9, L, L + 1]), 8);
    t.unchanged("9 before 10", 1, bad(), &wrong(1, SLOW, 0x01, 1, [9, L, 1]), 9);
    t.unchanged("10 before 19", 1, bad(), &wrong(1, SLOW, 0x11, 1, [9, L, 1]), 10);
    t.unchanged("19 before 2", 1, bad(), &wrong(1, SLOW, 0x11, 1, [9, L, 0]), 19);
    t.unchanged("19 before 3", 1, heard(), &wrong(1, SLOW, 0x11, 1, [9, L, 0]), 19);
    // read for office 2: the own proposal of office 0, whose row this is, and one that has no seat of it
    let (six, nine) = (wrong(0, SLOW, 0x111, 1, [9, 0, 0]), wrong(1, SLOW, 0x110, 1, [0, L - 1, 0]));
    let used = |table| changed(table, ACCEPTED_0, L);
    t.unchanged_for(2, "2 before 3 and 6 of the row", 1, used(bad()), &six, [0, 2]);
    t.unchanged_for(2, "2 before 3 and 9 of the row", 1, bad(), &nine, [0, 2]);
    t.unchanged_for(2, "3 before 6 of the row", 1, used(heard()), &six, [0, 3]);
    t.unchanged_for(2, "3 before 9 of the row", 1, heard(), &nine, [0, 3]);
    t.refused_by_row(2, "6 of the row before 11 and 12", used(heard()), &six, 6);
    t.refused_by_row(2, "9 of the row before 11", heard(), &nine, 9);
    t.unchanged("2 before 3 and 11", 1, bad(), &wrong(1, SLOW, 0x11, 1, [9, L - 1, 0]), 2);
    t.unchanged("3 before 11", 1, heard(), &wrong(1, SLOW, 0x11, 1, [9, L - 1, 0]), 3);
    t.refused("11 before 12", heard(), &wrong(1, SLOW, 0x11, 1, [9, L - 1, 0]), 11);
    // a fast proposal with start number L makes view L + 1
    t.refused("12 before 13", after_b(), &wrong(1, FAST, 0x11, L, [9, L - 1, 0]), 12);
    t.refused("13 comes last", after_b(), &wrong(1, FAST, 0x11, 1, [2, L - 1, 0]), 13);
}

// The used number for the sender, office 1, about the proposal's own number. After C its last number is 1; the own
// number of office 0 is 2 after B and after C.
fn self_uses(t: &mut Tally) {
    let slow_3 = || [notice(3, 0x11), own(SLOW, 3, 3, 2, 1)].concat();
    t.accepted("number 1 and used number 0 (day C)", after_b(), p(FAST, 1, 1, 0, 0), view(3, 0x11, 2, 1));
    t.refused("number 1 and used number 1", after_b(), &p(FAST, 1, 1, 0, 1), 19);
    t.refused("number 1 and used number 2", after_b(), &p(FAST, 1, 1, 0, 2), 19);
    t.refused("number 1 and used number L", after_b(), &p(FAST, 1, 1, 0, L), 19);
    t.accepted("number 2 and used number 1 (day E)", after_c(), p(FAST, 3, 2, 2, 1), slow_3());
    t.refused("number 2 and used number 2", after_c(), &p(FAST, 3, 2, 2, 2), 19);
    t.refused("number 2 and used number 3", after_c(), &p(FAST, 3, 2, 2, 3), 19);
    t.accepted("number 2 and used number 1, slow", after_c(), p(SLOW, 3, 2, 2, 1), slow_3());
    t.refused("number 2 and used number 2, slow", after_c(), &p(SLOW, 3, 2, 2, 2), 19);
    t.accepted("number 65,536 and used number 65,535", fresh(), p(SLOW, 1, 65_536, 0, 65_535), vec![]);
    t.refused("number 65,535 and used number 65,536", fresh(), &p(SLOW, 1, 65_535, 0, 65_536), 19);
    t.accepted("number L and used number L - 1, fresh", fresh(), p(FAST, 1, L, 0, L - 1), vec![]);
    t.refused("number L and used number L, fresh", fresh(), &p(FAST, 1, L, 0, L), 19);
    t.refused("number L - 1 and used number L, fresh", fresh(), &p(FAST, 1, L - 1, 0, L), 19);
    t.refused("number 1 and used number 1, fresh", fresh(), &p(FAST, 1, 1, 0, 1), 19);
    t.refused("a claim on members other than the net view", after_a(), &p(FAST, 1, 5, 0, 5), 19);
    t.refused("after G, in mode slow and with a proposal stored", after_g(), &p(FAST, 4, 4, 3, 4), 19);
}

// What other offices' used numbers say is no claim.
fn no_self_uses(t: &mut Tally) {
    t.accepted("the number as the used number for office 0", after_b(), p(FAST, 1, 1, 1, 0), view(3, 0x11, 2, 1));
    t.accepted("more than the number for office 0, its own", after_b(), p(FAST, 1, 1, 2, 0), own(SLOW, 2, 3, 1, 0));
    t.refused("more than the number for office 0, above its own: 12 (day H)", after_b(), &p(FAST, 1, 1, 3, 0), 12);
    let of_three = |sender, used| bytes(Proposal { sender, kind: FAST, members: 0x111, start: 1, number: 1, used });
    t.accepted("office 1, the number for office 2", after_b(), of_three(1, [0, 0, 1]), vec![]);
    t.accepted("office 1, more for office 2", after_b(), of_three(1, [0, 0, L]), vec![]);
    t.refused("office 1, the number for itself", after_b(), &of_three(1, [0, 1, 0]), 19);
    t.accepted("office 2, the number for office 1", after_b(), of_three(2, [0, 1, 0]), vec![]);
    t.refused("office 2, the number for itself", after_b(), &of_three(2, [0, 0, 1]), 19);
    t.refused_for(1, "at office 1: office 0, the number for itself", made(1, TABLE).1, &own(FAST, 1, 1, 1, 0), 19);
    t.refused_for(1, "at office 1: office 0, the number for office 1: 12", made(1, TABLE).1,
        &own(FAST, 1, 1, 0, 1), 12);
    // the used number for office 15 is the last of the record
    let members = 1 << 60 | 1;
    let mut of_last = bytes(Proposal { sender: 15, kind: FAST, members, start: 1, number: 7, used: [0; 3] });
    of_last[84] = 6;
    t.accepted("office 15, just below the number for itself", fresh(), of_last.clone(), vec![]);
    of_last[84] = 7;
    t.refused("office 15, the number for itself", fresh(), &of_last, 19);
    let members = 1 << 60 | 0x10;
    let to_last = |used| bytes(Proposal { sender: 1, kind: FAST, members, start: 1, number: 7, used });
    t.accepted_for(15, "at office 15: office 1, just below its number", made(15, TABLE).1, to_last([0, 6, 0]), vec![]);
    t.refused_for(15, "at office 15: office 1, its number", made(15, TABLE).1, &to_last([0, 7, 0]), 19);
}

// Two reasons at once, and no more.
fn self_uses_in_order(t: &mut Tally) {
    let seats = |members, used| bytes(Proposal { sender: 1, kind: FAST, members, start: 1, number: 1, used });
    t.refused("19 before 2", changed(after_b(), NUMBER, L + 1), &p(FAST, 1, 1, 0, 1), 19);
    t.unchanged("19 before 3", 184, after_b(), &p(FAST, 1, 1, 0, 1), 19);
    t.refused("5 before 19", after_b(), &[p(FAST, 1, 1, 0, 1), vec![0]].concat(), 5);
    t.refused("6 before 19", after_b(), &own(FAST, 1, 1, 1, 0), 6);
    t.refused("7 before 19", after_b(), &p(3, 1, 1, 0, 1), 7);
    t.refused("8 before 19, start number 0", after_b(), &p(FAST, 0, 1, 0, 1), 8);
    t.refused("8 before 19, number 0 and used number 0", after_b(), &p(FAST, 1, 0, 0, 0), 8);
    t.refused("8 before 19, used number L + 1", after_b(), &p(FAST, 1, 1, 0, L + 1), 8);
    t.refused("8 before 19, number L + 1 and used number L + 1", after_b(), &p(FAST, 1, L + 1, 0, L + 1), 8);
    t.refused("9 before 19, no seat of office 0", after_b(), &seats(0x10, [0, 1, 0]), 9);
    t.refused("9 before 10 and 19, no seat of office 1", after_b(), &seats(0x01, [0, 1, 0]), 9);
    t.refused("10 before 19", after_b(), &seats(0x11, [0, 1, 1]), 10);
    t.refused("19 before 11", after_c(), &p(FAST, 1, 1, 0, 1), 19);
    t.refused("19 before 12", after_b(), &p(FAST, 1, 1, 3, 1), 19);
    t.refused("13 alone, view L + 1", after_b(), &p(FAST, L, 1, 0, 0), 13);
    t.refused("19 before 13, view L + 1", after_b(), &p(FAST, L, 1, 0, 1), 19);
    t.refused("13 alone, proposal L + 1", after_b(), &p(FAST, 1, L, 2, L - 1), 13);
    t.refused("19 before 13, proposal L + 1", after_b(), &p(FAST, 1, L, 2, L), 19);
}

// A room's words at a desk: the last start number, the last view number, whether a change is open. Seat 0 hears A, B
// and C, is away, and is back.
fn desk_day(t: &mut Tally, room: u8) {
    let at = &mut both_fresh(room);
    t.tells("A, seat 0 joins",
        at, report(0x01, 0), &[(notice(1, 0x01), [1, 0, 1]), (view(2, 0x01, 1, 0), [1, 2, 0])]);
    t.tells("B, seat 4 joins", at, report(0x10, 0), &[(notice(2, 0x11), [2, 2, 1])]);
    t.tells("C, office 1 proposes", at, p(FAST, 1, 1, 0, 0), &[(view(3, 0x11, 2, 1), [2, 3, 0])]);
    t.accepted("after C, seat 0 leaves, 0 bytes", at.office.clone(), in_room(room, report(0, 0x01)), vec![]);
    t.tells("after C, seat 0 leaves", at, report(0, 0x01), &[]);
    t.accepted("seat 0 comes back, 100 bytes", at.office.clone(), in_room(room, report(0x01, 0)),
        [in_room(room, notice(3, 0x11)), in_room(room, own(FAST, 3, 3, 2, 1))].concat());
    t.tells("seat 0 comes back", at, report(0x01, 0), &[(notice(3, 0x11), [3, 3, 1])]);
    // office 1 had a view of seat 4 alone meanwhile, number 4
    t.tells("office 1 proposes again", at, p(FAST, 4, 3, 2, 2), &[(view(5, 0x11, 3, 4), [3, 5, 0])]);
    t.tells("seat 4 leaves",
        at, report(0, 0x10), &[(notice(5, 0x01), [5, 5, 1]), (view(6, 0x01, 5, 0), [5, 6, 0])]);
}

// Seat 0 is away while its office goes on with seat 1. What lacks it is not for it, and would change nothing.
fn desk_day_without_it(t: &mut Tally) {
    let at = &mut both_fresh(0);
    t.tells("seats 0 and 1 join",
        at, report(0x03, 0), &[(notice(1, 0x03), [1, 0, 1]), (view(2, 0x03, 1, 0), [1, 2, 0])]);
    t.accepted("seat 0 leaves, seat 1 stays",
        at.office.clone(), report(0, 0x01), [notice(2, 0x02), view(3, 0x02, 2, 0)].concat());
    at.office = after(at.office.clone(), report(0, 0x01));
    t.not_heard_by("the notice without seat 0", &at.desk, &notice(2, 0x02), 9);
    t.not_heard_by("the view without seat 0", &at.desk, &view(3, 0x02, 2, 0), 9);
    t.tells("seat 0 comes back to seat 1",
        at, report(0x01, 0), &[(notice(3, 0x03), [3, 2, 1]), (view(4, 0x03, 3, 0), [3, 4, 0])]);
}

// One desk in two rooms at once: what comes in one leaves the other as it is.
fn desk_in_two_rooms(t: &mut Tally) {
    let at = &mut both_fresh(2);
    t.tells("room 2: seat 0 joins",
        at, report(0x01, 0), &[(notice(1, 0x01), [1, 0, 1]), (view(2, 0x01, 1, 0), [1, 2, 0])]);
    at.room = 6;
    t.tells("room 6: seats 0 and 4 join", at, report(0x11, 0), &[(notice(1, 0x11), [1, 0, 1])]);
    at.room = 2;
    t.tells("room 2: seat 4 joins", at, report(0x10, 0), &[(notice(2, 0x11), [2, 2, 1])]);
    at.room = 6;
    t.not_heard_by("room 2's next view said of room 6 gets 15", &at.desk, &in_room(6, view(3, 0x11, 2, 1)), 15);
    t.not_heard_by("room 6's notice again gets 14", &at.desk, &in_room(6, notice(1, 0x11)), 14);
    t.not_heard_by("a view of a room without a change open gets 15", &at.desk, &in_room(5, view(3, 0x11, 2, 1)), 15);
    t.tells("room 6: office 1 proposes", at, p(FAST, 1, 1, 0, 0), &[(view(2, 0x11, 1, 1), [1, 2, 0])]);
    at.room = 2;
    t.tells("room 2: office 1 proposes", at, p(FAST, 1, 1, 0, 0), &[(view(3, 0x11, 2, 1), [2, 3, 0])]);
}

// Seat 0 after B, with a change open, and after C.
const AFTER_B: [u32; 4] = [0, 2, 2, 1];
const AFTER_C: [u32; 4] = [0, 2, 3, 0];

fn desk_edges(t: &mut Tally) {
    let of = |seat: u32| [&[seat][..], &[0; 24]].concat();
    t.say("a desk of seat 0 is made", made_desk(0, DESK) == (0, of(0)));
    t.say("a desk of seat 63 is made", made_desk(63, DESK) == (0, of(63)));
    t.say("seat 64 gets 6, and the fresh desk of seat 0", made_desk(64, DESK) == (6, of(0)));
    t.say("seat 255 gets 6, and the fresh desk of seat 0", made_desk(255, DESK) == (6, of(0)));
    for words in [0, 1, 4, 24, 26] {
        t.say(&format!("a desk in {words} words gets 6"), made_desk(0, words) == (6, vec![LENT_WORD; words]));
        t.say(&format!("seat 64 in {words} words gets 6"), made_desk(64, words) == (6, vec![LENT_WORD; words]));
    }
    for room in 0..ROOMS {
        let (started, seen) = (in_room(room as u8, notice(3, 0x11)), in_room(room as u8, view(3, 0x11, 2, 1)));
        t.hears_in(room, &format!("a notice of room {room}"), AFTER_B, &started, [0, 3, 2, 1]);
        t.hears_in(room, &format!("a view of room {room}"), AFTER_B, &seen, AFTER_C);
        for other in (0..ROOMS).filter(|&other| other != room) {
            let high = changed_desk(changed_desk(desk(room, AFTER_B), 1 + 3 * other, L + 1), 2 + 3 * other, u32::MAX);
            let mut after = high.clone();
            after[1 + 3 * room..4 + 3 * room].copy_from_slice(&[2, 3, 0]);
            let name = format!("a view of room {room}, numbers of room {other} above L");
            t.say(&name, hear(&high, &seen) == (0, after));
        }
        t.not_heard_by(&format!("room {room}'s own last start number above L gets 8"),
            &desk(room, [0, L + 1, 2, 1]), &seen, 8);
        t.not_heard_by(&format!("room {room}'s own last view number above L gets 8"),
            &desk(room, [0, 2, L + 1, 1]), &started, 8);
    }
    t.hears("the last seat of all", [63, 0, 0, 0], &notice(1, 1 << 63), [63, 1, 0, 1]);
    t.hears("a seat of office 1 looks at the start number of office 1",
        [4, 1, 2, 1], &view(3, 0x11, 2, 1), [4, 1, 3, 0]);
    t.hears("a notice while a change is open", AFTER_B, &notice(3, 0x11), [0, 3, 2, 1]);
    t.hears("start number L", AFTER_B, &notice(L, 0x11), [0, L, 2, 1]);
    t.hears("view number L", AFTER_B, &view(L, 0x11, 2, 1), [0, 2, L, 0]);
    t.hears("another office's start number L", AFTER_B, &view(3, 0x11, 2, L), [0, 2, 3, 0]);
    t.hears("a start number that is the last view number", [0, 2, 5, 0], &notice(5, 0x11), [0, 5, 5, 1]);
    t.hears("a view number is held to the last start number alone", [0, 2, L, 1], &view(3, 0x11, 2, 1), [0, 2, 3, 0]);
    t.hears("a change is open by any word but 0, and a view leaves 0",
        [0, 2, 2, 7], &view(3, 0x11, 2, 1), [0, 2, 3, 0]);
    t.hears("a change is open by any word but 0, and a notice leaves 1", [0, 2, 2, 7], &notice(3, 0x11), [0, 3, 2, 1]);
    t.not_heard("a refusal leaves the word that was there", [0, 2, 2, 7], &notice(2, 0x11), 14);
}

fn changed_desk(mut desk: Vec<u32>, place: usize, word: u32) -> Vec<u32> {
    desk[place] = word;
    desk
}

fn desk_refusals(t: &mut Tally) {
    t.not_heard("seat 64 gets 6", [64, 2, 2, 1], &notice(3, u64::MAX), 6);
    for words in [0, 1, 4, 24, 26] {
        let mut other = desk(0, AFTER_B);
        other.resize(words, 0);
        t.not_heard_by(&format!("{words} words get 6"), &other, &notice(3, 0x11), 6);
    }
    t.not_heard("no byte gets 4", AFTER_B, &[], 4);
    t.not_heard("one byte of a notice gets 4", AFTER_B, b"S", 4);
    t.not_heard("a report gets 4", AFTER_B, &report(0x11, 0), 4);
    t.not_heard("a proposal gets 4", AFTER_B, &p(FAST, 1, 1, 0, 0), 4);
    t.not_heard("a notice of 14 bytes gets 5", AFTER_B, &notice(3, 0x11)[..14], 5);
    t.not_heard("a notice of 16 bytes gets 5", AFTER_B, &[notice(3, 0x11), vec![0]].concat(), 5);
    t.not_heard("a view of 15 bytes gets 5", AFTER_B, &view(3, 0x11, 2, 1)[..15], 5);
    t.not_heard("a view of 78 bytes gets 5", AFTER_B, &view(3, 0x11, 2, 1)[..78], 5);
    t.not_heard("a view of 80 bytes gets 5", AFTER_B, &[view(3, 0x11, 2, 1), vec![0]].concat(), 5);
    for room in [8, 9, 128, 255] {
        t.not_heard(&format!("a notice of room {room} gets 20"), AFTER_B, &in_room(room, notice(3, 0x11)), 20);
        t.not_heard(&format!("a view of room {room} gets 20"), AFTER_B, &in_room(room, view(3, 0x11, 2, 1)), 20);
    }
    t.not_heard("a start number above L gets 8", AFTER_B, &notice(L + 1, 0x11), 8);
    t.not_heard("a view number above L gets 8", AFTER_B, &view(L + 1, 0x11, 2, 1), 8);
    t.not_heard("another office's start number above L gets 8", AFTER_B, &view(3, 0x11, 2, L + 1), 8);
    t.not_heard("a last start number above L gets 8", [0, L + 1, 2, 1], &notice(3, 0x11), 8);
    t.not_heard("a last view number above L gets 8", [0, 2, L + 1, 1], &view(3, 0x11, 2, 1), 8);
    t.not_heard("a notice for seats 1 and 4 gets 9", AFTER_B, &notice(3, 0x12), 9);
    t.not_heard("a view of seats 1 and 4 gets 9", AFTER_B, &view(3, 0x12, 2, 1), 9);
    t.not_heard("a start number of office 1 without its seats gets 10", AFTER_B, &view(3, 0x01, 2, 1), 10);
    t.not_heard("the last start number again gets 14", AFTER_B, &notice(2, 0x11), 14);
    t.not_heard("a start number below the last view number gets 14", [0, 2, 5, 0], &notice(4, 0x11), 14);
    t.not_heard("the view of C again gets 15", AFTER_C, &view(3, 0x11, 2, 1), 15);
    t.not_heard("a view with another start number of office 0 gets 15", AFTER_B, &view(4, 0x11, 3, 2), 15);
    t.not_heard("view 2 after start number 2 gets 16", AFTER_B, &view(2, 0x11, 2, 1), 16);
}

// Each input is wrong in all that comes after the number it gets.
fn desk_order(t: &mut Tally) {
    t.not_heard("6 before 4 and 8", [64, L + 1, 2, 0], &[], 6);
    t.not_heard("6 before 5 and 8", [64, L + 1, 2, 0], b"SC", 6);
    t.not_heard("6 before 20", [64, L + 1, 2, 0], &in_room(8, notice(1, 0x10)), 6);
    t.not_heard("4 before 20 and 8", [0, L + 1, 2, 0], &in_room(8, report(0x01, 0)), 4);
    t.not_heard("4 before 8", [0, L + 1, 2, 0], b"??", 4);
    t.not_heard("5 before 20 and 8", [0, 2, L + 1, 0], b"VW\x08", 5);
    t.not_heard("5 before 8", [0, 2, L + 1, 0], b"VW", 5);
    t.not_heard("20 before 8 and 9, a notice", [0, 2, L + 1, 0], &in_room(8, notice(L + 1, 0x10)), 20);
    t.not_heard("20 before 8 and 9, a view", AFTER_C, &in_room(8, view(1, 0x10, L + 1, 1)), 20);
    t.not_heard("20 before 14", AFTER_C, &in_room(8, notice(1, 0x11)), 20);
    t.not_heard("20 before 15", AFTER_C, &in_room(8, view(3, 0x11, 2, 1)), 20);
    t.not_heard("20 before 16", AFTER_B, &in_room(8, view(1, 0x11, 2, 1)), 20);
    t.not_heard("8 before 9, a notice", [0, 2, L + 1, 0], &notice(1, 0x10), 8);
    t.not_heard("8 before 9, a view", AFTER_C, &view(1, 0x10, L + 1, 1), 8);
    t.not_heard("9 before 14", AFTER_C, &notice(1, 0x10), 9);
    t.not_heard("9 before 10", AFTER_C, &view(1, 0x10, 3, 1), 9);
    t.not_heard("10 before 15", AFTER_C, &view(1, 0x01, 3, 1), 10);
    t.not_heard("15 before 16, no change open", AFTER_C, &view(1, 0x11, 2, 1), 15);
    t.not_heard("15 before 16, another start number", AFTER_B, &view(1, 0x11, 3, 1), 15);
    t.not_heard("16 comes last", AFTER_B, &view(1, 0x11, 2, 1), 16);
}

fn main() {
    let mut tally = Tally { passed: 0, failed: 0 };
    counts(&mut tally);
    rooms(&mut tally);
    offices_of_rooms(&mut tally);
    another_office(&mut tally);
    offices_above_15(&mut tally);
    bad_records(&mut tally);
    rooms_above_7(&mut tally);
    tables(&mut tally);
    days(&mut tally);
    repeats(&mut tally);
    repeats_and_refusals(&mut tally);
    edges(&mut tally);
    states(&mut tally);
    limits(&mut tally);
    order(&mut tally);
    self_uses(&mut tally);
    no_self_uses(&mut tally);
    self_uses_in_order(&mut tally);
    (0..ROOMS as u8).for_each(|room| desk_day(&mut tally, room));
    desk_day_without_it(&mut tally);
    desk_in_two_rooms(&mut tally);
    desk_edges(&mut tally);
    desk_refusals(&mut tally);
    desk_order(&mut tally);
    worked_sheets::all(&mut tally);
    println!("{} passed, {} failed", tally.passed, tally.failed);
    std::process::exit((tally.failed != 0) as i32);
}
