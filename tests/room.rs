// The program `room` beside the model, on plays of several offices with their rooms interleaved and on damaged, cut
// and long inputs. `trace` prints the same lines with the bytes written behind them. Arguments: the two programs. A
// case passes when all of its inputs agree; the first that does not is kept as target/tests/room.input.
#[allow(dead_code)]
#[path = "common/model.rs"]
mod model;
#[path = "common/play.rs"]
mod play;
#[path = "common/random.rs"]
mod random;
#[path = "common/repeats.rs"]
mod repeats;
#[allow(dead_code)]
#[path = "common/self_use.rs"]
mod self_use;

use model::{program, room_of, Line, Office, Proposal, Table, CAPACITY, FAST, L, REPORT, ROOMS, SLOW};
use play::{used_for_sender, Habits, Play};
use random::Random;
use repeats::{Reports, KINDS};
use self_use::{SelfUses, Sent};
use std::collections::BTreeMap;
use std::fmt::Write as _;
use std::fs::File;
use std::io::Write as _;
use std::process::{Command, Output, Stdio};
use std::sync::atomic::{AtomicUsize, Ordering};
use std::sync::Mutex;

const THREADS: usize = 2;

// What was reached, by the model: refusals, lengths written at acceptance, views at each office and in each room,
// reports of each kind, proposals handed in, those about check 19, and those written.
#[derive(Clone, Default)]
struct Reached {
    inputs: usize,
    records: usize,
    refusals: BTreeMap<u8, usize>,
    lengths: BTreeMap<usize, usize>,
    views: [usize; 16],
    rooms: Rooms,
    reports: Reports,
    proposals: usize,
    self_uses: SelfUses,
    sent: Sent,
}

#[derive(Clone)]
struct Rooms {
    // refusals and views of each room
    refusals: [[usize; 21]; ROOMS],
    views: [usize; ROOMS],
    // room bytes above 7, and those after which another record has its line
    above: Vec<usize>,
    goes_on: Vec<usize>,
    // records of another room than the one before, and those whose line has another view number than room 0's
    turns: usize,
    apart: usize,
    // 4, 5 and 20 where a room has a view, so that 0 is not the number of any
    none: [usize; 3],
}

impl Default for Rooms {
    fn default() -> Rooms {
        let (refusals, bytes) = ([[0; 21]; ROOMS], vec![0; 256]);
        Rooms { refusals, views: [0; ROOMS], above: bytes.clone(), goes_on: bytes, turns: 0, apart: 0, none: [0; 3] }
    }
}

impl Rooms {
    fn add(&mut self, other: &Rooms) {
        fn each(all: &mut [usize], more: &[usize]) {
            all.iter_mut().zip(more).for_each(|(n, more)| *n += more);
        }
        each(self.refusals.as_flattened_mut(), other.refusals.as_flattened());
        each(&mut self.views, &other.views);
        each(&mut self.above, &other.above);
        each(&mut self.goes_on, &other.goes_on);
        each(&mut self.none, &other.none);
        self.turns += other.turns;
        self.apart += other.apart;
    }

    // A line and the record before it.
    fn count(&mut self, line: &Line, before: &[u8]) {
        let all_views = line.table.rooms.iter().all(|office| office.view.number > 0);
        match line.refusal {
            4 | 5 => self.none[line.refusal as usize - 4] += all_views as usize,
            20 => {
                self.above[room_of(line.record) as usize] += 1;
                self.none[2] += all_views as usize;
            }
            refusal => {
                let room = room_of(line.record) as usize;
                self.refusals[room][refusal as usize] += 1;
                self.views[room] += line.bytes.windows(2).any(|w| w == b"VW") as usize;
                self.apart += (line.view_number != line.table.rooms[0].view.number) as usize;
            }
        }
        if let [_, _, last, ..] = before {
            self.turns += line.record.get(2).is_some_and(|room| room != last) as usize;
            self.goes_on[*last as usize] += 1;
        }
    }
}

impl Reached {
    fn add(&mut self, other: &Reached) {
        self.inputs += other.inputs;
        self.records += other.records;
        for (&refusal, n) in &other.refusals {
            *self.refusals.entry(refusal).or_default() += n;
        }
        for (&length, n) in &other.lengths {
            *self.lengths.entry(length).or_default() += n;
        }
        for (office, n) in other.views.iter().enumerate() {
            self.views[office] += n;
        }
        self.rooms.add(&other.rooms);
        self.reports.add(&other.reports);
        self.proposals += other.proposals;
        self.self_uses.add(&other.self_uses);
        self.sent.add(&other.sent);
    }
}

// What the two programs are to print.
struct Expected {
    lines: String,
    traced: String,
}

fn expected(input: &[u8], reached: &mut Reached) -> Expected {
    let mut e = Expected { lines: String::new(), traced: String::new() };
    reached.inputs += 1;
    reached.reports.last = Default::default();
    let mut before = Table::fresh(input.first().map_or(0, |&own| own as usize));
    let mut last = Vec::new();
    program(&mut &input[..], |line| {
        let count = line.bytes.len();
        reached.records += 1;
        if line.refusal != 1 {
            reached.rooms.count(&line, &last);
        }
        last = line.record.to_vec();
        let there = line.record.get(2).and_then(|&room| before.rooms.get(room as usize));
        // what passed checks 4, 5 and 20
        if let (Some(there), false) = (there, [4, 5].contains(&line.refusal)) {
            if line.record.len() == REPORT {
                let nothing = line.refusal == 0 && count == 0 && *line.table == before;
                reached.reports.count(there, line.record, nothing);
            } else {
                reached.proposals += 1;
                reached.self_uses.count(there, line.record, line.refusal);
            }
        }
        reached.sent.count(line.bytes);
        before = line.table.clone();
        *reached.refusals.entry(line.refusal).or_default() += 1;
        if line.refusal == 0 {
            *reached.lengths.entry(count).or_default() += 1;
            reached.views[input[0] as usize] += line.bytes.windows(2).any(|w| w == b"VW") as usize;
        }
        let text = format!("{} {} {count} {}", line.number, line.refusal, line.view_number);
        writeln!(e.lines, "{text}").unwrap();
        e.traced += &text;
        if count > 0 {
            e.traced.push(' ');
        }
        for byte in line.bytes {
            e.traced.extend([byte / 16, byte % 16].map(|digit| char::from_digit(digit as u32, 16).unwrap()));
        }
        e.traced.push('\n');
    });
    e
}

// A way to hand an input to a program; a file that holds it is there in any case.
#[derive(Clone, Copy, PartialEq)]
enum Way {
    File,
    // in small pieces through a pipe
    Pieces,
}

fn run(path: &str, input: &[u8], way: Way, file: &str) -> Output {
    let mut command = Command::new(path);
    command.stdout(Stdio::piped()).stderr(Stdio::piped());
    match way {
        Way::File => command.stdin(File::open(file).unwrap()).output().unwrap(),
        Way::Pieces => {
            let mut child = command.stdin(Stdio::piped()).spawn().unwrap();
            let mut pipe = child.stdin.take().unwrap();
            std::thread::scope(|scope| {
                scope.spawn(move || {
                    let mut random = Random(input.len() as u64 + 1);
                    let mut rest = input;
                    while !rest.is_empty() {
                        let (piece, later) = rest.split_at(rest.len().min(1 + random.below(200)));
                        // the program has stopped at a refused record
                        if pipe.write_all(piece).is_err() {
                            break;
                        }
                        rest = later;
                        std::thread::yield_now();
                    }
                });
                child.wait_with_output().unwrap()
            })
        }
    }
}

// The first input of a case on which a program differs.
struct Difference {
    at: usize,
    path: String,
    expected: String,
    got: Vec<u8>,
}

struct Tests {
    room: String,
    trace: String,
    all: Reached,
    passed: usize,
    failed: usize,
}

impl Tests {
    fn check(&mut self, name: &str, holds: bool) {
        if holds {
            self.passed += 1;
        } else {
            self.failed += 1;
            println!("{name}: FAILED");
        }
    }

    // `count` inputs, each made from a generator of its own.
    fn case(&mut self, name: &str, count: usize, way: Way, make: impl Fn(&mut Random, usize) -> Vec<u8> + Sync) {
        let next = AtomicUsize::new(0);
        let total = Mutex::new(Reached::default());
        let differs: Mutex<Option<Difference>> = Mutex::new(None);
        let seed = name.bytes().fold(7_u64, |s, b| s.wrapping_mul(31).wrapping_add(b as u64));
        let input_of = |k: usize| {
            let mut random = Random((seed ^ k as u64).wrapping_mul(0x9e37_79b9_7f4a_7c15) | 1);
            random.bytes(16);
            make(&mut random, k)
        };
        std::thread::scope(|scope| {
            for thread in 0..THREADS {
                let (next, total, differs, input_of, tests) = (&next, &total, &differs, &input_of, &*self);
                scope.spawn(move || {
                    let file = format!("target/tests/room.input.{thread}");
                    let mut reached = Reached::default();
                    loop {
                        let k = next.fetch_add(1, Ordering::Relaxed);
                        if k >= count || differs.lock().unwrap().is_some() {
                            break;
                        }
                        let input = input_of(k);
                        let e = expected(&input, &mut reached);
                        std::fs::write(&file, &input).unwrap();
                        for (path, text) in [(&tests.room, &e.lines), (&tests.trace, &e.traced)] {
                            let got = run(path, &input, way, &file);
                            if !got.status.success() || got.stdout != text.as_bytes() || !got.stderr.is_empty() {
                                let mut first = differs.lock().unwrap();
                                if first.as_ref().is_none_or(|f| k < f.at) {
                                    *first = Some(Difference {
                                        at: k,
                                        path: path.clone(),
                                        expected: text.clone(),
                                        got: got.stdout,
                                    });
                                }
                            }
                        }
                    }
                    std::fs::remove_file(&file).ok();
                    total.lock().unwrap().add(&reached);
                });
            }
        });
        self.all.add(&total.into_inner().unwrap());
        let first = differs.into_inner().unwrap();
        if let Some(d) = &first {
            println!("{name}: input {}: {} differs", d.at, d.path);
            if self.failed == 0 {
                println!("kept: target/tests/room.input, room.expected, room.got");
                std::fs::write("target/tests/room.input", input_of(d.at)).unwrap();
                std::fs::write("target/tests/room.expected", &d.expected).unwrap();
                std::fs::write("target/tests/room.got", &d.got).unwrap();
            }
        }
        self.check(name, first.is_none() && count > 0);
    }
}

// Seats of one to six offices.
fn some_pool(random: &mut Random) -> u64 {
    let seats: u64 = (0..1 + random.below(6)).map(|_| 15_u64 << (4 * random.below(16))).fold(0, |a, b| a | b);
    seats & (random.next() | random.next())
}

fn some_play(random: &mut Random, habits: Habits, records: usize) -> Play {
    let pool = some_pool(random);
    let kept = if pool == 0 || random.below(8) == 0 {
        random.below(16)
    } else {
        let all: Vec<usize> = model::offices(pool).collect();
        all[random.below(all.len())]
    };
    let rooms = some_rooms(random);
    let mut play = Play::new(Random(random.next() | 1), habits, pool, kept, &rooms);
    play.go(records);
    play
}

// One room, two, or all.
fn some_rooms(random: &mut Random) -> Vec<u8> {
    let any = random.below(ROOMS) as u8;
    match random.below(4) {
        0 => vec![any],
        1 => vec![any, (any + 1 + random.below(ROOMS - 1) as u8) % ROOMS as u8],
        _ => (0..ROOMS as u8).collect(),
    }
}

fn calm(random: &mut Random) -> Habits {
    let rates = [0, 10, 40, 120];
    Habits {
        change: 5 + rates[random.below(4)],
        own_report: rates[random.below(3)],
        back: rates[random.below(3)],
        repeat: rates[random.below(3)],
        loss: rates[random.below(4)],
        swap: rates[random.below(3)],
        forged: 0,
        damaged: 0,
        stray: rates[random.below(3)],
    }
}

fn forging(random: &mut Random) -> Habits {
    Habits { forged: 100 + random.below(400), damaged: random.below(60), ..calm(random) }
}

fn damaging(random: &mut Random) -> Habits {
    Habits { forged: random.below(200), damaged: 200 + random.below(300), ..calm(random) }
}

fn a_play(random: &mut Random, habits: fn(&mut Random) -> Habits, records: usize) -> Vec<u8> {
    let habits = habits(random);
    some_play(random, habits, records).input
}

// The numbers near L: an office hears of one in some rooms, and goes on.
fn near_the_ceiling(random: &mut Random) -> Vec<u8> {
    let habits = forging(random);
    let begun = random.below(10);
    let mut play = some_play(random, habits, begun);
    for room in (0..ROOMS as u8).step_by(1 + random.below(3)) {
        let o = *play.office(room);
        for sender in model::offices(o.net).filter(|&k| k != o.own) {
            let near = |random: &mut Random| [1, L - random.below(3) as u32, L][random.below(3)];
            let (start, number) = (near(random), near(random));
            let mut used = [0; 16];
            used[sender] = [0, L][random.below(2)];
            used[sender] = used_for_sender(random, number, used[sender]);
            let kind = [FAST, SLOW][random.below(2)];
            let p = Proposal { sender: sender as u8, kind, members: o.net, start, number, used };
            play.hand(o.own, &p.bytes(room));
        }
    }
    play.go(begun + 4 + random.below(40));
    play.input
}

// A play with its end cut off, bytes behind it, or a byte changed.
fn spoiled(random: &mut Random) -> Vec<u8> {
    let records = 1 + random.below(12);
    let mut input = a_play(random, forging, records);
    match random.below(5) {
        0 => input.truncate(random.below(input.len())),
        1 => {
            let length = 1 + random.below(100);
            input.extend(random.bytes(length));
        }
        2 => {
            let mark = [*b"NE", *b"PR", *b"SC", *b"VW", *b"EN", *b"RP"][random.below(6)];
            input.extend(mark);
            let length = [random.below(90), 13, 17, 77, 83][random.below(5)];
            input.extend(random.bytes(length));
        }
        3 => {
            let at = 1 + random.below(input.len() - 1);
            input[at] = random.next() as u8;
        }
        _ => {
            let at = 1 + random.below(input.len() - 1);
            input.remove(at);
        }
    }
    input
}

// A view in each room of an office, and reports of one room byte between them.
fn each_room_byte(random: &mut Random, byte: u8) -> Vec<u8> {
    let own = random.below(16);
    let mut input = vec![own as u8];
    for room in 0..ROOMS as u8 {
        for _ in 0..1 + random.below(2) {
            let seats = random.next() & 15 << (4 * own) | 1 << (4 * own);
            input.extend(in_room(room, report(seats, 0)));
            input.extend(in_room(byte, report(random.next(), random.next())));
            input.extend(in_room(room, report(0, seats & seats - 1)));
        }
    }
    input
}

// A view in each room, then what gets 4, 5 or 20.
fn all_have_views(random: &mut Random, case: usize) -> Vec<u8> {
    let own = random.below(16);
    let mut input = vec![own as u8];
    for room in 0..ROOMS as u8 {
        input.extend(in_room(room, report(1 << (4 * own), 0)));
    }
    let room = random.below(ROOMS) as u8;
    match case % 4 {
        0 => input.extend(in_room(8 + random.below(248) as u8, report(random.next(), 0))),
        1 => input.extend(&in_room(room, report(random.next(), 0))[..2 + random.below(17)]),
        2 => input.extend(in_room(room, notice(1, 1 << (4 * own)))),
        _ => input.extend([&b"PR"[..], &[room][..random.below(2)]].concat()),
    }
    input
}

fn random_bytes(random: &mut Random) -> Vec<u8> {
    let length = 1 + random.below(300);
    let mut input = random.bytes(length);
    input[0] &= if random.below(4) == 0 { 31 } else { 15 };
    let mut at = 1;
    while at + 2 <= input.len() && random.below(6) != 0 {
        let mark = [*b"NE", *b"PR"][random.below(2)];
        input[at..at + 2].copy_from_slice(&mark);
        if let Some(room) = input.get_mut(at + 2) {
            *room %= 9;
        }
        at += model::mark_length(&mark).unwrap();
    }
    input
}

// P of the worked days: sender 1, members {0, 4}.
fn p(kind: u8, start: u32, number: u32, used_0: u32, used_1: u32) -> Vec<u8> {
    let mut used = [0; 16];
    (used[0], used[1]) = (used_0, used_1);
    Proposal { sender: 1, kind, members: 0x11, start, number, used }.bytes(0)
}

// Own proposals of the worked days: sender 0, members {0, 4}.
fn own(kind: u8, start: u32, number: u32, used_0: u32, used_1: u32) -> Vec<u8> {
    let mut record = p(kind, start, number, used_0, used_1);
    record[3] = 0;
    record
}

// The days are in room 0 unless a room is named.
fn report(joining: u64, leaving: u64) -> Vec<u8> {
    [&b"NE\0"[..], &joining.to_be_bytes(), &leaving.to_be_bytes()].concat()
}

fn notice(start: u32, members: u64) -> Vec<u8> {
    [&b"SC\0"[..], &start.to_be_bytes(), &members.to_be_bytes()].concat()
}

fn view(number: u32, members: u64, start_0: u32, start_1: u32) -> Vec<u8> {
    let head =
        [&b"VW\0"[..], &number.to_be_bytes(), &members.to_be_bytes(), &start_0.to_be_bytes(), &start_1.to_be_bytes()];
    [&head.concat()[..], &[0; 56]].concat()
}

fn in_room(room: u8, mut record: Vec<u8>) -> Vec<u8> {
    record[2] = room;
    record
}

// A day at office 0: the records, and what the last is answered.
type Day = (Vec<Vec<u8>>, u8, Vec<u8>);

fn day(records: &[Vec<u8>], refusal: u8, written: &[Vec<u8>]) -> Day {
    (records.to_vec(), refusal, written.concat())
}

fn after(before: &[Vec<u8>], record: Vec<u8>) -> Vec<Vec<u8>> {
    [before, &[record]].concat()
}

// The worked days, and where Moshe and document 01 differ.
fn worked_days() -> Vec<Day> {
    let a = vec![report(0x01, 0)];
    let b = after(&a, report(0x10, 0));
    let c = after(&b, p(FAST, 1, 1, 0, 0));
    let e = after(&c, p(FAST, 3, 2, 2, 1));
    let g = after(&b, p(FAST, 3, 2, 2, 1));
    let i = vec![p(SLOW, 1, 5, 0, 0)];
    let j = vec![p(FAST, 1, 1, 0, 0)];
    let k = vec![p(FAST, 1, L, 0, 0)];
    let m = vec![report(0x01, 0x01)];
    let both = report(0x11, 0);
    vec![
        day(&a, 0, &[notice(1, 0x01), view(2, 0x01, 1, 0)]),
        day(&b, 0, &[notice(2, 0x11), own(FAST, 2, 2, 1, 0)]),
        day(&c, 0, &[view(3, 0x11, 2, 1)]),
        day(&after(&c, p(FAST, 1, 1, 0, 0)), 11, &[]),
        day(&e, 0, &[notice(3, 0x11), own(SLOW, 3, 3, 2, 1)]),
        day(&after(&e, p(SLOW, 3, 3, 2, 1)), 0, &[view(4, 0x11, 3, 3)]),
        day(&g, 0, &[own(SLOW, 2, 3, 1, 0)]),
        day(&after(&b, p(FAST, 1, 1, 3, 0)), 12, &[]),
        day(&i, 0, &[]),
        day(&after(&i, both.clone()), 0, &[notice(1, 0x11), own(FAST, 1, 6, 0, 0), own(SLOW, 1, 7, 0, 0)]),
        day(&after(&j, both.clone()), 0, &[notice(1, 0x11), own(FAST, 1, 2, 0, 0), view(2, 0x11, 1, 1)]),
        day(&k, 0, &[]),
        day(&after(&k, both), 13, &[]),
        day(&vec![p(FAST, 1, L + 1, 0, 0)], 8, &[]),
        day(&m, 0, &[]),
        day(&after(&m, report(0x10, 0)), 0, &[]),
        day(&vec![report(0x01, 0)[..18].to_vec()], 5, &[]),
        day(&vec![[&report(0x01, 0)[..], &[0]].concat()], 5, &[]),
        day(&vec![vec![]], 4, &[]),
        day(&after(&g, p(FAST, 4, 9, 2, 1)), 0, &[]),
        day(&after(&g, p(FAST, 4, 4, 3, 2)), 0, &[own(SLOW, 2, 5, 1, 0)]),
        day(&after(&b, p(FAST, 3, 9, 2, 1)), 0, &[own(SLOW, 2, 10, 1, 0)]),
        day(&after(&b, p(SLOW, 1, 2, 0, 0)), 0, &[own(SLOW, 2, 3, 1, 0)]),
        day(&after(&c, p(SLOW, 3, 2, 2, 1)), 0, &[notice(3, 0x11), own(SLOW, 3, 3, 2, 1)]),
    ]
}

// N, other reports that leave the net view equal to what it was, and some beside them that change it.
fn days_of_repeats() -> Vec<Day> {
    let b = vec![report(0x01, 0), report(0x10, 0)];
    let c = after(&b, p(FAST, 1, 1, 0, 0));
    let left = after(&c, report(0, 0x10));
    let top = vec![p(SLOW, 1, L - 2, 0, 0), report(0x11, 0)];
    vec![
        day(&after(&b, report(0, 0)), 0, &[]),
        day(&after(&b, report(0x10, 0)), 0, &[]),
        day(&after(&b, report(0x111, 0x100)), 0, &[]),
        day(&after(&c, report(0, 0)), 0, &[]),
        day(&after(&c, report(0x10, 0)), 0, &[]),
        day(&left, 0, &[notice(3, 0x01), view(4, 0x01, 3, 0)]),
        day(&after(&left, report(0x10, 0)), 0, &[notice(4, 0x11), own(FAST, 4, 4, 3, 1)]),
        day(&top, 0, &[notice(1, 0x11), own(FAST, 1, L - 1, 0, 0), own(SLOW, 1, L, 0, 0)]),
        day(&after(&top, report(0, 0)), 0, &[]),
        day(&after(&top, report(0x100, 0)), 13, &[]),
    ]
}

// Proposals that claim to have used themselves, and some beside them that do not. The office goes on as if they had
// not come.
fn days_of_self_uses() -> Vec<Day> {
    let b = vec![report(0x01, 0), report(0x10, 0)];
    let c = after(&b, p(FAST, 1, 1, 0, 0));
    let refused = after(&b, p(FAST, 1, 1, 0, 1));
    let higher = after(&b, p(SLOW, 9, 9, 0, 9));
    vec![
        day(&refused, 19, &[]),
        day(&after(&refused, p(FAST, 1, 1, 0, 0)), 0, &[view(3, 0x11, 2, 1)]),
        day(&after(&refused, report(0, 0x10)), 0, &[notice(3, 0x01), view(4, 0x01, 3, 0)]),
        day(&higher, 19, &[]),
        day(&after(&higher, p(FAST, 1, 1, 0, 0)), 0, &[view(3, 0x11, 2, 1)]),
        day(&after(&c, p(FAST, 3, 2, 2, 2)), 19, &[]),
        day(&after(&c, p(FAST, 3, 2, 2, 3)), 19, &[]),
        day(&after(&c, p(FAST, 1, 1, 0, 1)), 19, &[]),
        day(&after(&b, p(FAST, 1, 1, 3, 1)), 19, &[]),
        day(&after(&b, p(FAST, L, 1, 0, 1)), 19, &[]),
        day(&after(&b, p(FAST, L, 1, 0, 0)), 13, &[]),
        day(&after(&b, p(FAST, 1, 1, 1, 0)), 0, &[view(3, 0x11, 2, 1)]),
    ]
}

// Rooms beside each other; each goes on as if the others were not there.
fn days_of_rooms() -> Vec<Day> {
    let mut all = Vec::new();
    for room in 0..ROOMS as u8 {
        let in_it = |record| in_room(room, record);
        let a = vec![in_it(report(0x01, 0))];
        let b = after(&a, in_it(report(0x10, 0)));
        let next = (room + 3) % 8;
        let beside = after(&b, in_room(next, report(0x11, 0)));
        let c = after(&beside, in_it(p(FAST, 1, 1, 0, 0)));
        let above = after(&b, in_room(8 + 31 * room, p(FAST, 1, 1, 0, 0)));
        let started = in_room(next, notice(1, 0x11));
        all.extend([
            day(&a, 0, &[in_it(notice(1, 0x01)), in_it(view(2, 0x01, 1, 0))]),
            day(&b, 0, &[in_it(notice(2, 0x11)), in_it(own(FAST, 2, 2, 1, 0))]),
            day(&beside, 0, &[started, in_room(next, own(FAST, 1, 1, 0, 0))]),
            day(&c, 0, &[in_it(view(3, 0x11, 2, 1))]),
            day(&after(&c, in_room(next, p(FAST, 1, 1, 0, 0))), 0, &[in_room(next, view(2, 0x11, 1, 1))]),
            day(&above, 20, &[]),
            day(&after(&above, in_it(p(FAST, 1, 1, 0, 0))), 0, &[in_it(view(3, 0x11, 2, 1))]),
            day(&after(&b, in_room(255, report(0, 0))), 20, &[]),
            day(&after(&b, in_room(8, report(0x01, 0))[..18].to_vec()), 5, &[]),
        ]);
    }
    all
}

fn all_days() -> Vec<Day> {
    [worked_days(), days_of_repeats(), days_of_self_uses(), days_of_rooms()].concat()
}

fn model_on_worked_days() -> bool {
    all_days().into_iter().all(|(records, refusal, written)| {
        let mut table = Table::fresh(0);
        let mut out = Vec::new();
        let answers: Vec<u8> = records.iter().map(|record| table.step(0, record, CAPACITY, &mut out)).collect();
        *answers.last().unwrap() == refusal && out == written
    })
}

// Checks 2 and 3, which no input of the program reaches: behind all that reading answers.
fn model_on_checks_2_and_3() -> bool {
    let (record, mut out) = (report(0x01, 0), Vec::new());
    let mut above = [Office::fresh(16), Office::fresh(0), Office::fresh(0)];
    above[1].accepted[15] = L + 1;
    above[2].stored[7] = Some(Proposal { sender: 7, kind: FAST, members: 0, start: L + 1, number: 0, used: [0; 16] });
    let mut step = |office, table: &mut Table, record: &[u8], capacity| table.step(office, record, capacity, &mut out);
    (0..3 * ROOMS).all(|k| {
        let mut table = Table::fresh(0);
        table.rooms[k / 3] = above[k % 3];
        step(0, &mut table, &record, 0) == 2
            && step(16, &mut table, &record, 0) == 1
            && step(0, &mut table, &[], 0) == 4
            && step(0, &mut table, &record[..18], 0) == 5
            && step(0, &mut table, &in_room(8, record.clone()), 0) == 20
            && step(0, &mut table, &own(FAST, 1, 1, 0, 0), 0) == 6
            && step(0, &mut table, &p(FAST, 1, 1, 0, 1), 0) == 19
    }) && step(15, &mut Table::fresh(15), &[], CAPACITY - 1) == 4
        && step(15, &mut Table::fresh(15), &record, CAPACITY - 1) == 3
        && step(15, &mut Table::fresh(15), &record, CAPACITY) == 0
}

fn long_plays(t: &mut Tests) {
    let long: Vec<Vec<u8>> = (0..4).map(|k| a_play(&mut Random(100 + k), forging, 20_000)).collect();
    t.case("long plays", long.len(), Way::File, |_, k| long[k].clone());
    // the ends go through each place of a record, before and behind a buffer's
    t.case("ends around 64 KiB", 100, Way::File, |_, k| long[0][..65_536 - 50 + k].to_vec());
    t.case("ends around 128 KiB", 100, Way::File, |_, k| long[1][..131_072 - 50 + k].to_vec());
    t.case("in pieces", 200, Way::Pieces, |r, _| {
        let records = 1 + r.below(300);
        a_play(r, forging, records)
    });
    t.case("long, in pieces", 2, Way::Pieces, |_, k| long[2 + k].clone());
}

fn reached(t: &mut Tests) {
    let all = t.all.clone();
    println!("room: {} inputs, {} records compared", all.inputs, all.records);
    println!("refusals: {:?}", all.refusals);
    println!("lengths: {:?}", all.lengths);
    println!("views at each office: {:?}", all.views);
    t.check("20,000 inputs", all.inputs >= 20_000);
    for refusal in [0, 1, 4, 5, 6, 7, 8, 9, 10, 11, 12, 13, 19, 20] {
        t.check(&format!("refusal {refusal} reached"), all.refusals.contains_key(&refusal));
    }
    for length in [0, 79, 85, 94, 100, 164, 179, 185] {
        t.check(&format!("{length} bytes written"), all.lengths.contains_key(&length));
    }
    t.check("views at every office", all.views.iter().all(|&n| n > 0));
    let reports = &all.reports;
    println!("repeats: {}, {} of which would be refused 13 if they were heard", reports.repeats, reports.at_ceiling);
    t.check("each repeat is a line of 0 bytes, and the state stays", reports.repeats > 0 && reports.heard == 0);
    t.check("repeats that would be refused 13 if they were heard", reports.at_ceiling > 0);
    for (kind, n) in KINDS.iter().zip(reports.kinds) {
        println!("{kind}: {n}");
        t.check(kind, n > 0);
    }
    rooms_reached(t);
    self_uses_reached(t);
}

fn rooms_reached(t: &mut Tests) {
    let rooms = t.all.rooms.clone();
    println!("views in each room: {:?}", rooms.views);
    t.check("1000 views in every room", rooms.views.iter().all(|&n| n >= 1000));
    for refusal in [0, 6, 7, 8, 9, 10, 11, 12, 13, 19] {
        let least = rooms.refusals.iter().map(|n| n[refusal]).min().unwrap();
        println!("answer {refusal}, of the room with fewest: {least}");
        t.check(&format!("answer {refusal} in every room, 20 times"), least >= 20);
    }
    println!("another room than before: {}, another view number than room 0's: {}", rooms.turns, rooms.apart);
    t.check("rooms take turns", rooms.turns >= 100_000);
    t.check("lines with another view number than room 0's", rooms.apart >= 50_000);
    let (above, goes_on) = (&rooms.above[ROOMS..], &rooms.goes_on[ROOMS..]);
    let [fewest, then] = [above, goes_on].map(|all| all.iter().min().unwrap());
    println!("20, of the byte with fewest: {fewest}, a line after it: {then}");
    t.check("20 for every room byte above 7, and the run goes on", above.iter().chain(goes_on).all(|&n| n > 0));
    println!("4, 5 and 20 where every room has a view: {:?}", rooms.none);
    t.check("4, 5 and 20 print no view number where every room has one", rooms.none.iter().all(|&n| n >= 20));
}

fn self_uses_reached(t: &mut Tests) {
    let Reached { proposals, self_uses, sent, .. } = t.all.clone();
    println!("{proposals} proposals handed in, {} written", sent.proposals);
    println!("written, the used number for the sender just below the proposal's own: {}", sent.just_below);
    let none = sent.proposals >= 100_000 && sent.just_below >= 10_000 && sent.self_uses == 0;
    t.check("no proposal that an office wrote claims to have used itself", none);
    t.check("each proposal is answered by the first reason that applies", self_uses.agree);
    for (kind, n) in self_use::KINDS.iter().zip(self_uses.kinds) {
        println!("{kind}: {n}");
        t.check(kind, n > 0);
    }
    let all = self_uses.senders.iter().chain(&self_uses.offices).flatten();
    t.check("19 and what is just below it, of every sender and at every office", all.min() > Some(&0));
}

fn main() {
    let paths: Vec<String> = std::env::args().skip(1).collect();
    let [room, trace] = <[String; 2]>::try_from(paths).expect("arguments: the programs room and trace");
    std::fs::create_dir_all("target/tests").unwrap();
    let mut t = Tests { room, trace, all: Reached::default(), passed: 0, failed: 0 };

    t.check("the model on the worked days", model_on_worked_days());
    t.check("the model on checks 2 and 3", model_on_checks_2_and_3());

    let days = all_days();
    t.case("worked days", days.len(), Way::File, |_, k| [&[0][..], &days[k].0.concat()].concat());
    t.case("no office", 1, Way::File, |_, _| vec![]);
    t.case("each office byte alone", 256, Way::File, |_, k| vec![k as u8]);
    t.case("each office byte and a report of all seats, twice", 256, Way::File, |_, k| {
        let all = report(u64::MAX, 0);
        [&[k as u8][..], &all, &all].concat()
    });
    t.case("each room byte, then the rooms go on", 256, Way::File, |r, k| each_room_byte(r, k as u8));
    t.case("what ends a run in which every room has a view", 200, Way::File, |r, k| all_have_views(r, k));
    let before = t.all.clone();
    t.case("plays", 7000, Way::File, |r, _| {
        let records = 1 + r.below(100);
        a_play(r, calm, records)
    });
    // nothing is forged there: offices hand each other only what they sent
    let handed = t.all.proposals - before.proposals;
    println!("plays: {handed} proposals handed in");
    t.check("plays: no proposal gets 19", handed >= 50_000 && t.all.refusals.get(&19) == before.refusals.get(&19));
    t.case("plays with forged proposals", 5000, Way::File, |r, _| {
        let records = 1 + r.below(50);
        a_play(r, forging, records)
    });
    t.case("plays with damaged proposals", 4000, Way::File, |r, _| {
        let records = 1 + r.below(50);
        a_play(r, damaging, records)
    });
    t.case("plays near the ceiling", 2000, Way::File, |r, _| near_the_ceiling(r));
    t.case("spoiled plays", 3000, Way::File, |r, _| spoiled(r));
    t.case("random bytes", 1000, Way::File, |r, _| random_bytes(r));
    long_plays(&mut t);

    reached(&mut t);
    println!("{} passed, {} failed", t.passed, t.failed);
    std::process::exit((t.failed != 0) as i32);
}
