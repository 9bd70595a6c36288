// Change request 11, one slow proposal and one view: over runs of fresh offices with losses and cuts, all views that
// used one slow proposal are equal, and no office used one proposal for two views. A use counts where the view left.
// What a view used is worked out from the records alone, and held to what the records say of it (common/uses.rs). The
// offices run by the calls for C (common/cut_runs.rs); no answer is expected from a model.
#[path = "common/cut_runs.rs"]
mod cut_runs;
#[allow(dead_code)]
#[path = "common/inputs.rs"]
mod inputs;
#[allow(dead_code)]
#[path = "common/model.rs"]
mod model;
#[path = "common/play.rs"]
mod play;
#[allow(dead_code)]
#[path = "common/random.rs"]
mod random;
#[allow(dead_code)]
#[path = "common/repeats.rs"]
mod repeats;
#[path = "common/restart_calls.rs"]
mod restart_calls;
#[allow(dead_code)]
#[path = "common/rows.rs"]
mod rows;
#[path = "common/tally.rs"]
mod tally;
#[path = "common/uses.rs"]
mod uses;
#[path = "common/verdicts.rs"]
mod verdicts;

use cut_runs::{Met, Run, Wrong};
use model::{report, room_of, set, ROOMS, VIEW};
use random::Random;
use std::rc::Rc;
use uses::{agrees, alike, by_proposal, is_slow, seen, tells, used_once, Happened, Record, Seen, Sent, What};

#[link(name = "room", kind = "static")]
extern "C" {
    fn room_fresh(office: u8, table: *mut u32, words: usize) -> u8;
    fn room_step(
        office: u8, table: *mut u32, words: usize, record: *const u8, length: usize, out: *mut u8, capacity: usize,
    ) -> u32;
}

const RUNS: usize = 2000;
// How many of them are falsified by hand, and the runs of each wrong server.
const FALSIFIED: usize = 80;
const WRONG: usize = 300;

type Tally = tally::Tally<Met>;

// Two to five offices, at times sixteen; at times one of them comes near L first.
fn a_run(random: &mut Random, case: usize, wrong: Wrong, met: &mut Met) -> Vec<Happened> {
    let (count, events) = if case % 50 == 49 { (16, 4000) } else { (2 + case % 4, 450) };
    let mut run = Run::new(random, count, wrong);
    if case % 200 == 190 {
        run.climb(met);
    }
    run.go(events, met);
    run.log
}

// What a run has against request 11: slow proposals used for unequal views, and any used for two views by one office.
fn unlike(sent: &[Sent]) -> usize {
    by_proposal(sent).iter().filter(|(p, views)| is_slow(p) && !alike(views)).count()
}

fn twice(sent: &[Sent]) -> usize {
    by_proposal(sent).values().filter(|views| !used_once(views)).count()
}

// Views and proposals of a run that do not say what was worked out.
fn untrue(seen: &Seen) -> usize {
    seen.sent.iter().filter(|sent| !agrees(sent)).count() + seen.made.iter().filter(|made| !tells(made)).count()
}

fn said(sent: &Sent) -> String {
    format!("office {}: view {:02x?}, used {:02x?}", sent.office, &sent.view[..], sent.used)
}

fn said_all(views: &[&Sent]) -> String {
    views.iter().map(|sent| said(sent)).collect::<Vec<_>>().join("; ")
}

fn held_to_the_request(t: &mut Tally, all: &[Seen]) {
    t.case("views agree with the proposals that they used", |t| {
        for (run, seen) in all.iter().enumerate() {
            seen.sent.iter().for_each(|sent| t.compared(agrees(sent), || format!("run {run}, {}", said(sent))));
        }
    });
    t.case("proposals have the numbers that the views before them used", |t| {
        for (run, made) in all.iter().enumerate().flat_map(|(run, seen)| seen.made.iter().map(move |m| (run, m))) {
            t.compared(tells(made), || format!("run {run}, office {}: {:02x?}", made.office, &made.proposal[..]));
        }
    });
    t.case("all views that used one slow proposal are equal", |t| {
        for (run, seen) in all.iter().enumerate() {
            for (_, views) in by_proposal(&seen.sent).iter().filter(|(p, _)| is_slow(p)) {
                t.compared(alike(views), || format!("run {run}, {}", said_all(views)));
            }
        }
    });
    t.case("no office used one proposal for two views", |t| {
        for (run, seen) in all.iter().enumerate() {
            for views in by_proposal(&seen.sent).values() {
                t.compared(used_once(views), || format!("run {run}, {}", said_all(views)));
            }
        }
    });
}

fn reached(t: &mut Tally, all: &[Seen]) {
    let (mut slow, mut fast, mut between, mut twins) = ([0; 17], [0; 2], 0, 0);
    for by in all.iter().map(|seen| by_proposal(&seen.sent)) {
        for (p, views) in &by {
            if is_slow(p) {
                slow[views.len().min(16)] += 1;
                between += views.iter().any(|sent| sent.restarts != views[0].restarts) as u64;
                let in_room = |room| [&p[..2], &[room], &p[3..]].concat();
                let is_there = |room| room != room_of(p) && by.contains_key(&in_room(room)[..]);
                twins += (0..ROOMS as u8).any(is_there) as u64;
            } else if views.len() > 1 {
                fast[alike(views) as usize] += 1;
            }
        }
    }
    let by_offices = |least: usize| slow[least..].iter().sum();
    t.often("slow proposals used by two offices or more", by_offices(2), 5000);
    t.often("slow proposals used by three offices or more", by_offices(3), 2000);
    t.often("slow proposals used by six offices or more", by_offices(6), 50);
    t.often("slow proposals used before and after a restart of one of their offices", between, 200);
    t.often("slow proposals used in two rooms that differ in the room alone", twins, 100);
    t.often("fast proposals used for two different views at two offices", fast[0], 2000);
    t.often("fast proposals used for one view at two offices or more", fast[1], 10_000);

    let views = |holds: &dyn Fn(&Sent) -> bool| {
        all.iter().flat_map(|seen| &seen.sent).filter(|sent| holds(sent)).count() as u64
    };
    let slow = |sent: &Sent| sent.is_slow();
    t.often("views of one office, by a fast proposal that is not written", views(&|s| s.used.len() == 1), 5000);
    t.often("views of several offices, by fast proposals", views(&|s| s.used.len() > 1 && !slow(s)), 20_000);
    t.often("views of several offices, by slow proposals", views(&slow), 5000);
    t.often("views of several offices, sent after a restart", views(&|s| s.restarted && s.used.len() > 1), 5000);
    t.often("views by slow proposals, sent after a restart", views(&|s| s.restarted && slow(s)), 2000);
    t.often("views that used a proposal of before its sender's restart", views(&|s| s.outlived), 1000);
    t.often("views by slow proposals, one of before its sender's restart", views(&|s| s.outlived && slow(s)), 200);
    let fewest = (0..ROOMS as u8).map(|room| views(&|s| room_of(&s.view) == room && s.used.len() > 1)).min().unwrap();
    t.often("views of several offices, of the room with fewest", fewest, 2000);
    let rooms = |seen: &&Seen| seen.sent.iter().any(|sent| room_of(&sent.view) != room_of(&seen.sent[0].view));
    t.often("runs with views in two rooms or more", all.iter().filter(rooms).count() as u64, 500);

    let sum = |of: fn(&Seen) -> u64| all.iter().map(of).sum();
    t.often("views lost by a cut just before they left", sum(|seen| seen.lost.last), 1000);
    t.often("views lost by a cut before anything of their answer left", sum(|seen| seen.lost.first), 1000);
    t.often("then the same own proposal for a view that left, alone", sum(|seen| seen.lost.again_alone), 300);
    t.often("then the same own proposal for a view that left, with others", sum(|seen| seen.lost.again), 10);

    let cuts = [
        "inside a mark",
        "inside a mark, behind a record of the same answer",
        "between a mark and its record",
        "between two records of one answer",
        "before the first record of an answer",
        "behind the last record of an answer",
        "where nothing was written",
    ];
    for (what, n) in cuts.into_iter().zip(t.reached.cuts) {
        t.often(&format!("cuts {what}"), n, 200);
    }
    t.often("proposals lost", t.reached.lost, 10_000);
    t.often("proposals held back while three others or more passed by", t.reached.passed_by, 500);
    t.often("answered 3", t.reached.answers[3], 1000);
    t.often("restarts at L", t.reached.at_l, 50);
    t.often("answered 13", t.reached.answers[13], 50);
    t.verdicts.check("a proposal that is delivered is refused by 3 and 13 alone", t.reached.refused == 0);
}

// In place of what a later view of the same members used, the proposal that an earlier one used: of each office in
// turn.
fn counted_again(t: &mut Tally, all: &[Seen]) {
    t.case("falsified: a used proposal counted for a second view is found", |t| {
        for (run, sent) in all.iter().map(|seen| &seen.sent).enumerate() {
            let key = |sent: &Sent| (sent.office, room_of(&sent.view), set(&sent.view, 7));
            for (at, later) in sent.iter().enumerate() {
                let Some(earlier) = sent[..at].iter().rfind(|earlier| key(earlier) == key(later)) else { continue };
                for (k, used) in earlier.used.iter().enumerate().take(later.used.len()) {
                    let mut other = sent.clone();
                    other[at].used[k] = used.clone();
                    t.compared(twice(&other) == 1, || format!("run {run}, view {at}, place {k}: not found"));
                }
            }
        }
    });
}

// One byte of a view's number, members or start numbers is another: of one view by slow proposals that another office
// used too, and of one by such fast proposals, which is no fault of request 11.
fn another_view(t: &mut Tally, all: &[Seen]) {
    let each = |t: &mut Tally, slow: bool, right: &dyn Fn(&[Sent]) -> bool| {
        for (run, sent) in all.iter().map(|seen| &seen.sent).enumerate() {
            let by = by_proposal(sent);
            let shared = |s: &Sent| s.used.iter().any(|p| is_slow(p) == slow && by[&p[..]].len() > 1);
            let Some(at) = sent.iter().position(shared) else { continue };
            for byte in 3..VIEW {
                let (mut other, mut view) = (sent.clone(), sent[at].view.to_vec());
                view[byte] ^= 1;
                other[at].view = view.into();
                let found = right(&other) && twice(&other) == 0 && !agrees(&other[at]);
                t.compared(found, || format!("run {run}, view {at}, byte {byte}: not as it should be"));
            }
        }
    };
    t.case("falsified: one slow view with another byte is found", |t| each(t, true, &|sent| unlike(sent) > 0));
    t.case("falsified: one fast view with another byte does not agree, and no more", |t| {
        each(t, false, &|sent| unlike(sent) == 0)
    });
}

// Views that a cut took away counted as sent: where the same own proposal came again for a view that left, it has then
// served two.
fn lost_counted(t: &mut Tally, logs: &[Vec<Happened>], all: &[Seen]) {
    t.case("falsified: runs with views that had not left, and their own proposal again, are found", |t| {
        for (run, (log, lost)) in logs.iter().zip(all.iter().map(|seen| &seen.lost)).enumerate() {
            if lost.again + lost.again_alone == 0 {
                continue;
            }
            let mut other = log.clone();
            for happened in &mut other {
                if let What::Accepted { written, left, .. } = &mut happened.what {
                    *left = written.len();
                }
            }
            t.compared(twice(&seen(&other).sent) > 0, || format!("run {run}: not found"));
        }
    });
}

// Another office's proposal that a view used was never accepted: the view is then taken to have used none, another or
// an old one.
fn never_accepted(t: &mut Tally, logs: &[Vec<Happened>], all: &[Seen]) {
    let nothing: Record = report(0, 0, 0).into();
    t.case("falsified: a used proposal that was never accepted is found", |t| {
        for (run, (log, seen_of)) in logs.iter().zip(all).enumerate() {
            for sent in seen_of.sent.iter().filter(|sent| sent.used.len() > 1).take(20) {
                let other = sent.used.iter().find(|p| p[3] as usize != sent.office).unwrap();
                let mut log = log.clone();
                for happened in log.iter_mut().filter(|happened| happened.office == sent.office) {
                    match &mut happened.what {
                        What::Accepted { handed, .. } if Rc::ptr_eq(handed, other) => *handed = nothing.clone(),
                        _ => (),
                    }
                }
                let seen = seen(&log);
                let found = untrue(&seen) + twice(&seen.sent) + unlike(&seen.sent) > 0;
                t.compared(found, || format!("run {run}, {}: not found", said(sent)));
            }
        }
    });
}

// Runs of servers that do one thing wrong: how many of them each check finds.
fn wrong_servers(t: &mut Tally) {
    let found = |wrong| {
        let (mut r, mut n) = (Random(2), [0; 3]);
        for case in 0..WRONG {
            let seen = seen(&a_run(&mut r, case % 4, wrong, &mut Met::default()));
            let faults = [unlike(&seen.sent), twice(&seen.sent), untrue(&seen)];
            n.iter_mut().zip(faults).for_each(|(n, faults)| *n += (faults > 0) as u64);
        }
        n
    };
    let [keeps, loses, lower] = [Wrong::KeepsUsed, Wrong::LosesFile, Wrong::TakesLower].map(found);
    t.often("runs of servers that keep a used proposal, with one proposal for two views", keeps[1], 50);
    t.often("runs of servers that lose their file, with one proposal for two views", loses[1], 50);
    t.often("runs of servers that count a lower slow number, with unequal views of one slow proposal", lower[0], 20);
    t.often("runs of servers that count a lower slow number, with views that do not agree", lower[2], 50);
}

fn main() {
    let (mut r, mut tally) = (Random(1), Tally::new(Met::default()));
    let t = &mut tally;
    let (mut logs, mut all) = (Vec::new(), Vec::new());
    for case in 0..RUNS {
        let log = a_run(&mut r, case, Wrong::Nothing, &mut t.reached);
        all.push(seen(&log));
        if logs.len() < FALSIFIED {
            logs.push(log);
        }
    }
    held_to_the_request(t, &all);
    reached(t, &all);
    counted_again(t, &all[..FALSIFIED]);
    another_view(t, &all[..FALSIFIED]);
    lost_counted(t, &logs, &all);
    never_accepted(t, &logs, &all);
    wrong_servers(t);
    println!("one view: {RUNS} runs, {} compared", tally.inputs);
    tally.verdicts.end();
}
