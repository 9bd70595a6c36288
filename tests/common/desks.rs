// Plays of several offices with their desks, in one room or more: each desk hears what its office writes to it, puts
// its sync record on the sheet of the room after each notice, and asks at each view who came along.
use crate::hearing::told;
use crate::inputs::habits;
use crate::lent::{BYTE, WORD};
use crate::model::{room_of, NOTICE, ROOMS};
use crate::random::Random;
use crate::seat::{self, members, Desk, Machine, WORDS};
use crate::sheet::{bytes, came_along, is_in, Answer, Sync};
use crate::Tally;

#[link(name = "room", kind = "static")]
extern "C" {
    fn room_desk_fresh(seat: u8, desk: *mut u32, words: usize) -> u8;
    fn room_desk_hear(desk: *mut u32, words: usize, record: *const u8, length: usize) -> u8;
}

// The desks and the sheets that they fill, one for each room: the last eight records of each seat, which never are too
// many.
struct Desks {
    desks: Vec<Desk>,
    sheets: [Vec<Sync>; ROOMS],
}

// What the desks were answered at their views.
#[derive(Default)]
struct Views {
    missing: u64,
    // where nothing is forged
    missing_in_calm: u64,
    alone: u64,
    some: u64,
    all: u64,
    // by the sheet of some other room the answer would be another
    by_room: u64,
}

impl Views {
    fn count(&mut self, answer: Answer, members: u64, seat: usize, calm: bool, by_room: bool) {
        self.by_room += by_room as u64;
        match answer {
            Answer::Came(set) if set == members => self.all += 1,
            Answer::Came(set) if set == 1 << seat => self.alone += 1,
            Answer::Came(_) => self.some += 1,
            _ => {
                self.missing += 1;
                self.missing_in_calm += calm as u64;
            }
        }
    }
}

impl Desks {
    fn new() -> Desks {
        let fresh = |seat| {
            let mut desk = [WORD; WORDS];
            unsafe { room_desk_fresh(seat, desk.as_mut_ptr(), WORDS) };
            desk
        };
        Desks { desks: (0..64).map(fresh).collect(), sheets: Default::default() }
    }

    fn hear(&mut self, seat: usize, record: &[u8]) -> bool {
        unsafe { room_desk_hear(self.desks[seat].as_mut_ptr(), WORDS, record.as_ptr(), record.len()) == 0 }
    }

    fn put(&mut self, room: u8, record: Sync) {
        let sheet = &mut self.sheets[room as usize];
        let places: Vec<usize> = (0..sheet.len()).filter(|&at| sheet[at].seat == record.seat).collect();
        if places.len() == 8 {
            sheet.remove(places[0]);
        }
        sheet.push(record);
    }

    // A notice is heard, and the desk sends its record.
    fn on_notice(&mut self, t: &mut Tally, seat: usize, record: &[u8]) -> bool {
        let (heard, room) = (self.hear(seat, record), room_of(record));
        let made = t.make(&self.desks[seat], room, &[BYTE; 24]);
        made.into_iter().for_each(|made| self.put(room, made));
        heard && made.is_some()
    }

    // A view is heard, and the desk asks who came along from the view before it. Its own last record counts, and
    // names its own number. With the answer: whether another room's sheet would give another.
    fn on_view(&mut self, t: &mut Tally, seat: usize, record: &[u8]) -> (bool, Answer, bool) {
        let room = room_of(record) as usize;
        let (own, view) = (Machine::of(&self.desks[seat], room).view, seat::view(record));
        let heard = self.hear(seat, record);
        let last = self.sheets[room].iter().rfind(|sync| sync.seat as usize == seat).copied();
        let counts = last.is_some_and(|sync| sync.counts_for(&view) && sync.previous == own);
        let answer = t.ask(&bytes(&self.sheets[room]), record, own);
        let among = match answer {
            Answer::Came(set) => is_in(set, seat),
            Answer::Missing(missing) => missing != seat,
            Answer::Refused(_) => false,
        };
        (heard && counts && among, answer, self.by_room(record, own, answer))
    }

    fn by_room(&self, record: &[u8], own: u32, answer: Answer) -> bool {
        let others = (0..ROOMS).filter(|&room| room != room_of(record) as usize && !self.sheets[room].is_empty());
        others.map(|room| came_along(&bytes(&self.sheets[room]), record, own)).any(|other| other != answer)
    }
}

// A play through its desks: whether each heard what it was told, and its last record counted at each view.
fn a_play(t: &mut Tally, random: &mut Random, office: usize, views: &mut Views) -> bool {
    let (habits, mut desks, mut right) = (habits(random), Desks::new(), true);
    let calm = habits.forged == 0 && habits.damaged == 0;
    for (office, record) in told(random, habits, office, 250) {
        for seat in (4 * office..4 * office + 4).filter(|&seat| is_in(members(&record), seat)) {
            if record.len() == NOTICE {
                right &= desks.on_notice(t, seat, &record);
            } else {
                let (counted, answer, by_room) = desks.on_view(t, seat, &record);
                right &= counted;
                views.count(answer, members(&record), seat, calm, by_room);
            }
        }
    }
    right
}

pub fn plays(t: &mut Tally) {
    let (mut right, mut views) = (true, Views::default());
    t.case("plays of several offices and their desks", |t| {
        let mut r = Random(0x9e37_79b9_7f4a_7c15);
        for k in 0..160 {
            right &= a_play(t, &mut r, k % 16, &mut views);
        }
    });
    t.verdicts.check("plays: the record made after the last notice before a view counts for it", right);
    t.verdicts.check("plays: where nothing is forged, no record is missing at a view", views.missing_in_calm == 0);
    t.often("views to which a desk came alone", views.alone, 1000);
    t.often("views to which a desk and some members came along", views.some, 1000);
    t.often("views to which all members came along", views.all, 1000);
    t.often("views for which a record was missing", views.missing, 1000);
    t.often("views that another room's sheet would have answered otherwise", views.by_room, 1000);
}
