// Writes one input of the program: office 0 and the records that it is handed in a long play of six offices. All eight
// rooms are in use, one after another at random. Arguments: how many records; then `high` where the numbers of the
// play are to be high; then `alone` where it is to be in room 0 alone, which is the play that was timed before there
// were rooms.
#[allow(dead_code)]
#[path = "../tests/common/model.rs"]
mod model;
#[allow(dead_code)]
#[path = "../tests/common/play.rs"]
mod play;
#[allow(dead_code)]
#[path = "../tests/common/random.rs"]
mod random;
#[allow(dead_code)]
#[path = "../tests/common/repeats.rs"]
mod repeats;

use std::io::Write;

const HIGH: u32 = 1_500_000_000;

fn main() {
    let mut arguments = std::env::args().skip(1);
    let records: usize = arguments.next().expect("argument: how many records").parse().unwrap();
    let (mut base, mut rooms) = (0, &[0, 1, 2, 3, 4, 5, 6, 7][..]);
    for word in arguments {
        match &word[..] {
            "high" => base = HIGH,
            "alone" => rooms = &[0],
            other => panic!("{other}: behind the number of records there is high, alone or nothing"),
        }
    }
    // Without the habit of repeats, 15 in a thousand records are repeats. Seats that come back call for slow rounds.
    let habits = play::Habits {
        change: 4,
        own_report: 0,
        back: 1,
        repeat: 0,
        loss: 2,
        swap: 10,
        forged: 0,
        damaged: 0,
        stray: 0,
    };
    let mut play = play::Play::new(random::Random(1), habits, 0x00ff_ffff, 0, rooms);
    if base > 0 {
        rooms.iter().for_each(|&room| (0..6).for_each(|office| lift(&mut play, room, office)));
    }
    let mut senders = [1, 16].into_iter().cycle();
    let mut turns = rooms.iter().cycle();
    while play.records < records {
        play.go(records.min(play.records + 49));
        // now and then a proposal that is refused
        let room = *turns.next().unwrap();
        let o = play.office(room);
        let used = [0; 16];
        let sender = senders.next().unwrap();
        let stray =
            model::Proposal { sender, kind: model::FAST, members: o.net, start: o.start, number: base + 1, used };
        if play.records < records {
            play.hand(0, &stray.bytes(room));
        }
    }
    std::io::stdout().write_all(&play.input).unwrap();
}

// An office gets its numbers in a room from a view that counts a proposal of office 15, which has no seat in the play;
// the start number follows with the next report. Then its net view is empty, as that of a fresh office. Since all six
// are lifted alike, they do the same in the play as without it.
fn lift(play: &mut play::Play, room: u8, office: usize) {
    let members = 1 << (4 * office) | 1 << 60;
    let far = model::Proposal { sender: 15, kind: model::FAST, members, start: HIGH, number: HIGH, used: [0; 16] };
    for record in [far.bytes(room), model::report(room, members, 0), model::report(room, 0, members)] {
        assert_eq!(play.hand(office, &record), 0);
    }
}
