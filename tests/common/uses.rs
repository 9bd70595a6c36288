// Which proposals each view that left an office has used, by document 01's rules and from the records alone: of each
// other office of the members the last proposal accepted from it in that room, of the own office the last one made
// there, both since the office began. And what change request 11 says of these uses.
//
// A used proposal is not taken out here: where none was accepted since the last view that used that office, a view can
// only have used the same one again, and `used_once` is to see that.
//
// An own fast proposal without a recipient is not written. It is made where a start notice names seats of this office
// alone, and the rules give all its bytes: the notice's members and start number, 1 + the own proposal number (nobody
// else's counts), and the own used number.
use crate::model::{has_seat, number, offices, room_of, set, Proposal, FAST, NOTICE, PROPOSAL, ROOMS, SLOW};
use std::collections::BTreeMap;
use std::rc::Rc;

pub type Record = Rc<[u8]>;

#[derive(Clone)]
pub enum What {
    // It accepted a record and wrote these, and so many of them left.
    Accepted { handed: Record, written: Vec<Record>, left: usize },
    // It lost its current and began again at the last whole mark of its file.
    Restarted(u32),
}

#[derive(Clone)]
pub struct Happened {
    pub office: usize,
    pub what: What,
}

// A view that left.
#[derive(Clone)]
pub struct Sent {
    pub office: usize,
    pub view: Record,
    // by the offices of the members; an office of which no proposal is known has none here
    pub used: Vec<Record>,
    // its office began again before, above 0
    pub restarted: bool,
    // it uses a proposal of before its sender's last restart
    pub outlived: bool,
    // how often the offices of its members had begun again
    pub restarts: usize,
}

impl Sent {
    pub fn is_slow(&self) -> bool {
        self.used.first().is_some_and(|p| is_slow(p))
    }
}

// A proposal that was written, with what its office had used and its last number before.
pub struct Made {
    pub office: usize,
    pub proposal: Record,
    used: [u32; 16],
    above: u32,
}

#[derive(Default)]
pub struct Seen {
    pub sent: Vec<Sent>,
    pub made: Vec<Made>,
    pub lost: Lost,
}

// Views that a cut took away.
#[derive(Default)]
pub struct Lost {
    // just before they left, and before anything of their answer did
    pub last: u64,
    pub first: u64,
    // views that left later and used the same own proposal: of this office alone, of others too
    pub again_alone: u64,
    pub again: u64,
}

// Of a room at an office, since it began.
#[derive(Default)]
struct Room {
    last: [Option<Record>; 16],
    number: u32,
    used: [u32; 16],
}

#[derive(Default)]
struct Office {
    rooms: [Room; ROOMS],
    began: u32,
    restarts: usize,
    // the own proposals of views that a cut took away, over restarts
    lost: Vec<Record>,
}

pub fn seen(log: &[Happened]) -> Seen {
    let (mut all, mut seen): ([Office; 16], Seen) = Default::default();
    for Happened { office, what } in log {
        match what {
            What::Accepted { handed, written, left } => {
                if handed.len() == PROPOSAL {
                    let room = &mut all[*office].rooms[room_of(handed) as usize];
                    room.last[handed[3] as usize] = Some(handed.clone());
                }
                for (at, record) in written.iter().enumerate() {
                    match record.len() {
                        NOTICE => all[*office].noticed(*office, record),
                        PROPOSAL => seen.made.push(all[*office].proposed(*office, record)),
                        _ if at < *left => {
                            let sent = view(&mut all, *office, record);
                            seen.lost.is_again(&all[*office], &sent);
                            seen.sent.push(sent);
                        }
                        _ => {
                            seen.lost.last += (*left == at) as u64;
                            seen.lost.first += (*left == 0) as u64;
                            all[*office].loses_view(*office, record);
                        }
                    }
                }
            }
            What::Restarted(mark) => all[*office].begins(*mark),
        }
    }
    seen
}

impl Office {
    fn room(&mut self, record: &[u8]) -> &mut Room {
        &mut self.rooms[room_of(record) as usize]
    }

    fn noticed(&mut self, own: usize, notice: &[u8]) {
        let (start, members, room) = (number(notice, 3), set(notice, 7), self.room(notice));
        if offices(members).all(|o| o == own) {
            room.number += 1;
            let mut used = [0; 16];
            used[own] = room.used[own];
            let p = Proposal { sender: own as u8, kind: FAST, members, start, number: room.number, used };
            room.last[own] = Some(p.bytes(room_of(notice)).into());
        }
    }

    fn proposed(&mut self, own: usize, proposal: &Record) -> Made {
        let (p, room) = (Proposal::read(proposal), self.room(proposal));
        let used = std::array::from_fn(|o| if has_seat(p.members, o) { room.used[o] } else { 0 });
        let above = std::mem::replace(&mut room.number, p.number);
        room.last[own] = Some(proposal.clone());
        Made { office: own, proposal: proposal.clone(), used, above }
    }

    fn loses_view(&mut self, own: usize, view: &[u8]) {
        let last = self.room(view).last[own].clone();
        self.lost.extend(last);
    }

    fn begins(&mut self, mark: u32) {
        self.rooms = Default::default();
        self.rooms.iter_mut().for_each(|room| room.number = mark);
        self.began = mark;
        self.restarts += 1;
    }
}

fn view(all: &mut [Office; 16], office: usize, view: &Record) -> Sent {
    let (members, room) = (set(view, 7), all[office].room(view));
    let used: Vec<Record> = offices(members).filter_map(|o| room.last[o].clone()).collect();
    used.iter().for_each(|p| room.used[p[3] as usize] = number(p, 17));
    // from its restart on an office's numbers are above the one that it began at
    let outlived = used.iter().any(|p| number(p, 17) <= all[p[3] as usize].began);
    let (restarted, restarts) = (all[office].began > 0, offices(members).map(|o| all[o].restarts).sum());
    Sent { office, view: view.clone(), used, restarted, outlived, restarts }
}

impl Lost {
    fn is_again(&mut self, office: &Office, sent: &Sent) {
        if sent.used.iter().any(|p| office.lost.contains(p)) {
            *(if sent.used.len() == 1 { &mut self.again_alone } else { &mut self.again }) += 1;
        }
    }
}

// What a view says of the proposals that it used, by the agreement test: one of each office of its members, of these
// members, all fast, or all slow with one number; their start numbers, and 1 + the largest.
pub fn agrees(sent: &Sent) -> bool {
    let (view, all): (_, Vec<Proposal>) = (&sent.view, sent.used.iter().map(|p| Proposal::read(p)).collect());
    let members = set(view, 7);
    let start = |o| all.iter().find(|p| p.sender as usize == o).map_or(0, |p| p.start);
    all.iter().map(|p| p.sender as usize).eq(offices(members))
        && all.iter().all(|p| p.members == members && p.kind == all[0].kind)
        && all.iter().all(|p| p.kind == FAST || p.number == all[0].number)
        && (0..16).all(|o| number(view, 15 + 4 * o) == start(o))
        && all.iter().map(|p| p.start).max().is_some_and(|largest| number(view, 3) == largest + 1)
}

// What a proposal says of the views before it: its used numbers are those of the proposals last used, and its own
// number is above the last.
pub fn tells(made: &Made) -> bool {
    let p = Proposal::read(&made.proposal);
    p.sender as usize == made.office && p.used == made.used && p.number > made.above
}

// The views that used each proposal, which is known by all its bytes.
pub fn by_proposal(sent: &[Sent]) -> BTreeMap<&[u8], Vec<&Sent>> {
    let mut all: BTreeMap<&[u8], Vec<&Sent>> = BTreeMap::new();
    for view in sent {
        view.used.iter().for_each(|p| all.entry(p).or_default().push(view));
    }
    all
}

pub fn is_slow(proposal: &[u8]) -> bool {
    proposal[4] == SLOW
}

// Change request 11, its first half, for a slow proposal. Views are equal where all their bytes are.
pub fn alike(views: &[&Sent]) -> bool {
    views.iter().all(|sent| sent.view == views[0].view)
}

// Its second half, for every proposal.
pub fn used_once(views: &[&Sent]) -> bool {
    (1..views.len()).all(|at| views[..at].iter().all(|sent| sent.office != views[at].office))
}
