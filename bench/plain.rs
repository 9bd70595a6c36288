// The program of document 01 and change request 9 in good plain Rust, what `room` is timed against: eight states in
// place, check 2 of all eight on every event, 13 decided before the first change, lines by a small decimal writer.
// With --cfg unchecked it is without check 2, since the states are its own.
use std::io::{Read, Write};
const L: u32 = 2_000_000_000;
const FAST: u8 = 1;
const SLOW: u8 = 2;

#[inline(always)]
fn has_seat(set: u64, office: usize) -> bool {
    set >> (4 * office) & 15 != 0
}
#[inline(always)]
fn offices(x: u64) -> u32 {
    let a = (x | x >> 1 | x >> 2 | x >> 3) & 0x1111_1111_1111_1111;
    let b = (a | a >> 3) & 0x0303_0303_0303_0303;
    let c = (b | b >> 6) & 0x000f_000f_000f_000f;
    let d = (c | c >> 12) & 0x0000_00ff_0000_00ff;
    ((d | d >> 24) & 0xffff) as u32
}
struct Bits(u32);
impl Iterator for Bits {
    type Item = usize;
    #[inline(always)]
    fn next(&mut self) -> Option<usize> {
        if self.0 == 0 {
            return None;
        }
        let i = self.0.trailing_zeros() as usize;
        self.0 &= self.0 - 1;
        Some(i & 15)
    }
}
#[inline(always)]
fn number(r: &[u8], at: usize) -> u32 {
    u32::from_be_bytes(r[at..at + 4].try_into().unwrap())
}
#[inline(always)]
fn set(r: &[u8], at: usize) -> u64 {
    u64::from_be_bytes(r[at..at + 8].try_into().unwrap())
}

#[derive(Clone, Copy)]
struct Proposal {
    sender: u8,
    kind: u8,
    members: u64,
    start: u32,
    number: u32,
    used: [u32; 16],
}
#[derive(Clone, Copy)]
struct View {
    number: u32,
    members: u64,
    starts: [u32; 16],
}
#[derive(Clone, Copy, PartialEq)]
enum Mode {
    None,
    Fast,
    Slow,
}
struct Office {
    own: usize,
    mode: Mode,
    net: u64,
    stored: [Option<Proposal>; 16],
    accepted: [u32; 16],
    view: View,
    start: u32,
    number: u32,
    used: [u32; 16],
}
struct Out {
    b: [u8; 185],
    n: usize,
    // of the record at hand
    room: u8,
}
impl Out {
    #[inline(always)]
    fn put(&mut self, x: &[u8]) {
        self.b[self.n..self.n + x.len()].copy_from_slice(x);
        self.n += x.len();
    }
    fn sixteen(&mut self, a: &[u32; 16]) {
        let part: &mut [u8; 64] = (&mut self.b[self.n..self.n + 64]).try_into().unwrap();
        for k in 0..16 {
            part[4 * k..4 * k + 4].copy_from_slice(&a[k].to_be_bytes());
        }
        self.n += 64;
    }
    fn notice(&mut self, start: u32, net: u64) {
        self.put(&[0x53, 0x43, self.room]);
        self.put(&start.to_be_bytes());
        self.put(&net.to_be_bytes());
    }
    fn proposal(&mut self, p: &Proposal) {
        self.put(&[0x50, 0x52, self.room, p.sender, p.kind]);
        self.put(&p.members.to_be_bytes());
        self.put(&p.start.to_be_bytes());
        self.put(&p.number.to_be_bytes());
        self.sixteen(&p.used);
    }
    fn view(&mut self, v: &View) {
        self.put(&[0x56, 0x57, self.room]);
        self.put(&v.number.to_be_bytes());
        self.put(&v.members.to_be_bytes());
        self.sixteen(&v.starts);
    }
}
#[inline(always)]
fn over(a: &[u32; 16]) -> bool {
    a.iter().fold(false, |b, &n| b | (n > L))
}

struct Plan {
    notice: bool,
    start: u32,
    fast: u32,
    slow: u32,
    agreed: bool,
    view: u32,
    starts: [u32; 16],
}

impl Office {
    fn fresh(own: usize) -> Office {
        Office {
            own,
            mode: Mode::None,
            net: 0,
            stored: [None; 16],
            accepted: [0; 16],
            view: View {
                number: 0,
                members: 0,
                starts: [0; 16],
            },
            start: 0,
            number: 0,
            used: [0; 16],
        }
    }
    fn malformed(&self) -> bool {
        let mut bad = self.own > 15 || self.view.number > L || self.start > L || self.number > L;
        bad |= over(&self.accepted) | over(&self.view.starts) | over(&self.used);
        for p in self.stored.iter().flatten() {
            bad |= (p.start > L) | (p.number > L) | over(&p.used);
        }
        bad
    }
    fn report(&mut self, joining: u64, leaving: u64, out: &mut Out) -> u8 {
        let net = (self.net | joining) & !leaving;
        if net == self.net {
            return 0;
        }
        if !has_seat(net, self.own) {
            self.net = net;
            return 0;
        }
        let start = self.view.number.max(self.start + 1);
        let fast = 1 + self.largest(net, self.number);
        if start > L || fast > L {
            return 13;
        }
        let (slow, above) = self.look(net, fast);
        let slow = if slow {
            if above > 0 {
                above
            } else {
                fast + 1
            }
        } else {
            0
        };
        self.finish(
            net,
            Plan {
                notice: true,
                start,
                fast,
                slow,
                agreed: false,
                view: 0,
                starts: [0; 16],
            },
            None,
            out,
        )
    }
    #[inline(always)]
    fn largest(&self, net: u64, mut n: u32) -> u32 {
        for o in Bits(offices(net)) {
            if let Some(p) = &self.stored[o] {
                n = n.max(p.number)
            }
        }
        n
    }
    // Whether slow is called for in mode fast, and the largest matching slow number above `n` (0: none).
    #[inline(always)]
    fn look(&self, net: u64, n: u32) -> (bool, u32) {
        let (mut slow, mut uses, mut above) = (false, false, 0);
        for o in 0..16 {
            if o == self.own {
                continue;
            }
            if let Some(p) = &self.stored[o] {
                if p.members == net {
                    slow |= p.kind == SLOW;
                    uses |= p.used[self.own] == n;
                    if p.kind == SLOW && p.number > n {
                        above = above.max(p.number)
                    }
                }
            }
        }
        (slow | uses, above)
    }
    // All is decided before anything changes; the own proposals of the plan and the one received stand for their
    // slots.
    #[inline(always)]
    fn finish(&mut self, net: u64, mut plan: Plan, received: Option<&Proposal>, out: &mut Out) -> u8 {
        let number = if plan.slow > 0 {
            plan.slow
        } else if plan.fast > 0 {
            plan.fast
        } else {
            self.number
        };
        let mode = if plan.slow > 0 {
            Mode::Slow
        } else if plan.fast > 0 {
            Mode::Fast
        } else {
            self.mode
        };
        if number > L || plan.start > L {
            return 13;
        }
        let own_new = plan.slow > 0 || plan.fast > 0;
        let kind = if mode == Mode::Slow { SLOW } else { FAST };
        plan.agreed = true;
        let set = offices(net);
        for o in Bits(set) {
            let s = if o == self.own && own_new {
                plan.starts[o] = plan.start;
                continue;
            } else {
                &self.stored[o]
            };
            let s = match received {
                Some(p) if p.sender as usize == o => p,
                _ => match s {
                    Some(p) => p,
                    None => {
                        plan.agreed = false;
                        break;
                    }
                },
            };
            if s.kind != kind || s.members != net || (mode == Mode::Slow && s.number != number) {
                plan.agreed = false;
                break;
            }
            plan.starts[o] = s.start;
        }
        if plan.agreed {
            plan.view = 1 + plan.starts.iter().copied().max().unwrap();
            if plan.view > L {
                return 13;
            }
        }
        // from here on changes
        self.net = net;
        if let Some(p) = received {
            self.stored[p.sender as usize] = Some(*p);
            self.accepted[p.sender as usize] = p.number;
        }
        if plan.notice {
            self.start = plan.start;
            out.notice(plan.start, net);
        }
        if own_new {
            let mut p = Proposal {
                sender: self.own as u8,
                kind: FAST,
                members: net,
                start: self.start,
                number: plan.fast,
                used: self.used,
            };
            for k in 0..16 {
                if !has_seat(net, k) {
                    p.used[k] = 0;
                }
            }
            if plan.fast > 0 && set & !(1 << self.own) != 0 {
                out.proposal(&p);
            }
            if plan.slow > 0 {
                p.kind = SLOW;
                p.number = plan.slow;
                out.proposal(&p);
            }
            self.stored[self.own] = Some(p);
            self.number = number;
            self.mode = mode;
        }
        if plan.agreed {
            for o in Bits(set) {
                self.used[o] = self.stored[o].as_ref().unwrap().number;
                self.stored[o] = None;
            }
            self.view = View {
                number: plan.view,
                members: net,
                starts: plan.starts,
            };
            self.mode = Mode::None;
            out.view(&self.view);
        }
        0
    }
    fn proposal(&mut self, r: &[u8], out: &mut Out) -> u8 {
        let r: &[u8; 85] = r.try_into().unwrap();
        let mut p = Proposal {
            sender: r[3],
            kind: r[4],
            members: set(r, 5),
            start: number(r, 13),
            number: number(r, 17),
            used: [0; 16],
        };
        for k in 0..16 {
            p.used[k] = number(r, 21 + 4 * k);
        }
        let sender = p.sender as usize;
        if sender > 15 || sender == self.own {
            return 6;
        }
        if p.kind != FAST && p.kind != SLOW {
            return 7;
        }
        if p.start == 0 || p.start > L || p.number == 0 || p.number > L || over(&p.used) {
            return 8;
        }
        if !has_seat(p.members, sender) || !has_seat(p.members, self.own) {
            return 9;
        }
        let set = offices(p.members);
        let mut stray = false;
        for k in 0..16 {
            stray |= (set >> k & 1 == 0) & (p.used[k] != 0);
        }
        if stray {
            return 10;
        }
        if p.used[sender] >= p.number {
            return 19;
        }
        if p.number <= self.accepted[sender] {
            return 11;
        }
        if p.used[self.own] > self.number {
            return 12;
        }
        if p.members != self.net {
            self.stored[sender] = Some(p);
            self.accepted[sender] = p.number;
            return 0;
        }
        // the tests on the state with the proposal in its slot
        let (mut slow, mut uses, mut above, mut top) = (false, false, 0, self.number);
        for o in 0..16 {
            let q = if o == sender {
                &p
            } else {
                match &self.stored[o] {
                    Some(q) => q,
                    None => continue,
                }
            };
            if set >> o & 1 != 0 {
                top = top.max(q.number)
            }
            if o != self.own && q.members == self.net {
                slow |= q.kind == SLOW;
                uses |= q.used[self.own] == self.number;
                if q.kind == SLOW && q.number > self.number {
                    above = above.max(q.number)
                }
            }
        }
        let called = match self.mode {
            Mode::None => true,
            Mode::Fast => slow | uses,
            Mode::Slow => above > 0 || uses,
        };
        let slow = if called {
            if above > 0 {
                above
            } else {
                1 + top
            }
        } else {
            0
        };
        let notice = self.mode == Mode::None;
        let start = if notice {
            self.view.number.max(self.start + 1)
        } else {
            self.start
        };
        self.finish(
            self.net,
            Plan {
                notice,
                start,
                fast: 0,
                slow,
                agreed: false,
                view: 0,
                starts: [0; 16],
            },
            Some(&p),
            out,
        )
    }
}

struct Table {
    rooms: [Office; 8],
}
impl Table {
    fn fresh(own: usize) -> Table {
        Table {
            rooms: std::array::from_fn(|_| Office::fresh(own)),
        }
    }
    fn step(&mut self, record: &[u8], capacity: usize, out: &mut Out) -> u8 {
        out.n = 0;
        if cfg!(not(unchecked)) && self.rooms.iter().any(|office| office.malformed()) {
            return 2;
        }
        if capacity < 185 {
            return 3;
        }
        let length = match record {
            [0x4e, 0x45, ..] => 19,
            [0x50, 0x52, ..] => 85,
            _ => return 4,
        };
        if record.len() != length {
            return 5;
        }
        out.room = record[2];
        let Some(office) = self.rooms.get_mut(record[2] as usize) else {
            return 20;
        };
        if length == 19 {
            office.report(set(record, 3), set(record, 11), out)
        } else {
            office.proposal(record, out)
        }
    }
}

fn decimal(buf: &mut [u8], at: usize, mut n: u64) -> usize {
    let mut t = [0u8; 20];
    let mut k = 20;
    loop {
        k -= 1;
        t[k] = b'0' + (n % 10) as u8;
        n /= 10;
        if n == 0 {
            break;
        }
    }
    buf[at..at + 20 - k].copy_from_slice(&t[k..]);
    at + 20 - k
}

fn main() {
    let mut input = std::io::stdin().lock();
    let mut stdout = std::io::stdout().lock();
    let mut buf = vec![0u8; 65536];
    let (mut at, mut end) = (0, 0);
    let mut text: Vec<u8> = vec![0; 65536];
    let mut filled = 0;
    let mut out = Out {
        b: [0; 185],
        n: 0,
        room: 0,
    };
    macro_rules! refill {
        ($n:expr) => {
            while end - at < $n {
                buf.copy_within(at..end, 0);
                end -= at;
                at = 0;
                let got = input.read(&mut buf[end..]).unwrap();
                if got == 0 {
                    break;
                }
                end += got;
            }
        };
    }
    refill!(1);
    if at == end || buf[at] > 15 {
        stdout.write_all(b"0 1 0 0\n").unwrap();
        return;
    }
    let mut table = Table::fresh(buf[at] as usize);
    at += 1;
    let mut n = 0u64;
    loop {
        refill!(85);
        if at == end {
            break;
        }
        let run = &buf[at..end];
        let want = match run {
            [0x4e, 0x45, ..] => 19,
            [0x50, 0x52, ..] => 85,
            _ => run.len(),
        };
        let record = &run[..want.min(run.len())];
        n += 1;
        let refusal = table.step(record, 185, &mut out);
        let view = match refusal {
            4 | 5 | 20 => 0,
            _ => table.rooms[record[2] as usize & 7].view.number,
        };
        at += record.len();
        if filled > 65536 - 100 {
            stdout.write_all(&text[..filled]).unwrap();
            filled = 0;
        }
        filled = decimal(&mut text, filled, n);
        text[filled] = b' ';
        filled = decimal(&mut text, filled + 1, refusal as u64);
        text[filled] = b' ';
        filled = decimal(&mut text, filled + 1, out.n as u64);
        text[filled] = b' ';
        filled = decimal(&mut text, filled + 1, view as u64);
        text[filled] = b'\n';
        filled += 1;
        if refusal == 4 || refusal == 5 {
            break;
        }
    }
    stdout.write_all(&text[..filled]).unwrap();
}
