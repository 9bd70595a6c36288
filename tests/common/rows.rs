// The state of a room as a row of words and a table of eight of them, by docs/LAYOUT.md, and the step on each by the
// model:
//   read, fresh, put, put_stored   a row; none is read where the words are no row
//   passes                         check 2 of one row
//   act                            one event on a row that passes check 2
//   fresh_table, place             a table, and the words of a room in it
//   passes_table                   check 2 of a table: of its length and of all eight rows
//   act_table                      one event on a table: the row of its room alone changes
//   step_table                     both calls in turn: a record read for an office, then acted on
use crate::model::{read as read_record, Event, Mode, Office, Proposal, View, What, CAPACITY, FAST, L, ROOMS, SLOW};
use std::ops::Range;

// Of one room, and of a table.
pub const WORDS: usize = 410;
pub const TABLE: usize = 3280;

pub const OWN: usize = 0;
pub const MODE: usize = 1;
pub const NET: usize = 2;
pub const VIEW_MEMBERS: usize = 4;
// Bit o is set where a proposal is stored for office o.
pub const PRESENT: usize = 6;
pub const START: usize = 71;
pub const NUMBER: usize = 72;
pub const VIEW_NUMBER: usize = 73;
const VIEW_STARTS: usize = 74;
pub const ACCEPTED: usize = 90;
const USED: usize = 106;

// Of the proposal stored for office o: sender, kind, two words of members.
pub fn slot(o: usize) -> usize {
    7 + 4 * o
}

// Its start number, proposal number, sixteen used numbers.
pub fn slot_numbers(o: usize) -> usize {
    122 + 18 * o
}

pub fn present(row: &[u32], o: usize) -> bool {
    row[PRESENT] >> o & 1 == 1
}

fn set(row: &[u32], at: usize) -> u64 {
    row[at] as u64 | (row[at + 1] as u64) << 32
}

fn put_set(row: &mut [u32], at: usize, set: u64) {
    row[at] = set as u32;
    row[at + 1] = (set >> 32) as u32;
}

fn sixteen(row: &[u32], at: usize) -> [u32; 16] {
    row[at..at + 16].try_into().unwrap()
}

// What is stored for an office. The rules ask of the kind only whether it is 1 or 2, and nothing of the sender.
fn stored(row: &[u32], o: usize) -> Option<Proposal> {
    let (at, numbers) = (slot(o), slot_numbers(o));
    present(row, o).then(|| Proposal {
        sender: o as u8,
        kind: if row[at + 1] <= 255 { row[at + 1] as u8 } else { 0 },
        members: set(row, at + 2),
        start: row[numbers],
        number: row[numbers + 1],
        used: sixteen(row, numbers + 2),
    })
}

// A proposal with its bit; or no bit, and zeros.
pub fn put_stored(row: &mut [u32], o: usize, p: Option<Proposal>) {
    let (at, numbers) = (slot(o), slot_numbers(o));
    row[PRESENT] &= !(1 << o);
    row[at..at + 4].fill(0);
    row[numbers..numbers + 18].fill(0);
    if let Some(p) = p {
        row[PRESENT] |= 1 << o;
        row[at..at + 2].copy_from_slice(&[p.sender as u32, p.kind as u32]);
        put_set(row, at + 2, p.members);
        row[numbers] = p.start;
        row[numbers + 1] = p.number;
        row[numbers + 2..numbers + 18].copy_from_slice(&p.used);
    }
}

// The state in some words; none where they are no row.
pub fn read(row: &[u32]) -> Option<Office> {
    if row.len() != WORDS || row[PRESENT] >= 65_536 {
        return None;
    }
    let mode = *[Mode::None, Mode::Fast, Mode::Slow].get(row[MODE] as usize)?;
    Some(Office {
        own: row[OWN] as usize,
        mode,
        net: set(row, NET),
        stored: std::array::from_fn(|o| stored(row, o)),
        accepted: sixteen(row, ACCEPTED),
        view: View { number: row[VIEW_NUMBER], members: set(row, VIEW_MEMBERS), starts: sixteen(row, VIEW_STARTS) },
        start: row[START],
        number: row[NUMBER],
        used: sixteen(row, USED),
    })
}

pub fn fresh(own: usize) -> Vec<u32> {
    let mut row = vec![0; WORDS];
    row[OWN] = own as u32;
    row
}

// All but the stored proposals, and but for the own office.
pub fn put(row: &mut [u32], office: &Office) {
    row[MODE] = match office.mode {
        Mode::None => 0,
        Mode::Fast => FAST as u32,
        Mode::Slow => SLOW as u32,
    };
    put_set(row, NET, office.net);
    put_set(row, VIEW_MEMBERS, office.view.members);
    row[START] = office.start;
    row[NUMBER] = office.number;
    row[VIEW_NUMBER] = office.view.number;
    row[VIEW_STARTS..VIEW_STARTS + 16].copy_from_slice(&office.view.starts);
    row[ACCEPTED..ACCEPTED + 16].copy_from_slice(&office.accepted);
    row[USED..USED + 16].copy_from_slice(&office.used);
}

// The number of document 01, with the row as it then is and what is written in `out`. A slot that the event neither
// fills nor empties keeps its words.
pub fn act(row: &mut [u32], event: &Event, out: &mut Vec<u8>) -> u8 {
    let before = read(row).expect("words that pass check 2");
    let mut after = before;
    let refusal = after.act(event, out);
    if refusal != 0 {
        return refusal;
    }
    put(row, &after);
    let sender = match &event.what {
        What::Report { .. } => None,
        What::Proposal(p) => Some(p.sender as usize),
    };
    for o in 0..16 {
        // a proposal of its own raises the own number
        let made = o == after.own && after.number != before.number;
        let emptied = before.stored[o].is_some() && after.stored[o].is_none();
        if sender == Some(o) || made || emptied {
            put_stored(row, o, after.stored[o]);
        }
    }
    0
}

// The numbers of a proposal count where one is stored.
pub fn passes(row: &[u32]) -> bool {
    let low = |numbers: &[u32]| numbers.iter().all(|&n| n <= L);
    row.len() == WORDS
        && row[OWN] <= 15
        && row[MODE] <= 2
        && row[PRESENT] < 65_536
        && low(&row[START..slot_numbers(0)])
        && (0..16).all(|o| !present(row, o) || low(&row[slot_numbers(o)..][..18]))
}

// Room 0 first, and nothing between.
pub fn place(room: usize) -> Range<usize> {
    WORDS * room..WORDS * (room + 1)
}

pub fn fresh_table(own: usize) -> Vec<u32> {
    fresh(own).repeat(ROOMS)
}

pub fn passes_table(table: &[u32]) -> bool {
    table.len() == TABLE && (0..ROOMS).all(|room| passes(&table[place(room)]))
}

pub fn act_table(table: &mut [u32], event: &Event, capacity: usize, out: &mut Vec<u8>) -> u8 {
    out.clear();
    if !passes_table(table) {
        2
    } else if capacity < CAPACITY {
        3
    } else if event.room as usize >= ROOMS {
        20
    } else {
        act(&mut table[place(event.room as usize)], event, out)
    }
}

pub fn step_table(office: u8, table: &mut [u32], record: &[u8], capacity: usize, out: &mut Vec<u8>) -> u8 {
    out.clear();
    match read_record(office, record) {
        Ok(event) => act_table(table, &event, capacity, out),
        Err(refusal) => refusal,
    }
}
