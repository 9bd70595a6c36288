// What a C caller of room_step pays: the records of an input of the program, each handed to a table by one call. With
// the argument `twice` an empty report is handed in behind each, with an output of no bytes: that it reads is seen by
// three of its bytes and its length, and check 2 is all else that such a call does before it answers 3. So the
// difference is what check 2 costs on the tables of this run.
use std::io::Read;

#[link(name = "room", kind = "static")]
extern "C" {
    fn room_fresh(office: u8, table: *mut u32, words: usize) -> u8;
    fn room_step(
        office: u8, table: *mut u32, words: usize, record: *const u8, length: usize, out: *mut u8, capacity: usize,
    ) -> u32;
}

fn main() {
    let twice = std::env::args().nth(1).is_some_and(|word| word == "twice");
    let mut input = Vec::new();
    std::io::stdin().read_to_end(&mut input).unwrap();
    let (office, mut table, mut out) = (input[0], vec![0; 3280], [0; 185]);
    let refusal = unsafe { room_fresh(office, table.as_mut_ptr(), table.len()) };
    assert_eq!(refusal, 0, "the office is made");
    let mut report = [0; 19];
    report[..2].copy_from_slice(b"NE");
    let (mut rest, mut accepted, mut short) = (&input[1..], 0_u64, 0_u64);
    while !rest.is_empty() {
        let (record, more) = rest.split_at(if rest.starts_with(b"NE") { 19 } else { 85 });
        let words = table.len();
        let mut call = |bytes: &[u8], capacity| unsafe {
            room_step(office, table.as_mut_ptr(), words, bytes.as_ptr(), bytes.len(), out.as_mut_ptr(), capacity)
        };
        accepted += (call(record, 185) % 256 == 0) as u64;
        if twice {
            short += (call(&report, 0) == 3) as u64;
        }
        rest = more;
    }
    println!("{accepted} accepted, {short} answered 3");
}
