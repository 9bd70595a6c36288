// The calls for C of change request 7, on a table, as include/room.h declares them.
#[link(name = "room", kind = "static")]
extern "C" {
    pub fn room_restart(office: u8, file: *const u8, length: usize, table: *mut u32, words: usize) -> u8;
    pub fn room_last_mark(file: *const u8, length: usize) -> u64;
    pub fn room_mark_before(last: u32, rest: *const u8, length: usize, out: *mut u8, capacity: usize) -> u64;
}
