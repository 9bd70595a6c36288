// The calls for C of change request 4, with the room of change request 9, as include/room.h declares them.
#[link(name = "room", kind = "static")]
extern "C" {
    pub fn room_desk_sync(desk: *const u32, words: usize, room: u8, out: *mut u8, capacity: usize) -> usize;
    pub fn room_came_along(
        sheet: *const u8, sheet_length: usize, view: *const u8, view_length: usize, previous: u32, members: *mut u64,
    ) -> u32;
}
