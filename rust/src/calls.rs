//! The functions of the library. `tests/declarations.rs` compares these declarations with the proved source and the header.

extern "C" {
    pub fn kepolas_check_roll(roll: *const u8, roll_len: usize, told: *mut usize) -> u64;
    pub fn kepolas_read_text(text: *const u8, text_len: usize, room: *mut u8, room_len: usize, told: *mut usize)
        -> u64;
    pub fn kepolas_answer_on_roll(
        roll: *const u8,
        roll_len: usize,
        query: *const u8,
        query_len: usize,
        room: *mut u8,
        room_len: usize,
        told: *mut usize,
    ) -> u64;
    pub fn kepolas_cut_view(
        roll: *const u8,
        roll_len: usize,
        annotation: *const u8,
        annotation_len: usize,
        filters: *const u8,
        filters_len: usize,
        room: *mut u8,
        room_len: usize,
        told: *mut usize,
    ) -> u64;
    pub fn kepolas_rewrite(
        annotation: *const u8,
        annotation_len: usize,
        filters: *const u8,
        filters_len: usize,
        query: *const u8,
        query_len: usize,
        room: *mut u8,
        room_len: usize,
        told: *mut usize,
    ) -> u64;
    pub fn kepolas_curators_answer(
        roll: *const u8,
        roll_len: usize,
        annotation: *const u8,
        annotation_len: usize,
        filters: *const u8,
        filters_len: usize,
        query: *const u8,
        query_len: usize,
        room: *mut u8,
        room_len: usize,
        told: *mut usize,
    ) -> u64;
    pub fn kepolas_run_of(roll: *const u8, roll_len: usize, k: usize, start: *mut usize, end: *mut usize);
    pub fn kepolas_print_query(
        query: *const u8,
        query_len: usize,
        room: *mut u8,
        room_len: usize,
        told: *mut usize,
    ) -> u64;
    pub fn kepolas_check_content(
        roll: *const u8,
        roll_len: usize,
        rules: *const u8,
        rules_len: usize,
        list: *const u8,
        list_len: usize,
        told: *mut usize,
    ) -> u64;
}
