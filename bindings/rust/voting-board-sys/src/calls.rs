use crate::*;

/// A string that ends with a 0, as `std::ffi::CStr` takes it.
pub type c_string = *const std::os::raw::c_char;

extern "C" {
    /// The counts of a sheet's 34 words by a majority.
    pub fn board_counts_of_sheet(
        words: *const u64,
        len: usize,
        majority: u32,
        room: *mut board_room,
        counts: *mut board_counts,
    ) -> u8;

    /// The counts of a sheet's 34 words by each majority.
    pub fn board_all_counts_of_sheet(
        words: *const u64,
        len: usize,
        room: *mut board_room,
        counts: *mut board_all_counts,
    ) -> u8;

    /// The counts of a board by the weights of its chairs 1, 2 and so on, and its total.
    pub fn board_counts_of_weights(
        weights: *const u64,
        len: usize,
        total: u64,
        majority: u32,
        room: *mut board_room,
        counts: *mut board_counts,
    ) -> u8;

    /// The counts of a board by its members. Bit k - 1 of `open_chairs` opens chair k.
    pub fn board_counts_of_members(
        members: *const board_member,
        len: usize,
        open_chairs: u32,
        majority: u32,
        room: *mut board_room,
        counts: *mut board_counts,
    ) -> u8;

    /// Starts a register of these members in the handle.
    pub fn board_register_start(
        entries: *const board_entry,
        len: usize,
        journal: u32,
        handle: *mut board_register,
    ) -> u8;

    /// Carries out a command.
    pub fn board_register_apply(handle: *mut board_register, command: *const board_command, accepted: *mut u32) -> u8;

    /// The result that [`board_register_apply`] would return. Carries out nothing.
    pub fn board_register_check(handle: *const board_register, command: *const board_command) -> u8;

    /// Publishes all accepted commands.
    pub fn board_register_publish(handle: *mut board_register, published: *mut u32) -> u8;

    /// The number of accepted commands.
    pub fn board_register_accepted(handle: *const board_register) -> u32;

    /// The number of published commands.
    pub fn board_register_published(handle: *const board_register) -> u32;

    /// The number of members.
    pub fn board_register_members(handle: *const board_register) -> usize;

    /// The number of members with which the register started.
    pub fn board_register_entries(handle: *const board_register) -> usize;

    /// The member at an index, in the order of entry.
    pub fn board_register_member_at(handle: *const board_register, index: usize, row: *mut board_member_row) -> u8;

    /// The member at an index of those with which the register started.
    pub fn board_register_entry_at(handle: *const board_register, index: usize, entry: *mut board_entry) -> u8;

    /// The accepted command at an index.
    pub fn board_register_command_at(handle: *const board_register, index: usize, command: *mut board_command) -> u8;

    /// Writes the 34 words of the register's sheet.
    pub fn board_register_sheet(handle: *const board_register, words: *mut u64) -> u8;

    /// The counts of the register's sheet by a majority.
    pub fn board_register_counts(
        handle: *const board_register,
        majority: u32,
        room: *mut board_room,
        counts: *mut board_counts,
    ) -> u8;

    /// The counts of the register's sheet by each majority.
    pub fn board_register_all_counts(
        handle: *const board_register,
        room: *mut board_room,
        counts: *mut board_all_counts,
    ) -> u8;

    /// The counts of the sheet after the published commands.
    pub fn board_register_read(
        handle: *const board_register,
        majority: u32,
        room: *mut board_room,
        counts: *mut board_counts,
    ) -> u8;

    /// Puts a copy of the register as it was after its first `accepted` commands into another handle.
    pub fn board_register_copy(handle: *const board_register, accepted: u32, copy: *mut board_register) -> u8;

    /// Takes the register back, in place, to what it was after its first `accepted` commands, of which no more than the
    /// first `published` stay published.
    pub fn board_register_undo(handle: *mut board_register, accepted: u32, published: u32) -> u8;

    /// Frees the register of a handle.
    pub fn board_register_free(handle: *mut board_register);

    /// Reads an input of `board replay` without carrying it out.
    pub fn board_script(
        input: *const u8,
        len: usize,
        readers: u32,
        members: *mut board_entry,
        members_len: usize,
        members_count: *mut usize,
        items: *mut board_item,
        items_len: usize,
        items_count: *mut usize,
        record: *mut u32,
    ) -> u8;

    /// Replays an input as the program `board replay` does.
    pub fn board_replay(
        input: *const u8,
        len: usize,
        readers: u32,
        journal: u32,
        out: *mut u8,
        out_len: usize,
        written: *mut u64,
        record: *mut u32,
    ) -> u8;

    /// The number of bytes of the text of this replay.
    pub fn board_replay_length(
        input: *const u8,
        len: usize,
        readers: u32,
        journal: u32,
        length: *mut u64,
        record: *mut u32,
    ) -> u8;

    /// Traces an input as the program `board trace` does.
    pub fn board_trace(
        input: *const u8,
        len: usize,
        readers: u32,
        journal: u32,
        out: *mut u8,
        out_len: usize,
        written: *mut u64,
        record: *mut u32,
    ) -> u8;

    /// The number of bytes of the text of this trace.
    pub fn board_trace_length(
        input: *const u8,
        len: usize,
        readers: u32,
        journal: u32,
        length: *mut u64,
        record: *mut u32,
    ) -> u8;

    /// The version of the library.
    pub fn board_version() -> c_string;

    /// The name of a refusal or a fault by its number, or "".
    pub fn board_refusal_name(number: u32) -> c_string;

    /// The name of a majority by its number, or "".
    pub fn board_majority_name(majority: u32) -> c_string;

    /// The number of the majority with this name, or BOARD_MAJORITIES.
    pub fn board_majority_number(name: c_string) -> u32;

    /// Writes a command as a record of a script, and a 0, to BOARD_COMMAND_TEXT bytes.
    pub fn board_command_text(command: *const board_command, text: *mut u8) -> usize;

    /// Writes the beginning of a register as a script, and returns the length of the whole script.
    pub fn board_register_text(handle: *const board_register, out: *mut u8, out_len: usize) -> usize;
}
