//! The constants of board.h. Made by tools/made from the sources: do not edit.

/// `BOARD_CHAIRS` of board.h.
pub const BOARD_CHAIRS: usize = 32;
/// `BOARD_MEMBERS` of board.h.
pub const BOARD_MEMBERS: usize = 256;
/// `BOARD_COMMANDS` of board.h.
pub const BOARD_COMMANDS: u32 = 1_000_000;
/// `BOARD_READERS` of board.h.
pub const BOARD_READERS: u32 = 4;
/// `BOARD_INPUT_BYTES` of board.h.
pub const BOARD_INPUT_BYTES: usize = 4_194_304;
/// `BOARD_SHEET_WORDS` of board.h.
pub const BOARD_SHEET_WORDS: usize = 34;
/// `BOARD_ROOM_SETS` of board.h.
pub const BOARD_ROOM_SETS: usize = 65_536;
/// `BOARD_MAJORITIES` of board.h.
pub const BOARD_MAJORITIES: usize = 4;
/// `BOARD_COMMAND_TEXT` of board.h.
pub const BOARD_COMMAND_TEXT: usize = 32;
/// `BOARD_ALIGNMENT` of board.h.
pub const BOARD_ALIGNMENT: usize = 8;
/// `BOARD_CHAIR_BYTES` of board.h.
pub const BOARD_CHAIR_BYTES: usize = 24;
/// `BOARD_COUNTS_BYTES` of board.h.
pub const BOARD_COUNTS_BYTES: usize = 824;
/// `BOARD_ALL_COUNTS_BYTES` of board.h.
pub const BOARD_ALL_COUNTS_BYTES: usize = 3_296;
/// `BOARD_MEMBER_BYTES` of board.h.
pub const BOARD_MEMBER_BYTES: usize = 24;
/// `BOARD_ROOM_BYTES` of board.h.
pub const BOARD_ROOM_BYTES: usize = 1_048_576;
/// `BOARD_REGISTER_BYTES` of board.h.
pub const BOARD_REGISTER_BYTES: usize = 16;
/// `BOARD_ENTRY_BYTES` of board.h.
pub const BOARD_ENTRY_BYTES: usize = 16;
/// `BOARD_COMMAND_BYTES` of board.h.
pub const BOARD_COMMAND_BYTES: usize = 24;
/// `BOARD_MEMBER_ROW_BYTES` of board.h.
pub const BOARD_MEMBER_ROW_BYTES: usize = 24;
/// `BOARD_ITEM_BYTES` of board.h.
pub const BOARD_ITEM_BYTES: usize = 48;
/// `BOARD_DONE` of board.h.
pub const BOARD_DONE: u8 = 0;
/// The chair is open already.
pub const BOARD_CHAIR_OPEN: u8 = 1;
/// The chair is not open.
pub const BOARD_CHAIR_NOT_OPEN: u8 = 2;
/// The chair has members, suspended ones counted.
pub const BOARD_CHAIR_HAS_MEMBERS: u8 = 3;
/// No member has this code.
pub const BOARD_UNKNOWN_MEMBER: u8 = 4;
/// The member's voting rights are suspended.
pub const BOARD_MEMBER_SUSPENDED: u8 = 5;
/// The member is there already.
pub const BOARD_ALREADY_THERE: u8 = 6;
/// The member is suspended already.
pub const BOARD_ALREADY_SUSPENDED: u8 = 7;
/// The member is not suspended.
pub const BOARD_NOT_SUSPENDED: u8 = 8;
/// As many commands as the journal limit were accepted.
pub const BOARD_JOURNAL_FULL: u8 = 9;
/// Malloc or realloc failed.
pub const BOARD_OUT_OF_MEMORY: u8 = 10;
/// Two members have the same code.
pub const BOARD_DUPLICATE_MEMBER: u8 = 11;
/// There are, or would be, more than 256 members.
pub const BOARD_TOO_MANY_MEMBERS: u8 = 12;
/// The readers or the limit of the journal are out of range.
pub const BOARD_BAD_LIMIT: u8 = 13;
/// A chair's number is not from 1 to 32.
pub const BOARD_BAD_CHAIR: u8 = 14;
/// A member's code is not three ASCII capitals.
pub const BOARD_BAD_MEMBER: u8 = 15;
/// A member has more than 2^40 votes.
pub const BOARD_VOTES_TOO_LARGE: u8 = 16;
/// No majority, or no command, has this number; a bad record.
pub const BOARD_BAD_RECORD: u8 = 17;
/// Of board_replay, board_trace: the text is longer than its room.
pub const BOARD_WRITE_FAULT: u8 = 20;
/// The first record is not 'member,votes'.
pub const BOARD_BAD_HEADER: u8 = 21;
/// There is no reader of this number.
pub const BOARD_BAD_READER: u8 = 22;
/// A member has this code already.
pub const BOARD_MEMBER_EXISTS: u8 = 25;
/// The member sits in a chair.
pub const BOARD_MEMBER_SEATED: u8 = 26;
/// The input ends before the record 'script'.
pub const BOARD_NO_SCRIPT: u8 = 28;
/// The input has more than 4,194,304 bytes.
pub const BOARD_TOO_LONG: u8 = 29;
/// The words, weights or members are not a board's.
pub const BOARD_BAD_SHEET: u8 = 32;
/// The handle has no register.
pub const BOARD_NO_REGISTER: u8 = 34;
/// There is no item at this index.
pub const BOARD_BAD_INDEX: u8 = 35;
/// Of portable/board.c: the code came to what its proof rules out.
pub const BOARD_TRAPPED: u8 = 255;
/// More than half of the votes cast, if all open chairs vote.
pub const BOARD_HALF: u32 = 0;
/// At least one vote, and at least 70 per cent of the total.
pub const BOARD_SEVENTY: u32 = 1;
/// At least one vote, and at least 85 per cent of the total.
pub const BOARD_EIGHTY_FIVE: u32 = 2;
/// More than half of the open chairs, with at least half of the total.
pub const BOARD_QUORUM: u32 = 3;
/// Open a closed chair: chair.
pub const BOARD_OPEN: u32 = 0;
/// Close an open chair without members: chair.
pub const BOARD_CLOSE: u32 = 1;
/// Move a member to an open chair, or to none: code, chair.
pub const BOARD_MOVE: u32 = 2;
/// Set the votes of a member: code, votes.
pub const BOARD_VOTES: u32 = 3;
/// Suspend a member's votes: code.
pub const BOARD_SUSPEND: u32 = 4;
/// End a suspension: code.
pub const BOARD_RESTORE: u32 = 5;
/// Add a member, in no chair: code, votes.
pub const BOARD_ADMIT: u32 = 6;
/// Remove a member that is in no chair: code.
pub const BOARD_WITHDRAW: u32 = 7;
/// Publish all accepted commands.
pub const BOARD_PUBLISH: u32 = 8;
/// Read the published sheet: reader, majority.
pub const BOARD_READ: u32 = 9;
