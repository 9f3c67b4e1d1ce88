//! The names, limits and sentences of the library. Made by tools/made from the sources: do not edit.

/// The version of the library.
pub const VERSION: &str = "1.0.0";
/// The most chairs of a board.
pub const CHAIRS: usize = 32;
/// The most members of a register at any moment.
pub const MEMBERS: usize = 256;
/// The most commands of a journal.
pub const COMMANDS: u32 = 1_000_000;
/// The most readers of a replay.
pub const READERS: u32 = 4;
/// The most bytes of an input.
pub const INPUT_BYTES: usize = 4_194_304;
/// The most votes of a member.
pub const MEMBER_VOTES: u64 = 1_099_511_627_776;
/// The most votes of a board together.
pub const TOTAL_VOTES: u64 = 281_474_976_710_656;

/// The word of each majority and what wins, in the order of the library's numbers, from 0.
pub(crate) const MAJORITIES: [(&str, &str); 4] = [
    ("half", "more than half of the votes cast, if all open chairs vote"),
    ("70", "at least one vote, and at least 70 per cent of the total"),
    ("85", "at least one vote, and at least 85 per cent of the total"),
    ("quorum", "more than half of the open chairs, with at least half of the total"),
];

/// The word of each kind of command, in the order of the library's numbers, from 0.
pub(crate) const KINDS: [&str; 8] = ["open", "close", "move", "votes", "suspend", "restore", "admit", "withdraw"];

/// What refuses a value, a command or an input: the numbers, names and reasons of docs/FORMATS.md.
#[derive(Clone, Copy, Debug, PartialEq, Eq, PartialOrd, Ord, Hash)]
#[cfg_attr(feature = "serde", derive(serde::Serialize, serde::Deserialize))]
#[non_exhaustive]
#[repr(u8)]
pub enum Refusal {
    /// The chair is open already.
    ChairOpen = 1,
    /// The chair is not open.
    ChairNotOpen = 2,
    /// The chair has members, suspended ones counted.
    ChairHasMembers = 3,
    /// No member has this code.
    UnknownMember = 4,
    /// The member's voting rights are suspended.
    MemberSuspended = 5,
    /// The member is there already.
    AlreadyThere = 6,
    /// The member is suspended already.
    AlreadySuspended = 7,
    /// The member is not suspended.
    NotSuspended = 8,
    /// As many commands as the journal limit were accepted.
    JournalFull = 9,
    /// Out of memory.
    OutOfMemory = 10,
    /// Two members have the same code.
    DuplicateMember = 11,
    /// There are more than 256 members.
    TooManyMembers = 12,
    /// A limit is out of its range.
    BadLimit = 13,
    /// A chair's number is not from 1 to 32.
    BadChair = 14,
    /// A member's code is not three ASCII capitals.
    BadMember = 15,
    /// A member has more than 2^40 votes.
    VotesTooLarge = 16,
    /// A record is not well formed.
    BadRecord = 17,
    /// No place or no entry for a reader.
    NoEntry = 18,
    /// The input could not be read.
    ReadFault = 19,
    /// The output could not be written.
    WriteFault = 20,
    /// The first record is not 'member,votes'.
    BadHeader = 21,
    /// There is no reader of this number.
    BadReader = 22,
    /// A reader is blocking the publication.
    Busy = 23,
    /// A reading is not the sheet of a publication, or is older than the one before.
    Mismatch = 24,
    /// A member has this code already.
    MemberExists = 25,
    /// The member sits in a chair.
    MemberSeated = 26,
    /// A gate was closed.
    GateClosed = 27,
    /// The input ends before the record 'script'.
    NoScript = 28,
    /// The input has more than 4,194,304 bytes.
    TooLong = 29,
    /// A command of the journal is refused.
    BadJournal = 30,
    /// The cuts are not in order, or one is past the journal's end.
    BadCuts = 31,
    /// The words are not a sheet's.
    BadSheet = 32,
    /// More chairs are open than are counted.
    TooManyChairs = 33,
    /// The handle has no register.
    NoRegister = 34,
    /// There is no item at this index.
    BadIndex = 35,
    /// The library came to a point that its proof rules out: the compiler or the machine is at fault.
    Trapped = 255,
}

/// Each refusal with its name and its reason, by number.
pub(crate) const REFUSALS: [(Refusal, &str, &str); 36] = [
    (Refusal::ChairOpen, "ChairOpen", "the chair is open already"),
    (Refusal::ChairNotOpen, "ChairNotOpen", "the chair is not open"),
    (Refusal::ChairHasMembers, "ChairHasMembers", "the chair has members, suspended ones counted"),
    (Refusal::UnknownMember, "UnknownMember", "no member has this code"),
    (Refusal::MemberSuspended, "MemberSuspended", "the member's voting rights are suspended"),
    (Refusal::AlreadyThere, "AlreadyThere", "the member is there already"),
    (Refusal::AlreadySuspended, "AlreadySuspended", "the member is suspended already"),
    (Refusal::NotSuspended, "NotSuspended", "the member is not suspended"),
    (Refusal::JournalFull, "JournalFull", "as many commands as the journal limit were accepted"),
    (Refusal::OutOfMemory, "OutOfMemory", "out of memory"),
    (Refusal::DuplicateMember, "DuplicateMember", "two members have the same code"),
    (Refusal::TooManyMembers, "TooManyMembers", "there are more than 256 members"),
    (Refusal::BadLimit, "BadLimit", "a limit is out of its range"),
    (Refusal::BadChair, "BadChair", "a chair's number is not from 1 to 32"),
    (Refusal::BadMember, "BadMember", "a member's code is not three ASCII capitals"),
    (Refusal::VotesTooLarge, "VotesTooLarge", "a member has more than 2^40 votes"),
    (Refusal::BadRecord, "BadRecord", "a record is not well formed"),
    (Refusal::NoEntry, "NoEntry", "no place or no entry for a reader"),
    (Refusal::ReadFault, "ReadFault", "the input could not be read"),
    (Refusal::WriteFault, "WriteFault", "the output could not be written"),
    (Refusal::BadHeader, "BadHeader", "the first record is not 'member,votes'"),
    (Refusal::BadReader, "BadReader", "there is no reader of this number"),
    (Refusal::Busy, "Busy", "a reader is blocking the publication"),
    (Refusal::Mismatch, "Mismatch", "a reading is not the sheet of a publication, or is older than the one before"),
    (Refusal::MemberExists, "MemberExists", "a member has this code already"),
    (Refusal::MemberSeated, "MemberSeated", "the member sits in a chair"),
    (Refusal::GateClosed, "GateClosed", "a gate was closed"),
    (Refusal::NoScript, "NoScript", "the input ends before the record 'script'"),
    (Refusal::TooLong, "TooLong", "the input has more than 4,194,304 bytes"),
    (Refusal::BadJournal, "BadJournal", "a command of the journal is refused"),
    (Refusal::BadCuts, "BadCuts", "the cuts are not in order, or one is past the journal's end"),
    (Refusal::BadSheet, "BadSheet", "the words are not a sheet's"),
    (Refusal::TooManyChairs, "TooManyChairs", "more chairs are open than are counted"),
    (Refusal::NoRegister, "NoRegister", "the handle has no register"),
    (Refusal::BadIndex, "BadIndex", "there is no item at this index"),
    (
        Refusal::Trapped,
        "Trapped",
        "the library came to a point that its proof rules out: the compiler or the machine is at fault",
    ),
];

/// What is allowed for a value.
#[allow(dead_code)]
pub(crate) mod allowed {
    pub(crate) const WEIGHT: &str = "votes are whole numbers from 0";
    pub(crate) const WEIGHTS: &str = "a board has at most 32 chairs";
    pub(crate) const TOTAL: &str = "votes are whole numbers from 0";
    pub(crate) const TOTAL_MOST: &str = "at most 281474976710656";
    pub(crate) const TOTAL_LEAST: &str = "at least the sum of the weights";
    pub(crate) const VOTES: &str = "votes are whole numbers from 0 to 1099511627776";
    pub(crate) const CHAIR: &str = "a chair is a whole number from 1 to 32";
    pub(crate) const SEAT: &str = "a chair is a whole number from 1 to 32, or None for no chair";
    pub(crate) const CODE: &str = "a code is three ASCII capitals";
    pub(crate) const NAME: &str = "a name is text";
    pub(crate) const SUSPENDED: &str = "true or false";
    pub(crate) const MAJORITY: &str = "half, 70, 85 or quorum";
    pub(crate) const READERS: &str = "a whole number from 1 to 4";
    pub(crate) const JOURNAL: &str = "a whole number from 1 to 1000000";
    pub(crate) const LENGTH: &str = "a whole number from 0 to the number of accepted commands";
    pub(crate) const COLUMNS: &str = "the columns are code, name, votes, chair, chair_name and suspended";
}
