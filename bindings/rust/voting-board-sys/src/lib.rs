//! The calls of `board.h`, as they are: counts of voting power and registers of a board, by a library made from proved
//! code.
//!
//! The comments of `board.h`, which is in this package, are the contract of each call. This crate declares them and
//! compiles `board.c`, the library as one C file. The crate `voting-board` is safe and made for use.
//!
//! With `BOARD_LIBRARY_DIR` set when it is built, it links `libboard.a` of that folder instead: see [`NATIVE`].
//!
//! ```
//! use voting_board_sys::*;
//!
//! let weights = [50, 49, 1];
//! let mut room = vec![0u64; BOARD_ROOM_BYTES / 8]; // aligned to 8 bytes, where a u64 is
//! let mut counts = board_counts::default();
//! // SAFETY: the pointers are to as many items as board.h says, and nothing else uses them.
//! let result = unsafe {
//!     board_counts_of_weights(weights.as_ptr(), 3, 100, BOARD_HALF, room.as_mut_ptr().cast(), &mut counts)
//! };
//! assert_eq!((result, counts.quota, counts.omega), (BOARD_DONE, 51, 3));
//! ```
#![allow(non_camel_case_types)]
#![deny(missing_docs)]

use std::ffi::c_void;
use std::mem::{align_of, size_of};

mod constants;
pub use constants::*;

/// Whether the native library is linked, in place of `board.c`. On x86-64 it needs SSE4.2 and POPCNT.
pub const NATIVE: bool = matches!(env!("VOTING_BOARD_LIBRARY").as_bytes(), b"native");

/// An open chair.
#[repr(C, align(8))]
#[derive(Clone, Copy, Debug, Default, PartialEq, Eq)]
pub struct board_chair {
    /// Its number, from 1 to 32.
    pub chair: u64,
    /// Its weight, in votes.
    pub weight: u64,
    /// Its swings: sets of other open chairs that lose, and that win with it.
    pub swings: u64,
}

/// The least weight and size that win on a board, and its coalitions.
#[repr(C, align(8))]
#[derive(Clone, Copy, Debug, Default, PartialEq, Eq)]
pub struct board_counts {
    /// The least weight that can win, in votes.
    pub quota: u64,
    /// The least number of chairs that can win; 0 if the majority requires none.
    pub least_size: u64,
    /// The votes of all open chairs together.
    pub cast: u64,
    /// The total voting power, in votes.
    pub total: u64,
    /// The number of open chairs.
    pub chairs: u64,
    /// The number of winning coalitions.
    pub omega: u64,
    /// The number of all coalitions: 2 to the power of `chairs`.
    pub coalitions: u64,
    /// Open chairs by number, then zeros.
    pub rows: [board_chair; BOARD_CHAIRS],
}

/// The counts by each majority.
#[repr(C, align(8))]
#[derive(Clone, Copy, Debug, Default, PartialEq, Eq)]
pub struct board_all_counts {
    /// By `BOARD_HALF`.
    pub half: board_counts,
    /// By `BOARD_SEVENTY`.
    pub seventy: board_counts,
    /// By `BOARD_EIGHTY_FIVE`.
    pub eighty_five: board_counts,
    /// By `BOARD_QUORUM`.
    pub quorum: board_counts,
}

/// A member of a board.
#[repr(C, align(8))]
#[derive(Clone, Copy, Debug, Default, PartialEq, Eq)]
pub struct board_member {
    /// Its votes.
    pub votes: u64,
    /// The number of its chair, from 1 to 32, or 0 for a member in no chair.
    pub chair: u64,
    /// 0 for a member that votes, any other number for a suspended one.
    pub suspended: u64,
}

/// Memory for the lists of a call, with any content. It is 1 MiB, so it belongs on the heap.
#[repr(C, align(8))]
pub struct board_room {
    words: [u64; BOARD_ROOM_BYTES / 8],
}

/// A handle, through which a program calls a register. Its parts belong to the library.
#[repr(C, align(8))]
#[derive(Debug)]
pub struct board_register {
    at: *mut c_void,
    #[cfg(not(target_pointer_width = "64"))]
    high: u32,
    state: u64,
}

impl board_register {
    /// A handle without a register.
    pub const EMPTY: Self = Self {
        at: std::ptr::null_mut(),
        #[cfg(not(target_pointer_width = "64"))]
        high: 0,
        state: 0,
    };
}

/// A member with which a register starts.
#[repr(C, align(8))]
#[derive(Clone, Copy, Debug, Default, PartialEq, Eq)]
pub struct board_entry {
    /// Three capitals and a 0.
    pub code: [u8; 4],
    /// Bytes without a meaning, which align the votes on every system.
    pub unused: [u8; 4],
    /// At most 2^40.
    pub votes: u64,
}

/// A command. Parts that its kind does not have are not looked at, and 0 where the library writes it.
#[repr(C, align(8))]
#[derive(Clone, Copy, Debug, Default, PartialEq, Eq)]
pub struct board_command {
    /// `BOARD_OPEN` to `BOARD_WITHDRAW`.
    pub kind: u32,
    /// Three capitals and a 0.
    pub code: [u8; 4],
    /// From 1 to 32; of `BOARD_MOVE` also 0, no chair.
    pub chair: u64,
    /// At most 2^40.
    pub votes: u64,
}

/// A member of a register.
#[repr(C, align(8))]
#[derive(Clone, Copy, Debug, Default, PartialEq, Eq)]
pub struct board_member_row {
    /// Three capitals and a 0.
    pub code: [u8; 4],
    /// 1 for a suspended member, and 0 for any other.
    pub suspended: u32,
    /// The number of its chair, or 0 for a member in none.
    pub chair: u64,
    /// Its votes, also while it is suspended.
    pub votes: u64,
}

/// A record of a script: a command, or what is no command.
#[repr(C, align(8))]
#[derive(Clone, Copy, Debug, Default, PartialEq, Eq)]
pub struct board_item {
    /// The command, of kind `BOARD_OPEN` to `BOARD_READ`.
    pub command: board_command,
    /// The record's number, counted from 1 over all of the input.
    pub number: u32,
    /// Of `BOARD_READ`: the reader, from 1.
    pub reader: u32,
    /// Of `BOARD_READ`: a majority, as `BOARD_HALF`.
    pub majority: u32,
    /// The record's bytes are those of the input from this offset.
    pub from: u32,
    /// To this one, which is that of the first byte after them.
    pub to: u32,
}

/// Refuses to compile if a struct has not the size and the alignment of board.h.
macro_rules! sizes {
    ($($name:ident: $bytes:expr,)*) => {
        $(const _: () = assert!(size_of::<$name>() == $bytes && align_of::<$name>() == BOARD_ALIGNMENT);)*
    };
}

sizes! {
    board_chair: BOARD_CHAIR_BYTES,
    board_counts: BOARD_COUNTS_BYTES,
    board_all_counts: BOARD_ALL_COUNTS_BYTES,
    board_member: BOARD_MEMBER_BYTES,
    board_room: BOARD_ROOM_BYTES,
    board_register: BOARD_REGISTER_BYTES,
    board_entry: BOARD_ENTRY_BYTES,
    board_command: BOARD_COMMAND_BYTES,
    board_member_row: BOARD_MEMBER_ROW_BYTES,
    board_item: BOARD_ITEM_BYTES,
}

mod calls;
pub use calls::*;
