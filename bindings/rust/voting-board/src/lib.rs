//! The exact voting power of a board, and a register of its members.
//!
//! Members with votes sit in chairs, and each chair casts the votes of its members as one block. This crate counts the
//! coalitions of chairs that win, and the swings of each chair, over all coalitions; it keeps a register of members,
//! chairs and commands; and it replays the script of a register. Votes are whole numbers, and a board has at most
//! [`CHAIRS`] chairs.
//!
//! ```
//! use voting_board::{indices, Majority};
//!
//! let board = indices(&[50, 49, 1], Majority::Half)?;
//! println!("{} votes win, {} of {} coalitions", board.quota, board.omega, board.coalitions);
//! for chair in &board.chairs {
//!     println!("chair {}: {} swings, share {:?}", chair.chair, chair.swings, chair.share);
//! }
//! # assert_eq!(board.omega, 3);
//! # Ok::<(), voting_board::Refused>(())
//! ```
//!
//! - [`indices`], [`indices_of_all`], [`indices_of_members`], [`indices_of_many`] and [`Board`] count boards.
//! - [`Register`] keeps a register, and [`Command`] changes it.
//! - [`replay()`], [`replay_file`] and [`replay_text`] replay a script.
//! - [`Refused`] is the error of each call: it has the number and the name of docs/FORMATS.md, the place, the value and
//!   what is allowed.
//!
//! # What is proved
//!
//! The calls of the library are proved: counts, registers and the reading of scripts. `board.c`, which is compiled
//! where no library is given, is made from what is proved in steps that are tested. This crate is tested and not
//! proved: it converts values, checks arguments, makes fractions of counts and forms messages.
//!
//! # Threads
//!
//! Calls on several threads are independent. A [`Register`] and a [`Replay`] may go to another thread, but two threads
//! don't share one.
//!
//! # Panics
//!
//! The first call panics if this crate was built with the native library and the processor lacks the instructions of
//! x86-64-v2, or if the library isn't of this crate's version. No other call panics.
//!
//! # Features
//!
//! `serde`: results, commands and rows of tables can be serialized and deserialized.
#![deny(unsafe_op_in_unsafe_fn, missing_docs)]

mod board;
mod chair_names;
mod code;
mod command;
#[cfg(feature = "serde")]
mod data;
mod difference;
mod fraction;
mod indices;
mod library;
mod limits;
mod majority;
mod names;
mod refused;
mod register;
mod replay;
mod script;
mod table;

pub use board::{indices, indices_of_all, indices_of_many, indices_of_members, Board};
pub use code::Code;
pub use command::Command;
pub use difference::Difference;
pub use fraction::Fraction;
pub use indices::{ByMajority, Chair, Indices};
pub use limits::Limits;
pub use majority::Majority;
pub use names::{Refusal, CHAIRS, COMMANDS, INPUT_BYTES, MEMBERS, MEMBER_VOTES, READERS, TOTAL_VOTES, VERSION};
pub use refused::Refused;
pub use register::{Member, Register};
pub use replay::{replay, replay_file, replay_text, Outcome, Reading, Replay};
pub use table::MemberRow;
