//! The calls of the library with lists in place of addresses. All unsafe code of this crate is here.
//!
//! SAFETY, of every call below: a list is lent for the call with its own length; a place that a call writes is a value
//! of its caller's own; the room is one that no other call uses; a handle is used by one call at a time, since nothing
//! that holds one is `Sync`, and no call comes back to this crate.
use crate::names::VERSION;
use crate::{Majority, Refusal};
use std::alloc::{alloc, dealloc, Layout};
use std::cell::{Cell, UnsafeCell};
use std::ffi::CStr;
use std::ptr::NonNull;
use std::sync::atomic::{AtomicBool, Ordering};
use voting_board_sys as sys;
use voting_board_sys::{board_all_counts, board_command, board_counts, board_entry, board_item, board_member};

const NO_PROCESSOR: &str = "this processor lacks x86-64-v2 (SSE4.2, POPCNT): use a package built from board.c";

/// Checks, before the first call, that the processor can run the library, and that it is of this crate's version.
fn ready() {
    static READY: AtomicBool = AtomicBool::new(false);
    if !READY.load(Ordering::Relaxed) {
        assert!(!sys::NATIVE || has_instructions(), "{NO_PROCESSOR}");
        // SAFETY: the string is static, and ends with a 0.
        let version = unsafe { CStr::from_ptr(sys::board_version()) }.to_string_lossy();
        assert!(version == VERSION, "the library has version {version}, and this crate has {VERSION}");
        READY.store(true, Ordering::Relaxed);
    }
}

#[cfg(target_arch = "x86_64")]
fn has_instructions() -> bool {
    is_x86_feature_detected!("sse4.2") && is_x86_feature_detected!("popcnt")
}

#[cfg(not(target_arch = "x86_64"))]
fn has_instructions() -> bool {
    true
}

/// What a result of the library says.
fn done(result: u8) -> Result<(), Refusal> {
    match result {
        sys::BOARD_DONE => Ok(()),
        number => Err(Refusal::of_number(number)),
    }
}

/// Memory for the lists of a call, on the heap.
struct Room(NonNull<sys::board_room>);

impl Room {
    fn new() -> Result<Self, Refusal> {
        // SAFETY: the layout has a size above 0.
        let room = unsafe { alloc(Layout::new::<sys::board_room>()) };
        NonNull::new(room.cast()).map(Self).ok_or(Refusal::OutOfMemory)
    }
}

impl Drop for Room {
    fn drop(&mut self) {
        // SAFETY: `new` allocated it by this layout.
        unsafe { dealloc(self.0.as_ptr().cast(), Layout::new::<sys::board_room>()) }
    }
}

thread_local! {
    static ROOM: Cell<Option<Room>> = const { Cell::new(None) };
}

/// Makes a call with the room of this thread, and returns what it wrote.
fn counted<Counts: Default>(
    call: impl FnOnce(*mut sys::board_room, *mut Counts) -> Result<(), Refusal>,
) -> Result<Counts, Refusal> {
    ready();
    let kept = ROOM.try_with(Cell::take).ok().flatten();
    let room = kept.map_or_else(Room::new, Ok)?;
    let mut counts = Counts::default();
    let result = call(room.0.as_ptr(), &mut counts);
    // A thread that is ending keeps no room.
    let _ = ROOM.try_with(|it| it.set(Some(room)));
    result.map(|()| counts)
}

/// The counts of the chairs 1, 2 and so on.
pub(crate) fn counts_of_weights(weights: &[u64], total: u64, majority: Majority) -> Result<board_counts, Refusal> {
    let (at, len) = (weights.as_ptr(), weights.len());
    counted(|room, to| done(unsafe { sys::board_counts_of_weights(at, len, total, majority as u32, room, to) }))
}

/// The counts of a sheet by each majority, in the order of `Majority::ALL`.
pub(crate) fn all_counts_of_sheet(words: &[u64]) -> Result<[board_counts; Majority::ALL.len()], Refusal> {
    let (at, len) = (words.as_ptr(), words.len());
    counted(|room, to| done(unsafe { sys::board_all_counts_of_sheet(at, len, room, to) })).map(in_order)
}

fn in_order(it: board_all_counts) -> [board_counts; Majority::ALL.len()] {
    [it.half, it.seventy, it.eighty_five, it.quorum]
}

/// The counts of the chairs in which members sit, and of those in the mask.
pub(crate) fn counts_of_members(
    members: &[board_member],
    open_chairs: u32,
    majority: Majority,
) -> Result<board_counts, Refusal> {
    let (at, len) = (members.as_ptr(), members.len());
    counted(|room, to| done(unsafe { sys::board_counts_of_members(at, len, open_chairs, majority as u32, room, to) }))
}

/// What `board_script` wrote: the members, the records, and the fault with the number of its record.
pub(crate) struct Script {
    pub(crate) members: Vec<board_entry>,
    pub(crate) items: Vec<board_item>,
    pub(crate) fault: Option<(Refusal, u32)>,
}

/// Reads an input without carrying it out. Fails only where memory runs out.
pub(crate) fn script(input: &[u8], readers: u32) -> Result<Script, Refusal> {
    ready();
    let mut members = vec![board_entry::default(); sys::BOARD_MEMBERS];
    let mut items = vec![board_item::default(); 4];
    loop {
        let (mut members_count, mut items_count, mut record) = (0, 0, 0);
        let result = done(unsafe {
            sys::board_script(
                input.as_ptr(),
                input.len(),
                readers,
                members.as_mut_ptr(),
                members.len(),
                &mut members_count,
                items.as_mut_ptr(),
                items.len(),
                &mut items_count,
                &mut record,
            )
        });
        if let Err(refusal @ (Refusal::OutOfMemory | Refusal::Trapped)) = result {
            return Err(refusal);
        }
        if items_count <= items.len() {
            members.truncate(members_count);
            items.truncate(items_count);
            return Ok(Script { members, items, fault: result.err().map(|it| (it, record)) });
        }
        let more = items_count - items.len();
        items.try_reserve_exact(more).map_err(|_| Refusal::OutOfMemory)?;
        items.resize(items_count, board_item::default());
    }
}

/// The text of a replay, and the fault that ended it with the number of its record.
pub(crate) type Replayed = (Vec<u8>, Option<(Refusal, u32)>);

/// Replays an input as the program does. Fails only where memory runs out.
pub(crate) fn replay(input: &[u8], readers: u32, journal: u32) -> Result<Replayed, Refusal> {
    ready();
    let (at, len) = (input.as_ptr(), input.len());
    let (mut length, mut written, mut record) = (0, 0, 0);
    let measured = done(unsafe { sys::board_replay_length(at, len, readers, journal, &mut length, &mut record) });
    if let Err(refusal @ (Refusal::OutOfMemory | Refusal::Trapped)) = measured {
        return Err(refusal);
    }
    let length = usize::try_from(length).map_err(|_| Refusal::OutOfMemory)?;
    let mut text = Vec::new();
    text.try_reserve_exact(length).map_err(|_| Refusal::OutOfMemory)?;
    text.resize(length, 0);
    let out = text.as_mut_ptr();
    let result = done(unsafe { sys::board_replay(at, len, readers, journal, out, length, &mut written, &mut record) });
    match result {
        Err(refusal @ (Refusal::OutOfMemory | Refusal::Trapped)) => Err(refusal),
        _ => Ok((text, result.err().map(|it| (it, record)))),
    }
}

/// A handle with a register.
pub(crate) struct Handle {
    place: UnsafeCell<sys::board_register>,
    /// Whether a call was trapped: then the register is neither used nor freed.
    trapped: Cell<bool>,
}

// SAFETY: a register keeps nothing of the thread that makes it, and between calls a handle may go to another thread.
unsafe impl Send for Handle {}

impl Drop for Handle {
    fn drop(&mut self) {
        if !self.trapped.get() {
            unsafe { sys::board_register_free(self.place.get()) }
        }
    }
}

impl Handle {
    fn empty() -> Self {
        ready();
        Self { place: UnsafeCell::new(sys::board_register::EMPTY), trapped: Cell::new(false) }
    }

    /// Makes a call on the register, unless an earlier one was trapped.
    fn call(&self, call: impl FnOnce(*mut sys::board_register) -> u8) -> Result<(), Refusal> {
        if self.trapped.get() {
            return Err(Refusal::Trapped);
        }
        let result = done(call(self.place.get()));
        self.trapped.set(result == Err(Refusal::Trapped));
        result
    }

    /// A register of these members.
    pub(crate) fn start(entries: &[board_entry], journal: u32) -> Result<Self, Refusal> {
        let handle = Self::empty();
        let (at, len) = (entries.as_ptr(), entries.len());
        handle.call(|it| unsafe { sys::board_register_start(at, len, journal, it) })?;
        Ok(handle)
    }

    /// A copy as it was after its first commands.
    pub(crate) fn copy(&self, accepted: u32) -> Result<Self, Refusal> {
        let copy = Self::empty();
        self.call(|it| unsafe { sys::board_register_copy(it, accepted, copy.place.get()) })?;
        Ok(copy)
    }

    /// Takes the register back to its first commands, of which no more than these are published. It needs no memory.
    pub(crate) fn undo(&mut self, accepted: u32, published: u32) -> Result<(), Refusal> {
        self.call(|it| unsafe { sys::board_register_undo(it, accepted, published) })
    }

    pub(crate) fn apply(&mut self, command: &board_command) -> Result<u32, Refusal> {
        let mut accepted = 0;
        self.call(|it| unsafe { sys::board_register_apply(it, command, &mut accepted) })?;
        Ok(accepted)
    }

    pub(crate) fn check(&self, command: &board_command) -> Result<(), Refusal> {
        self.call(|it| unsafe { sys::board_register_check(it, command) })
    }

    pub(crate) fn publish(&mut self) -> Result<u32, Refusal> {
        let mut published = 0;
        self.call(|it| unsafe { sys::board_register_publish(it, &mut published) })?;
        Ok(published)
    }

    /// A number of something, or 0 if an earlier call was trapped.
    fn number<Number: Default>(&self, call: impl FnOnce(*mut sys::board_register) -> Number) -> Number {
        if self.trapped.get() {
            return Number::default();
        }
        call(self.place.get())
    }

    pub(crate) fn accepted(&self) -> u32 {
        self.number(|it| unsafe { sys::board_register_accepted(it) })
    }

    pub(crate) fn published(&self) -> u32 {
        self.number(|it| unsafe { sys::board_register_published(it) })
    }

    pub(crate) fn members(&self) -> usize {
        self.number(|it| unsafe { sys::board_register_members(it) })
    }

    pub(crate) fn entries(&self) -> usize {
        self.number(|it| unsafe { sys::board_register_entries(it) })
    }

    pub(crate) fn member_at(&self, index: usize) -> Option<sys::board_member_row> {
        let mut row = sys::board_member_row::default();
        self.call(|it| unsafe { sys::board_register_member_at(it, index, &mut row) }).ok()?;
        Some(row)
    }

    pub(crate) fn entry_at(&self, index: usize) -> Option<board_entry> {
        let mut entry = board_entry::default();
        self.call(|it| unsafe { sys::board_register_entry_at(it, index, &mut entry) }).ok()?;
        Some(entry)
    }

    pub(crate) fn command_at(&self, index: usize) -> Option<board_command> {
        let mut command = board_command::default();
        self.call(|it| unsafe { sys::board_register_command_at(it, index, &mut command) }).ok()?;
        Some(command)
    }

    /// The words of its sheet: for each chair its weight plus 1, or 0 if it is closed; then the total and the commands.
    pub(crate) fn sheet(&self) -> Result<[u64; sys::BOARD_SHEET_WORDS], Refusal> {
        let mut words = [0; sys::BOARD_SHEET_WORDS];
        self.call(|it| unsafe { sys::board_register_sheet(it, words.as_mut_ptr()) })?;
        Ok(words)
    }

    pub(crate) fn counts(&self, majority: Majority) -> Result<board_counts, Refusal> {
        counted(|room, to| self.call(|it| unsafe { sys::board_register_counts(it, majority as u32, room, to) }))
    }

    pub(crate) fn all_counts(&self) -> Result<[board_counts; Majority::ALL.len()], Refusal> {
        counted(|room, to| self.call(|it| unsafe { sys::board_register_all_counts(it, room, to) })).map(in_order)
    }

    pub(crate) fn read(&self, majority: Majority) -> Result<board_counts, Refusal> {
        counted(|room, to| self.call(|it| unsafe { sys::board_register_read(it, majority as u32, room, to) }))
    }
}
