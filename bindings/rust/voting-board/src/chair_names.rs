use crate::indices::Names;
use crate::library::Handle;
use std::cell::RefCell;
use std::collections::BTreeMap;
use voting_board_sys as sys;

/// The number of the command that opened each open chair, after the first commands of a journal.
#[derive(Clone, Default)]
struct Openings {
    commands: u32,
    chairs: BTreeMap<u8, u32>,
}

impl Openings {
    /// Goes on to those after the first commands of a register, so that each command is looked at once.
    fn go_to(&mut self, handle: &Handle, commands: u32) -> &BTreeMap<u8, u32> {
        if self.commands > commands {
            *self = Self::default();
        }
        for number in self.commands + 1..=commands {
            let command = match handle.command_at(number as usize - 1) {
                Some(command) => command,
                None => break,
            };
            match command.kind {
                sys::BOARD_OPEN => self.chairs.insert(command.chair as u8, number),
                sys::BOARD_CLOSE => self.chairs.remove(&(command.chair as u8)),
                _ => None,
            };
            self.commands = number;
        }
        &self.chairs
    }
}

/// The names of a register's chairs. A name belongs to a chair from the command that opened it to the one that closes
/// it: so they are kept by the numbers of the opening commands.
#[derive(Clone, Default)]
pub(crate) struct ChairNames {
    by_opening: BTreeMap<u32, String>,
    now: RefCell<Openings>,
    published: RefCell<Openings>,
}

impl ChairNames {
    /// The number of the command that opened a chair, if it is open.
    pub(crate) fn opening(&self, handle: &Handle, chair: u8) -> Option<u32> {
        self.now.borrow_mut().go_to(handle, handle.accepted()).get(&chair).copied()
    }

    /// The name of a chair as the register stands.
    pub(crate) fn get(&self, handle: &Handle, chair: u8) -> Option<&String> {
        self.by_opening.get(&self.opening(handle, chair)?)
    }

    /// Gives the chair that a command opened a name, or none.
    pub(crate) fn set(&mut self, opening: u32, name: Option<String>) {
        match name {
            Some(name) => self.by_opening.insert(opening, name),
            None => self.by_opening.remove(&opening),
        };
    }

    /// Leaves those of chairs that the first commands of the journal opened.
    pub(crate) fn undo_to(&mut self, commands: u32) {
        self.by_opening.retain(|&opening, _| opening <= commands);
        self.now = RefCell::default();
        self.published = RefCell::default();
    }

    /// The names by chair as the register stands.
    pub(crate) fn now(&self, handle: &Handle) -> Names {
        self.among(&self.now, handle, handle.accepted())
    }

    /// The names by chair after the published commands.
    pub(crate) fn published(&self, handle: &Handle) -> Names {
        self.among(&self.published, handle, handle.published())
    }

    fn among(&self, openings: &RefCell<Openings>, handle: &Handle, commands: u32) -> Names {
        if self.by_opening.is_empty() {
            return Names::new();
        }
        let mut openings = openings.borrow_mut();
        let open = openings.go_to(handle, commands).iter();
        open.filter_map(|(&chair, opening)| Some((chair, self.by_opening.get(opening)?.clone()))).collect()
    }
}
