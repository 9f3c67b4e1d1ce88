use crate::chair_names::ChairNames;
use crate::command::check_chair;
use crate::library::Handle;
use crate::names::allowed;
use crate::script::{self, Record, Text};
use crate::table::names_of;
use crate::{ByMajority, Code, Command, Indices, Limits, Majority, MemberRow, Refusal, Refused};
use std::collections::{BTreeMap, BTreeSet, HashMap};
use std::fmt::{self, Write};
use voting_board_sys as sys;
use voting_board_sys::board_entry;

/// A member of a register. It can be a row of another table.
#[derive(Clone, Copy, Debug, PartialEq, Eq, Hash)]
#[cfg_attr(feature = "serde", derive(serde::Serialize, serde::Deserialize))]
#[non_exhaustive]
pub struct Member {
    /// Its code.
    pub code: Code,
    /// Its votes, also while they are suspended.
    pub votes: u64,
    /// Its chair, from 1 to 32, or none.
    pub chair: Option<u8>,
    /// Whether its votes are suspended.
    pub suspended: bool,
}

impl From<Member> for MemberRow {
    fn from(it: Member) -> Self {
        Self { chair: it.chair, suspended: it.suspended, ..Self::new(it.code.as_str(), it.votes) }
    }
}

/// A register: members with votes, who sit in chairs, and the journal of the commands that it has accepted.
///
/// Each command returns the number of commands accepted so far, or is refused and changes nothing. What refuses it is
/// listed in docs/FORMATS.md. The register itself is the library's; it may go from thread to thread, and one thread at
/// a time uses it.
///
/// ```
/// use voting_board::{Majority, Register};
///
/// let mut register = Register::new([("AAA", 50), ("BBB", 49), ("CCC", 1)])?;
/// for (chair, code) in [(1, "AAA"), (2, "BBB"), (3, "CCC")] {
///     register.open(chair)?;
///     register.move_to(code, Some(chair))?;
/// }
/// assert_eq!(register.indices(Majority::Half)?.omega, 3);
///
/// let mut other = register.try_clone()?;
/// other.move_to("CCC", Some(2))?;
/// assert_eq!(other.chairs()[&2], ["BBB", "CCC"]);
/// assert_eq!((register.accepted(), other.accepted()), (6, 7));
/// # Ok::<(), voting_board::Refused>(())
/// ```
///
/// Its calls are one at a time, so threads don't share it:
///
/// ```compile_fail
/// fn shared<T: Sync>() {}
/// shared::<voting_board::Register>();
/// ```
pub struct Register {
    handle: Handle,
    names: ChairNames,
}

/// Starts, and replays of whole scripts.
impl Register {
    /// A register of these members: pairs of a code and votes, or rows of a table. The chairs of the rows are opened in
    /// ascending order, and the members moved, then suspended, in the order of the rows, all by commands of its
    /// journal.
    ///
    /// Refused are a code as [`Refusal::BadMember`], a chair as [`Refusal::BadChair`], votes as
    /// [`Refusal::VotesTooLarge`], a code that is there already as [`Refusal::DuplicateMember`], a second name of a
    /// chair as [`Refusal::BadChair`], and more than 256 members as [`Refusal::TooManyMembers`].
    ///
    /// ```
    /// use voting_board::{MemberRow, Register};
    ///
    /// let seat = |code: &str, votes| MemberRow { chair: Some(1), ..MemberRow::new(code, votes) };
    /// let register = Register::new([seat("AAA", 50), MemberRow { suspended: true, ..seat("BBB", 49) }])?;
    /// assert_eq!(register.script().lines().last(), Some("suspend,BBB"));
    /// # Ok::<(), voting_board::Refused>(())
    /// ```
    pub fn new<Row: Into<MemberRow>>(members: impl IntoIterator<Item = Row>) -> Result<Self, Refused> {
        Self::with_limits(Limits::new(), members)
    }

    /// The register of a script: its commands and publications are carried out, and its readings change nothing. A
    /// command that is refused, or a fault of the text, refuses the whole with the number of its record. A script may
    /// be longer than the input of a replay.
    ///
    /// ```
    /// use voting_board::Register;
    ///
    /// let register = Register::from_script("member,votes\nAAA,50\nscript\nopen,1\nmove,AAA,1\npublish\n")?;
    /// assert_eq!((register.accepted(), register.published()), (2, 2));
    /// let again = Register::from_script(register.script())?;
    /// assert!(again.members() == register.members() && again.journal().eq(register.journal()));
    /// # Ok::<(), voting_board::Refused>(())
    /// ```
    pub fn from_script(text: impl AsRef<[u8]>) -> Result<Self, Refused> {
        Self::from_script_with_limits(Limits::new(), text)
    }

    /// A register with the journal of some limits: see [`Register::new`].
    ///
    /// ```
    /// use voting_board::{Limits, Refusal, Register};
    ///
    /// let mut register = Register::with_limits(Limits::new().journal(1), [("AAA", 50)])?;
    /// register.open(1)?;
    /// assert_eq!(register.open(2).unwrap_err().refusal(), Refusal::JournalFull);
    /// # Ok::<(), voting_board::Refused>(())
    /// ```
    pub fn with_limits<Row: Into<MemberRow>>(
        limits: Limits,
        members: impl IntoIterator<Item = Row>,
    ) -> Result<Self, Refused> {
        limits.check()?;
        let rows: Vec<MemberRow> = members.into_iter().map(Into::into).collect();
        let (entries, commands) = opening_of(&rows)?;
        let names = names_of(&rows, Refusal::BadChair)?;
        let mut register = Self::of_handle(Handle::start(&entries, limits.journal)?);
        for command in commands {
            register.apply(&command)?;
        }
        register.with_names(names)
    }

    /// The register of a script, with the journal of some limits: see [`Register::from_script`].
    pub fn from_script_with_limits(limits: Limits, text: impl AsRef<[u8]>) -> Result<Self, Refused> {
        limits.check()?;
        let text = text.as_ref();
        let read = script::read_script(text)?;
        let fault = read.fault.map(|it| it.refused(text));
        if let Some(why) = fault.as_ref().filter(|_| read.records.is_empty()) {
            return Err(why.clone());
        }
        let mut register = Self::of_handle(Handle::start(&read.members, limits.journal)?);
        for record in read.records.iter().filter(|it| it.command.kind != sys::BOARD_READ) {
            register.carry_out(record)?;
        }
        fault.map_or(Ok(register), Err)
    }

    /// This register with names of open chairs, such as those that [`chair_names`](Self::chair_names) gives, since a
    /// script has none. Refused as by [`rename`](Self::rename).
    ///
    /// ```
    /// use voting_board::Register;
    ///
    /// let mut register = Register::new([("AAA", 50)])?;
    /// register.open_named(25, "West")?;
    /// let again = Register::from_script(register.script())?.with_names(register.chair_names())?;
    /// assert_eq!(again.chair_name(25), Some("West"));
    /// # Ok::<(), voting_board::Refused>(())
    /// ```
    pub fn with_names<Name: AsRef<str>>(
        mut self,
        names: impl IntoIterator<Item = (u8, Name)>,
    ) -> Result<Self, Refused> {
        for (chair, name) in names {
            self.rename(chair, name.as_ref())?;
        }
        Ok(self)
    }

    pub(crate) fn of_handle(handle: Handle) -> Self {
        Self { handle, names: ChairNames::default() }
    }
}

/// The members of a table, and the commands that seat and suspend them.
fn opening_of(rows: &[MemberRow]) -> Result<(Vec<board_entry>, Vec<Command>), Refused> {
    let mut known = HashMap::new();
    let (mut entries, mut moves, mut suspensions) = (Vec::new(), Vec::new(), Vec::new());
    for (row, it) in (1..).zip(rows) {
        let code = it.check().map_err(|why| why.in_row(row))?;
        if let Some(first) = known.insert(code, row) {
            let message = format!("the code '{code}' is there already, in row {first}");
            return Err(Refused::new(Refusal::DuplicateMember, message).in_row(row));
        }
        entries.push(board_entry { code: code.bytes(), votes: it.votes, ..board_entry::default() });
        moves.extend(it.chair.map(|chair| Command::Move { code, chair: Some(chair) }));
        suspensions.extend(it.suspended.then_some(Command::Suspend { code }));
    }
    let chairs: BTreeSet<u8> = rows.iter().filter_map(|it| it.chair).collect();
    let opens = chairs.into_iter().map(|chair| Command::Open { chair });
    Ok((entries, opens.chain(moves).chain(suspensions).collect()))
}

/// Commands.
impl Register {
    /// Opens a closed chair, from 1 to 32.
    pub fn open(&mut self, chair: u8) -> Result<u32, Refused> {
        self.apply(&Command::Open { chair })
    }

    /// Opens a closed chair, which has this name until it is closed: a chair that is closed and opened again is a new
    /// chair, without a name.
    pub fn open_named(&mut self, chair: u8, name: impl Into<String>) -> Result<u32, Refused> {
        let accepted = self.open(chair)?;
        self.names.set(accepted, Some(name.into()));
        Ok(accepted)
    }

    /// Gives an open chair another name, or none, from when it was opened until it is closed. It is no command: the
    /// journal, scripts and [`undo`](Self::undo) know nothing of it.
    ///
    /// A closed chair is refused as [`Refusal::ChairNotOpen`], and one that isn't from 1 to 32 as
    /// [`Refusal::BadChair`].
    ///
    /// ```
    /// use voting_board::Register;
    ///
    /// let mut register = Register::new([("AAA", 50)])?;
    /// register.open_named(25, "West")?;
    /// register.rename(25, "North-West")?;
    /// assert_eq!(register.chair_name(25), Some("North-West"));
    /// register.rename(25, None)?;
    /// assert_eq!(register.chair_name(25), None);
    /// # Ok::<(), voting_board::Refused>(())
    /// ```
    pub fn rename<'a>(&mut self, chair: u8, name: impl Into<Option<&'a str>>) -> Result<(), Refused> {
        check_chair("the chair", Some(chair), allowed::CHAIR)?;
        let refused = || {
            let refusal = Refusal::ChairNotOpen;
            Refused::new(refusal, format!("no name for chair {chair}: {}", Refused::from(refusal)))
        };
        let opening = self.names.opening(&self.handle, chair).ok_or_else(refused)?;
        self.names.set(opening, name.into().map(String::from));
        Ok(())
    }

    /// Closes an open chair without members.
    pub fn close(&mut self, chair: u8) -> Result<u32, Refused> {
        self.apply(&Command::Close { chair })
    }

    /// Moves a member to an open chair, or to none.
    pub fn move_to(&mut self, code: impl AsRef<str>, chair: Option<u8>) -> Result<u32, Refused> {
        self.apply(&Command::Move { code: Code::new(code.as_ref())?, chair })
    }

    /// Sets the votes of a member, suspended or not, to at most 2^40.
    pub fn set_votes(&mut self, code: impl AsRef<str>, votes: u64) -> Result<u32, Refused> {
        self.apply(&Command::Votes { code: Code::new(code.as_ref())?, votes })
    }

    /// Suspends a member's votes; it stays in its chair.
    pub fn suspend(&mut self, code: impl AsRef<str>) -> Result<u32, Refused> {
        self.apply(&Command::Suspend { code: Code::new(code.as_ref())? })
    }

    /// Ends a suspension.
    pub fn restore(&mut self, code: impl AsRef<str>) -> Result<u32, Refused> {
        self.apply(&Command::Restore { code: Code::new(code.as_ref())? })
    }

    /// Adds a member with at most 2^40 votes, in no chair.
    pub fn admit(&mut self, code: impl AsRef<str>, votes: u64) -> Result<u32, Refused> {
        self.apply(&Command::Admit { code: Code::new(code.as_ref())?, votes })
    }

    /// Removes a member that is in no chair.
    pub fn withdraw(&mut self, code: impl AsRef<str>) -> Result<u32, Refused> {
        self.apply(&Command::Withdraw { code: Code::new(code.as_ref())? })
    }

    /// Carries out a command.
    ///
    /// Refused are a chair that isn't from 1 to 32 as [`Refusal::BadChair`], votes above 2^40 as
    /// [`Refusal::VotesTooLarge`], and otherwise what docs/FORMATS.md lists for the command.
    pub fn apply(&mut self, command: &Command) -> Result<u32, Refused> {
        let raw = command.checked()?;
        self.handle.apply(&raw).map_err(|it| refused(it, command))
    }

    /// Says whether [`apply`](Self::apply) would carry out a command, and if not, what refuses it. Changes nothing.
    ///
    /// ```
    /// use voting_board::{Command, Refusal, Register};
    ///
    /// let register = Register::new([("AAA", 50)])?;
    /// let close = Command::Close { chair: 1 };
    /// assert_eq!(register.check(&close).unwrap_err().refusal(), Refusal::ChairNotOpen);
    /// # Ok::<(), voting_board::Refused>(())
    /// ```
    pub fn check(&self, command: &Command) -> Result<(), Refused> {
        let raw = command.checked()?;
        self.handle.check(&raw).map_err(|it| refused(it, command))
    }

    /// Carries out all commands, or none, as [`submit`](Self::submit) does: the first that is refused refuses all, and
    /// [`Refused::record`] counts it from 1.
    pub fn apply_all(&mut self, commands: &[Command]) -> Result<u32, Refused> {
        let record = |(number, it): (u32, &Command)| {
            let command = it.checked().map_err(|why| why.in_record(number))?;
            Ok(Record { command, number, from: 0, to: 0 })
        };
        let records = (1..).zip(commands).map(record).collect::<Result<Vec<_>, Refused>>()?;
        self.carry_out_all(&records, None)
    }

    /// Carries out the records of a text, commands and `publish`, of any number; or none of them, if one is refused.
    /// The refusal has the number of the record and its text.
    ///
    /// A record that isn't well formed, and a `read`, are refused as [`Refusal::BadRecord`]. Where memory runs out,
    /// [`Refusal::OutOfMemory`] refuses all records.
    ///
    /// ```
    /// use voting_board::Register;
    ///
    /// let mut register = Register::new([("AAA", 50)])?;
    /// assert_eq!(register.submit("open,1\nmove,AAA,1\npublish\n")?, 2);
    /// let why = register.submit("open,2\nopen,1\n").unwrap_err();
    /// assert_eq!(why.to_string(), "record 2: refused 'open,1': ChairOpen (1), the chair is open already");
    /// assert_eq!(register.accepted(), 2);
    /// # Ok::<(), voting_board::Refused>(())
    /// ```
    pub fn submit(&mut self, text: impl AsRef<[u8]>) -> Result<u32, Refused> {
        let text = text.as_ref();
        let Text { mut records, fault, .. } = script::read_records(text)?;
        let mut fault = fault.map(|it| it.refused(text));
        if let Some(at) = records.iter().position(|it| it.command.kind == sys::BOARD_READ) {
            let read = String::from_utf8_lossy(&text[records[at].from..records[at].to]).into_owned();
            fault = Some(Refused::no_command(read).in_record(records[at].number));
            records.truncate(at);
        }
        self.carry_out_all(&records, fault)
    }

    /// Publishes all accepted commands, and returns their number.
    pub fn publish(&mut self) -> Result<u32, Refused> {
        Ok(self.handle.publish()?)
    }

    /// Takes the register back to its first `accepted` commands, and returns their number. Those of them that were
    /// published stay published: if more than `accepted` were, all that are left are published, and
    /// [`read`](Self::read) counts the register after them.
    ///
    /// More commands than were accepted are refused as [`Refusal::BadIndex`]. It needs no memory.
    ///
    /// ```
    /// use voting_board::Register;
    ///
    /// let mut register = Register::new([("AAA", 50)])?;
    /// register.submit("open,1\nopen,2\n")?;
    /// assert_eq!(register.undo_to(1)?, 1);
    /// assert_eq!(register.chairs().len(), 1);
    /// # Ok::<(), voting_board::Refused>(())
    /// ```
    pub fn undo_to(&mut self, accepted: u32) -> Result<u32, Refused> {
        if accepted > self.accepted() {
            let message = format!("the length is {accepted}: {}", crate::names::allowed::LENGTH);
            return Err(Refused::new(Refusal::BadIndex, message));
        }
        self.handle.undo(accepted, accepted)?;
        self.names.undo_to(accepted);
        Ok(accepted)
    }

    /// Takes back the last command: see [`undo_to`](Self::undo_to). Where there is none, it is refused as
    /// [`Refusal::BadIndex`].
    pub fn undo(&mut self) -> Result<u32, Refused> {
        let no_command = || Refused::new(Refusal::BadIndex, "there is no command to take back".to_string());
        self.undo_to(self.accepted().checked_sub(1).ok_or_else(no_command)?)
    }

    /// A copy, which shares nothing with this register: what follows from a command is asked of a copy.
    pub fn try_clone(&self) -> Result<Self, Refused> {
        Ok(Self { handle: self.handle.copy(u32::MAX)?, names: self.names.clone() })
    }

    /// Carries out a record that is no reading.
    pub(crate) fn carry_out(&mut self, record: &Record) -> Result<u32, Refused> {
        let done = match record.command.kind {
            sys::BOARD_PUBLISH => self.handle.publish(),
            _ => self.handle.apply(&record.command),
        };
        done.map_err(|it| match Command::of_raw(&record.command) {
            Some(command) => refused(it, &command).in_record(record.number),
            None => it.into(),
        })
    }

    /// Carries out all records; or none, if one is refused or a fault follows them. The register is then taken back,
    /// which needs no memory.
    fn carry_out_all(&mut self, records: &[Record], fault: Option<Refused>) -> Result<u32, Refused> {
        let (accepted, published) = (self.accepted(), self.published());
        let result = records.iter().try_for_each(|it| self.carry_out(it).map(|_| ())).and(fault.map_or(Ok(()), Err));
        if result.is_err() && (accepted, published) != (self.accepted(), self.published()) {
            self.handle.undo(accepted, published)?;
        }
        result.map(|()| self.accepted())
    }
}

/// The refusal of a command by the register. Where memory runs out, the command isn't what is refused.
fn refused(refusal: Refusal, command: &Command) -> Refused {
    match refusal {
        Refusal::OutOfMemory | Refusal::Trapped => refusal.into(),
        _ => Refused::command_refused(refusal, command.to_string()),
    }
}

/// The register as it stands.
impl Register {
    /// The number of accepted commands.
    pub fn accepted(&self) -> u32 {
        self.handle.accepted()
    }

    /// The number of published commands.
    pub fn published(&self) -> u32 {
        self.handle.published()
    }

    /// The members in the order of entry.
    pub fn members(&self) -> Vec<Member> {
        self.rows().collect()
    }

    /// The member with a code, if there is one.
    pub fn member(&self, code: impl AsRef<str>) -> Option<Member> {
        let code = Code::checked(code.as_ref())?;
        self.rows().find(|it| it.code == code)
    }

    fn rows(&self) -> impl Iterator<Item = Member> + '_ {
        let row = |at| self.handle.member_at(at);
        (0..self.handle.members()).filter_map(row).map(|it| Member {
            code: Code::of_bytes(it.code),
            votes: it.votes,
            chair: (it.chair > 0).then_some(it.chair as u8),
            suspended: it.suspended != 0,
        })
    }

    /// The open chairs by number, each with the codes of its members in the order of entry.
    pub fn chairs(&self) -> BTreeMap<u8, Vec<Code>> {
        let words = self.handle.sheet().unwrap_or([0; sys::BOARD_SHEET_WORDS]);
        let mut chairs: BTreeMap<u8, Vec<Code>> = BTreeMap::new();
        for (chair, _) in (1..).zip(&words[..sys::BOARD_CHAIRS]).filter(|(_, &word)| word > 0) {
            chairs.insert(chair, Vec::new());
        }
        for (chair, code) in self.rows().filter_map(|it| Some((it.chair?, it.code))) {
            chairs.entry(chair).or_default().push(code);
        }
        chairs
    }

    /// The name of an open chair, if it was given one: by the table of members, by [`open_named`](Self::open_named), by
    /// [`rename`](Self::rename), or by [`with_names`](Self::with_names).
    pub fn chair_name(&self, chair: u8) -> Option<&str> {
        self.names.get(&self.handle, chair).map(String::as_str)
    }

    /// The names of the open chairs that have one, by number. A script has none: they are saved next to it, and
    /// [`with_names`](Self::with_names) takes them.
    pub fn chair_names(&self) -> BTreeMap<u8, String> {
        self.names.now(&self.handle)
    }

    /// The accepted commands in their order.
    pub fn journal(&self) -> impl Iterator<Item = Command> + '_ {
        let command = |at| self.handle.command_at(at).and_then(|it| Command::of_raw(&it));
        (0..self.accepted() as usize).filter_map(command)
    }

    /// The members with which the register started, in no chair.
    pub fn opening(&self) -> Vec<Member> {
        let entries = (0..self.handle.entries()).filter_map(|at| self.handle.entry_at(at));
        let member =
            |it: board_entry| Member { code: Code::of_bytes(it.code), votes: it.votes, chair: None, suspended: false };
        entries.map(member).collect()
    }

    /// The counts as the register stands, by a majority.
    pub fn indices(&self, majority: Majority) -> Result<Indices, Refused> {
        Ok(Indices::new(majority, &self.handle.counts(majority)?, &self.chair_names()))
    }

    /// The counts as the register stands, by each majority, in the order of [`Majority::ALL`].
    pub fn indices_of_all(&self) -> Result<ByMajority, Refused> {
        Ok(Indices::of_all(&self.handle.all_counts()?, &self.chair_names()))
    }

    /// The counts of the register after its published commands, which is what readers see. Before the first publication
    /// that is the opening: no chair is open.
    pub fn read(&self, majority: Majority) -> Result<Indices, Refused> {
        Ok(Indices::new(majority, &self.handle.read(majority)?, &self.names.published(&self.handle)))
    }

    /// The register as a script: its opening, and the accepted commands, with `publish` after the published ones.
    pub fn script(&self) -> String {
        let mut text = String::from("member,votes\n");
        for Member { code, votes, .. } in self.opening() {
            let _ = writeln!(text, "{code},{votes}");
        }
        text += "script\n";
        for (accepted, command) in (1..).zip(self.journal()) {
            let _ = writeln!(text, "{command}");
            if accepted == self.published() {
                text += "publish\n";
            }
        }
        text
    }
}

impl fmt::Debug for Register {
    fn fmt(&self, to: &mut fmt::Formatter<'_>) -> fmt::Result {
        to.debug_struct("Register")
            .field("members", &self.rows().count())
            .field("chairs", &self.chairs().len())
            .field("accepted", &self.accepted())
            .field("published", &self.published())
            .finish()
    }
}

/// How much it holds, in a line.
impl fmt::Display for Register {
    fn fmt(&self, to: &mut fmt::Formatter<'_>) -> fmt::Result {
        let (members, chairs) = (self.rows().count(), self.chairs().len());
        let (accepted, published) = (self.accepted(), self.published());
        write!(to, "{members} members and {chairs} open chairs: {accepted} commands accepted, {published} published")
    }
}
