# The names, limits and sentences of the library. Made by tools/made from the sources: do not edit.

VERSION <- "1.0.0"
CHAIRS <- 32
MEMBERS <- 256
COMMANDS <- 1000000
READERS <- 4
INPUT_BYTES <- 4194304
MEMBER_VOTES <- 1099511627776
TOTAL_VOTES <- 281474976710656

# What wins by each majority, in the order of the library's numbers, from 0.
MAJORITIES <- c(
  `half` = "more than half of the votes cast, if all open chairs vote",
  `70` = "at least one vote, and at least 70 per cent of the total",
  `85` = "at least one vote, and at least 85 per cent of the total",
  `quorum` = "more than half of the open chairs, with at least half of the total"
)

# The parts of each kind of command, in the order of the library's numbers, from 0.
KINDS <- list(
  open = c("chair"),
  close = c("chair"),
  move = c("code", "chair"),
  votes = c("code", "votes"),
  suspend = c("code"),
  restore = c("code"),
  admit = c("code", "votes"),
  withdraw = c("code")
)

# The columns of a table of members.
COLUMNS <- c("code", "name", "votes", "chair", "chair_name", "suspended")

# The reason of each refusal and each fault, by its name; their numbers count from 1.
REFUSALS <- c(
  ChairOpen = "the chair is open already",
  ChairNotOpen = "the chair is not open",
  ChairHasMembers = "the chair has members, suspended ones counted",
  UnknownMember = "no member has this code",
  MemberSuspended = "the member's voting rights are suspended",
  AlreadyThere = "the member is there already",
  AlreadySuspended = "the member is suspended already",
  NotSuspended = "the member is not suspended",
  JournalFull = "as many commands as the journal limit were accepted",
  OutOfMemory = "out of memory",
  DuplicateMember = "two members have the same code",
  TooManyMembers = "there are more than 256 members",
  BadLimit = "a limit is out of its range",
  BadChair = "a chair's number is not from 1 to 32",
  BadMember = "a member's code is not three ASCII capitals",
  VotesTooLarge = "a member has more than 2^40 votes",
  BadRecord = "a record is not well formed",
  NoEntry = "no place or no entry for a reader",
  ReadFault = "the input could not be read",
  WriteFault = "the output could not be written",
  BadHeader = "the first record is not 'member,votes'",
  BadReader = "there is no reader of this number",
  Busy = "a reader is blocking the publication",
  Mismatch = "a reading is not the sheet of a publication, or is older than the one before",
  MemberExists = "a member has this code already",
  MemberSeated = "the member sits in a chair",
  GateClosed = "a gate was closed",
  NoScript = "the input ends before the record 'script'",
  TooLong = "the input has more than 4,194,304 bytes",
  BadJournal = "a command of the journal is refused",
  BadCuts = "the cuts are not in order, or one is past the journal's end",
  BadSheet = "the words are not a sheet's",
  TooManyChairs = "more chairs are open than are counted",
  NoRegister = "the handle has no register",
  BadIndex = "there is no item at this index"
)
TRAPPED <- 255L
IMPOSSIBLE <- "the library came to a point that its proof rules out: the compiler or the machine is at fault"

# What is allowed for a value.
ALLOWED <- c(
  weight = "votes are whole numbers from 0",
  weights = "a board has at most 32 chairs",
  total = "votes are whole numbers from 0",
  total_most = "at most 281474976710656",
  total_least = "at least the sum of the weights",
  votes = "votes are whole numbers from 0 to 1099511627776",
  chair = "a chair is a whole number from 1 to 32",
  seat = "a chair is a whole number from 1 to 32, or NA for no chair",
  code = "a code is three ASCII capitals",
  name = "a name is text",
  suspended = "TRUE or FALSE",
  majority = "half, 70, 85 or quorum",
  readers = "a whole number from 1 to 4",
  journal = "a whole number from 1 to 1000000",
  length = "a whole number from 0 to the number of accepted commands",
  columns = "the columns are code, name, votes, chair, chair_name and suspended"
)
