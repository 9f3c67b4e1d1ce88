test_that("records are carried out from text, lists and journals", {
  r <- board_register(c(AAA = 1, BBB = 2))
  expect_identical(board_accepted(board_submit(r, "open,1")), 1L)
  expect_identical(board_accepted(board_submit(r, "open,2\nmove,AAA,1\r\n\n\"mo\"ve,\"BBB\",\"02\"")), 4L)
  expect_identical(board_accepted(board_submit(r, c("move,BBB,none", "publish", "close,2"))), 6L)
  expect_identical(board_published(r), 5L)
  board_submit(r, list("open,2", c("move,BBB,2", "suspend,BBB"), factor("restore,BBB")))
  expect_identical(board_accepted(r), 10L)
  expect_identical(board_accepted(board_submit(r, character(0))), 10L)
  expect_identical(board_accepted(board_submit(r, list())), 10L)
  expect_identical(board_accepted(board_submit(r, "")), 10L)
  expect_identical(board_accepted(board_submit(r, "\n\n")), 10L)
  other <- board_register(c(AAA = 1, BBB = 2))
  expect_identical(board_accepted(board_submit(other, board_journal(r))), 10L)
  expect_identical(parts(other)[-3], parts(r)[-3])
  other <- board_register(c(AAA = 1, BBB = 2))
  expect_identical(board_published(board_submit(other, list(board_journal(r), "publish"))), 10L)
})

test_that("a list is carried out as a whole or not at all", {
  r <- board_register(three())
  board_publish(r)
  board_open(r, 4)
  before <- parts(r)
  why <- refused(board_submit(r, c("open,5", "publish", "move,AAA,9", "open,6")), "ChairNotOpen",
    "record 3: refused 'move,AAA,9': ChairNotOpen (2), the chair is not open")
  expect_identical(list(why$record, why$command), list(3, "move,AAA,9"))
  why <- refused(board_submit(r, c("open,5", "opn,6", "open,7")), "BadRecord",
    "record 2, after byte 6: refused 'opn,6': BadRecord (17), a record is not well formed")
  expect_identical(list(why$record, why$command), list(2, "opn,6"))
  refused(board_submit(r, c("open,5", "read,1,half")), "BadRecord",
    "record 2: refused 'read,1,half': BadRecord (17), a record is not well formed")
  refused(board_submit(r, "read,1,half"), "BadRecord",
    "refused 'read,1,half': BadRecord (17), a record is not well formed")
  refused(board_submit(r, "move,AAA,9"), "ChairNotOpen",
    "refused 'move,AAA,9': ChairNotOpen (2), the chair is not open")
  # Catches: a text that is refused in other words than the call of its kind.
  fields <- c("open,0" = "the chair is 0: a chair is a whole number from 1 to 32",
    "open,33" = "the chair is 33: a chair is a whole number from 1 to 32",
    "move,AAA,x" = "the chair is 'x' (character): a chair is a whole number from 1 to 32, or NA for no chair",
    "move,aaa,1" = "the code is 'aaa': a code is three ASCII capitals",
    "votes,AAA,1099511627777" =
      "the votes of AAA are 1099511627777: votes are whole numbers from 0 to 1099511627776")
  for (bad in names(fields)) {
    refused(board_submit(r, bad), "BadRecord",
      paste0("refused '", bad, "': BadRecord (17), a record is not well formed: ", fields[[bad]]))
  }
  for (bad in c("opn,1", "open", "member,votes", "script", "\"open", "\ufeffopen,1", "open,1,")) {
    refused(board_submit(r, bad), "BadRecord", paste0("refused ", encodeString(bad, quote = "'"),
      ": BadRecord (17), a record is not well formed"))
  }
  refused(board_submit(r, "read,9,half"), "BadReader",
    "refused 'read,9,half': BadReader (22), there is no reader of this number")
  why <- tryCatch(board_submit(r, c("open,5", "\xff\xfe,6")), board_refused = identity)
  expect_identical(list(why$name, why$record), list("BadRecord", 2))
  wrong(board_submit(r, 5),
    "the commands are 5 (numeric): records such as 'move,AAA,3', or commands of board_journal()")
  wrong(board_submit(r, NA_character_),
    "the commands are NA (character): records such as 'move,AAA,3', or commands of board_journal()")
  wrong(board_submit(r, list("open,5", 7)),
    "the commands are 7 (numeric): records such as 'move,AAA,3', or commands of board_journal()")
  expect_identical(parts(r), before)
})

test_that("a refusal is a value of check and attempt", {
  r <- board_register(three())
  before <- parts(r)
  expect_null(board_check(r, "open,4"))
  expect_null(board_check(r, c("open,4", "move,AAA,4")))
  expect_null(board_check(r, "publish"))
  expect_identical(parts(r), before)
  why <- board_check(r, "open,1")
  expect_s3_class(why, "board_refused")
  expect_identical(list(why$name, why$number, why$command), list("ChairOpen", 1L, "open,1"))
  expect_identical(board_check(r, c("open,4", "open,4"))$record, 2)
  expect_identical(board_check(r, "opn,4")$name, "BadRecord")
  expect_identical(board_attempt(r, "open,1")$name, "ChairOpen")
  expect_identical(parts(r), before)
  expect_null(board_attempt(r, "open,4"))
  expect_identical(board_accepted(r), 7L)
  expect_s3_class(tryCatch(board_open(r, 1), error = identity), "board_refused")
})

test_that("scripts are written and read back", {
  r <- board_register(three())
  board_submit(r, c("publish", "votes,AAA,7", "admit,DDD,1099511627776", "publish", "suspend,BBB"))
  text <- board_script(r)
  expect_identical(strsplit(text, "\n")[[1]], c(
    "member,votes", "AAA,50", "BBB,49", "CCC,1", "script", "open,1", "open,2", "open,3", "move,AAA,1", "move,BBB,2",
    "move,CCC,3", "votes,AAA,7", "admit,DDD,1099511627776", "publish", "suspend,BBB"
  ))
  expect_identical(parts(board_from_script(text)), parts(r))
  file <- tempfile()
  on.exit(unlink(file))
  cat(text, file = file)
  expect_identical(parts(board_from_script(file = file)), parts(r))
  expect_identical(parts(board_from_script(readLines(file))), parts(r))
  expect_identical(parts(board_from_script(charToRaw(text))), parts(r))
  expect_identical(parts(board_replay(text)$register), parts(r))
  text <- board_script(board_register(c(AAA = 1)))
  expect_identical(as.vector(text), "member,votes\nAAA,1\nscript\n")
  # Catches: a script that is printed as one line with escapes.
  expect_output(print(text), "^member,votes\nAAA,1\nscript\n?$")
  read <- board_from_script(c("\ufeffmember,votes", "AAA,1", "\"scr\"ipt", "open,1", "read,4,half", "publish"))
  expect_identical(c(board_accepted(read), board_published(read)), c(1L, 1L))
})

test_that("a script that can't be carried out is refused with its record", {
  lines <- c("member,votes", "AAA,10", "\"scr\"ipt", "open,1", "", "open,1", "publish")
  why <- refused(board_from_script(lines), "ChairOpen",
    "record 5: refused 'open,1': ChairOpen (1), the chair is open already")
  expect_identical(why$record, 5)
  refused(board_from_script(c(lines[1:4], "opn,2", "open,3")), "BadRecord",
    "record 5, after byte 35: refused 'opn,2': BadRecord (17), a record is not well formed")
  refused(board_from_script("Member,votes\n"), "BadHeader", "BadHeader (21), the first record is not 'member,votes'")
  refused(board_from_script("member,votes\nAAA,1\n"), "NoScript",
    "NoScript (28), the input ends before the record 'script'")
  refused(board_from_script("member,votes\nAAA,1\nAAA,1\nscript"), "DuplicateMember",
    "DuplicateMember (11), two members have the same code")
  why <- tryCatch(board_from_script("member,votes\nAAA,1\nbbb,2\nscript"), board_refused = identity)
  expect_identical(list(why$name, why$record), list("BadRecord", 3))
  refused(board_from_script(c(lines[1:4], "open,2"), journal = 1), "JournalFull",
    "record 5: refused 'open,2': JournalFull (9), as many commands as the journal limit were accepted")
  refused(board_from_script("", journal = 0), "BadLimit", "the journal is 0: a whole number from 1 to 1000000")
  wrong(board_from_script("three.csv"),
    "the text is one line, 'three.csv': a file is given as board_from_script(file = 'three.csv')")
  wrong(board_from_script(5), "the text is 5 (numeric): text, its lines, or raw bytes without NA")
  expect_error(board_from_script(file = "no-such.csv"), "there is no file 'no-such.csv'", fixed = TRUE)
  expect_error(board_from_script(file = tempdir()), "there is no file")
  wrong(board_from_script(file = 5), "the file is 5 (numeric): the path of a file")
})

# The gate doesn't fill a journal at its limit: it has the refusal at other limits, and longer texts below.
if (is_deep) test_that("a million commands are carried out and written back", {
  r <- board_register(c(AAA = 1))
  records <- rep(c("open,1", "move,AAA,1", "move,AAA,none", "close,1"), 250000)
  expect_identical(board_accepted(board_submit(r, records)), 1000000L)
  refused(board_open(r, 1), "JournalFull",
    "refused 'open,1': JournalFull (9), as many commands as the journal limit were accepted")
  expect_identical(as.character(board_journal(r)), records)
  script <- board_script(r)
  expect_gt(nchar(script), 2 * 4194304)
  expect_identical(parts(board_from_script(script)), parts(r))
  short <- board_register(c(AAA = 1))
  long <- c(records[1:900000], "opn,7", "open,1")
  why <- tryCatch(board_submit(short, long), board_refused = identity)
  at <- sum(nchar(records[1:900000]) + 1) - 1
  expect_identical(conditionMessage(why), paste0("record 900001, after byte ", number(at),
    ": refused 'opn,7': BadRecord (17), a record is not well formed"))
  expect_identical(board_accepted(short), 0L)
  long[900001] <- "open,2"
  long[900002] <- "open,2"
  expect_identical(tryCatch(board_submit(short, long), board_refused = identity)$record, 900002)
  why <- tryCatch(board_from_script(c("member,votes", "AAA,1", "script", long)), board_refused = identity)
  expect_identical(list(why$name, why$record), list("ChairOpen", 900005))
  long[900002] <- "read,9,half"
  expect_identical(tryCatch(board_submit(short, long), board_refused = identity)$name, "BadReader")
})

test_that("pieces are cut within any record, and nothing is lost", {
  records <- c("open,1", "\"open\",\"32\"", "close,1", "close,32")
  text <- charToRaw(paste0(paste(rep(records, 130000), collapse = "\r\n"), "\r\n"))
  expect_gt(length(text), 4194304)
  opening <- charToRaw("member,votes\nAAA,1\nscript\n")
  period <- sum(nchar(records) + 2)
  # The gate cuts at each third byte of the records, so in each field, and not beside each of their ends.
  for (blank in seq(0, period - 1, by = if (is_deep) 1 else 3)) {
    moved <- c(rep(as.raw(10), blank), text)
    r <- board_register(c(AAA = 1))
    expect_null(.Call(votingboard:::C_submit, handle_in(r), moved))
    expect_identical(board_accepted(r), 520000L)
    expect_identical(board_accepted(board_from_script(c(opening, moved))), 520000L)
  }
})

test_that("empty lines of more than a piece are passed over", {
  blank <- rep(as.raw(10), 2 * 4194304)
  r <- board_register(c(AAA = 1))
  for (rest in c("open,1", "close,1", "open,1\nclose,1\n")) {
    for (more in c(0, 1, 12, 19:23)) {
      expect_null(.Call(votingboard:::C_check, handle_in(r), c(blank, rep(as.raw(10), more), charToRaw(rest))))
    }
    expect_null(.Call(votingboard:::C_submit, handle_in(r), c(blank, charToRaw(rest), blank)))
  }
  expect_identical(board_accepted(r), 4L)
  cut <- c(rep(as.raw(10), 4194304 - 22), charToRaw("open,2\nopen,3"), blank)
  expect_null(.Call(votingboard:::C_submit, handle_in(r), cut))
  expect_identical(board_accepted(r), 6L)
  bad <- c(blank, charToRaw("opn,2\nopen,3"), blank)
  expect_identical(.Call(votingboard:::C_submit, handle_in(r), bad), c(17, 1, length(blank), NA))
  script <- c(charToRaw("member,votes\nAAA,1\nscript\n"), blank, charToRaw("open,1\nopen,1\n"))
  expect_identical(tryCatch(board_from_script(script), board_refused = identity)$record, 5)
})
