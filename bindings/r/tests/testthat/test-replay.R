script <- c("member,votes", "AAA,10", "script", "open,1", "open,1", "publish", "read,1,half", "close")

test_that("a replay is data", {
  run <- board_replay(script)
  expect_s3_class(run, "board_replay", exact = TRUE)
  outcomes <- data.frame(
    record = 4:7, what = c("accepted", "refused", "published", "reading"), number = c(1L, 1L, 1L, 1L),
    name = c(NA, "ChairOpen", NA, NA)
  )
  expect_identical(run$outcomes, outcomes)
  expect_identical(run$refused, data.frame(
    record = 5L, number = 1L, name = "ChairOpen", reason = "the chair is open already", command = "open,1"
  ))
  fault <- list(record = 8L, number = 17L, name = "BadRecord", reason = "a record is not well formed")
  expect_identical(run$fault, fault)
  expect_identical(run$readings[1:4], data.frame(record = 7L, reader = 1L, front = 1L, majority = "half"))
  expect_identical(run$readings$coalitions, 2)
  expect_identical(board_accepted(run$register), 1L)
  reading <- list(reader = 1L, front = 1L, record = 7L)
  expect_identical(unclass(board_reading(run))[names(reading)], reading)
  expect_s3_class(board_reading(run), c("board_reading", "board_indices"), exact = TRUE)
  expect_identical(format(run),
    "A replay of 4 records: 1 accepted, 1 refused, 1 published, 1 read; fault BadRecord (17), record 8")
  expect_output(print(run), "open,1")
  expect_identical(unlist(strsplit(run_lines(run), "\n")), strsplit(board_replay_text(script)$text, "\n")[[1]])
  expect_identical(board_replay_text(script)$fault, run$fault)
})

test_that("a text, lines, bytes and a file are the same", {
  run <- board_replay(script)
  same <- function(other) expect_identical(unclass(other)[-which(names(other) == "register")],
    unclass(run)[-which(names(run) == "register")])
  same(board_replay(paste(script, collapse = "\n")))
  same(board_replay(paste0(paste(script, collapse = "\r\n"), "\r\n")))
  same(board_replay(charToRaw(paste(script, collapse = "\n"))))
  file <- tempfile()
  on.exit(unlink(file))
  writeLines(script, file)
  same(board_replay(file = file))
  expect_identical(board_replay_text(file = file), board_replay_text(script))
  wrong(board_replay(file), paste0("the text is one line, ", votingboard:::shown(file),
    ": a file is given as board_replay(file = ", votingboard:::shown(file), ")"))
  wrong(board_replay_text("a"), "the text is one line, 'a': a file is given as board_replay_text(file = 'a')")
  expect_error(board_replay(file = "no-such.csv"), "there is no file 'no-such.csv'", fixed = TRUE)
})

test_that("records have the library's numbers, whatever is quoted", {
  mixed <- "\ufeff\n\nmember,votes\r\"AAA\",10\r\n\"scr\"ipt\nopen,1\n\n\"clo\"se,2\n"
  run <- board_replay(mixed)
  expect_identical(run$outcomes$record, 4:5)
  expect_identical(run$refused$command, "\"clo\"se,2")
  expect_identical(run$refused$record, 5L)
  truncated <- c("member,votes", "script", paste0("open,", 1:32), "publish", rep("\"re\"ad,1,half", 5))
  expect_identical(nrow(board_replay(truncated)$readings), 5L)
})

test_that("faults of the opening leave no register", {
  for (text in list("", character(0), raw(0), "Member,Votes\n", raw(4194305))) expect_null(board_replay(text)$register)
  expect_identical(board_replay("")$fault,
    list(record = 0L, number = 21L, name = "BadHeader", reason = "the first record is not 'member,votes'"))
  expect_identical(board_replay(raw(4194305))$fault$name, "TooLong")
  expect_identical(board_replay(as.raw(c(65, 0, 66)))$fault$name, "BadHeader")
  expect_null(board_replay("member,votes\nAAA,1\nbbb,2\nscript\nopen,1\n")$register)
  expect_null(board_replay("member,votes\nAAA,1\nAAA,2\nscript\nopen,1\n")$register)
  expect_s3_class(board_replay("member,votes\nAAA,1\nscript\nopn,1\n")$register, "board_register")
  run <- board_replay("member,votes\nscript")
  expect_null(run$fault)
  expect_identical(nrow(run$outcomes), 0L)
  expect_identical(nrow(as.data.frame(run)), 0L)
  expect_identical(lapply(board_replay_text("member,votes\nscript"), as.vector), list(text = "", fault = NULL))
})

test_that("limits are checked", {
  for (call in list(board_replay, board_replay_text)) {
    for (readers in c(0, 5, -1, 1.5, NaN, NA, Inf)) {
      refused(call("", readers = readers), "BadLimit",
        paste0("the number of readers is ", readers, ": a whole number from 1 to 4"))
    }
    refused(call("", journal = 1000001), "BadLimit", "the journal is 1000001: a whole number from 1 to 1000000")
    wrong(call("", journal = "1"), "the journal is '1' (character): a whole number from 1 to 1000000")
    wrong(call("", readers = c(1, 2)), "the number of readers is c(1, 2) (numeric): a whole number from 1 to 4")
    for (none in list(5, NULL, NA, TRUE, list("a"), factor("a"))) {
      expect_error(call(none), "text, its lines, or raw bytes without NA", class = "board_type_error")
    }
  }
  expect_identical(board_replay(c("member,votes", "script", "read,2,half"), readers = 2)$readings$reader, 2L)
  full <- board_replay(c("member,votes", "script", "open,1", "open,2"), journal = 1)
  expect_identical(full$refused$name, "JournalFull")
  run <- board_replay(script)
  refused(board_reading(run, 2), "BadIndex", "the reading is 2: a whole number from 1 to the number of readings, 1")
  wrong(board_reading(5), "the run is 5 (numeric): board_replay() makes one")
})

test_that("readings of one publication are counted once", {
  opening <- c("member,votes", "AAA,1", "script", paste0("open,", 1:32), "publish")
  often <- rep(c("read,1,70", "publish", "read,1,quorum"), 1000)
  run <- board_replay(c(opening, often, "close,1", "publish", "read,1,70"))
  expect_identical(nrow(run$readings), 2001L)
  expect_identical(length(run$boards), 3L)
  expect_identical(run$readings$board[c(1:3, 2001)], c(1L, 2L, 1L, 3L))
  table <- as.data.frame(run, fractions = "exact")
  expect_identical(nrow(table), 2000L * 32L + 31L)
  expect_identical(unique(table$banzhaf[table$majority == "70"]), "0")
  head <- as.data.frame(run)[33:64, c("majority", "swings", "share")]
  expect_identical(head$share, board_reading(run, 2)$chairs$share)
  largest <- c(opening, rep("read,1,70", 419000))
  expect_lte(sum(nchar(largest) + 1), 4194304)
  run <- board_replay(largest)
  expect_identical(c(nrow(run$readings), length(run$boards)), c(419000L, 1L))
  expect_lt(as.numeric(object.size(run$readings)), 5e7)
})
