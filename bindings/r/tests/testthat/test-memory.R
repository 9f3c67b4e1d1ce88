busy <- c("member,votes", "AAA,1", "BBB,1", "script", paste0("open,", 1:32), "move,AAA,1", "move,BBB,2",
  rep(c("votes,AAA,1", "publish", "read,1,quorum"), 3000))

test_that("long calls stop long before their end", {
  expect_match(after(0.2, board_replay(busy)), "elapsed time limit")
  rows <- rep(list(as.double(1:32)), 20000)
  expect_match(after(0.2, board_indices_of_many(rows, processors = 2)), "elapsed time limit")
})

test_that("an interrupt leaves a register as before or after a command", {
  records <- rep(c("open,1", "move,AAA,1", "move,AAA,none", "close,1"), 20000)
  r <- board_register(c(AAA = 1))
  limits <- c(0.001, 0.002, 0.005, 0.01, 0.02, 0.05)
  said <- vapply(limits, function(limit) {
    board_undo(r, 0)
    said <- after(limit, board_submit(r, records))
    expect_true(board_accepted(r) %in% c(0L, length(records)))
    expect_identical(parts(board_from_script(board_script(r))), parts(r))
    said
  }, "")
  for (limit in limits) {
    board_undo(r, 0)
    after(limit, for (record in records) board_submit(r, record))
    expect_identical(as.character(board_journal(r)), records[seq_len(board_accepted(r))])
    expect_identical(parts(board_from_script(board_script(r))), parts(r))
  }
})

# What a new R prints that runs some code.
in_new_r <- function(..., preload = NULL) {
  words <- c("--vanilla", "-e", shQuote(paste0(..., collapse = "")))
  path <- paste0("R_LIBS=", shQuote(paste(.libPaths(), collapse = .Platform$path.sep)))
  if (!is.null(preload)) path <- c(path, paste0("LD_PRELOAD=", shQuote(preload)))
  system2(file.path(R.home("bin"), "Rscript"), words, stdout = TRUE, env = path)
}

test_that("registers outlive the package", {
  skip_on_os("windows")
  said <- in_new_r("r <- votingboard::board_register(c(AAA = 1)); unloadNamespace('votingboard');",
    "rm(r); invisible(gc()); cat('alive')")
  expect_identical(said, "alive")
})

test_that("a signal in the middle of a long call is an interrupt", {
  skip_on_os("windows")
  said <- in_new_r(
    "library(votingboard); busy <- ", paste(deparse(busy[1:40]), collapse = ""), ";",
    "busy <- c(busy, rep(c('votes,AAA,1', 'publish', 'read,1,quorum'), 30000));",
    "pid <- Sys.getpid(); system(sprintf('(sleep 1; kill -INT %d) >/dev/null 2>&1 &', pid));",
    "said <- tryCatch({board_replay(busy); 'ended'}, interrupt = function(it) 'interrupted');",
    "cat(said)"
  )
  expect_identical(said, "interrupted")
})

test_that("calls hold what they allocate while R collects at each allocation", {
  text <- charToRaw(paste(busy[c(1:12, 36:44)], collapse = "\n"))
  names <- c("a", "b", rep(NA, 30))
  r <- board_register(three())
  handle <- handle_in(r)
  board_publish(r)
  calls <- list(
    weights = list(c(2, 1), 3, 4L, names), members = list(c(2, 1), c(1, 2), c(FALSE, TRUE), 4, 4L, names),
    many = list(rbind(c(2, 1), c(5, NA)), 2:1, c(3, 5), 0:3, 2),
    one_of_many = list(rbind(c(2, 1), c(5, NA)), 2:1, c(3, 5), 2L, 2),
    counts = list(handle, 0L, names, TRUE), rows = list(handle), entries = list(handle), commands = list(handle),
    sheet = list(handle), state = list(handle), check = list(handle, charToRaw("open,5\nopen,5")),
    submit = list(handle, charToRaw("open,5\nopen,5")),
    replay_text = list(text, 1, 10), replay = list(text, 1, 10)
  )
  for (name in names(calls)) {
    routine <- get(paste0("C_", sub("one_of_", "", name)), asNamespace("votingboard"))
    plain <- do.call(.Call, c(list(routine), calls[[name]]))
    gctorture(TRUE)
    tortured <- try(do.call(.Call, c(list(routine), calls[[name]])))
    gctorture(FALSE)
    if (name == "replay") plain$register <- tortured$register <- NULL
    expect_identical(tortured, plain)
  }
  gctorture(TRUE)
  full <- .Call(votingboard:::C_from_script, text, 10)
  read <- .Call(votingboard:::C_from_script, text, 100)
  copy <- .Call(votingboard:::C_copy, handle, 3)
  start <- .Call(votingboard:::C_start, c("AAA", "BBB"), c(1, 2), 5)
  gctorture(FALSE)
  expect_identical(.Call(votingboard:::C_state, copy), c(3L, 3L))
  expect_identical(.Call(votingboard:::C_state, start), c(0L, 0L))
  expect_type(full, "double")
  same <- .Call(votingboard:::C_replay, text, 1, 100)$register
  expect_identical(.Call(votingboard:::C_state, read), .Call(votingboard:::C_state, same))
})

test_that("registers are freed, also after a refusal or an interrupt", {
  skip_if_not(file.exists("/proc/self/statm"))
  resident <- function() as.double(strsplit(readLines("/proc/self/statm"), " ")[[1]][2]) * 4096
  r <- board_register(c(AAA = 1))
  board_submit(r, rep(c("open,1", "close,1"), 100000))
  bad <- c(rep(c("open,1", "close,1"), 20000), "close,1")
  round <- function() {
    board_copy(r)
    expect_s3_class(board_attempt(r, bad), "board_refused")
    expect_s3_class(board_check(r, bad), "board_refused")
    after(0.01, board_replay(busy))
    gc()
  }
  round()
  before <- resident()
  for (times in 1:30) round()
  expect_lt(resident() - before, 8e7)
})

# Catches: copies that R's collector doesn't see, so that they stay until it happens to run.
test_that("copies that nothing refers to are freed without a call of gc", {
  skip_if_not(file.exists("/proc/self/statm"))
  resident <- function() as.double(strsplit(readLines("/proc/self/statm"), " ")[[1]][2]) * 4096
  r <- board_register(c(AAA = 1))
  board_submit(r, rep(c("open,1", "close,1"), 100000))
  before <- resident()
  most <- 0
  for (times in 1:200) {
    what <- board_copy(r)
    most <- max(most, resident())
  }
  expect_lt(most - before, 3e8)
})

# Submits records to a register with memory refused to the library at each place in turn, once or from there on. How
# often they were refused for memory, for another reason, and carried out; and how often the register was then neither
# as before nor as after.
each_place <- function(library) {
  refuse <- function(number, on) .C("refuse_from", as.integer(number), as.integer(on), 0L, PACKAGE = "refuse")[[3]]
  dyn.load(library)
  state <- function(r) list(votingboard::board_script(r), votingboard::board_published(r))
  lists <- list(
    c("open,3", "move,BBB,3", "votes,AAA,5"), c("open,3", "publish", "open,4"), c("open,3", "open,3"),
    c("open,3", "publish", "open,4", "open,4"), c("votes,AAA,9", "bad"), c("publish", "votes,AAA,9", "read,1,half"),
    rep(c("votes,AAA,6", "publish", "votes,AAA,7"), 40), c(rep("votes,AAA,6", 130), "open,1"), "open,3", "open,1",
    c(rep(c("votes,AAA,6", "publish"), 40), "open,1")
  )
  counted <- c(memory = 0, other = 0, done = 0, half = 0)
  for (records in lists) for (length in c(0, 62, 125)) for (published in c(FALSE, TRUE)) for (on in 0:1) {
    for (place in 1:200) {
      r <- votingboard::board_register(c(AAA = 50, BBB = 49))
      votingboard::board_submit(r, c("open,1", "move,AAA,1"))
      if (published) votingboard::board_publish(r)
      for (at in seq_len(length)) votingboard::board_set_votes(r, "AAA", at)
      before <- state(r)
      votingboard::board_attempt(after <- votingboard::board_copy(r), records)
      refuse(place, on)
      found <- tryCatch(votingboard::board_attempt(r, records), error = identity)
      refused <- refuse(0, 0)
      now <- state(r)
      by_memory <- inherits(found, "error") && grepl("memory", conditionMessage(found))
      kind <- if (by_memory) "memory" else if (is.null(found)) "done" else "other"
      counted[[kind]] <- counted[[kind]] + 1
      wanted <- if (is.null(found)) state(after) else before
      counted[["half"]] <- counted[["half"]] + !identical(now, wanted)
      if (refused == 0) break
    }
  }
  counted
}

# Catches: a list that is half carried out when memory runs out while it is taken back.
test_that("records are carried out as a whole or not at all, wherever memory runs out", {
  skip_if_not(file.exists("/proc/self/statm"))
  folder <- tempfile("refuse")
  dir.create(folder)
  file.copy("refuse.c", folder)
  library <- file.path(folder, "refuse.so")
  built <- system2("cc", c("-shared", "-fPIC", "-O1", "-o", shQuote(library), shQuote(file.path(folder, "refuse.c"))))
  expect_identical(built, 0L)
  code <- paste(deparse(each_place), collapse = "\n")
  said <- in_new_r("each_place <- ", code, "\n", "cat(each_place(", deparse(library), "))", preload = library)
  counted <- as.double(strsplit(said[length(said)], " ")[[1]])
  expect_gt(counted[1], 1000)
  expect_identical(counted[4], 0)
})
