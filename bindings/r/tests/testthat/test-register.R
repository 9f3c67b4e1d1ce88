test_that("a register is started by a table or by a vector of votes", {
  r <- board_register(three())
  expect_identical(as.character(board_journal(r)),
    c("open,1", "open,2", "open,3", "move,AAA,1", "move,BBB,2", "move,CCC,3"))
  expect_identical(board_members(r), cbind(three(), suspended = FALSE))
  expect_identical(board_opening(r), three()[c("code", "votes")])
  expect_identical(board_indices(r, "half"), board_indices(c(50, 49, 1), "half"))
  table <- data.frame(
    code = c("AAA", "BBB", "CCC"), votes = c(5L, 6L, 7L), chair = c(4, NA, 2), chair_name = c("four", "none", NA),
    suspended = c(TRUE, FALSE, FALSE)
  )
  r <- board_register(table)
  expect_identical(as.character(board_journal(r)), c("open,2", "open,4", "move,AAA,4", "move,CCC,2", "suspend,AAA"))
  expect_identical(board_members(r)$chair_name, c("four", NA, NA))
  expect_identical(board_chairs(r)$name, c(NA, "four"))
  expect_identical(board_chairs(r)$weight, c(7, 0))
  expect_identical(board_indices(r, "half")$chairs$name, c(NA, "four"))
  expect_identical(board_indices(r, "half"), board_indices(table, "half"))
  expect_identical(parts(board_register(board_members(r))), parts(r))
  expect_identical(board_accepted(board_register(c(AAA = 1, BBB = 2))), 0L)
  expect_identical(board_members(board_register(c(AAA = 2^40)))$votes, 2^40)
  expect_identical(board_members(board_register(c(AAA = 0L)))$chair, NA_integer_)
})

test_that("commands are carried out in place", {
  r <- board_register(c(AAA = 50, BBB = 49))
  same <- r
  expect_identical(board_accepted(board_open(r, 1)), 1L)
  expect_identical(board_accepted(board_open(r, 2L)), 2L)
  expect_identical(board_accepted(board_move(r, "AAA", 1)), 3L)
  expect_identical(board_accepted(board_move(r, factor("BBB"), 2)), 4L)
  expect_identical(board_accepted(board_set_votes(r, "BBB", 60)), 5L)
  expect_identical(board_accepted(board_suspend(r, "AAA")), 6L)
  expect_identical(board_accepted(board_restore(r, "AAA")), 7L)
  expect_identical(board_accepted(board_admit(r, "CCC", 5)), 8L)
  expect_identical(board_accepted(board_withdraw(r, "CCC")), 9L)
  expect_identical(board_accepted(board_move(r, "BBB", NA)), 10L)
  expect_identical(board_accepted(board_move(r, "BBB", 2)), 11L)
  expect_identical(board_accepted(board_move(r, "BBB", NA_real_)), 12L)
  expect_identical(board_accepted(board_close(r, 2)), 13L)
  expect_identical(board_accepted(same), 13L)
  expect_invisible(board_open(r, 9))
  journal <- board_journal(r)
  expect_identical(as.character(journal)[9:14],
    c("withdraw,CCC", "move,BBB,none", "move,BBB,2", "move,BBB,none", "close,2", "open,9"))
  expect_identical(names(journal), c("kind", "code", "chair", "votes"))
  expect_identical(journal$votes[c(5, 8)], c(60, 5))
  expect_identical(as.character(journal[2:3, ]), c("open,2", "move,AAA,1"))
  expect_identical(as.character(board_journal(board_register(c(AAA = 1)))), character(0))
})

# Catches: a command that returns something else than its register, or prints it.
test_that("commands return the register, so they follow each other in a pipe", {
  r <- board_register(three())
  chain <- list(
    function(r) board_open(r, 9), function(r) board_move(r, "CCC", 9), function(r) board_submit(r, "suspend,AAA"),
    function(r) board_undo(r), function(r) board_publish(r)
  )
  for (call in chain) {
    shown <- withVisible(call(r))
    expect_identical(shown, list(value = r, visible = FALSE))
  }
  what <- board_copy(r) |> board_move("CCC", 2) |> board_indices("half")
  expect_identical(what$chairs$swings, c(4, 4, 0, 0))
})

# Catches: a name that isn't there and yields NULL, as in a misspelled column, which unseats a member.
test_that("NULL is no chair, and a register has no names", {
  r <- board_register(three())
  before <- parts(r)
  wrong(board_move(r, "AAA", three()$Chair), paste0("the chair is NULL (NULL)", seats_are))
  wrong(r$accepted, "a register has no $accepted: board_accepted() asks for it")
  wrong(r$indices, "a register has no $indices: board_indices() asks for it")
  wrong(r$Chairs, "a register has no $Chairs: ?board_state has its calls")
  expect_identical(parts(r), before)
  expect_output(str(r), "board_register")
})

test_that("readers see what is published", {
  r <- board_register(three())
  expect_identical(nrow(board_read(r, "half")$chairs), 0L)
  expect_identical(board_published(r), 0L)
  expect_identical(board_published(board_publish(r)), 6L)
  expect_identical(board_read(r, "half"), board_indices(r, "half"))
  board_set_votes(r, "CCC", 100)
  expect_identical(board_read(r, "half"), board_indices(c(50, 49, 1), "half"))
  expect_identical(board_indices(r, "half"), board_indices(c(50, 49, 100), "half"))
  expect_identical(c(board_accepted(r), board_published(r)), c(7L, 6L))
})

test_that("refused commands change nothing", {
  r <- board_register(three())
  before <- parts(r)
  why <- refused(board_move(r, "AAA", 4), "ChairNotOpen",
    "refused 'move,AAA,4': ChairNotOpen (2), the chair is not open")
  expect_identical(list(why$number, why$command, why$record), list(2L, "move,AAA,4", NULL))
  refused(board_open(r, 1), "ChairOpen", "refused 'open,1': ChairOpen (1), the chair is open already")
  refused(board_move(r, "AAA", 1), "AlreadyThere",
    "refused 'move,AAA,1': AlreadyThere (6), the member is there already")
  refused(board_move(board_register(c(AAA = 1)), "AAA", NA), "AlreadyThere",
    "refused 'move,AAA,none': AlreadyThere (6), the member is there already")
  for (chair in c(0, 33, -1, 1.5, NaN, Inf)) {
    refused(board_open(r, chair), "BadChair", paste0("the chair is ", chair, chairs_are))
    if (!is.nan(chair)) refused(board_move(r, "AAA", chair), "BadChair", paste0("the chair is ", chair, seats_are))
  }
  refused(board_open(r, NA_real_), "BadChair", paste0("the chair is NA", chairs_are))
  for (code in c("aaa", "AA", "AAAA", "AAA ", "\u00c4AA", "", "AAA\n", "A\u00c4")) {
    refused(board_suspend(r, code), "BadMember", paste0("the code is ", encodeString(code, quote = "'"), codes_are))
  }
  most <- " to 1099511627776"
  for (votes in c(-1, 1.5, NaN, NA)) {
    refused(board_set_votes(r, "AAA", votes), "BadRecord", paste0("the votes of AAA are ", votes, votes_are, most))
  }
  refused(board_admit(r, "DDD", 2^40 + 1), "VotesTooLarge",
    paste0("the votes of DDD are 1099511627777", votes_are, most))
  expect_identical(parts(r), before)
})

test_that("values of a wrong type stop", {
  r <- board_register(three())
  before <- parts(r)
  wrong(board_open(r, "1"), paste0("the chair is '1' (character)", chairs_are))
  wrong(board_open(r, TRUE), paste0("the chair is TRUE (logical)", chairs_are))
  wrong(board_open(r, factor(1)), paste0("the chair is '1' (factor)", chairs_are))
  wrong(board_open(r, NULL), paste0("the chair is NULL (NULL)", chairs_are))
  wrong(board_open(r, 1:2), paste0("the chair is 1:2 (integer)", chairs_are))
  wrong(board_move(r, "AAA", "none"), paste0("the chair is 'none' (character)", seats_are))
  wrong(board_suspend(r, 5), paste0("the code is 5 (numeric)", codes_are))
  wrong(board_suspend(r, NA_character_), paste0("the code is NA (character)", codes_are))
  wrong(board_suspend(r, c("AAA", "BBB")), paste0("the code is c(\"AAA\", \"BBB\") (character)", codes_are))
  most <- paste0(votes_are, " to 1099511627776")
  for (votes in list(TRUE, NA)) {
    wrong(board_set_votes(r, "AAA", votes), paste0("the votes of AAA are ", votes, " (logical)", most))
  }
  wrong(board_set_votes(r, "AAA", "5"), paste0("the votes of AAA are '5' (character)", most))
  wrong(board_set_votes(r, "AAA", NULL), paste0("the votes of AAA are NULL (NULL)", most))
  wrong(board_admit(r, "DDD", factor(5)), paste0("the votes of DDD are '5' (factor)", most))
  wrong(board_open(5, 1), "the register is 5 (numeric): board_register() makes one")
  expect_error(board_indices(board_register, "half"), "the weights are function", class = "board_type_error")
  expect_identical(parts(r), before)
  expect_identical(board_accepted(board_register(c(AAA = 5.0))), 0L)
})

test_that("members that a register can't start with are refused", {
  most <- " to 1099511627776"
  refused(board_register(c(AAA = 1, BBB = -1)), "BadRecord", paste0("member 2: the votes are -1", votes_are, most))
  refused(board_register(c(AAA = 2^41)), "VotesTooLarge",
    paste0("member 1: the votes are 2199023255552", votes_are, most))
  refused(board_register(c(AAA = 1, bbb = 1)), "BadMember", paste0("member 2: the code is 'bbb'", codes_are))
  refused(board_register(c(AAA = 1, BBB = 1, AAA = 1)), "DuplicateMember",
    "member 3: the code 'AAA' is there already, in member 1")
  wrong(board_register(c(1, 2)), paste0("the votes have no names", codes_are))
  wrong(board_register(c(AAA = "1")), paste0("member 1: the votes are '1' (character)", votes_are, most))
  wrong(board_register(c(AAA = TRUE)), paste0("member 1: the votes are TRUE (logical)", votes_are, most))
  wrong(board_register(NULL), paste0("member 1: the votes are NULL (NULL)", votes_are, most))
  many <- structure(rep(1, 257), names = paste0("A", rep(LETTERS, each = 26), LETTERS)[1:257])
  refused(board_register(many), "TooManyMembers", "257 members: there are more than 256 members")
  expect_identical(nrow(board_members(board_register(many[-1]))), 256L)
  for (journal in c(0, 1000001, 1.5, NaN, -1)) {
    refused(board_register(c(AAA = 1), journal), "BadLimit",
      paste0("the journal is ", votingboard:::shown(journal), ": a whole number from 1 to 1000000"))
  }
  wrong(board_register(c(AAA = 1), "5"), "the journal is '5' (character): a whole number from 1 to 1000000")
  full <- refused(board_register(three(), journal = 5), "JournalFull",
    "record 6: refused 'move,CCC,3': JournalFull (9), as many commands as the journal limit were accepted")
  expect_identical(full$record, 6)
})

test_that("a copy shares nothing, and undo goes back", {
  r <- board_register(transform(three(), chair_name = c("a", "b", "c")))
  board_publish(r)
  before <- parts(r)
  other <- board_copy(r)
  board_move(other, "CCC", 2)
  expect_identical(board_indices(other, "half")$chairs$swings, c(2, 2, 0))
  expect_identical(board_indices(other, "half")$chairs$name, c("a", "b", "c"))
  expect_identical(parts(r), before)
  expect_identical(board_accepted(board_undo(other)), 6L)
  expect_identical(parts(other), before)
  expect_identical(parts(board_copy(r)), before)
  board_undo(r, 2)
  expect_identical(c(board_accepted(r), board_published(r)), c(2L, 2L))
  # Catches: readers that see commands that were taken back, or none of those that stay.
  expect_identical(board_read(r, "half"), board_indices(r, "half"))
  expect_identical(board_accepted(board_undo(r, 0)), 0L)
  refused(board_undo(r), "BadIndex", "to is -1: a whole number from 0 to the number of accepted commands")
  refused(board_undo(r, 1), "BadIndex", "to is 1: a whole number from 0 to the number of accepted commands")
  refused(board_undo(r, 0.5), "BadIndex", "to is 0.5: a whole number from 0 to the number of accepted commands")
  wrong(board_undo(r, "0"), "to is '0' (character): a whole number from 0 to the number of accepted commands")
})

test_that("a register of a saved workspace says what to do", {
  file <- tempfile()
  on.exit(unlink(file))
  saveRDS(board_register(three()), file)
  r <- readRDS(file)
  for (call in list(board_members, board_script, board_publish, board_copy, print, function(r) board_open(r, 4),
    function(r) board_submit(r, "open,4"), function(r) board_indices(r, "half"))) {
    refused(call(r), "NoRegister", paste0("the register is gone: one in a saved workspace or file can't be read back. ",
      "Save the text of board_script() and read it with board_from_script()"))
  }
})

test_that("a register is printed and summed up", {
  r <- board_register(three())
  line <- "A register of 3 members and 3 open chairs: 6 commands accepted, 0 published"
  expect_output(print(r), line, fixed = TRUE)
  expect_identical(format(r), line)
  expect_identical(names(summary(r)), c("members", "chairs", "accepted", "published"))
  expect_identical(board_chairs(r)$members, list("AAA", "BBB", "CCC"))
  board_open(r, 9)
  expect_identical(board_chairs(r)$members[[4]], character(0))
  expect_identical(nrow(board_chairs(board_register(c(AAA = 1)))), 0L)
})

test_that("a table that board.html saved is read by read.csv, and so is one saved again", {
  # Catches: true and false that read.csv leaves as text.
  text <- "code,name,votes,chair,chair_name,suspended\nAAA,Alpha,40,1,Hills,true\nBBB,Beta,25,,,false\n"
  for (it in list(text, toupper(text), sub("true", "True", sub("false", "False", text)))) {
    table <- utils::read.csv(text = sub("^[^\n]*", "code,name,votes,chair,chair_name,suspended", it))
    expect_identical(unname(board_members(board_register(table))$suspended), c(TRUE, FALSE))
    table$suspended <- factor(table$suspended)
    expect_identical(unname(board_members(board_register(table))$suspended), c(TRUE, FALSE))
  }
})
