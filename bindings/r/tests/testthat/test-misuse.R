test_that("weights and totals that are no votes are refused", {
  for (weight in c(-1, 1.5, NaN, NA, Inf, -Inf)) {
    refused(board_indices(c(50, 49, weight), "half"), "BadSheet", paste0("weight 3 is ", weight, votes_are))
    refused(board_indices_of_all(c(50, 49, weight)), "BadSheet", paste0("weight 3 is ", weight, votes_are))
    refused(board_indices(50, "half", total = weight), "BadSheet", paste0("the total is ", weight, votes_are))
  }
  most <- ": at most 281474976710656"
  refused(board_indices(c(1, 2^64), "half"), "BadSheet", paste0("weight 2 is 18446744073709551616", most))
  refused(board_indices(c(2^48, 1), "half"), "BadSheet", paste0("the total is 281474976710657", most))
  refused(board_indices(1, "half", total = 2^48 + 1), "BadSheet", paste0("the total is 281474976710657", most))
  refused(board_indices(c(50, 50), "half", total = 99), "BadSheet",
    "the total is 99: at least the sum of the weights, 100")
  refused(board_indices(rep(1, 33), "half"), "BadSheet", "33 weights: a board has at most 32 chairs")
})

test_that("weights of a wrong type stop", {
  wrong(board_indices(TRUE, "half"), paste0("weight 1 is TRUE (logical)", votes_are))
  wrong(board_indices(NA, "half"), paste0("weight 1 is NA (logical)", votes_are))
  wrong(board_indices("50", "half"), paste0("weight 1 is '50' (character)", votes_are))
  wrong(board_indices(factor("50"), "half"), paste0("weight 1 is '50' (factor)", votes_are))
  wrong(board_indices(NULL, "half"), paste0("the weights are NULL (NULL)", votes_are))
  wrong(board_indices(matrix(1, 1, 2), "half"),
    paste0("the weights are structure(c(1, 1), dim = 1:2) (matrix)", votes_are))
  wrong(board_indices(1i, "half"), paste0("weight 1 is 0+1i (complex)", votes_are))
  wrong(board_indices(as.raw(1), "half"), paste0("weight 1 is as.raw(0x01) (raw)", votes_are))
  wrong(board_indices(structure(50, class = "integer64"), "half"), paste0("weight 1 is 50 (integer64)", votes_are))
  wrong(board_indices(1, "half", total = "1"), paste0("the total is '1' (character)", votes_are))
  wrong(board_indices(1, "half", total = TRUE), paste0("the total is TRUE (logical)", votes_are))
  wrong(board_indices(1, "half", total = c(1, 2)), paste0("the total is c(1, 2) (numeric)", votes_are))
  expect_s3_class(try(board_indices(Sys.Date(), "half"), silent = TRUE), "try-error")
  expect_s3_class(try(board_indices(quote(a), "half"), silent = TRUE), "try-error")
})

test_that("a majority is always given, as one known text", {
  expect_error(board_indices(1), "majority")
  for (it in c("HALF", " half", "70%", "", "0", "hal")) {
    refused(board_indices(1, it), "BadRecord", paste0("no majority '", it, "'", majorities_are))
  }
  refused(board_indices(1, NA_character_), "BadRecord", paste0("no majority NA", majorities_are))
  wrong(board_indices(1, 70), paste0("the majority is 70 (numeric)", majorities_are))
  wrong(board_indices(1, NULL), paste0("the majority is NULL (NULL)", majorities_are))
  wrong(board_indices(1, NA), paste0("the majority is NA (logical)", majorities_are))
  wrong(board_indices(1, factor("half")), paste0("the majority is 'half' (factor)", majorities_are))
  wrong(board_indices(1, c("half", "85")), paste0("the majority is c(\"half\", \"85\") (character)", majorities_are))
  wrong(board_read(board_register(c(AAA = 1)), 70), paste0("the majority is 70 (numeric)", majorities_are))
})

test_that("arguments aren't matched in part, or passed over", {
  wrong(board_indices(1, "half", tot = 5), "unknown argument 'tot'")
  wrong(board_indices(1, "half", 5), "unknown argument")
  wrong(board_indices(1, "half", open_chairs = 5), "unknown argument 'open_chairs'")
  wrong(board_indices(three(), "half", total = 5), "unknown argument 'total'")
  wrong(board_indices_of_all(three(), open = 5), "unknown argument 'open'")
  wrong(board_indices(board_register(three()), "half", total = 5), "unknown argument 'total'")
  wrong(as.data.frame(board_indices(1, "half"), exact = TRUE), "unknown argument 'exact'")
})

test_that("many boards are refused with the board's place", {
  refused(board_indices_of_many(rbind(c(1, 1), c(1, 1), c(1, -1))), "BadSheet",
    paste0("board 3: weight 2 is -1", votes_are))
  refused(board_indices_of_many(list(1, rep(1, 33))), "BadSheet", "board 2: 33 weights: a board has at most 32 chairs")
  refused(board_indices_of_many(list(1, 2), totals = c(1, 1)), "BadSheet",
    "board 2: the total is 1: at least the sum of the weights, 2")
  refused(board_indices_of_many(list(1), "HALF"), "BadRecord", paste0("no majority 'HALF'", majorities_are))
  wrong(board_indices_of_many(list(1, "2")), paste0("board 2: weight 1 is '2' (character)", votes_are))
  wrong(board_indices_of_many(list(1, list(2))), paste0("board 2: the weights are list(2) (list)", votes_are))
  wrong(board_indices_of_many(list(1, 2), totals = 5), "there are 1 totals, and 2 boards")
  wrong(board_indices_of_many(list(1), totals = "5"), paste0("board 1: the total is '5' (character)", votes_are))
  # Catches: a check of a whole matrix that lets pass what that of a board doesn't, and a board named in words alone.
  for (bad in list(-1, 1.5, NA, NaN, Inf, 2^48 + 1)) {
    rows <- rbind(a = c(1, 1), b = c(1, bad), c = c(bad, 1))
    alone <- tryCatch(board_indices(rows[2, ], "half"), board_refused = conditionMessage)
    why <- refused(board_indices_of_many(rows), "BadSheet", paste0("board 2: ", alone))
    expect_identical(why$board, "b")
    why <- refused(board_indices_of_many(list(1, c(1, bad), bad)), "BadSheet", paste0("board 2: ", alone))
    expect_identical(why$board, 2L)
  }
  refused(board_indices_of_many(rbind(1, 2^48, 2^48), totals = c(1, 2^48, 5)),
    "BadSheet", "board 3: the total is 5: at least the sum of the weights, 281474976710656")
  refused(board_indices_of_many(rbind(c(1, 1), c(2^48, 1))), "BadSheet",
    "board 2: the total is 281474976710657: at most 281474976710656")
  refused(board_indices_of_many(matrix(1, 2, 33)), "BadSheet", "board 1: 33 weights: a board has at most 32 chairs")
  wrong(board_indices_of_many(matrix(TRUE, 2, 2)), paste0("board 1: weight 1 is TRUE (logical)", votes_are))
  wrong(board_indices_of_many(5), "the boards are 5 (numeric): a matrix of numbers, a row each, or a list of vectors")
  wrong(board_indices_of_many(list(1), 70), paste0("the majorities are 70 (numeric)", majorities_are))
  wrong(board_indices_of_many(list(1), processors = "2"), "processors is '2' (character): a whole number from 1")
  wrong(board_indices_of_many(list(1), processors = 1:2), "processors is 1:2 (integer): a whole number from 1")
  for (it in c(0, -1, 1.5)) {
    wrong(board_indices_of_many(list(1), processors = it), paste0("processors is ", it, ": a whole number from 1"))
  }
})

test_that("cells of tables are refused with their rows", {
  table <- function(...) data.frame(votes = c(1, 1, 1), chair = 1:3, ...)
  cell <- function(column, value) {
    it <- cbind(three(), suspended = FALSE, chair_name = c("a", "b", "c"))
    it[[column]][3] <- value
    it
  }
  for (votes in c(1.5, NaN, NA, -1, Inf)) {
    refused(board_indices(cell("votes", votes), "half"), "BadSheet", paste0("row 3: the votes are ", votes, votes_are))
  }
  most <- " to 1099511627776"
  for (votes in c(1.5, NaN, NA, -1)) {
    refused(board_register(cell("votes", votes)), "BadRecord", paste0("row 3: the votes are ", votes, votes_are, most))
  }
  refused(board_register(cell("votes", 2^40 + 1)), "VotesTooLarge",
    paste0("row 3: the votes are 1099511627777", votes_are, most))
  for (chair in c(0, 33, -1, 1.5, Inf)) {
    refused(board_indices(cell("chair", chair), "half"), "BadSheet", paste0("row 3: the chair is ", chair, seats_are))
    refused(board_register(cell("chair", chair)), "BadChair", paste0("row 3: the chair is ", chair, seats_are))
    refused(board_indices(three(), "half", open_chairs = c(1, chair)), "BadSheet",
      paste0("open chair 2 is ", chair, chairs_are))
  }
  for (call in list(board_register, function(it) board_indices(it, "half"))) {
    why <- refused(call(cell("code", "aaa")), "BadMember", paste0("row 3: the code is 'aaa'", codes_are))
    expect_identical(why$row, 3L)
    refused(call(cell("code", "AAA\n")), "BadMember", paste0("row 3: the code is 'AAA\\n'", codes_are))
    why <- refused(call(cell("code", "AAA")), "DuplicateMember", "row 3: the code 'AAA' is there already, in row 1")
    expect_identical(why$number, 11L)
    wrong(call(cell("code", NA)), paste0("row 3: the code is NA (character)", codes_are))
    wrong(call(cell("suspended", 1)), "row 1: suspended is 0 (numeric): TRUE or FALSE")
    wrong(call(cell("suspended", "yes")), "row 1: suspended is 'FALSE' (character): TRUE or FALSE")
    expect_error(call(cell("suspended", NA)), "row 3: suspended is NA: TRUE or FALSE", class = "board_refused")
    wrong(call(cbind(three(), chair_name = 1)), "row 1: the chair_name is 1 (numeric): a name is text")
    wrong(call(transform(three(), chair = factor(chair))), paste0("row 1: the chair is '1' (factor)", seats_are))
    wrong(call(transform(three(), chair = "1")), paste0("row 1: the chair is '1' (character)", seats_are))
    wrong(call(transform(three(), chair = TRUE)), paste0("row 1: the chair is TRUE (logical)", seats_are))
    expect_error(call(transform(three(), votes = factor(votes))), "row 1: the votes are '50' (factor)", fixed = TRUE,
      class = "board_type_error")
    expect_error(call(transform(three(), votes = TRUE)), "row 1: the votes are TRUE (logical)", fixed = TRUE,
      class = "board_type_error")
    names <- transform(three(), chair = c(1, 2, 1), chair_name = c("a", "b", "c"))
    expect_error(call(names), "row 3: chair 1 is named 'c', and 'a' in row 1", class = "board_refused")
  }
  refused(board_indices(data.frame(votes = c(2^48, 1), chair = 1), "half"), "BadSheet",
    "the total is 281474976710657: at most 281474976710656")
  large <- data.frame(votes = c(1, 2^64), chair = 1, suspended = c(FALSE, TRUE))
  refused(board_indices(large, "half"), "BadSheet",
    "row 2: the votes are 18446744073709551616: at most 281474976710656")
  expect_identical(board_indices(data.frame(votes = 1, chair = NaN), "half")$total, 1)
  expect_identical(board_accepted(board_register(transform(three(), code = factor(code)))), 6L)
})

# Catches: a filter that leaves no row, or a file without rows, which stops a study.
test_that("a table without rows is the empty board", {
  read <- utils::read.csv(text = "code,votes,chair,chair_name,suspended")
  for (table in list(three()[0, ], read, data.frame(), list())) {
    expect_identical(nrow(board_members(board_register(table))), 0L)
    expect_identical(board_indices(table, "half"), board_indices(numeric(0), "half"))
  }
  wrong(board_register(three()[0, c("code", "chair")]), paste0("no column 'votes'", columns_are))
})

test_that("columns are found by their whole names", {
  named <- transform(three(), name = "A")
  expect_identical(board_indices(named, "half")$total, board_indices(three(), "half")$total)
  both <- list(function(it) board_indices(it, "half"), board_register)
  for (call in both) {
    wrong(call(cbind(three(), Suspended = TRUE)), paste0("unknown column 'Suspended'", columns_are))
    wrong(call(cbind(three(), suspended_before = TRUE)), paste0("unknown column 'suspended_before'", columns_are))
    wrong(call(cbind(three(), suspend = TRUE)), paste0("unknown column 'suspend'", columns_are))
    wrong(call(cbind(three(), name = 5)), "row 1: the name is 5 (numeric): a name is text")
    wrong(call(data.frame(code = "AAA", chair = 1)), paste0("no column 'votes'", columns_are))
    wrong(call(list(1, 2)), paste0("the table has no names of columns", columns_are))
    twice <- structure(as.list(three()), names = c("votes", "votes", "chair"))
    wrong(call(twice), "column 'votes' is there twice")
  }
})

test_that("a malformed data frame is refused before C reads it", {
  for (call in list(function(it) board_indices(it, "half"), board_register)) {
    long <- three()
    attr(long, "row.names") <- 1:1000
    wrong(call(long), "column 'code' has 3 rows, and the table has 1000")
    short <- three()
    attr(short, "row.names") <- 1:2
    wrong(call(short), "column 'code' has 3 rows, and the table has 2")
    uneven <- unclass(three())
    uneven$chair <- 1:2
    attr(uneven, "row.names") <- NULL
    wrong(call(uneven), "column 'chair' has 2 rows, and the table has 3")
    inner <- three()
    inner$votes <- matrix(1:6, 3)
    wrong(call(inner), "column 'votes' is no vector")
    inner$votes <- list(1, 2, 3)
    wrong(call(inner), "column 'votes' is no vector")
  }
})

test_that("C checks again what R has checked", {
  call <- function(name, ...) .Call(get(paste0("C_", name), asNamespace("votingboard")), ...)
  expect_error(call("weights", 1:2, 3, 0L, NULL), "wrong type")
  expect_error(call("weights", rep(1, 33), 33, 0L, NULL), "too many weights")
  expect_error(call("weights", c(1, NaN), 3, 0L, NULL), "isn't whole")
  expect_error(call("weights", 1, 3, 9L, NULL), "no majority")
  expect_error(call("weights", 1, 3, 0L, "a"), "wrong type or length")
  expect_error(call("members", c(1, 2), 1, FALSE, 0, 0L, NULL), "wrong type or length")
  expect_error(call("members", 1, 1, 0, 0, 0L, NULL), "wrong type or length")
  expect_error(call("indices", c(1, 2), 0L, NULL), "not a board")
  expect_error(call("indices", c(1, 1, 1, 1, 1, 1, 1, 99, 1, 1), 0L, NULL), "not a board")
  expect_error(call("state", 5), "not a register")
  expect_error(call("submit", handle_in(board_register(c(AAA = 1))), "open,1"), "wrong type")
  expect_error(call("start", c("AAAA"), 1, 10), "three characters")
  expect_error(call("many", rep(1, 33), 33L, 33, 0L, 1), "too many weights")
  expect_error(call("many", 1, 1L, 1, 0L, -1), "isn't whole")
  expect_error(call("many", NA_real_, 1L, 1, 0L, 1), "isn't whole")
  expect_error(call("many", c(1, 2), c(1L, 2L), c(1, 2), 0L, 1), "no such chairs")
  for (chairs in list(-1L, NA)) expect_error(call("many", 1, as.integer(chairs), 1, 0L, 1), "no such chairs")
  expect_error(call("many", c(1, 2, 3), c(1L, 1L), c(1, 2), 0L, 1), "wrong type or length")
  expect_error(call("many", 1:2, c(1L, 1L), c(1, 2), 0L, 1), "wrong type or length")
  expect_error(call("many", 1, 1L, 1, 4L, 1), "no majority")
})
