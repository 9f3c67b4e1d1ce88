test_that("the library has the package's version", {
  expect_identical(board_version(), as.character(utils::packageVersion("votingboard")))
  expect_identical(board_version(), votingboard:::VERSION)
})

test_that("names of refusals are those of the library's answers", {
  run <- board_replay(c("member,votes", "AAA,1", "script", "close,1"))
  expect_identical(as.vector(board_replay_text(c("member,votes", "AAA,1", "script", "close,1"))$text),
    paste0("refused,", run$refused$number, ",", run$refused$name, "\n"))
})

test_that("a call that comes to what its proof rules out is an error of its own", {
  expect_error(votingboard:::refuse_number(255L), "the library came to a point that its proof rules out")
  why <- tryCatch(votingboard:::refuse_number(255L), error = identity)
  expect_false(inherits(why, "board_refused"))
  refused(votingboard:::refuse_number(10L), "OutOfMemory", "OutOfMemory (10), out of memory")
})
