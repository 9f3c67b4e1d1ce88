test_that("three chairs are counted", {
  board <- board_indices(c(50, 49, 1), "half")
  numbers <- c(quota = 51, least_size = 0, cast = 100, total = 100, omega = 3, coalitions = 8, act = 3 / 8)
  expect_identical(unlist(unclass(board)[names(numbers)]), numbers)
  expect_identical(board$majority, "half")
  frame <- data.frame(
    chair = 1:3, weight = c(50, 49, 1), swings = c(3, 1, 1), banzhaf = c(3, 1, 1) / 4, share = c(3, 1, 1) / 5,
    prevent = c(3, 1, 1) / 3, initiate = c(3, 1, 1) / 5
  )
  expect_identical(board$chairs, frame)
  expect_identical(as.data.frame(board), frame)
  expect_identical(names(board), c("majority", names(numbers), "chairs"))
})

test_that("whole numbers of each type are the same", {
  board <- board_indices(c(50, 49, 1), "half")
  expect_identical(board_indices(c(50L, 49L, 1L), "half"), board)
  expect_identical(board_indices(c(50.0, 49, 1), "half", total = 100L), board)
  expect_identical(board_indices(numeric(0), "half")$chairs$chair, integer(0))
  expect_identical(board_indices(numeric(0), "half")$coalitions, 1)
  expect_identical(board_indices(2^48, "half")$total, 2^48)
  expect_identical(board_indices(c(50, 49, 1), "70", total = 120)$quota, 84)
  expect_identical(board_indices(c(0, 0), "half")$chairs$share, c(NA_real_, NA_real_))
  expect_identical(board_indices(rep(1, 32), "half")$coalitions, 2^32)
})

test_that("all majorities at once are those one by one", {
  all <- board_indices_of_all(c(50, 49, 1))
  expect_identical(names(all), names(votingboard:::MAJORITIES))
  expect_identical(vapply(all, function(it) it$quota, 0), c(half = 51, "70" = 70, "85" = 85, quorum = 50))
  for (it in names(all)) expect_identical(all[[it]], board_indices(c(50, 49, 1), it))
  table <- cbind(three(), chair_name = c("World", NA, "IMF"), suspended = c(FALSE, TRUE, FALSE))
  all <- board_indices_of_all(table, open_chairs = c(7, 9))
  for (it in names(all)) expect_identical(all[[it]], board_indices(table, it, open_chairs = c(7, 9)))
  r <- board_register(table)
  all <- board_indices_of_all(r)
  for (it in names(all)) expect_identical(all[[it]], board_indices(r, it))
})

test_that("names of weights are names of chairs", {
  board <- board_indices(c(World = 50, 49, IMF = 1), "half")
  expect_identical(names(board$chairs)[1:3], c("chair", "name", "weight"))
  expect_identical(board$chairs$name, c("World", NA, "IMF"))
  expect_identical(board_indices(tapply(c(20, 30, 5), c("a", "a", "b"), sum), "half")$chairs$name, c("a", "b"))
  expect_identical(board_indices(c("\u00d6sterreich" = 5), "half")$chairs$name, "\u00d6sterreich")
  expect_null(board_indices(structure(1:2, names = c("", "")), "half")$chairs[["name"]])
  all <- board_indices_of_all(c(a = 50, b = 49))
  expect_identical(all[["85"]]$chairs$name, c("a", "b"))
})

test_that("fractions are exact and in lowest terms", {
  exact <- as.data.frame(board_indices(c(50, 49, 1), "half"), fractions = "exact")
  expect_identical(exact$share, c("3/5", "1/5", "1/5"))
  expect_identical(exact$banzhaf, c("3/4", "1/4", "1/4"))
  expect_identical(exact$prevent, c("1", "1/3", "1/3"))
  expect_identical(exact$swings, c(3, 1, 1))
  expect_identical(as.data.frame(board_indices(c(3, 0), "half"), fractions = "exact")$share, c("1", "0"))
  none <- as.data.frame(board_indices(c(0, 0), "half"), fractions = "exact")
  expect_identical(none$share, c(NA_character_, NA_character_))
  expect_identical(none$banzhaf, c("0", "0"))
  expect_error(as.data.frame(board_indices(1, "half"), fractions = "exakt"), "should be one of")
  large <- as.data.frame(board_indices(2^(31:0), "half"), fractions = "exact")
  expect_identical(large$banzhaf[c(1, 2)], c("1", "0"))
  expect_identical(votingboard:::exact_fraction(c(2^31, 6, 0), c(2^36, 4, 5)), c("1/32", "3/2", "0"))
})

test_that("members in chairs are counted", {
  table <- data.frame(
    votes = c(30, 20, 49, 7, 5), chair = c(1, 1, 2, NA, 3), suspended = c(FALSE, FALSE, FALSE, FALSE, TRUE)
  )
  seated <- board_indices(table, "half", open_chairs = c(7, 7))
  expect_identical(seated$chairs$chair, c(1L, 2L, 3L, 7L))
  expect_identical(seated$chairs$weight, c(50, 49, 0, 0))
  expect_identical(c(seated$cast, seated$total), c(99, 106))
  expect_identical(board_indices(three(), "half"), board_indices(c(50, 49, 1), "half"))
  expect_identical(board_indices(as.list(three()), "half"), board_indices(c(50, 49, 1), "half"))
  expect_identical(board_indices(data.frame(votes = 5, chair = NA), "85")$total, 5)
  named <- cbind(three(), chair_name = factor(c("World", NA, "IMF")))
  expect_identical(board_indices(named, "half")$chairs$name, c("World", NA, "IMF"))
  expect_null(board_indices(cbind(three(), chair_name = NA), "half")$chairs[["name"]])
  expect_identical(board_indices(data.frame(votes = rep(1, 300), chair = 1), "half")$cast, 300)
  expect_identical(board_indices(data.frame(votes = 1, chair = 1:32), "half", open_chairs = 32)$coalitions, 2^32)
})

test_that("many boards are those one by one", {
  rows <- rbind(first = c(50, 49, 1), second = c(5, 5, 0))
  many <- board_indices_of_many(rows)
  expect_identical(dim(many$swings), c(2L, length(votingboard:::MAJORITIES), 3L))
  for (at in 1:2) {
    for (it in many$majorities) {
      one <- board_indices(rows[at, ], it)
      expect_identical(many$swings[at, it, ], one$chairs$swings)
      for (part in c("share", "banzhaf", "prevent", "initiate")) {
        expect_identical(many[[part]][at, it, ], one$chairs[[part]])
      }
      for (part in c("omega", "quota", "least_size", "act")) expect_identical(many[[part]][[at, it]], one[[part]])
    }
  }
  expect_identical(unname(many$omega["first", "half"]), 3)
  list <- board_indices_of_many(list(c(50, 49, 1), 7, numeric(0)), c("85", "half"), totals = c(100, 9, 0))
  expect_identical(dim(list$share), c(3L, 2L, 3L))
  expect_identical(list$swings[2, 2, ], c(1, NA, NA))
  expect_identical(list$total, c(100, 9, 0))
  frame <- as.data.frame(list)
  expect_identical(nrow(frame), 8L)
  expect_identical(frame$swings[frame$board == 1 & frame$majority == "half"], c(3, 1, 1))
  expect_identical(board_indices_of_many(as.data.frame(rows))$omega, many$omega)
  expect_identical(unique(as.data.frame(many)$board), c("first", "second"))
  expect_identical(nrow(as.data.frame(board_indices_of_many(matrix(1, 0, 3)))), 0L)
  expect_identical(list$weights[1, ], c(50, 49, 1))
  expect_identical(board_indices_of_many(matrix(1:2, 2))$share[, "half", ], c(1, 1))
  expect_output(print(many), "2 boards of up to 3 chairs, by half, 70, 85, quorum")
})

test_that("many boards have chairs and exact fractions", {
  many <- board_indices_of_many(list(first = c(50, 49, 1), second = c(0, 0), third = numeric(0)), c("half", "85"))
  expect_identical(many$chairs, c(3L, 2L, 0L))
  expect_identical(many$coalitions, c(8, 4, 1))
  frame <- as.data.frame(many, fractions = "exact")
  boards <- list(first = c(50, 49, 1), second = c(0, 0))
  for (board in names(boards)) for (majority in many$majorities) {
    alone <- as.data.frame(board_indices(boards[[board]], majority), fractions = "exact")
    rows <- frame[frame$board == board & frame$majority == majority, names(alone)]
    expect_identical(as.list(rows), as.list(alone))
  }
  expect_identical(nrow(frame), 10L)
})

# Catches: counts of a majority that wasn't asked for, or in another order.
test_that("many boards are counted by the majorities that are asked for", {
  rows <- lapply(1:200, function(at) (at * 7919 + (1:24) * 104729) %% 400009)
  all <- board_indices_of_many(rows, processors = 1)
  for (asked in list("85", c("quorum", "half"), c("85", "70", "85"), rev(all$majorities))) {
    some <- board_indices_of_many(rows, asked, processors = 1)
    expect_identical(unname(some$swings), unname(all$swings[, asked, , drop = FALSE]))
    expect_identical(unname(some$omega), unname(all$omega[, asked, drop = FALSE]))
  }
})

test_that("results are printed, summed up and drawn", {
  board <- board_indices(c(World = 50, IMF = 49, x = 1), "half")
  expect_identical(format(board)[1], "Majority half: 51 of 100 votes win, 3 of 8 coalitions do")
  expect_identical(format(board, fractions = "exact")[3], "     1 World     50      3     3/4   3/5       1      3/5")
  expect_output(print(board_indices(c(1, 1), "quorum")), "1 of 2 votes of 2 chairs or more win")
  expect_output(print(summary(board)), "Power to act: 0.375")
  expect_identical(summary(board)$shares$power, board$chairs$share)
  expect_identical(summary(board)$shares$votes, c(0.5, 0.49, 0.01))
  expect_output(print(board_indices(numeric(0), "half")), "0 of 1 coalitions")
  grDevices::pdf(NULL)
  on.exit(grDevices::dev.off())
  expect_identical(dim(plot(board)), c(2L, 3L))
  expect_silent(plot(board_indices(c(0, 0), "half")))
  expect_error(plot(board_indices(numeric(0), "half")), "no chair is open")
})

test_that("many boards have the same counts in the same order on any number of threads", {
  rows <- lapply(1:400, function(at) c(at, 2 * at %% 7, 3, rep(1, at %% 9)))
  wanted <- lapply(rows, board_indices_of_all)
  for (processors in list(NULL, 1, 2, 3L, 1000)) {
    many <- board_indices_of_many(rows, processors = processors)
    for (it in many$majorities) {
      expect_identical(unname(many$omega[, it]), vapply(wanted, function(all) all[[it]]$omega, 0))
      swings <- lapply(wanted, function(all) all[[it]]$chairs$swings)
      expect_identical(lapply(seq_along(rows), function(at) many$swings[at, it, seq_along(rows[[at]])]), swings)
    }
  }
})

test_that("many boards keep the names of chairs and the labels of boards", {
  # Catches: names that are taken and lost, so that a panel can't be joined.
  panel <- data.frame(North = c(50, 1), South = c(49, 2), row.names = c("1991", "2026"))
  for (rows in list(panel, as.matrix(panel))) {
    frame <- as.data.frame(board_indices_of_many(rows, c("half", "85")))
    expect_identical(frame$board, rep(c("1991", "2026"), each = 4))
    expect_identical(frame$name, rep(c("North", "South"), 4))
    expect_identical(names(frame)[1:6], c("board", "majority", "omega", "chair", "name", "weight"))
  }
  many <- board_indices_of_many(list(c(A = 1, 2), numeric(0), c(5, B = 3, C = 0), 7), "half")
  expect_identical(as.data.frame(many)$name, c("A", NA, NA, "B", "C", NA))
  expect_null(board_indices_of_many(list(1, 2))$names)
  expect_null(as.data.frame(board_indices_of_many(rbind(c(1, 2)), "half"))$name)
})
