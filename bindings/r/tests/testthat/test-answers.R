# The answers of the program to random boards, scripts and commands.

test_that("boards are counted as by the program", {
  lines <- answers("boards.txt")
  at <- which(startsWith(lines, "board,"))
  expect_gt(length(at), 0)
  ends <- c(at[-1] - 1, length(lines))
  majorities <- names(votingboard:::MAJORITIES)
  rows <- lapply(strsplit(lines[at], ",", fixed = TRUE), function(it) as.double(it[-1]))
  for (board in seq_along(at)) {
    total <- rows[[board]][1]
    weights <- rows[[board]][-1]
    theirs <- lines[(at[board] + 1):ends[board]]
    each <- sapply(majorities, function(it) board_indices(weights, it, total = total), simplify = FALSE)
    table <- data.frame(votes = c(weights, total - sum(weights)), chair = c(seq_along(weights), NA))
    same <- c(
      lines = identical(unlist(lapply(each, lines_of), use.names = FALSE), theirs),
      all = identical(board_indices_of_all(weights, total = total), each),
      members_all = identical(board_indices_of_all(table), each),
      members = identical(sapply(majorities, function(it) board_indices(table, it), simplify = FALSE), each)
    )
    expect_identical(names(same)[!same], character(0), info = lines[at[board]])
  }
  many <- board_indices_of_many(lapply(rows, `[`, -1), totals = vapply(rows, `[`, 0, 1))
  frame <- as.data.frame(many)
  chairs <- strsplit(lines[startsWith(lines, "chair,")], ",", fixed = TRUE)
  expect_identical(frame$swings, as.double(vapply(chairs, `[`, "", 4)))
  expect_identical(frame$weight, as.double(vapply(chairs, `[`, "", 3)))
})

test_that("fractions of boards are those of the program", {
  lines <- answers("boards.txt")
  lines <- strsplit(lines[startsWith(lines, "chair,")], ",", fixed = TRUE)
  for (column in 5:8) {
    parts <- strsplit(vapply(lines, `[`, "", column), "/", fixed = TRUE)
    parts <- parts[lengths(parts) == 2]
    numerator <- as.double(vapply(parts, `[`, "", 1))
    denominator <- as.double(vapply(parts, `[`, "", 2))
    exact <- strsplit(votingboard:::exact_fraction(numerator, denominator), "/", fixed = TRUE)
    above <- as.double(vapply(exact, `[`, "", 1))
    below <- as.double(vapply(exact, function(it) c(it, "1")[2], ""))
    expect_identical(above / below, numerator / denominator)
    factor <- denominator / below
    expect_identical(factor, floor(factor))
    expect_identical(above * factor, numerator)
  }
})

test_that("scripts are replayed as by the program", {
  bytes <- function(hex) {
    digits <- strtoi(strsplit(hex, "")[[1]], 16)
    as.raw(matrix(c(16, 1), nrow = 1) %*% matrix(digits, nrow = 2))
  }
  lines <- strsplit(answers("scripts.txt"), ",", fixed = TRUE)
  expect_gt(length(lines), 0)
  for (it in lines) {
    input <- if (is.na(it[4]) || it[4] == "") raw(0) else bytes(it[4])
    theirs <- if (is.na(it[5])) "" else rawToChar(bytes(it[5]))
    limits <- as.double(it[1:2])
    run <- board_replay(input, readers = limits[1], journal = limits[2])
    ours <- run_lines(run)
    expect_identical(if (length(ours) == 0) "" else paste0(paste(ours, collapse = "\n"), "\n"), theirs)
    text <- board_replay_text(input, readers = limits[1], journal = limits[2])
    expect_identical(list(text = as.vector(text$text), fault = text$fault), list(text = theirs, fault = run$fault))
    expect_identical(is.null(run$fault), it[3] == "0")
  }
})

test_that("a register answers as the program does", {
  records <- answers("register.csv")
  theirs <- answers("register.txt")
  mark <- match("script", records)
  opening <- strsplit(records[2:(mark - 1)], ",", fixed = TRUE)
  members <- structure(as.double(vapply(opening, `[`, "", 2)), names = vapply(opening, `[`, "", 1))
  records <- records[-seq_len(mark)]
  by_text <- board_register(members)
  by_call <- board_register(members)
  calls <- list(open = board_open, close = board_close, move = board_move, votes = board_set_votes,
    suspend = board_suspend, restore = board_restore, admit = board_admit, withdraw = board_withdraw)
  called <- function(record) {
    it <- strsplit(record, ",", fixed = TRUE)[[1]]
    if (it[1] == "publish") return(paste0("published,", board_published(board_publish(by_call))))
    rest <- lapply(it[-1], function(part) {
      if (part == "none") NA else if (grepl("^[0-9]", part)) as.double(part) else part
    })
    tryCatch(paste0("accepted,", board_accepted(do.call(calls[[it[1]]], c(list(by_call), rest)))),
      board_refused = function(why) paste("refused", why$number, why$name, sep = ","))
  }
  texted <- function(record) {
    why <- board_check(by_text, record)
    if (!identical(board_attempt(by_text, record), why)) stop("check and attempt differ: ", record)
    if (!is.null(why)) return(paste("refused", why$number, why$name, sep = ","))
    if (record == "publish") paste0("published,", board_published(by_text))
    else paste0("accepted,", board_accepted(by_text))
  }
  read <- function(r, record) {
    it <- strsplit(record, ",", fixed = TRUE)[[1]]
    found <- board_read(r, it[3])
    if (!identical(board_indices(r, it[3]), found)) stop("what is read isn't what stands: ", record)
    c(paste("reading", it[2], board_published(r), head_line(found), sep = ","), chair_lines(found))
  }
  is_read <- startsWith(records, "read,")
  for (part in split(seq_along(records), cumsum(records == "publish"))) {
    ours <- lapply(part, function(at) if (is_read[at]) read(by_text, records[at]) else texted(records[at]))
    others <- lapply(part, function(at) if (is_read[at]) read(by_call, records[at]) else called(records[at]))
    next_lines <- theirs[seq_along(unlist(ours))]
    theirs <- theirs[-seq_along(unlist(ours))]
    expect_identical(unlist(ours), next_lines)
    expect_identical(unlist(others), next_lines)
  }
  expect_length(theirs, 0)
  theirs <- answers("register.txt")
  expect_identical(parts(by_text), parts(by_call))
  expect_identical(parts(board_from_script(board_script(by_text))), parts(by_text))
  run <- board_replay(answers("register.csv"))
  expect_identical(parts(run$register), parts(by_text))
  expect_identical(unlist(strsplit(run_lines(run), "\n")), theirs)
  expect_identical(nrow(run$refused), sum(startsWith(theirs, "refused,")))
  members <- board_members(by_text)
  open <- board_chairs(by_text)$chair
  expect_identical(board_indices_of_all(members, open_chairs = open), board_indices_of_all(by_text))
})
