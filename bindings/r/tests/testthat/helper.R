# A call is refused by this name, with this message. The condition.
refused <- function(call, name, message) {
  why <- tryCatch(force(call), board_refused = identity, board_type_error = identity)
  expect_s3_class(why, c("board_refused", "error", "condition"), exact = TRUE)
  expect_identical(conditionMessage(why), message)
  expect_identical(list(why$name, names(votingboard:::REFUSALS)[why$number]), list(name, name))
  invisible(why)
}

# A value of a wrong type stops with this message.
wrong <- function(call, message) {
  why <- tryCatch(force(call), board_refused = identity, board_type_error = identity)
  expect_s3_class(why, c("board_type_error", "error", "condition"), exact = TRUE)
  expect_identical(conditionMessage(why), message)
}

votes_are <- ": votes are whole numbers from 0"
chairs_are <- ": a chair is a whole number from 1 to 32"
seats_are <- paste0(chairs_are, ", or NA for no chair")
codes_are <- ": a code is three ASCII capitals"
majorities_are <- ": half, 70, 85 or quorum"
columns_are <- ": the columns are code, name, votes, chair, chair_name and suspended"

three <- function() {
  data.frame(code = c("AAA", "BBB", "CCC"), votes = c(50, 49, 1), chair = 1:3)
}

handle_in <- function(r) unclass(r)$handle

# A register as its parts, for comparison.
parts <- function(r) {
  list(board_opening(r), as.character(board_journal(r)), board_published(r), board_members(r), board_chairs(r))
}

# The lines of the program.
number <- function(it) sprintf("%.0f", it)
ratio <- function(numerator, denominator) {
  if (denominator == 0) rep("-", length(numerator)) else paste0(number(numerator), "/", number(denominator))
}
chair_lines <- function(it) {
  if (nrow(it$chairs) == 0) return(character(0))
  swings <- it$chairs$swings
  paste("chair", it$chairs$chair, number(it$chairs$weight), number(swings), ratio(swings, it$coalitions / 2),
    ratio(swings, sum(swings)), ratio(swings, it$omega), ratio(swings, it$coalitions - it$omega), sep = ",")
}
head_line <- function(it) {
  numbers <- number(c(nrow(it$chairs), it$quota, it$cast, it$total, it$omega, it$coalitions))
  paste(c(it$majority, numbers), collapse = ",")
}
lines_of <- function(it) c(head_line(it), chair_lines(it))

# The lines of a replay, rebuilt from its data.
run_lines <- function(run) {
  out <- run$outcomes
  lines <- paste(out$what, out$number, sep = ",")
  lines <- ifelse(out$what == "refused", paste0(lines, ",", out$name), lines)
  at <- which(out$what == "reading")
  lines[at] <- vapply(seq_along(at), function(i) {
    it <- board_reading(run, i)
    head <- paste("reading", it$reader, it$front, head_line(it), sep = ",")
    paste(c(head, chair_lines(it)), collapse = "\n")
  }, "")
  record <- if (isTRUE(run$fault$number %in% c(17, 22))) run$fault$record else 0
  c(lines, if (!is.null(run$fault)) paste("fault", record, run$fault$name, sep = ","))
}

# A file of the program's answers, in the folder that BOARD_ANSWERS names: `check` in a clone sets it.
answers <- function(file) {
  folder <- Sys.getenv("BOARD_ANSWERS")
  skip_if(!nzchar(folder), "BOARD_ANSWERS names no folder of the program's answers")
  readLines(file.path(folder, file))
}

# The deep gate of the repository sets DEEP: it tests more.
is_deep <- nzchar(Sys.getenv("DEEP"))

# Stops after some seconds, as an interrupt does: at the next moment at which R looks for one.
after <- function(seconds, call) {
  on.exit(setTimeLimit())
  setTimeLimit(elapsed = seconds, transient = TRUE)
  tryCatch({
    force(call)
    "ended"
  }, error = conditionMessage)
}
