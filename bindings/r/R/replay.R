# A whole script, carried out.

OUTCOMES <- c("accepted", "refused", "published", "reading")

board_replay <- function(text, readers = 1, journal = 1000000, file = NULL) {
  limits <- c(readers_limit(readers), journal_limit(journal))
  input <- input_of(text, file, "board_replay")
  got <- .Call(C_replay, input, limits[1], limits[2])
  if (is.integer(got)) refuse_number(got)
  run <- list(fault = fault_of(got$fault, got$fault_record))
  is_refused <- got$what == 1L
  names <- rep(NA_character_, length(got$what))
  names[is_refused] <- names(REFUSALS)[got$number[is_refused]]
  run$outcomes <- data.frame(record = got$record, what = OUTCOMES[got$what + 1L], number = got$number, name = names)
  run$readings <- readings_of(got, which(got$what == 3L))
  run$refused <- run$outcomes[is_refused, c("record", "number", "name")]
  row.names(run$refused) <- NULL
  run$refused$reason <- unname(REFUSALS[run$refused$name])
  run$refused$command <- sub("[\r\n]+$", "", got$texts)
  if (!is.null(got$register)) run$register <- new_register(got$register)
  run$boards <- got$boards
  structure(run, class = "board_replay")
}

fault_of <- function(number, record) {
  if (number == 0) return()
  if (number == TRAPPED) refuse_number(number)
  list(record = record, number = number, name = names(REFUSALS)[number], reason = REFUSALS[[number]])
}

# The readings, a row each. Readings of the same publication by the same majority have the same board.
readings_of <- function(got, rows) {
  heads <- vapply(got$boards, function(board) board[1:7], numeric(7))
  heads <- matrix(heads, nrow = 7)[, got$board, drop = FALSE]
  data.frame(
    record = got$record[rows], reader = got$reader, front = got$number[rows],
    majority = names(MAJORITIES)[got$majority + 1L], quota = heads[1, ], least_size = heads[2, ], cast = heads[3, ],
    total = heads[4, ], omega = heads[5, ], coalitions = heads[6, ], act = heads[5, ] / heads[6, ],
    chairs = as.integer(heads[7, ]), board = got$board
  )
}

board_reading <- function(run, at = 1) {
  if (!inherits(run, "board_replay")) wrong_type("the run is", run, "board_replay() makes one")
  allowed <- paste("a whole number from 1 to the number of readings,", nrow(run$readings))
  number <- one_number(at, "the reading is", allowed)
  if (!is_whole(number, 1, nrow(run$readings))) refuse("BadIndex", "the reading is ", shown(at), ": ", allowed)
  row <- run$readings[number, ]
  found <- .Call(C_indices, run$boards[[row$board]], majority_number(row$majority), NULL)
  fields <- c(unclass(found), list(reader = row$reader, front = row$front, record = row$record))
  structure(fields, class = c("board_reading", "board_indices"))
}

as.data.frame.board_replay <- function(x, row.names = NULL, optional = FALSE, ..., fractions = "double") {
  no_more(...)
  exact <- is_exact(fractions)
  boards <- x$boards
  readings <- x$readings[rep(seq_len(nrow(x$readings)), x$readings$chairs), ]
  column <- function(which) {
    parts <- lapply(boards, function(board) board[7 + (which - 1) * board[7] + seq_len(board[7])])
    as.double(unlist(parts[x$readings$board]))
  }
  swings <- column(3)
  sums <- vapply(boards, function(board) sum(board[7 + 2 * board[7] + seq_len(board[7])]), 0)
  data.frame(
    readings[c("record", "reader", "front", "majority")], chair = as.integer(column(1)), weight = column(2),
    swings = swings, fractions_of(swings, readings$coalitions, readings$omega, sums[readings$board], exact),
    row.names = NULL
  )
}

format.board_replay <- function(x, ...) {
  many <- table(factor(x$outcomes$what, OUTCOMES))
  fault <- if (is.null(x$fault)) "no fault" else paste0("fault ", x$fault$name, " (", x$fault$number, "), record ",
    x$fault$record)
  what <- paste(many, c(OUTCOMES[1:3], "read"), collapse = ", ")
  paste0("A replay of ", nrow(x$outcomes), " records: ", what, "; ", fault)
}

print.board_replay <- function(x, ...) {
  cat(format(x), "\n", sep = "")
  if (nrow(x$refused) > 0) print(head(x$refused), row.names = FALSE)
  invisible(x)
}

board_replay_text <- function(text, readers = 1, journal = 1000000, file = NULL) {
  limits <- c(readers_limit(readers), journal_limit(journal))
  input <- input_of(text, file, "board_replay_text")
  got <- .Call(C_replay_text, input, limits[1], limits[2])
  list(text = as_text(got$text), fault = fault_of(got$fault, got$record))
}
