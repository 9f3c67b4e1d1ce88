# The voting power of a board.

board_indices <- function(x, majority, ...) UseMethod("board_indices")

board_indices_of_all <- function(x, ...) UseMethod("board_indices_of_all")

board_indices.default <- function(x, majority, ..., total = NULL) {
  no_more(...)
  indices_of_weights(x, majority_number(majority), total)
}

board_indices_of_all.default <- function(x, ..., total = NULL) {
  no_more(...)
  indices_of_weights(x, ALL, total)
}

board_indices.list <- function(x, majority, ..., open_chairs = NULL) {
  no_more(...)
  indices_of_members(x, majority_number(majority), open_chairs)
}

board_indices_of_all.list <- function(x, ..., open_chairs = NULL) {
  no_more(...)
  indices_of_members(x, ALL, open_chairs)
}

# The weights of a board as doubles, checked. `board` begins each message.
weights_of <- function(weights, board = "") {
  place <- function(at) paste0(board, "weight ", at, " is")
  if (!is.atomic(weights) || length(dim(weights)) > 1 || is.null(weights)) {
    wrong_type(paste0(board, "the weights are"), weights, ALLOWED[["weight"]])
  }
  numbers <- numbers_of(weights, place, ALLOWED[["weight"]])
  if (length(numbers) > CHAIRS) refuse("BadSheet", board, length(numbers), " weights: ", ALLOWED[["weights"]])
  check_votes(numbers, place, row = function(at) NULL)
}

# The total of a board, checked: the sum of the weights unless given.
total_of <- function(total, weights, board = "") {
  place <- paste0(board, "the total is")
  cast <- sum(weights)
  whole <- if (is.null(total)) cast else one_number(total, place, ALLOWED[["total"]])
  check_votes(whole, function(at) place, row = function(at) NULL)
  if (whole < cast) {
    refuse("BadSheet", place, " ", shown(whole), ": ", ALLOWED[["total_least"]], ", ", shown(cast))
  }
  whole
}

# What a call that counts returned.
counted <- function(got) if (is.integer(got)) refuse_number(got) else got

indices_of_weights <- function(weights, number, total) {
  numbers <- weights_of(weights)
  counted(.Call(C_weights, numbers, total_of(total, numbers), number, names_by_chair(names(weights))))
}

# The names of chairs 1, 2 and so on, as names of some chairs; NULL if none has one.
names_by_chair <- function(names, chairs = CHAIRS) {
  if (is.null(names) || all(is.na(names) | names == "")) return()
  names[names == ""] <- NA
  c(enc2utf8(names), rep(NA_character_, max(0, chairs - length(names))))
}

indices_of_members <- function(table, number, open_chairs) {
  members <- members_of(table, in_register = FALSE)
  total <- sum(members$votes[!members$suspended])
  check_votes(total, function(at) "the total is", row = function(at) NULL)
  mask <- sum(2^(unique(open_of(open_chairs)) - 1))
  names <- members$chair_names
  counted(.Call(C_members, members$votes, members$seats, members$suspended, mask, number, names))
}

open_of <- function(open_chairs) {
  if (is.null(open_chairs)) return(numeric(0))
  place <- function(at) paste0("open chair ", at, " is")
  chairs <- numbers_of(open_chairs, place, ALLOWED[["chair"]])
  at <- first(!is_whole(chairs, 1, CHAIRS))
  if (!is.null(at)) refuse("BadSheet", place(at), " ", shown(chairs[at]), ": ", ALLOWED[["chair"]])
  chairs
}

# Many boards.

board_indices_of_many <- function(rows, majorities = c("half", "70", "85", "quorum"), totals = NULL,
                                  processors = NULL) {
  boards <- boards_of(rows)
  boards$total <- totals_of(totals, boards)
  if (!is.character(majorities) || is.object(majorities)) {
    wrong_type("the majorities are", majorities, ALLOWED[["majority"]])
  }
  numbers <- vapply(majorities, majority_number, 0L, USE.NAMES = FALSE)
  many <- .Call(C_many, boards$weights, boards$chairs, boards$total, numbers, threads_of(processors))
  arrays_of(many, boards, majorities)
}

# Boards that are checked: the number of chairs of each, their weights by board and chair, NA where a board has no such
# chair, and what it casts; the labels of boards; and the names of chairs, by chair or by board and chair. They are the
# rows of a matrix or of a data frame of numbers, or a list of vectors.
boards_of <- function(rows) {
  if (is.data.frame(rows)) rows <- as.matrix(rows)
  if (!(is.matrix(rows) || is.list(rows)) || (is.matrix(rows) && is.object(rows))) {
    wrong_type("the boards are", rows, "a matrix of numbers, a row each, or a list of vectors")
  }
  boards <- if (is.matrix(rows)) boards_in_matrix(rows) else boards_in_list(rows)
  boards$cast <- unname(rowSums(boards$weights, na.rm = TRUE))
  boards
}

boards_in_matrix <- function(rows) {
  many <- nrow(rows)
  labels <- rownames(rows)
  names <- colnames(rows)
  is_board <- is.numeric(rows) && ncol(rows) <= CHAIRS
  bad <- rep(!is_board, many)
  # A column at a time, since the whole matrix may be a large part of the memory.
  if (is_board) for (chair in seq_len(ncol(rows))) bad <- bad | !is_whole(rows[, chair], 0, TOTAL_VOTES)
  check_boards(bad, labels, function(at) rows[at, ])
  chairs <- rep(ncol(rows), many)
  rows <- rows[, seq_len(max(0L, chairs)), drop = FALSE]
  storage.mode(rows) <- "double"
  list(chairs = chairs, weights = unname(rows), labels = labels, names = if (many > 0) names_by_chair(names, 0))
}

boards_in_list <- function(rows) {
  chairs <- lengths(rows, use.names = FALSE)
  bad <- !vapply(rows, is_numbers, TRUE, USE.NAMES = FALSE) | chairs > CHAIRS
  votes <- as.double(unlist(rows[!bad], use.names = FALSE))
  board <- rep(which(!bad), chairs[!bad])
  bad[board[!is_whole(votes, 0, TOTAL_VOTES)]] <- TRUE
  check_boards(bad, names(rows), function(at) rows[[at]])
  weights <- matrix(NA_real_, length(rows), max(0L, chairs))
  place <- cbind(board, sequence(chairs))
  weights[place] <- votes
  is_named <- !vapply(rows, function(it) is.null(names(it)), TRUE, USE.NAMES = FALSE)
  names <- if (any(is_named)) array(NA_character_, dim(weights))
  if (any(is_named)) {
    given <- unlist(lapply(rows[is_named], names), use.names = FALSE)
    given[given == ""] <- NA
    names[place[rep(is_named, chairs), , drop = FALSE]] <- enc2utf8(given)
  }
  list(chairs = chairs, weights = weights, labels = names(rows), names = if (!all(is.na(names))) names)
}

# Refuses the first bad board with its place. `row` gives the weights of a board.
check_boards <- function(bad, labels, row) {
  at <- first(bad)
  if (!is.null(at)) of_board(at, labels, weights_of(row(at), paste0("board ", at, ": ")))
}

# A call that may refuse the board of a place: the condition has its label, or its place if it has none.
of_board <- function(at, labels, call) {
  tryCatch(call, board_refused = function(why) {
    why$board <- if (is.null(labels)) at else labels[at]
    stop(why)
  })
}

# How many threads count: 0 for one on each processor.
threads_of <- function(processors) {
  if (is.null(processors)) return(0)
  allowed <- "a whole number from 1"
  threads <- one_number(processors, "processors is", allowed)
  if (!is_whole(threads, 1, .Machine$integer.max)) type_error("processors is ", shown(threads), ": ", allowed)
  threads
}

# The totals of boards, checked: what they cast unless given.
totals_of <- function(totals, boards) {
  many <- length(boards$cast)
  if (!is.null(totals)) {
    totals <- numbers_of(totals, function(at) paste0("board ", at, ": the total is"), ALLOWED[["total"]])
    if (length(totals) != many) type_error("there are ", length(totals), " totals, and ", many, " boards")
  }
  wholes <- if (is.null(totals)) boards$cast else totals
  at <- first(!is_whole(wholes, 0, TOTAL_VOTES) | wholes < boards$cast)
  if (!is.null(at)) of_board(at, boards$labels, total_of(totals[at], boards$cast[at], paste0("board ", at, ": ")))
  wholes
}

# The results of many boards as arrays by board, majority and chair.
arrays_of <- function(many, boards, majorities) {
  chairs <- boards$chairs
  sizes <- c(length(chairs), length(majorities), ncol(boards$weights))
  by_majority <- list(boards$labels, majorities)
  for (name in c("quota", "least_size", "omega")) many[[name]] <- array(many[[name]], sizes[1:2], by_majority)
  by_chair <- c(by_majority, list(NULL))
  swings <- many$swings <- array(many$swings, sizes, by_chair)
  coalitions <- 2^chairs
  all <- rowSums(swings, na.rm = TRUE, dims = 2)
  shares <- lapply(divisors(rep(coalitions, sizes[2]), many$omega, all), function(by) {
    by <- c(by)
    by[by == 0] <- NA
    swings / by
  })
  weights <- array(boards$weights, sizes[c(1, 3)], list(boards$labels, NULL))
  head <- list(majorities = majorities, chairs = chairs, cast = boards$cast, total = boards$total,
    coalitions = coalitions)
  rest <- list(act = many$omega / coalitions, weights = weights)
  names <- if (!is.null(boards$names)) list(names = boards$names)
  structure(c(head, many, rest, shares, names), class = "board_indices_of_many")
}

as.data.frame.board_indices_of_many <- function(x, row.names = NULL, optional = FALSE, ..., fractions = "double") {
  no_more(...)
  exact <- is_exact(fractions)
  # Chairs change first and boards last.
  at <- arrayInd(which(aperm(!is.na(x$swings))), rev(dim(x$swings)))[, 3:1, drop = FALSE]
  board <- at[, 1:2, drop = FALSE]
  chair <- at[, c(1, 3), drop = FALSE]
  labels <- rownames(x$omega)
  omega <- x$omega[board]
  swings <- x$swings[at]
  frame <- list(
    board = if (is.null(labels)) at[, 1] else labels[at[, 1]], majority = x$majorities[at[, 2]], omega = omega,
    chair = at[, 3]
  )
  if (!is.null(x$names)) frame$name <- if (is.matrix(x$names)) x$names[chair] else x$names[at[, 3]]
  frame <- data.frame(frame, weight = x$weights[chair], swings = swings)
  all <- rowSums(x$swings, na.rm = TRUE, dims = 2)[board]
  cbind(frame, fractions_of(swings, x$coalitions[at[, 1]], omega, all, exact))
}

print.board_indices_of_many <- function(x, ...) {
  cat("The voting power on ", length(x$total), " boards of up to ", ncol(x$weights), " chairs, by ", sep = "")
  cat(paste(x$majorities, collapse = ", "), "\n", sep = "")
  cat("In it: ", paste(names(x), collapse = ", "), "\n", sep = "")
  invisible(x)
}

# The object of class board_indices.

# The numbers by which swings are divided, by the name of the fraction.
divisors <- function(coalitions, omega, all_swings) {
  list(banzhaf = coalitions / 2, share = all_swings, prevent = omega, initiate = coalitions - omega)
}

# The four fractions of swings: doubles, or texts in lowest terms. NA where the divisor is 0.
fractions_of <- function(swings, coalitions, omega, all_swings, exact = FALSE) {
  lapply(divisors(coalitions, omega, all_swings), function(by) {
    by <- rep_len(by, length(swings))
    if (exact) exact_fraction(swings, by) else ifelse(by == 0, NA_real_, swings / by)
  })
}

exact_fraction <- function(numerator, denominator) {
  both <- denominator
  rest <- numerator
  while (any(rest > 0)) {
    next_rest <- ifelse(rest > 0, both %% rest, 0)
    both <- ifelse(rest > 0, rest, both)
    rest <- next_rest
  }
  over <- denominator / both
  text <- sprintf("%.0f", numerator / both)
  ifelse(denominator == 0, NA_character_, ifelse(over == 1, text, sprintf("%s/%.0f", text, over)))
}

is_exact <- function(choice) match.arg(choice, c("double", "exact")) == "exact"

as.data.frame.board_indices <- function(x, row.names = NULL, optional = FALSE, ..., fractions = "double") {
  no_more(...)
  frame <- x$chairs
  if (!is_exact(fractions)) return(frame)
  texts <- fractions_of(frame$swings, x$coalitions, x$omega, sum(frame$swings), exact = TRUE)
  frame[names(texts)] <- texts
  frame
}

# What wins, in a line.
headline <- function(x) {
  size <- if (x$least_size > 0) paste(" of", x$least_size, "chairs or more")
  text <- c(x$quota, x$total, x$omega, x$coalitions)
  text <- sprintf("%.0f", text)
  paste0(
    "Majority ", x$majority, ": ", text[1], " of ", text[2], " votes", size, " win, ", text[3], " of ", text[4],
    " coalitions do"
  )
}

format.board_indices <- function(x, ..., fractions = "double") {
  chairs <- as.data.frame(x, fractions = fractions)
  c(headline(x), if (nrow(chairs) > 0) capture.output(print(chairs, ..., row.names = FALSE)))
}

print.board_indices <- function(x, ..., fractions = "double") {
  cat(format(x, ..., fractions = fractions), sep = "\n")
  invisible(x)
}

# Each chair's share of the votes cast beside its share of power.
shares_of <- function(x) {
  shares <- x$chairs[intersect(c("chair", "name"), names(x$chairs))]
  shares$votes <- x$chairs$weight / if (x$cast == 0) NA else x$cast
  shares$power <- x$chairs$share
  shares$ratio <- shares$power / shares$votes
  shares
}

summary.board_indices <- function(object, ...) {
  no_more(...)
  structure(list(headline = headline(object), act = object$act, shares = shares_of(object)),
    class = "summary.board_indices")
}

print.summary.board_indices <- function(x, digits = 4, ...) {
  cat(x$headline, "\nPower to act: ", format(x$act, digits = digits), "\n", sep = "")
  cat("Each chair's share of the votes cast and of power:\n")
  print(x$shares, digits = digits, row.names = FALSE, ...)
  invisible(x)
}

plot.board_indices <- function(x, ..., main = headline(x), ylab = "Share", legend.text = c("votes", "power")) {
  shares <- shares_of(x)
  if (nrow(shares) == 0) stop("no chair is open: there is nothing to plot", call. = FALSE)
  labels <- as.character(shares$chair)
  if (!is.null(shares$name)) labels <- ifelse(is.na(shares$name), labels, shares$name)
  bars <- rbind(votes = shares$votes, power = shares$power)
  bars[is.na(bars)] <- 0
  barplot(bars, beside = TRUE, names.arg = labels, main = main, ylab = ylab, legend.text = legend.text, ...)
}
