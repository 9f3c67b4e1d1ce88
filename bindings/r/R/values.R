# Refusals, wrong types, and the checks of values.

# A refusal as a condition. `name` is one of REFUSALS, and the message is made of the other texts.
refusal <- function(name, ..., command = NULL, record = NULL, row = NULL, board = NULL) {
  fields <- list(
    message = paste0(...), call = NULL, number = match(name, names(REFUSALS)), name = name,
    command = command, record = record, row = row, board = board
  )
  structure(class = c("board_refused", "error", "condition"), fields)
}

refuse <- function(...) stop(refusal(...))

type_error <- function(...) {
  stop(structure(class = c("board_type_error", "error", "condition"), list(message = paste0(...), call = NULL)))
}

# The refusal of a number that the library returned, where R has checked the values before.
refuse_number <- function(number, ...) {
  if (number == TRAPPED) {
    stop(IMPOSSIBLE, call. = FALSE)
  }
  name <- names(REFUSALS)[number]
  refuse(name, ..., name, " (", number, "), ", REFUSALS[[name]])
}

# A value as a message shows it.
shown <- function(value) {
  if (is.factor(value)) value <- as.character(value)
  if (is.atomic(value) && length(value) == 1 && is.na(value) && !is.nan(value)) return("NA")
  if (is.character(value) && length(value) == 1 && !is.na(value)) {
    bytes <- charToRaw(value)
    return(encodeString(if (length(bytes) > 60) paste0(rawToChar(bytes[1:40]), "...") else value, quote = "'"))
  }
  if (is.numeric(value) && length(value) == 1 && !is.object(value)) {
    whole <- is.finite(value) && value == floor(value) && abs(value) < 1e22
    return(if (whole) sprintf("%.0f", value) else format(as.double(value), digits = 15))
  }
  text <- paste(deparse(value, width.cutoff = 60, nlines = 2), collapse = " ")
  if (nchar(text) > 60) paste0(substr(text, 1, 57), "...") else text
}

# Stops for a value of a wrong type. `place` ends in "is" or "are".
wrong_type <- function(place, value, allowed, type = class(value)[1]) {
  type_error(place, " ", shown(value), " (", type, "): ", allowed)
}

is_numbers <- function(values) is.numeric(values) && !is.object(values) && length(dim(values)) <= 1

# Numbers as doubles. `place` gives the place of the value at an index.
numbers_of <- function(values, place, allowed) {
  if (is_numbers(values)) return(as.double(values))
  value <- if (is.atomic(values) && length(values) > 0) values[[1]] else values
  wrong_type(place(1), value, allowed, class(values)[1])
}

# One number as a double.
one_number <- function(value, place, allowed) {
  if (!is_numbers(value) || length(value) != 1) wrong_type(place, value, allowed)
  as.double(value)
}

is_whole <- function(values, least, most) {
  !is.na(values) & values >= least & values <= most & values == floor(values)
}

# The index of the first bad value, or NULL.
first <- function(is_bad) if (any(is_bad)) which(is_bad)[1]

# Checks votes of a board, in which all together are at most 2^48, or of a register, where a member's are at most 2^40.
check_votes <- function(votes, place, in_register = FALSE, row = identity) {
  most <- if (in_register) MEMBER_VOTES else TOTAL_VOTES
  at <- first(!is_whole(votes, 0, most))
  if (is.null(at)) return(votes)
  vote <- votes[at]
  is_large <- !is.na(vote) && vote > most
  name <- if (!in_register) "BadSheet" else if (is_large) "VotesTooLarge" else "BadRecord"
  allowed <- if (in_register) "votes" else if (is_large && is.finite(vote)) "total_most" else "weight"
  refuse(name, place(at), " ", shown(vote), ": ", ALLOWED[[allowed]], row = row(at))
}

# The number of a majority in the library, from 0.
majority_number <- function(majority) {
  if (!is.character(majority) || length(majority) != 1 || is.object(majority)) {
    wrong_type("the majority is", majority, ALLOWED[["majority"]])
  }
  number <- match(majority, names(MAJORITIES))
  if (is.na(number)) refuse("BadRecord", "no majority ", shown(majority), ": ", ALLOWED[["majority"]])
  number - 1L
}

# A limit: the journal or the readers.
limit <- function(value, what, most, allowed) {
  number <- one_number(value, paste(what, "is"), allowed)
  if (!is_whole(number, 1, most)) refuse("BadLimit", what, " is ", shown(value), ": ", allowed)
  number
}

journal_limit <- function(journal) limit(journal, "the journal", COMMANDS, ALLOWED[["journal"]])
readers_limit <- function(readers) limit(readers, "the number of readers", READERS, ALLOWED[["readers"]])

is_code <- function(codes) grepl("\\A[A-Z]{3}\\z", codes, perl = TRUE, useBytes = TRUE)

# One code of a member.
one_code <- function(code) {
  if (is.factor(code)) code <- as.character(code)
  if (!is.character(code) || length(code) != 1 || is.na(code)) wrong_type("the code is", code, ALLOWED[["code"]])
  if (!is_code(code)) refuse("BadMember", "the code is ", shown(code), ": ", ALLOWED[["code"]])
  code
}

# One chair's number; with `or_none`, NA is 0, no chair. NULL is no chair's number: it is what a list or a data frame
# gives for a name that it doesn't have.
one_chair <- function(chair, or_none = FALSE) {
  if (or_none && is.atomic(chair) && length(chair) == 1 && is.na(chair)) return(0)
  allowed <- ALLOWED[[if (or_none) "seat" else "chair"]]
  number <- one_number(chair, "the chair is", allowed)
  if (!is_whole(number, 1, CHAIRS)) refuse("BadChair", "the chair is ", shown(chair), ": ", allowed)
  number
}

# The votes of one member of a register.
one_votes <- function(votes, code) {
  place <- function(at) paste("the votes of", code, "are")
  check_votes(one_number(votes, place(1), ALLOWED[["votes"]]), place, in_register = TRUE, row = function(at) NULL)
}

no_more <- function(...) {
  if (...length() == 0) return()
  name <- c(names(list(...)), "")[1]
  type_error("unknown argument", if (nzchar(name)) paste0(" '", name, "'"))
}

# A text of several lines, which is printed as such.
as_text <- function(text) structure(text, class = c("board_text", "character"))

print.board_text <- function(x, ...) {
  cat(x, sep = "")
  invisible(x)
}

# The bytes of an input: a text, its lines, raw bytes, or a file.
input_of <- function(text, file, call) {
  if (!is.null(file)) return(bytes_of_file(file))
  if (is.raw(text)) return(as.vector(text))
  if (!is.character(text) || anyNA(text)) {
    wrong_type("the text is", text, "text, its lines, or raw bytes without NA")
  }
  if (length(text) == 1 && nzchar(text) && !grepl("[\r\n]", text, useBytes = TRUE)) {
    type_error("the text is one line, ", shown(text), ": a file is given as ", call, "(file = ", shown(text), ")")
  }
  bytes_of(text)
}

bytes_of <- function(lines) charToRaw(paste(enc2utf8(as.character(lines)), collapse = "\n"))

bytes_of_file <- function(file) {
  if (!is.character(file) || length(file) != 1 || is.na(file)) wrong_type("the file is", file, "the path of a file")
  if (!file.exists(file) || dir.exists(file)) stop("there is no file ", shown(file), call. = FALSE)
  from <- file(file, "rb", raw = TRUE)
  on.exit(close(from))
  parts <- list()
  repeat {
    part <- readBin(from, "raw", INPUT_BYTES + 1)
    if (length(part) == 0) break
    parts[[length(parts) + 1]] <- part
  }
  if (length(parts) == 0) raw(0) else do.call(c, parts)
}
