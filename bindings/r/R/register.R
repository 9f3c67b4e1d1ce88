# A register of members, votes and chairs, which changes in place.

new_register <- function(handle) structure(list(handle = handle), class = "board_register")

# What a register holds is asked of functions: a name that a list doesn't have would be NULL.
`$.board_register` <- function(x, name) {
  call <- paste0("board_", name)
  where <- if (call %in% getNamespaceExports("votingboard")) paste0(call, "() asks for it")
  type_error("a register has no $", name, ": ", if (is.null(where)) "?board_state has its calls" else where)
}

# The handle of a register, which is there.
handle_of <- function(r) {
  if (!inherits(r, "board_register")) wrong_type("the register is", r, "board_register() makes one")
  handle <- .subset2(r, "handle")
  if (!.Call(C_is_there, handle)) {
    refuse("NoRegister", "the register is gone: one in a saved workspace or file can't be read back. ",
      "Save the text of board_script() and read it with board_from_script()")
  }
  handle
}

board_register <- function(members, journal = 1000000) {
  most <- journal_limit(journal)
  table <- if (is.list(members)) members_of(members, in_register = TRUE) else members_of_vector(members)
  if (length(table$votes) > MEMBERS) {
    refuse("TooManyMembers", length(table$votes), " members: ", REFUSALS[["TooManyMembers"]])
  }
  handle <- .Call(C_start, table$codes, table$votes, most)
  if (is.integer(handle)) refuse_number(handle)
  r <- new_register(handle)
  seated <- table$seats > 0
  chairs <- sort(unique(table$seats[seated]))
  records <- c(
    sprintf("open,%.0f", chairs),
    sprintf("move,%s,%.0f", table$codes[seated], table$seats[seated]),
    sprintf("suspend,%s", table$codes[table$suspended])
  )
  board_submit(r, records)
  names <- table$chair_names[chairs]
  if (!is.null(names)) .Call(C_set_names, handle, list(opening = seq_along(chairs), name = names))
  r
}

# Members of a vector of votes that is named by codes.
members_of_vector <- function(votes) {
  place <- function(at) paste0("member ", at, ": the votes are")
  numbers <- numbers_of(votes, place, ALLOWED[["votes"]])
  if (is.null(names(votes))) type_error("the votes have no names: ", ALLOWED[["code"]])
  codes <- codes_of(names(votes), "member")
  none <- rep(0, length(numbers))
  list(codes = codes, votes = check_votes(numbers, place, in_register = TRUE), seats = none, suspended = none > 0)
}

# The text of a record.
record_of <- function(kind, code, chair, votes) {
  parts <- list(
    code = code, chair = if (chair == 0) "none" else chair, votes = sprintf("%.0f", votes)
  )
  paste(c(kind, unlist(parts[KINDS[[kind]]])), collapse = ",")
}

# Carries out a command whose parts are checked, and sets the names of chairs.
command <- function(r, kind, code = "", chair = 0, votes = 0, names = NULL) {
  number <- match(kind, names(KINDS)) - 1L
  done <- .Call(C_apply, handle_of(r), number, code, chair, votes, names)
  if (done < 0) refuse_command(-done, record_of(kind, code, chair, votes))
  invisible(r)
}

refuse_command <- function(number, text) {
  if (number == TRAPPED) refuse_number(number)
  stop(refusal_of_command(number, text))
}

refusal_of_command <- function(number, text, where = NULL, record = NULL) {
  name <- names(REFUSALS)[number]
  refusal(name, where, "refused ", shown(text), ": ", name, " (", number, "), ", REFUSALS[[name]],
    command = text, record = record)
}

board_open <- function(r, chair, name = NA) {
  chair <- one_chair(chair)
  name <- one_name(name)
  command(r, "open", chair = chair, names = if (!is.na(name)) with_name(handle_of(r), board_accepted(r) + 1L, name))
}
board_close <- function(r, chair) command(r, "close", chair = one_chair(chair))
board_move <- function(r, code, chair) command(r, "move", one_code(code), one_chair(chair, or_none = TRUE))
board_set_votes <- function(r, code, votes) {
  code <- one_code(code)
  command(r, "votes", code, votes = one_votes(votes, code))
}
board_suspend <- function(r, code) command(r, "suspend", one_code(code))
board_restore <- function(r, code) command(r, "restore", one_code(code))
board_admit <- function(r, code, votes) {
  code <- one_code(code)
  command(r, "admit", code, votes = one_votes(votes, code))
}
board_withdraw <- function(r, code) command(r, "withdraw", one_code(code))

board_publish <- function(r) {
  published <- .Call(C_publish, handle_of(r))
  if (published < 0) refuse_number(-published)
  invisible(r)
}

# Records as text, from text, commands, or a list of these.
records_of <- function(commands) {
  if (is.factor(commands) || inherits(commands, "board_commands")) commands <- as.character(commands)
  if (is.list(commands) && !is.object(commands)) return(unlist(lapply(commands, records_of)))
  if (!is.null(commands) && (!is.character(commands) || anyNA(commands))) {
    wrong_type("the commands are", commands, "records such as 'move,AAA,3', or commands of board_journal()")
  }
  commands
}

# Carries out or checks records by a call of C. The refusal, or NULL.
submitted <- function(call, r, commands) {
  handle <- handle_of(r)
  text <- bytes_of(records_of(commands))
  place <- .Call(call, handle, text)
  if (!is.null(place)) refusal_at(place, text, is_one = place[2] == 1 && place[4] %in% c(NA, length(text)))
}

# The refusal of a record of a text. `place` is the refusal's number, the record's, and the offsets where it begins and
# ends. A record that isn't well formed has no end: the beginning of its line is shown.
refusal_at <- function(place, text, is_one = FALSE) {
  number <- place[1]
  if (number == TRAPPED) refuse_number(number)
  name <- names(REFUSALS)[number]
  if (place[2] == 0) return(refusal(name, name, " (", number, "), ", REFUSALS[[name]]))
  has_end <- !is.na(place[4])
  to <- if (has_end) place[4] else min(place[3] + 40, length(text))
  bytes <- text[seq_len(to - place[3]) + place[3]]
  shown <- sub("^[\r\n]+", "", rawToChar(bytes[bytes != 0]), useBytes = TRUE)
  shown <- sub(if (has_end) "[\r\n]+$" else "[\r\n].*", "", shown, useBytes = TRUE)
  where <- paste0("record ", place[2], if (!has_end) paste(", after byte", place[3]), ": ")
  why <- refusal_of_command(number, shown, if (!is_one) where, place[2])
  if (name == "BadRecord") why$message <- paste0(why$message, wrong_field(shown))
  why
}

# What is wrong with a field of a record, in the words of the call of its kind. Empty where it is no field.
wrong_field <- function(record) {
  fields <- strsplit(paste0(record, ",."), ",", fixed = TRUE, useBytes = TRUE)[[1]]
  kind <- fields[1]
  values <- as.list(fields[-c(1, length(fields))])
  parts <- if (kind %in% names(KINDS)) KINDS[[kind]]
  if (is.null(parts) || length(values) != length(parts)) return("")
  names(values) <- parts
  number <- function(it) if (grepl("^[0-9]{1,30}$", it)) as.double(it) else it
  why <- tryCatch(error = conditionMessage, {
    if (!is.null(values$code)) one_code(values$code)
    if (!is.null(values$chair) && !(kind == "move" && values$chair == "none")) {
      one_chair(number(values$chair), or_none = kind == "move")
    }
    if (!is.null(values$votes)) one_votes(number(values$votes), values$code)
    NULL
  })
  if (is.null(why)) "" else paste0(": ", why)
}

board_submit <- function(r, commands) {
  why <- submitted(C_submit, r, commands)
  if (!is.null(why)) stop(why)
  invisible(r)
}

board_attempt <- function(r, command) submitted(C_submit, r, command)
board_check <- function(r, command) submitted(C_check, r, command)

# What a register holds.

board_accepted <- function(r) .Call(C_state, handle_of(r))[1]
board_published <- function(r) .Call(C_state, handle_of(r))[2]

board_read <- function(r, majority) {
  counted(.Call(C_counts, handle_of(r), majority_number(majority), chair_names(r, TRUE), TRUE))
}

board_indices.board_register <- function(x, majority, ...) {
  no_more(...)
  counted(.Call(C_counts, handle_of(x), majority_number(majority), chair_names(x), FALSE))
}

board_indices_of_all.board_register <- function(x, ...) {
  no_more(...)
  counted(.Call(C_counts, handle_of(x), ALL, chair_names(x), FALSE))
}

board_members <- function(r) {
  members <- as.data.frame(.Call(C_rows, handle_of(r)))
  names <- chair_names(r)
  if (!is.null(names)) members$chair_name <- names[members$chair]
  members
}

board_opening <- function(r) as.data.frame(.Call(C_entries, handle_of(r)))

board_chairs <- function(r) {
  handle <- handle_of(r)
  words <- .Call(C_sheet, handle)[seq_len(CHAIRS)]
  chairs <- data.frame(chair = which(words > 0))
  names <- chair_names(r)
  if (!is.null(names)) chairs$name <- names[chairs$chair]
  chairs$weight <- words[chairs$chair] - 1
  members <- .Call(C_rows, handle)
  chairs$members <- unname(split(members$code, factor(members$chair, chairs$chair)))
  chairs
}

board_journal <- function(r) {
  commands <- .Call(C_commands, handle_of(r))
  commands$kind <- names(KINDS)[commands$kind + 1L]
  structure(as.data.frame(commands), class = c("board_commands", "data.frame"))
}

as.character.board_commands <- function(x, ...) {
  has <- function(part) x[["kind"]] %in% names(KINDS)[vapply(KINDS, function(parts) part %in% parts, NA)]
  chair <- ifelse(is.na(x[["chair"]]), "none", x[["chair"]])
  paste0(
    x[["kind"]], ifelse(has("code"), paste0(",", x[["code"]]), ""), ifelse(has("chair"), paste0(",", chair), ""),
    ifelse(has("votes"), sprintf(",%.0f", x[["votes"]]), "")
  )
}

# Copies, and the way back.

board_copy <- function(r) {
  copy <- .Call(C_copy, handle_of(r), COMMANDS)
  if (is.integer(copy)) refuse_number(copy)
  new_register(copy)
}

board_undo <- function(r, to = board_accepted(r) - 1) {
  handle <- handle_of(r)
  length <- one_number(to, "to is", ALLOWED[["length"]])
  if (!is_whole(length, 0, board_accepted(r))) refuse("BadIndex", "to is ", shown(to), ": ", ALLOWED[["length"]])
  refused <- .Call(C_undo, handle, length, names_until(handle, length))
  if (!is.null(refused)) refuse_number(refused)
  invisible(r)
}

# Scripts.

board_script <- function(r) {
  members <- board_opening(r)
  records <- as.character(board_journal(r))
  published <- board_published(r)
  if (published > 0) records <- append(records, "publish", published)
  lines <- c("member,votes", sprintf("%s,%.0f", members$code, members$votes), "script", records)
  as_text(paste0(paste(lines, collapse = "\n"), "\n"))
}

board_from_script <- function(text, journal = 1000000, file = NULL, names = NULL) {
  most <- journal_limit(journal)
  input <- input_of(text, file, "board_from_script")
  got <- .Call(C_from_script, input, most)
  if (is.double(got)) stop(refusal_at(got, input))
  rename_all(new_register(got), names)
}

format.board_register <- function(x, ...) {
  handle <- handle_of(x)
  state <- .Call(C_state, handle)
  members <- length(.Call(C_rows, handle)$code)
  chairs <- sum(.Call(C_sheet, handle)[seq_len(CHAIRS)] > 0)
  paste0("A register of ", members, " members and ", chairs, " open chairs: ", state[1], " commands accepted, ",
    state[2], " published")
}

print.board_register <- function(x, ...) {
  cat(format(x), "\n", sep = "")
  invisible(x)
}

summary.board_register <- function(object, ...) {
  no_more(...)
  list(members = board_members(object), chairs = board_chairs(object), accepted = board_accepted(object),
    published = board_published(object))
}
