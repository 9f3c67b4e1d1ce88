# The names of a register's chairs. A name belongs to a chair from the command that opened it to the one that closes it:
# a chair that is closed and opened again is a new chair. So the pointer of a register keeps them by the number of the
# opening command, as a list of two vectors, or NULL where no name was given.

# The names of all chairs by number, each NA where there is none, or NULL: as the register stands or as published.
chair_names <- function(r, published = FALSE) {
  handle <- handle_of(r)
  given <- .Call(C_names, handle)
  if (!is.null(given)) given$name[match(.Call(C_openings, handle, published), given$opening)]
}

# The names with one more, or with another one for the same chair.
with_name <- function(handle, opening, name) {
  given <- .Call(C_names, handle)
  others <- given$opening != opening
  list(opening = c(given$opening[others], opening), name = c(given$name[others], name))
}

# The names of chairs that the first commands opened.
names_until <- function(handle, commands) {
  given <- .Call(C_names, handle)
  if (!is.null(given)) lapply(given, `[`, given$opening <= commands)
}

one_name <- function(name) {
  if (is.factor(name)) name <- as.character(name)
  if (is.atomic(name) && length(name) == 1 && is.na(name)) return(NA_character_)
  if (!is.character(name) || length(name) != 1) wrong_type("the name is", name, ALLOWED[["name"]])
  enc2utf8(name)
}

board_rename <- function(r, chair, name) {
  handle <- handle_of(r)
  number <- one_chair(chair)
  name <- one_name(name)
  opening <- .Call(C_openings, handle, FALSE)[number]
  if (opening == 0) refuse_number(match("ChairNotOpen", names(REFUSALS)), "no name for chair ", number, ": ")
  .Call(C_set_names, handle, with_name(handle, opening, name))
  invisible(r)
}

board_chair_names <- function(r) {
  names <- chair_names(r)
  named <- which(!is.na(names))
  structure(as.character(names[named]), names = as.character(named))
}

# Gives open chairs the names of a vector that is named by their numbers.
rename_all <- function(r, names) {
  if (length(names) == 0) return(r)
  if (!is.character(names) || is.null(names(names))) {
    wrong_type("the names are", names, "texts named by the numbers of open chairs, as of board_chair_names()")
  }
  numbers <- suppressWarnings(as.numeric(names(names)))
  for (at in seq_along(names)) board_rename(r, numbers[at], names[[at]])
  r
}
