# Tables of members: the columns are found by their whole names, and each cell is checked.

# The columns of a table as a list, all of one length.
columns_of <- function(table, needed) {
  columns <- unclass(table)
  names <- names(columns)
  if (length(columns) == 0) return(list())
  if (is.null(names)) type_error("the table has no names of columns: ", ALLOWED[["columns"]])
  unknown <- setdiff(names, COLUMNS)
  if (length(unknown) > 0) type_error("unknown column ", shown(unknown[1]), ": ", ALLOWED[["columns"]])
  if (anyDuplicated(names)) type_error("column ", shown(names[anyDuplicated(names)]), " is there twice")
  absent <- setdiff(needed, names)
  if (length(absent) > 0) type_error("no column ", shown(absent[1]), ": ", ALLOWED[["columns"]])
  rows <- if (is.data.frame(table)) .row_names_info(table, 2L) else length(columns[[1]])
  for (name in names) {
    column <- columns[[name]]
    if (!is.atomic(column) || is.null(column) || length(dim(column)) > 1) {
      type_error("column ", shown(name), " is no vector")
    }
    if (length(column) != rows) {
      type_error("column ", shown(name), " has ", length(column), " rows, and the table has ", rows)
    }
  }
  attributes(columns) <- list(names = names)
  columns
}

in_row <- function(at, what) paste0("row ", at, ": ", what)

# The codes of a table. A code is there once.
codes_of <- function(codes, row = "row") {
  if (is.factor(codes)) codes <- as.character(codes)
  place <- function(at) paste0(row, " ", at, ": the code")
  if (!is.character(codes)) wrong_type(paste(place(1), "is"), codes[1], ALLOWED[["code"]])
  at <- first(is.na(codes))
  if (!is.null(at)) wrong_type(paste(place(at), "is"), codes[at], ALLOWED[["code"]])
  at <- first(!is_code(codes))
  if (!is.null(at)) refuse("BadMember", place(at), " is ", shown(codes[at]), ": ", ALLOWED[["code"]], row = at)
  at <- anyDuplicated(codes)
  if (at == 0) return(codes)
  before <- match(codes[at], codes)
  refuse("DuplicateMember", place(at), " ", shown(codes[at]), " is there already, in ", row, " ", before, row = at)
}

# The chairs of a table: 0 for none.
seats_of <- function(chairs, name) {
  place <- function(at) in_row(at, "the chair is")
  if (is.logical(chairs) && all(is.na(chairs))) return(rep(0, length(chairs)))
  seats <- numbers_of(chairs, place, ALLOWED[["seat"]])
  at <- first(!is.na(seats) & !is_whole(seats, 1, CHAIRS))
  if (!is.null(at)) refuse(name, place(at), " ", shown(seats[at]), ": ", ALLOWED[["seat"]], row = at)
  ifelse(is.na(seats), 0, seats)
}

# Checks the names of members, which aren't used: they are text, or missing.
check_member_names <- function(names) {
  if (is.null(names) || is.factor(names) || is.character(names) || all(is.na(names))) return(invisible())
  wrong_type(in_row(1, "the name is"), names[1], ALLOWED[["name"]])
}

# The names of all chairs by number, or NULL if none has one. A chair has one name.
chair_names_of <- function(names, seats, refused) {
  if (is.null(names) || (is.logical(names) && all(is.na(names)))) return()
  if (is.factor(names)) names <- as.character(names)
  if (!is.character(names)) wrong_type(in_row(1, "the chair_name is"), names[1], ALLOWED[["name"]])
  rows <- which(seats > 0 & !is.na(names))
  if (length(rows) == 0) return()
  before <- rows[match(seats[rows], seats[rows])]
  other <- first(names[rows] != names[before])
  if (!is.null(other)) {
    at <- rows[other]
    here <- paste0("chair ", seats[at], " is named ", shown(names[at]))
    refuse(refused, in_row(at, here), ", and ", shown(names[before[other]]), " in row ", before[other], row = at)
  }
  all <- rep(NA_character_, CHAIRS)
  all[seats[rows]] <- enc2utf8(names[before])
  all
}

suspensions_of <- function(suspended, refused) {
  place <- function(at) in_row(at, "suspended is")
  # read.csv leaves true and false as text, as board.html writes them.
  words <- if (is.factor(suspended)) as.character(suspended) else suspended
  if (is.character(words) && all(toupper(words) %in% c("TRUE", "FALSE", NA))) suspended <- as.logical(toupper(words))
  if (!is.logical(suspended)) wrong_type(place(1), suspended[1], ALLOWED[["suspended"]])
  at <- first(is.na(suspended))
  if (!is.null(at)) refuse(refused, place(at), " NA: ", ALLOWED[["suspended"]], row = at)
  as.vector(suspended)
}

# Those of a table without rows. Its columns may be of any type: an empty file has none.
NO_MEMBERS <- list(votes = numeric(0), codes = character(0), seats = numeric(0), suspended = logical(0))

# The members of a table, checked: votes, seats (0 for none), suspended, chair_names (NULL for none), and codes if the
# table has them.
members_of <- function(table, in_register) {
  columns <- columns_of(table, if (in_register) c("code", "votes") else c("votes", "chair"))
  if (length(columns[["votes"]]) == 0) return(NO_MEMBERS)
  bad <- function(chair) if (!in_register) "BadSheet" else if (chair) "BadChair" else "BadRecord"
  of_votes <- function(at) in_row(at, "the votes are")
  votes <- numbers_of(columns[["votes"]], of_votes, ALLOWED[[if (in_register) "votes" else "weight"]])
  members <- list(votes = check_votes(votes, of_votes, in_register))
  if (!is.null(columns[["code"]])) members$codes <- codes_of(columns[["code"]])
  check_member_names(columns[["name"]])
  none <- rep(NA, length(votes))
  members$seats <- seats_of(if (is.null(columns[["chair"]])) none else columns[["chair"]], bad(chair = TRUE))
  members$chair_names <- chair_names_of(columns[["chair_name"]], members$seats, bad(chair = FALSE))
  suspended <- if (is.null(columns[["suspended"]])) !is.na(none) else columns[["suspended"]]
  members$suspended <- suspensions_of(suspended, bad(chair = FALSE))
  members
}
