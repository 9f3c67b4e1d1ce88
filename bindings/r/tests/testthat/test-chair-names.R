# Names of chairs, by the table that all packages and the page read.

cases_of_names <- function() {
  blocks <- strsplit(paste(answers("chair_names.txt"), collapse = "\n"), "\n\n", fixed = TRUE)[[1]][-1]
  lines <- strsplit(blocks, "\n", fixed = TRUE)
  stats::setNames(lapply(lines, `[`, -1), vapply(lines, `[`, "", 1))
}

# The first fields of a step, and the rest.
fields_of <- function(text, many) {
  fields <- strsplit(paste0(text, ","), ",", fixed = TRUE)[[1]]
  c(fields[seq_len(many)], paste(fields[-seq_len(many)], collapse = ","))
}

names_in <- function(text) {
  pairs <- strsplit(strsplit(text, ";", fixed = TRUE)[[1]], "=", fixed = TRUE)
  stats::setNames(vapply(pairs, `[`, "", 2), vapply(pairs, `[`, "", 1))
}

names_of_indices <- function(it) {
  name <- it$chairs$name
  if (is.null(name)) return(names_in(""))
  stats::setNames(name[!is.na(name)], as.character(it$chairs$chair[!is.na(name)]))
}

state_of_names <- function(r) {
  list(board_script(r), board_chair_names(r), names_of_indices(board_indices(r, "half")),
    names_of_indices(board_read(r, "half")))
}

started_with <- function(steps) {
  rows <- strsplit(steps[startsWith(steps, "table,")], ",", fixed = TRUE)
  cell <- function(at) vapply(rows, `[`, "", at)
  board_register(data.frame(code = cell(2), votes = as.double(cell(3)), chair = as.double(cell(4)),
    chair_name = cell(5)))
}

change_names <- function(r, kind, given) {
  chair <- suppressWarnings(as.double(fields_of(given, 1)[1]))
  name <- fields_of(given, 1)[2]
  switch(kind,
    submit = board_submit(r, strsplit(given, ";", fixed = TRUE)[[1]]),
    open = board_open(r, chair, name = name),
    rename = board_rename(r, chair, if (nzchar(name)) name else NA),
    undo = board_undo(r, as.double(given))
  )
}

refused_step <- function(r, given) {
  fields <- fields_of(given, 2)
  before <- state_of_names(r)
  why <- tryCatch(change_names(r, fields[2], fields[3]), board_refused = identity)
  expect_identical(as.double(why$number), as.double(fields[1]), info = given)
  expect_identical(state_of_names(r), before, info = given)
}

check_names <- function(r, kind, given) {
  wanted <- names_in(given)
  if (kind == "read") return(expect_identical(names_of_indices(board_read(r, "half")), wanted, info = given))
  all <- board_chairs(r)
  found <- list(
    board_chair_names(r), names_of_indices(board_indices(r, "85")), names_of_indices(board_indices_of_all(r)$half),
    names_of_indices(list(chairs = all))
  )
  for (it in found) expect_identical(it, wanted, info = given)
}

# Catches: a name that outlives its chair, is lost with `undo` or a copy, or comes from a refused call.
for (case in names(cases_of_names())) {
  test_that(case, {
    steps <- cases_of_names()[[case]]
    r <- started_with(steps)
    first <- before <- NULL
    for (step in steps[!startsWith(steps, "table,")]) {
      kind <- fields_of(step, 1)[1]
      given <- sub("^[^,]*,?", "", step)
      if (kind %in% c("submit", "open", "rename", "undo")) {
        change_names(r, kind, given)
      } else if (kind == "refused") {
        refused_step(r, given)
      } else if (kind == "save") {
        r <- board_from_script(board_script(r), names = board_chair_names(r))
      } else if (kind %in% c("copy", "keep")) {
        if (kind == "copy") {
          first <- r
          before <- state_of_names(r)
        }
        r <- board_copy(r)
      } else {
        check_names(r, kind, given)
      }
    }
    if (!is.null(first)) expect_identical(state_of_names(first), before)
  })
}

# Catches: openings that are found wrongly where some of the journal was looked at before.
test_that("names are those of chairs that are opened and closed in turn", {
  r <- board_register(data.frame(code = "AAA", votes = 5, chair = 1, chair_name = "North"))
  expected <- c("1" = "North")
  for (number in 3:200) {
    chair <- 2 + (number * 7) %% 30
    if (chair %in% board_chairs(r)$chair) {
      board_close(r, chair)
      expected <- expected[names(expected) != chair]
    } else {
      name <- if (number %% 3 > 0) paste("name", number) else NA
      board_open(r, chair, name)
      if (!is.na(name)) expected[as.character(chair)] <- name
    }
    if (number %% 5 == 0) expect_identical(board_chair_names(r), expected[order(as.double(names(expected)))])
  }
  again <- board_from_script(board_script(r), names = board_chair_names(r))
  expect_identical(board_chair_names(again), board_chair_names(r))
})

# Catches: a name that is no text, and a name of a closed chair, that are taken.
test_that("names are text, and of open chairs", {
  r <- board_register(c(AAA = 5))
  wrong(board_open(r, 1, 5), "the name is 5 (numeric): a name is text")
  wrong(board_open(r, 1, NULL), "the name is NULL (NULL): a name is text")
  wrong(board_rename(r, 1, c("North", "South")),
    "the name is c(\"North\", \"South\") (character): a name is text")
  expect_identical(board_accepted(r), 0L)
  refused(board_rename(r, 1, "North"), "ChairNotOpen",
    "no name for chair 1: ChairNotOpen (2), the chair is not open")
  text <- "member,votes\nscript\nopen,1\n"
  expect_error(board_from_script(text, names = c("2" = "South")), "no name for chair 2", class = "board_refused")
  expect_error(board_from_script(text, names = c(x = "South")), "the chair is NA", class = "board_refused")
  expect_error(board_from_script(text, names = "South"), "texts named by the numbers", class = "board_type_error")
})
