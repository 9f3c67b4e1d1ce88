# What the package for R promises: it prints printed.txt, as the programs of the other packages do. Its word is the
# script replayed.csv.
library(votingboard)

weights <- c(North = 50, South = 49, East = 1)
members <- data.frame(
  code = c("AAA", "BBB", "CCC", "DDD"), votes = c(50, 40, 9, 7), chair = c(1, 2, 2, NA),
  chair_name = c("North", "South", "South", NA), suspended = c(FALSE, FALSE, TRUE, FALSE)
)
write_line <- function(...) cat(..., "\n", sep = "")

# A board by a majority.
show_board <- function(board) {
  rows <- as.data.frame(board, fractions = "exact")
  write_line(board$majority, ": ", board$quota, " and ", board$least_size, " of ", board$total, ", ", board$cast,
    " cast")
  write_line("  ", board$omega, " of ", board$coalitions, " win")
  for (at in seq_len(nrow(rows))) {
    it <- rows[at, ]
    cells <- c(it$chair, it$name, it$weight, it$swings, it$banzhaf, it$share, it$prevent, it$initiate)
    write_line("  ", paste(ifelse(is.na(cells), "-", cells), collapse = " "))
  }
}

counts <- function() {
  for (board in board_indices_of_all(weights)) show_board(board)
  show_board(board_indices(weights, "85", total = 1000))
  show_board(board_indices(members, "half"))
  many <- board_indices_of_many(rbind(c(50, 49, 1), c(1, 1, 1)), "half")
  write_line("many: ", paste(as.data.frame(many)$swings, collapse = " "))
}

register <- function() {
  board <- board_register(members)
  write_line("start: ", board_accepted(board), " accepted, ", board_published(board), " published")
  write_line("open: ", board_accepted(board_open(board, 3, name = "East")))
  write_line("submit: ", board_accepted(board_submit(board, "move,DDD,3\nvotes,AAA,60\nadmit,EEE,1\n")))
  write_line("publish: ", board_published(board_publish(board)))
  write_line("withdraw: ", board_accepted(board_withdraw(board, "EEE")))
  for (command in c("open,1", "close,2", "move,CCC,1", "admit,DDD,1")) {
    why <- board_check(board, command)
    write_line("check ", command, ": ", why$number, " ", why$name)
  }
  why <- tryCatch(board_submit(board, "suspend,AAA\nsuspend,AAA"), board_refused = identity)
  write_line("submit: ", why$number, " ", why$name, ", and ", board_accepted(board), " accepted")
  other <- board_copy(board)
  write_line("what if: ", board_accepted(board_move(other, "DDD", 1)))
  show_board(board_indices(other, "half"))
  write_line("undo: ", board_accepted(board_undo(board)))
  board_rename(board, 2, "West")
  names <- board_chair_names(board)
  write_line("names: ", paste(names(names), names, collapse = " "))
  show_board(board_read(board, "half"))
  cat(board_script(board))
}

replays <- function(script) {
  cat(board_replay_text(file = script)$text)
  run <- board_replay(file = script)
  write_line("fault: record ", run$fault$record, ", ", run$fault$number, " ", run$fault$name)
  for (at in seq_len(nrow(run$readings))) {
    it <- board_reading(run, at)
    write_line("reading: record ", it$record, ", ", it$majority, " ", paste(it$chairs$swings, collapse = " "))
  }
  for (at in seq_len(nrow(run$refused))) {
    it <- run$refused[at, ]
    write_line("refused: record ", it$record, ", ", it$number, " ", it$name, ": ", it$command)
  }
}

counts()
register()
replays(commandArgs(trailingOnly = TRUE)[1])
