# The tasks of bench/tasks.c by the package for R, and the boards by one call, timed by the clock:
# Rscript tasks.R BOARDS SCRIPT COMMANDS
library(votingboard)

chairs <- 24
given <- commandArgs(trailingOnly = TRUE)
words <- readBin(given[1], "integer", file.size(given[1]) / 8, size = 8)
boards <- matrix(words, ncol = chairs, byrow = TRUE)
commands <- read.table(given[3], colClasses = c("character", "numeric"))

processor <- function() sum(proc.time()[c("user.self", "sys.self")])
clock <- function() proc.time()[["elapsed"]]

timed <- function(name, now, work) {
  least <- Inf
  for (round in 1:3) {
    begun <- now()
    sum <- work()
    least <- min(least, now() - begun)
  }
  cat(sprintf("%s %.0f %.0f\n", name, least * 1e9, sum))
}

count_boards <- function() {
  sum <- 0
  for (at in seq_len(nrow(boards))) for (it in board_indices_of_all(boards[at, ])) sum <- sum + it$omega
  sum
}

carry_out <- function() {
  register <- board_from_script(file = given[2])
  sum <- 0
  for (at in seq_len(nrow(commands))) {
    board_set_votes(register, commands[at, 1], commands[at, 2])
    sum <- sum + board_indices(register, "half")$omega
  }
  sum
}

timed("boards", processor, count_boards)
timed("commands", processor, carry_out)
timed("many", clock, function() sum(board_indices_of_many(boards)$omega))
