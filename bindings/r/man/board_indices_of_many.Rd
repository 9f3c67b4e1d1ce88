\name{board_indices_of_many}
\alias{board_indices_of_many}
\alias{as.data.frame.board_indices_of_many}
\alias{print.board_indices_of_many}
\title{The voting power on many boards}
\description{
Counts many boards by some majorities, on all processors. All boards are checked before one is counted.
}
\usage{
board_indices_of_many(rows, majorities = c("half", "70", "85", "quorum"), totals = NULL,
                      processors = NULL)

\method{as.data.frame}{board_indices_of_many}(x, row.names = NULL, optional = FALSE, ...,
              fractions = "double")
}
\arguments{
\item{rows}{The weights of the boards, in votes: a matrix or a data frame of numbers with a row for each board, or a
  list of vectors, which may differ in length.}
\item{majorities}{Some of the majorities of \code{\link{board_indices}}.}
\item{totals}{The total of each board, in votes, at least the sum of its weights, which it is unless given.}
\item{processors}{How many threads count, at most 64; by default one for each processor that R may use. Results are the
  same for any number. Built for Windows, where the package wasn't tried, it counts on one.}
\item{x}{What \code{board_indices_of_many} returned.}
\item{row.names, optional}{Not used.}
\item{fractions}{\code{"double"}, or \code{"exact"} for texts in lowest terms.}
\item{...}{Refused: there are no other arguments.}
}
\value{
A list of class \code{"board_indices_of_many"}. By board: \code{chairs} (how many it has), \code{cast},
\code{total}, \code{coalitions}. By board and majority: \code{quota}, \code{least_size}, \code{omega}, \code{act}. By
board and chair: \code{weights}. By board, majority and chair: \code{swings}, \code{banzhaf}, \code{share},
\code{prevent}, \code{initiate}, which are \code{NA} for a chair that the board hasn't. They mean what they mean for
\code{\link{board_indices}}. \code{names}, only if there are names of columns or in vectors, has those of chairs, by
chair or by board and chair. \code{as.data.frame} has a row for each board, majority and chair; \code{board} is the
name of the row or vector, or its place, and \code{name}, only if there are names, that of the chair.
}
\section{Conditions}{
Those of \code{\link{board_indices}}. The message begins with the board's place, as in
\samp{board 3: weight 2 is -1: votes are whole numbers from 0}, and a refusal has the board's name or place as
\code{board}.
}
\examples{
many <- board_indices_of_many(rbind(now = c(50, 49, 1), later = c(40, 40, 20)), c("half", "85"))
many$omega
many$share["later", "half", ]
as.data.frame(many, fractions = "exact")
}
