\name{board_indices}
\alias{board_indices}
\alias{board_indices_of_all}
\alias{as.data.frame.board_indices}
\alias{format.board_indices}
\alias{print.board_indices}
\alias{summary.board_indices}
\alias{plot.board_indices}
\title{The voting power of the chairs of a board}
\description{
Counts the winning coalitions of a board and the swings of each chair, over all coalitions, by one majority or by
all of them.
}
\usage{
board_indices(x, majority, ...)
board_indices_of_all(x, ...)

\method{as.data.frame}{board_indices}(x, row.names = NULL, optional = FALSE, ..., fractions = "double")
\method{print}{board_indices}(x, ..., fractions = "double")
\method{summary}{board_indices}(object, ...)
\method{plot}{board_indices}(x, ..., main, ylab = "Share", legend.text = c("votes", "power"))
}
\arguments{
\item{x, object}{The weights of chairs 1, 2 and so on, in votes: at most 32 numbers, whose names, if there are any, are
  the chairs' names. Or a table of members, see Details. Or a register (\code{\link{board_register}}), which is counted
  as it stands. Of the methods: what \code{board_indices} returned.}
\item{majority}{By which coalitions win; it is always given.
  % made: meanings
  \code{"half"}: more than half of the votes cast, if all open chairs vote.
  \code{"70"}: at least one vote, and at least 70 per cent of the total.
  \code{"85"}: at least one vote, and at least 85 per cent of the total.
  \code{"quorum"}: more than half of the open chairs, with at least half of the total.
  % end
}
\item{...}{\code{total}, with weights alone: the total voting power in votes, at least the sum of the weights, which it
  is unless given, and at most 2^48. \code{open_chairs}, with a table alone: the numbers of chairs that are open even if
  no member sits in them. Of \code{print} and \code{plot}: arguments of \code{\link{print.data.frame}} and
  \code{\link[graphics]{barplot}}.}
\item{row.names, optional}{Not used.}
\item{fractions}{\code{"double"} for numbers, or \code{"exact"} for texts in lowest terms, such as \code{"3/5"}.}
\item{main, ylab, legend.text}{Texts of the plot, which has two bars for each chair: its share of the votes cast, and
  its share of power.}
}
\details{
A table is a data frame, or a list of vectors of one length, with a row for each member. Its columns are \code{votes};
\code{chair}, a number from 1 to 32, or \code{NA} for a member in no chair; and if need be \code{code}, three capitals;
\code{name}, the member's name, which isn't used; \code{chair_name}; and \code{suspended}, \code{TRUE} for a member
whose votes don't count. Other columns, and parts of these names, are refused.

A swing of a chair is a set of other open chairs that loses, and wins once the chair is added.
}
\value{
\code{board_indices_of_all} returns a list by the names of the majorities. \code{board_indices} returns a
list of class \code{"board_indices"}:
\item{majority}{the majority}
\item{quota}{the least weight that can win, in votes}
\item{least_size}{the least number of chairs that can win, or 0 if the majority requires none}
\item{cast}{the votes of all open chairs}
\item{total}{the total voting power, in votes}
\item{omega}{the number of winning coalitions}
\item{coalitions}{the number of all coalitions}
\item{act}{\code{omega / coalitions}, Coleman's power of the board to act}
\item{chairs}{a data frame with a row for each open chair: \code{chair}, its number; \code{name}, only if there are
  names; \code{weight}, in votes; \code{swings}; and four fractions of the swings: \code{banzhaf}, the Banzhaf
  measure, of half of the coalitions; \code{share}, the normalised Banzhaf index, of the swings of all chairs;
  \code{prevent} and \code{initiate}, Coleman's powers to prevent and to initiate action, of the winning and of the
  losing coalitions. Where the divisor is 0, a fraction is \code{NA}.}
Votes and counts are whole numbers up to 2^48, which doubles hold exactly; fractions are rounded. \code{summary} has
each chair's share of the votes cast beside its share of power.
}
\section{Conditions}{
Values that are no votes, no chair or no majority are refused by a condition of class \code{"board_refused"}, values
of a wrong type by one of class \code{"board_type_error"}: \link{board_refused}.
}
\seealso{\code{\link{board_indices_of_many}}, \code{\link{board_register}}}
\examples{
board <- board_indices(c(World = 50, Union = 49, Club = 1), majority = "half")
board
board$omega
as.data.frame(board, fractions = "exact")
summary(board)
plot(board)

members <- data.frame(votes = c(30, 20, 49, 1), chair = c(1, 1, 2, 3), suspended = c(FALSE, FALSE, FALSE, TRUE))
board_indices(members, "85", open_chairs = 4)
vapply(board_indices_of_all(members), function(it) it$act, 0)
}
