\name{board_refused}
\alias{board_refused}
\alias{board_type_error}
\title{Refusals and wrong types}
\description{
The conditions that the functions of this package raise.
}
\details{
A value or a command that is refused raises a condition of the classes \code{"board_refused"} and \code{"error"} with
\describe{
\item{message}{the place, the value, and what is allowed. Places count from 1.}
\item{number, name}{the number and the name of the refusal, such as 2 and \code{"ChairNotOpen"}}
\item{command}{the text of the refused record, or \code{NULL}}
\item{record}{its number in a list of records or in a script, or \code{NULL}}
\item{row}{the row of a table, or \code{NULL}}
\item{board}{of many boards the name of the board's row or vector, or its place if it has none, or \code{NULL}}
}
On a board: \code{BadSheet} for weights, totals, chairs and votes, \code{BadRecord} for a majority that isn't known.
Of a register: \code{BadChair}, \code{BadMember} for a code, \code{VotesTooLarge}, \code{BadRecord} for other votes,
\code{BadLimit} for a journal or readers, \code{NoRegister} for a register that is gone, and the refusals of commands.

A value of a wrong type, such as text for votes, and a table whose columns aren't those of a table, raise a condition of
the classes \code{"board_type_error"} and \code{"error"}. A number is whole if its value is: \code{5.0} is 5. A
factor is its labels where text is allowed, and a wrong type where a number is.
}
\examples{
why <- tryCatch(board_indices(c(50, -1), "half"), board_refused = identity)
conditionMessage(why)
why$name
tryCatch(board_indices("50", "half"), board_type_error = conditionMessage)
}
