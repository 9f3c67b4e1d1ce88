\name{board_register}
\alias{board_register}
\alias{print.board_register}
\alias{format.board_register}
\alias{summary.board_register}
\title{A register of members, votes and chairs}
\description{
Starts a register, which commands then change.
}
\usage{
board_register(members, journal = 1000000)
}
\arguments{
\item{members}{The votes of the members, a vector of numbers named by the members' codes. Or a table of members as of
  \code{\link{board_indices}} with the columns \code{code} and \code{votes} and, if need be, \code{name}, \code{chair},
  \code{chair_name} and \code{suspended}. At most 256 members, each with at most 2^40 votes. A code is three ASCII
  capitals, and is there once.}
\item{journal}{The most commands that the register accepts, from 1 to 1,000,000.}
}
\details{
\strong{A register changes in place.} \code{s <- r} is a second name for the same register, and a function that is given
a register changes it for its caller. It has no fields for \code{$}: functions such as \code{\link{board_members}} say
what it holds. \code{\link{board_copy}} makes a register of its own.

The chairs of a table are opened by number, its members are moved to them by row, and those that are suspended are
suspended: these are the first commands of the journal. A chair has its name until it is closed: a chair that is closed
and opened again is a new chair, and \code{\link{board_undo}} gives back the name that it had. Names are no part of the
journal or of \code{\link{board_script}}: \code{\link{board_chair_names}} has them.

A register lives in memory outside R. One that was saved with a workspace or by \code{saveRDS} can't be read back: save
the text of \code{board_script} in its place.

An interrupt or an error leaves a register as it was before or after a command.
}
\value{
An object of class \code{"board_register"}. \code{summary} returns a list of its members, chairs, and numbers of
accepted and published commands.
}
\section{Conditions}{
\link{board_refused}: members, codes, votes, chairs or a journal that a register can't have are refused, with their row.
}
\seealso{\link{board_commands} to change it, \link{board_state} to look at it, \code{\link{board_indices}} to count it.}
\examples{
r <- board_register(data.frame(code = c("AAA", "BBB", "CCC"), votes = c(50, 49, 1), chair = 1:3))
board_move(r, "CCC", 2)
r
board_indices(r, "half")
}
