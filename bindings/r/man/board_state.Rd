\name{board_state}
\alias{board_state}
\alias{board_members}
\alias{board_opening}
\alias{board_chairs}
\alias{board_chair_names}
\alias{board_journal}
\alias{as.character.board_commands}
\alias{board_accepted}
\alias{board_published}
\alias{board_read}
\title{Look at a register}
\description{
The members, chairs and commands of a register, and what its readers see.
}
\usage{
board_members(r)
board_opening(r)
board_chairs(r)
board_chair_names(r)
board_journal(r)
board_accepted(r)
board_published(r)
board_read(r, majority)

\method{as.character}{board_commands}(x, ...)
}
\arguments{
\item{r}{A register, of \code{\link{board_register}}.}
\item{majority}{A majority, as of \code{\link{board_indices}}.}
\item{x}{Commands of \code{board_journal}.}
\item{...}{Not used.}
}
\value{
\item{board_members}{a data frame of the members in the order of entry: \code{code}, \code{votes} (also while it is
  suspended), \code{chair} (\code{NA} for none), \code{suspended}, and \code{chair_name} if chairs have names. It is a
  table for \code{\link{board_register}} and \code{\link{board_indices}}.}
\item{board_opening}{a data frame of the members with which the register started: \code{code}, \code{votes}}
\item{board_chairs}{a data frame of the open chairs: \code{chair}, \code{name} if chairs have names, \code{weight} in
  votes, and \code{members}, a list of their codes}
\item{board_chair_names}{the names of the open chairs that have one: a vector of texts, named by the chairs' numbers}
\item{board_journal}{the accepted commands, a data frame of class \code{"board_commands"}: \code{kind}, \code{code},
  \code{chair}, \code{votes}. A part that the kind hasn't, and no chair, are \code{NA}. \code{as.character} gives the
  records as text, and \code{\link{board_submit}} takes it.}
\item{board_accepted, board_published}{the numbers of accepted and of published commands}
\item{board_read}{the counts of the register after its published commands, of class \code{"board_indices"}. Before the
  first publication that is the opening, in which no chair is open.}
}
\section{Conditions}{
\link{board_refused}: a register that is gone, or a majority that isn't known.
}
\examples{
r <- board_register(data.frame(code = c("AAA", "BBB"), votes = c(50, 49), chair = c(1, 1)))
board_members(r)
board_chairs(r)
board_journal(r)
board_publish(r)
board_read(r, "half")$omega
}
