\name{board_script}
\alias{board_script}
\alias{board_from_script}
\title{Save and read a register}
\description{
The script of a register as text, and the register of a script.
}
\usage{
board_script(r)
board_from_script(text, journal = 1000000, file = NULL, names = NULL)
}
\arguments{
\item{r}{A register, of \code{\link{board_register}}.}
\item{text}{A script: one text, its lines as \code{readLines} returns them, or raw bytes. It may have more than the
  4,194,304 bytes of an input of the program \code{board}, but its members are within that many.}
\item{journal}{The most commands that the register accepts, from 1 to 1,000,000.}
\item{file}{The path of a file, in place of \code{text}.}
\item{names}{The names of chairs that are open at the end, as \code{\link{board_chair_names}} gives them: a script has
  none.}
}
\value{
\code{board_script} returns a text, which is printed as its lines: the members at the start, the accepted commands, and
\code{publish} after those that are published. \code{board_from_script} returns a register: commands and publications
are carried out, and readings are passed over. The register of a register's script has the same members, journal and
publication, and the names of chairs that \code{names} gives.
}
\section{Conditions}{
\link{board_refused}: a command that is refused, or a fault of the text, with the number of its record; a name of a
chair that isn't open.
}
\examples{
r <- board_register(c(AAA = 50, BBB = 49))
board_open(r, 1, name = "North")
file <- tempfile(fileext = ".csv")
cat(board_script(r), file = file)
board_from_script(file = file, names = board_chair_names(r))
unlink(file)
}
