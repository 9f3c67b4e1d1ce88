\name{board_commands}
\alias{board_commands}
\alias{board_open}
\alias{board_rename}
\alias{board_close}
\alias{board_move}
\alias{board_set_votes}
\alias{board_suspend}
\alias{board_restore}
\alias{board_admit}
\alias{board_withdraw}
\alias{board_submit}
\alias{board_check}
\alias{board_attempt}
\alias{board_publish}
\alias{board_undo}
\title{Change a register}
\description{
Carry out commands on a register, in place.
}
\usage{
board_open(r, chair, name = NA)
board_close(r, chair)
board_rename(r, chair, name)
board_move(r, code, chair)
board_set_votes(r, code, votes)
board_suspend(r, code)
board_restore(r, code)
board_admit(r, code, votes)
board_withdraw(r, code)

board_submit(r, commands)
board_check(r, command)
board_attempt(r, command)

board_publish(r)
board_undo(r, to = board_accepted(r) - 1)
}
\arguments{
\item{r}{A register, of \code{\link{board_register}}.}
\item{chair}{The number of a chair, from 1 to 32. Of \code{board_move} also \code{NA}, for no chair.}
\item{name}{The name of the chair, a text; or \code{NA} for none.}
\item{code}{The code of a member: three ASCII capitals.}
\item{votes}{Votes, a whole number from 0 to 2^40.}
\item{commands, command}{Records as text, such as \code{"move,AAA,3"} or \code{"publish"}: one or more in a text, or a
  vector of texts; or commands of \code{\link{board_journal}}; or a list of these.}
\item{to}{How many of the first accepted commands stay.}
}
\details{
\tabular{ll}{
\code{board_open}, \code{board_close} \tab open a closed chair; close an open chair without members\cr
\code{board_move} \tab moves a member to an open chair, or out of its chair\cr
\code{board_set_votes} \tab sets the votes of a member\cr
\code{board_suspend}, \code{board_restore} \tab suspend a member's votes; end a suspension\cr
\code{board_admit}, \code{board_withdraw} \tab add a member, in no chair; remove one that is in no chair
}
\code{board_open} can give the chair a name, which it has until it is closed: a chair that is closed and opened again
is a new chair without a name. \code{board_rename} gives an open chair another name, or none, from when it was opened
until it is closed. It is no command: the journal, scripts and \code{board_undo} know nothing of it.

\code{board_submit} carries out records, all or none. \code{board_check} only says what would refuse them.
\code{board_attempt} carries them out, and returns a refusal in place of raising it.

\code{board_publish} publishes all accepted commands: \code{\link{board_read}} counts the register after them.

\code{board_undo} takes back all commands but the first ones. Those of them that were published stay published: if
more than \code{to} were, all that are left are published, and \code{\link{board_read}} counts the register after them.
}
\value{
The commands, \code{board_rename}, \code{board_submit}, \code{board_publish} and \code{board_undo} return the register,
invisibly, so that they follow each other in a pipe. \code{board_check} and \code{board_attempt} return \code{NULL}, or
the refusal: a condition of class \code{"board_refused"}.
}
\section{Conditions}{
\link{board_refused}: a command that the register refuses changes nothing. A list is refused with the number and the
text of its first refused record. \code{board_rename} refuses a closed chair. A record \code{read} is refused, since it
is no command. Where memory runs out, \code{OutOfMemory} refuses the command or the whole list, and the register stays
as it is. \code{board_undo} needs no memory.
}
\examples{
r <- board_register(c(AAA = 50, BBB = 49, CCC = 1))
r |> board_open(1) |> board_move("AAA", 1)
board_submit(r, c("open,2", "move,BBB,2"))
board_accepted(r)
board_check(r, "move,CCC,3")
tryCatch(board_close(r, 1), board_refused = function(why) why$name)
board_undo(r, 2)
as.character(board_journal(r))
}
