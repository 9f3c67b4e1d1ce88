\name{board_replay}
\alias{board_replay}
\alias{board_reading}
\alias{board_replay_text}
\alias{as.data.frame.board_replay}
\alias{format.board_replay}
\alias{print.board_replay}
\title{Replay a script}
\description{
Carries out a script as the program \code{board replay} does, and returns what came of each record, as data or as the
program's text.
}
\usage{
board_replay(text, readers = 1, journal = 1000000, file = NULL)
board_reading(run, at = 1)
board_replay_text(text, readers = 1, journal = 1000000, file = NULL)

\method{as.data.frame}{board_replay}(x, row.names = NULL, optional = FALSE, ..., fractions = "double")
}
\arguments{
\item{text}{A script: one text, its lines as \code{readLines} returns them, or raw bytes; at most 4,194,304 bytes.}
\item{readers}{The number of readers, from 1 to 4.}
\item{journal}{The most commands that the register accepts, from 1 to 1,000,000.}
\item{file}{The path of a file, in place of \code{text}.}
\item{run, x}{What \code{board_replay} returned.}
\item{at}{The number of a reading: a row of \code{run$readings}.}
\item{row.names, optional, ...}{Not used.}
\item{fractions}{\code{"double"}, or \code{"exact"} for texts in lowest terms.}
}
\details{
A script is a CSV text: the record \code{member,votes}, a record for each member, the record \code{script}, and the
commands, publications and readings.

\code{board_replay} can be interrupted between records. The one call of \code{board_replay_text} can't.
}
\value{
\code{board_replay} returns a list of class \code{"board_replay"}:
\item{fault}{\code{NULL}, or the fault that ended the run: a list of \code{record} (0 if it has none), \code{number},
  \code{name} and \code{reason}}
\item{outcomes}{a data frame with a row for each record of the script: \code{record}, its number, counted from 1 over
  all of the text; \code{what}: \code{"accepted"}, \code{"refused"}, \code{"published"} or \code{"reading"};
  \code{number}: of accepted commands, of the refusal, of published commands, or of the commands that the reading is
  of; \code{name} of the refusal}
\item{readings}{a data frame with a row for each reading: \code{record}, \code{reader}, \code{front} (the commands
  that it is of), \code{majority}, the numbers of \code{\link{board_indices}}, the number of \code{chairs}, and
  \code{board}: readings of one publication by one majority have the same, and are counted once}
\item{refused}{a data frame of the refused commands: \code{record}, \code{number}, \code{name}, \code{reason},
  \code{command}}
\item{register}{the register as the run leaves it; none after a fault before the script}
\item{boards}{the counts, for \code{board_reading} and \code{as.data.frame}}
\code{board_reading} returns a reading of class \code{"board_indices"} with \code{reader}, \code{front} and
\code{record}; \code{as.data.frame} a row for each reading and chair; \code{board_replay_text} a list of the
program's \code{text} and the \code{fault}.
}
\section{Conditions}{
\link{board_refused}: limits out of range, and no memory. Refused commands and faults of the text are data.
}
\examples{
script <- c("member,votes", "AAA,50", "BBB,49", "CCC,1", "script", "open,1", "open,2", "open,3",
  "move,AAA,1", "move,BBB,2", "move,CCC,3", "move,CCC,3", "publish", "read,1,half")
run <- board_replay(script)
run
run$readings[c("record", "majority", "omega", "coalitions")]
board_reading(run)$chairs$share
as.data.frame(run, fractions = "exact")
cat(board_replay_text(script)$text)
}
