\name{votingboard-package}
\alias{votingboard-package}
\alias{votingboard}
\title{The exact voting power of a board}
\description{
\code{\link{board_indices}} counts the voting power of the chairs of a board over all coalitions of up to 32 chairs.
\code{\link{board_register}} keeps members, their votes and their chairs, and \link{board_commands} change it.
\code{\link{board_replay}} carries out a script.
}
\details{
The counts, the register and the reading of scripts are calls of a C library, which is made from code that is proved.
What this package does around these calls, such as the conversion of values and the fractions, is tested and not proved.

\code{vignette("votingboard")} is an introduction, if the package was installed from its source package.
}
