\name{board_copy}
\alias{board_copy}
\title{Copy a register}
\description{
A copy for a question, which shares nothing with the register.
}
\usage{
board_copy(r)
}
\arguments{
\item{r}{A register, of \code{\link{board_register}}.}
}
\value{
A register with the same members, journal, publication and names of chairs. A copy that nothing
refers to is freed by R's collector, which the package calls when copies hold much memory.
}
\section{Conditions}{
\link{board_refused}: a register that is gone, or no memory.
}
\examples{
r <- board_register(data.frame(code = c("AAA", "BBB", "CCC"), votes = c(50, 49, 1), chair = 1:3))
what <- board_copy(r) |> board_move("CCC", 2)
board_indices(what, "half")$chairs$share - board_indices(r, "half")$chairs$share
}
