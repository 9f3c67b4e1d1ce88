\name{board_version}
\alias{board_version}
\title{The version of the library}
\description{
The version of the library that is called, which is that of the package: otherwise the package isn't loaded.
}
\usage{
board_version()
}
\value{
A text.
}
\examples{
board_version()
}
