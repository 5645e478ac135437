% Any command of the program.
\name{ask}
\alias{ask}
\title{Any command of the program}
\description{What the program does for the words of a command line and for files, without a process and without files on disk.}
\usage{
ask(words, files = list())
}
\arguments{
  \item{words}{the words behind the program's name, as \code{c("count", "@2023", "returns.csv")}.}
  \item{files}{a list of the files that the words may name, by their names: raw vectors, or lines.}
}
\value{
  A list of the exit \code{status} of the program, of what it writes to standard output, \code{out}, and to standard error, \code{err}, and of the bytes of
  the file that \code{code} makes, \code{made}.
}
\examples{
cat(ask(c("help", "stage"))$out)
}
