% Code files.
\name{code}
\alias{code}
\alias{read_code}
\alias{run}
\title{Code files}
\description{Compiles a rulebook to a code file, and runs a code file on returns.}
\usage{
code(book)
read_code(file)
run(code, returns)
}
\arguments{
  \item{book}{a rulebook, as \code{\link{count}} takes it.}
  \item{file}{the path of a code file.}
  \item{code}{the bytes of a code file.}
  \item{returns}{returns.}
}
\value{
  \code{code} gives a list of the bytes of the \code{file}, which \code{writeBin} writes, and the lines of its \code{listing}. \code{read_code} gives
  the bytes of a file. \code{run} gives the seat table, as \code{count} does. A code file that is not in order raises a condition of the class \code{seatlaw_refused}, and a run that needs more steps than
  it may take one of \code{seatlaw_out_of_budget}, which that of no rulebook's code does.
}
\examples{
head(code(law("2023"))$listing)
}
