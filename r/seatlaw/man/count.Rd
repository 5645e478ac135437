% How elections are counted, one at a time.
\name{count}
\alias{count}
\alias{steps}
\alias{stage}
\alias{check}
\alias{show_all}
\title{Count an election}
\description{Counts returns by a rulebook, and gives the seat table, the steps of its seats, or the column of a stage; or all that comes of them.}
\usage{
count(book, returns)
steps(book, returns)
stage(book, returns, name)
check(book)
show_all(book, returns, names = raw(), language = "en")
}
\arguments{
  \item{book}{a rulebook: its bytes, as \code{\link{law}} gives them, or its lines.}
  \item{returns}{returns: their bytes, as \code{\link{read_returns}} and \code{\link{make_returns}} give them, or their lines.}
  \item{name}{the name of a stage.}
  \item{names}{a file of full names, in the same way; none by default.}
  \item{language}{the language of sentences, \code{"en"} or \code{"de"}.}
}
\value{
  \code{count} gives a list of the \code{total}, of data frames of \code{parties}, \code{lists} and \code{vacant} seats, and of the constituencies of
  \code{singles} and of winners without a seat, \code{open}. \code{steps} gives data frames of \code{seats} and \code{bounds}, and that \code{table}.
  \code{stage} gives a data frame of the entries and their values. \code{check} gives the line of a good rulebook. \code{show_all} gives a list of the
  \code{table}, the \code{steps}, and, as \code{\link{report}} gives them, the \code{report}, the \code{stages} and the \code{totals}.

  An input that is not in order raises a condition of the class \code{seatlaw_refused}, and returns for which the rulebook has no table one of
  \code{seatlaw_legal_fault}; both are \code{seatlaw_error}. They have the \code{line} that says so, the \code{status}, a function
  \code{explanation} of the language, \code{"de"} or \code{"en"}, and a function \code{explained}, which gives the explanation in parts:
  a list of the \code{code} of the fault, the \code{input}, \code{"book"} or \code{"returns"}, the \code{sentence}, the \code{place} (its
  \code{line} and \code{column} from 1, and the offsets of its first byte and of the one behind its last, \code{start} and \code{end}) or
  \code{NULL}, texts of \code{help}, \code{records} of lots that may be added to the returns, and \code{more} lines. It gives \code{NULL} for
  \code{\link{run}}, for an unknown statute or stage, and where nothing is explained.
}
\examples{
book <- law("2023")
votes <- make_returns(
  lands = data.frame(land = "North", people = 900000), parties = data.frame(party = c("Reds", "Blues")),
  lists = data.frame(land = "North", party = c("Reds", "Blues"), valid = c(300, 200)), house = 5
)
count(book, votes)$parties
show_all(book, votes)$steps$bounds
}
