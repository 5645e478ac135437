% Many counts at once.
\name{counts}
\alias{counts}
\alias{votes}
\title{Many counts of returns that differ in votes}
\description{Counts, for each row of a matrix, the returns that have its numbers as the votes of their lists.}
\usage{
votes(returns)
counts(book, returns, numbers)
}
\arguments{
  \item{book}{a rulebook, as \code{\link{count}} takes it.}
  \item{returns}{returns in which the counted votes of each list are all valid ones.}
  \item{numbers}{a matrix of whole numbers with a column for each list, in the order of \code{votes}, or a vector for one row.}
}
\value{
  \code{votes} gives a data frame of the lists of the returns and their votes. \code{counts} gives an integer matrix with a row for each row of
  \code{numbers}: the \code{status}, which is 0 where there is a table, 2 for a refusal and 3 for a legal fault; the \code{total}; and for each party and
  each list its seats and its winners, as \code{party Reds}, \code{party Reds winners}, \code{list North Reds} and \code{list North Reds winners}. The
  numbers of a row without a table are \code{NA}. The rows are counted one after the other.
}
\examples{
returns <- make_returns(
  lands = data.frame(land = "North", people = 900000), parties = data.frame(party = c("Reds", "Blues")),
  lists = data.frame(land = "North", party = c("Reds", "Blues"), valid = c(300, 200)), house = 5
)
votes(returns)
counts(law("2023"), returns, rbind(c(300, 200), c(200, 300), c(250, 250)))
}
