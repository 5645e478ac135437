% What faults mean.
\name{explain}
\alias{explain}
\alias{lots_lacking}
\title{What a fault means}
\description{What the code of a fault means, and which lot records returns lack at a tie.}
\usage{
explain(code, language = "en")
lots_lacking(condition)
}
\arguments{
  \item{code}{the code of a fault, such as \code{B15}, as it stands in an explanation.}
  \item{language}{\code{"en"} or \code{"de"}.}
  \item{condition}{a condition of the class \code{seatlaw_legal_fault}.}
}
\value{
  \code{explain} gives a text: a title, what the fault means, an example, and what to do. \code{lots_lacking} gives a data frame of lot records; put those
  first that were drawn, and give them to \code{\link{make_returns}}.
}
\examples{
cat(explain("L04"))
}
