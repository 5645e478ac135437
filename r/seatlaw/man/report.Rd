% The tables of reports.
\name{report}
\alias{report}
\alias{totals}
\alias{compare}
\title{Tables of reports}
\description{One count in full, the sums of returns, and the seats by several rulebooks side by side.}
\usage{
report(book, returns, names = raw(), short = FALSE, before = raw(), language = "en")
totals(returns, book = raw(), names = raw(), language = "en")
compare(returns, books = paste0("@", statutes()), names = raw(), methods = character(), language = "en")
}
\arguments{
  \item{book}{a rulebook, as \code{\link{count}} takes it; of \code{totals} it may be left out.}
  \item{returns}{returns.}
  \item{names}{a file of full names; none by default.}
  \item{short}{whether the page for the press is asked for in place of the whole.}
  \item{before}{of that page, an earlier seat table, as the command \code{count} writes it; none by default.}
  \item{books}{names of statutes with \code{@} before them, by default all; or a list of such names and of rulebooks of one's own, as \code{\link{law}} gives
  them, which are called by their names in the list, or \code{book}.}
  \item{methods}{methods by which each rulebook is counted too, of \code{"webster"}, \code{"jefferson"}, \code{"adams"}, \code{"dean"}, \code{"hill"} and
  \code{"hamilton"}.}
  \item{language}{the language of sentences, \code{"en"} or \code{"de"}.}
}
\value{
  Data frames by the names of the tables, where the package \code{jsonlite} is there, and else the JSON. In that of \code{scopes} the columns
  \code{last} and \code{next} are lists of short names. Refusals and legal faults are conditions, as of \code{\link{count}}.
}
\examples{
votes <- make_returns(
  lands = data.frame(land = "North", people = 900000), parties = data.frame(party = c("Reds", "Blues")),
  lists = data.frame(land = "North", party = c("Reds", "Blues"), valid = c(300, 200)), house = 5
)
totals(votes)
compare(votes, list("@2023", mine = law("2013")), methods = "adams")
}
