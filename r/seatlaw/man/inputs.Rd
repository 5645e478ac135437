% Rulebooks and returns.
\name{law}
\alias{law}
\alias{law_text}
\alias{statutes}
\alias{read_returns}
\alias{make_returns}
\title{Rulebooks and returns}
\description{What is counted: the rulebook of a statute or of a file, and returns of a file or of data frames.}
\usage{
law(name = NULL, file = NULL)
law_text(name)
statutes()
read_returns(file)
make_returns(lands, parties, lists, winners = NULL, lots = NULL, house = NULL)
}
\arguments{
  \item{name}{the name of a statute, one of \code{statutes()}.}
  \item{file}{the path of a file.}
  \item{lands}{a data frame with \code{land} and \code{people}.}
  \item{parties}{one with \code{party}, and with \code{minority} where there are parties of a national minority.}
  \item{lists}{one with \code{land}, \code{party}, the \code{valid} votes, and the \code{counted} ones where these are others.}
  \item{winners}{one of constituencies: \code{land}, \code{party} (\code{NA} for none), \code{constituency}, \code{first} and \code{valid} votes.}
  \item{lots}{one with \code{land}, \code{party}, \code{stage} and \code{constituency}, in the order in which they were drawn.}
  \item{house}{the number of seats of the house.}
}
\value{Bytes, as \code{\link{count}} takes them; of \code{statutes} the names of the statutes. Nothing is judged before the count.}
\examples{
statutes()
cat(rawToChar(law("2023")))
}
