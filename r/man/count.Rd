\name{count}
\alias{count}
\title{The counts of given itemsets}
\description{
  How many baskets have all items of each itemset, frequent or not: for rules of other weeks, say.
}
\usage{
count(data, sets, ...)
}
\arguments{
  \item{data, ...}{as in \code{\link{sets}}.}
  \item{sets}{a list of vectors of items, or a data frame that \code{\link{sets}} returns.}
}
\value{
  A data frame as \code{\link{sets}} returns it. Its first row is the empty itemset, which each basket has; then comes
  each other itemset once, in the order given. An item that no basket has is no error: its count is 0.
}
\examples{
shop <- list(c("bread", "milk"), c("milk", "tea"), c("bread", "milk", "tea"), "bread")
count(shop, list("milk", c("bread", "tea"), "jam"))
}
