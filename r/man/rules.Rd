\name{rules}
\alias{rules}
\title{Association rules}
\description{
  The rules between the two sides of frequent itemsets, with their exact count, confidence and lift.
}
\usage{
rules(data, support, confidence, minlen = 2, maxlen = Inf, ...)
}
\arguments{
  \item{data, support, ...}{as in \code{\link{sets}}.}
  \item{confidence}{the least confidence: a share from 0 to 1, or a text as \code{"60\%"} or \code{"2/3"}. A number means
    what one for \code{support} does.}
  \item{minlen, maxlen}{how many items both sides of a rule have together. Others are left out afterwards, so
    \code{maxlen} saves no time.}
}
\details{
  The rules of arules have one item as the consequent, and may have no antecedent. Here a rule has at least one item on
  each side: \code{found[lengths(found$consequents) == 1, ]} are those that arules has too.
}
\value{
  A data frame with a row for each rule: \code{antecedents} and \code{consequents} (lists of vectors of texts),
  \code{count} (of the baskets that have both sides, exact), \code{support} (this count as a share of all baskets),
  \code{confidence} (as a share of those that have the antecedents) and \code{lift} (the confidence over the share of all
  baskets that have the consequents). \code{exact_support}, \code{exact_confidence} and \code{exact_lift} are the same as
  fractions in lowest terms, as texts; the floats are the nearest to these, where both parts are below 2^53.
}
\examples{
shop <- list(c("bread", "milk"), c("milk", "tea"), c("bread", "milk", "tea"), "bread")
rules(shop, support = 0.5, confidence = 2/3)
}
