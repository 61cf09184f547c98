\name{sets}
\alias{sets}
\alias{closed}
\alias{maximal}
\title{Frequent, closed and maximal itemsets}
\description{
  The itemsets that are in enough baskets: all of them, those of which no larger itemset has the same count
  (\code{closed}), and those of which no larger itemset is frequent (\code{maximal}).
}
\usage{
sets(data, support, minlen = 1, maxlen = Inf, ...)
closed(data, support, minlen = 1, maxlen = Inf, ...)
maximal(data, support, minlen = 1, maxlen = Inf, ...)
}
\arguments{
  \item{data}{the baskets, as one of these:
    a data frame with a row for each item of a basket (of two columns the basket's id and the item; of others
    \code{basket} and \code{item} name them);
    a list with a vector of items for each basket;
    a matrix of \code{TRUE} and \code{FALSE} with a row for each basket and a column for each item, or a data frame
    of such columns;
    the path of a file, with \code{form}.
    Transactions of the package arules are given as \code{as(data, "list")}. Items come back as texts.}
  \item{support}{the least support, as in arules a share of all baskets from 0 to 1. A whole number above 1 is a count
    of baskets, and so is an integer, as \code{1L}. A text is \code{"20\%"}, \code{"1/200"}, \code{"0.005"}, or a
    count, as \code{"20"}. A number means the decimal that it prints; one of twelve digits or more was computed, as
    \code{50 / 300}, and is met by the count that it is the share of.}
  \item{minlen, maxlen}{how many items an itemset has. The program finds all of them, and others are left out
    afterwards, so \code{maxlen} saves no time.}
  \item{...}{more arguments, by their names:
    \code{basket} and \code{item}, columns of a data frame, by name or number;
    of a path \code{form} (\code{"fimi"}, \code{"baskets"} where a record of CSV is a basket, \code{"single"} where it is
    a basket's id and an item), \code{sep} (\code{","}, \code{";"}, \code{"\\t"} or \code{"|"}) and \code{header};
    \code{limit}, how many itemsets there may be;
    \code{miner} (\code{"apriori"}, \code{"eclat"}, \code{"eclat-diff"}, \code{"eclat-bits"}, \code{"fpgrowth"}) and
    \code{workers}, the number of threads, which change time and memory alone.}
}
\details{
  The program basket counts. It is found by \code{options(basket.program = "/its/path")}, by the environment variable
  \code{BASKET}, or on the path. What it refuses is an error of class \code{"basket_error"} with its exit status as
  \code{status}.

  An item counts once in a basket. A basket without an item counts in no support, other than in arules. Missing values
  are refused.
}
\value{
  A data frame with a row for each itemset, in the order of the program's report: \code{itemsets} (a list of vectors of
  texts), \code{count} (of the baskets that have all its items, exact), \code{support} (this count as a share of all
  baskets) and \code{exact_support} (the same as a fraction in lowest terms, a text).
}
\seealso{\code{\link{rules}}, \code{\link{count}}}
\examples{
shop <- list(c("bread", "milk"), c("milk", "tea"), c("bread", "milk", "tea"), "bread")
sets(shop, 0.5)
maximal(shop, 2)
}
