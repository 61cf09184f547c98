sets <- function(data, support, minlen = 1, maxlen = Inf, ...) {
  itemsets("sets", data, support, minlen, maxlen, how_of(...))
}

closed <- function(data, support, minlen = 1, maxlen = Inf, ...) {
  itemsets("closed", data, support, minlen, maxlen, how_of(...))
}

maximal <- function(data, support, minlen = 1, maxlen = Inf, ...) {
  itemsets("maximal", data, support, minlen, maxlen, how_of(...))
}

rules <- function(data, support, confidence, minlen = 2, maxlen = Inf, ...) {
  wanted <- confidence_of(confidence)
  baskets <- baskets_of(data, how <- how_of(...))
  on.exit(if (isTRUE(baskets$is_own)) unlink(baskets$file))
  total <- total_of(baskets)
  report <- asked("rules", baskets, support, how, total, paste0("--conf=", wanted$word))
  found <- rules_frame(report, baskets, total())
  sizes <- lengths(found$antecedents) + lengths(found$consequents)
  between(found[found$confidence >= wanted$least, ], sizes[found$confidence >= wanted$least], minlen, maxlen)
}

count <- function(data, sets, ...) {
  if (is.data.frame(sets)) sets <- sets$itemsets
  is_good <- is.list(sets) && all(vapply(sets, function(own) is.atomic(own) && !anyNA(own), NA))
  if (!is_good) refuse('sets is a list of vectors of items, as list("bread", c("bread", "milk")), or a frame of sets()')
  baskets <- baskets_of(data, how <- how_of(...))
  asked_for <- tempfile("sets")
  on.exit(unlink(c(asked_for, if (isTRUE(baskets$is_own)) baskets$file)))
  sets <- lapply(sets, function(own) unique(texts_of(own)))
  if (!is.null(baskets$labels)) baskets$labels <- unique(c(baskets$labels, unlist(sets)))
  writeLines(enc2utf8(lines_of(sets, baskets)), asked_for, useBytes = TRUE)
  words <- c("count", paste0("--sets=", asked_for), how$words, baskets$words, baskets$file)
  sets_frame(run(words), baskets)
}

itemsets <- function(command, data, support, minlen, maxlen, how) {
  baskets <- baskets_of(data, how)
  on.exit(if (isTRUE(baskets$is_own)) unlink(baskets$file))
  total <- total_of(baskets)
  found <- sets_frame(asked(command, baskets, support, how, total), baskets, total())
  between(found, lengths(found$itemsets), minlen, maxlen)
}

asked <- function(command, baskets, support, how, total, more = NULL) {
  minimum <- paste0("--min=", support_word(support, total))
  run(c(command, minimum, more, how$words, baskets$words, baskets$file))
}

# What says how many baskets there are, which is counted once at most.
total_of <- function(baskets) {
  known <- baskets$total
  function() {
    if (is.null(known)) {
      known <<- as.numeric(gsub("[()]", "", run(c("count", "--sets=/dev/null", baskets$words, baskets$file))))
    }
    known
  }
}

# How the data lie and how the program works, and the program's words of the latter.
how_of <- function(...) {
  given <- list(...)
  taken <- c("basket", "item", "form", "sep", "header", "miner", "limit", "workers")
  names <- if (is.null(names(given))) rep("", length(given)) else names(given)
  if (length(other <- setdiff(names, taken))) {
    refuse(if (nzchar(other[1])) paste("there is no argument", other[1]) else "name each further argument", ": these are ", toString(taken))
  }
  own <- given[intersect(c("miner", "limit", "workers"), names)]
  if (length(own)) given$words <- sprintf("--%s=%s", names(own), vapply(own, format, "", scientific = FALSE))
  given
}

between <- function(found, sizes, minlen, maxlen) {
  for (one in list(minlen, maxlen)) {
    if (!is.numeric(one) || length(one) != 1 || is.na(one)) refuse("minlen and maxlen are numbers of items, as maxlen = 3")
  }
  found <- found[sizes >= minlen & sizes <= maxlen, ]
  rownames(found) <- NULL
  found
}
