# The program's reports as data frames.

sets_frame <- function(report, baskets, total = NULL) {
  if (is.null(baskets$sep)) {
    counts <- as.numeric(sub(".*\\(([0-9]+)\\)$", "\\1", report))
    itemsets <- labelled(sub(" ?\\([0-9]+\\)$", "", report), baskets)
  } else {
    records <- records_of(report, baskets$sep)
    counts <- as.numeric(vapply(records, `[`, "", 1))
    itemsets <- lapply(records, `[`, -1)
  }
  if (is.null(total)) total <- counts[1]
  framed(list(itemsets = itemsets), counts, total)
}

rules_frame <- function(report, baskets, total) {
  if (is.null(baskets$sep)) {
    rest <- sub(".* => ", "", report)
    sides <- list(
      antecedents = labelled(sub(" => .*", "", report), baskets),
      consequents = labelled(sub(" \\(.*", "", rest), baskets)
    )
    figures <- lapply(c(".*\\((.*)\\).*", ".*\\) (.*) .*", ".* (.*)"), sub, "\\1", rest)
  } else {
    records <- records_of(report, baskets$sep)
    figures <- lapply(1:3, function(at) vapply(records, `[`, "", at))
    left <- lapply(records, function(record) 4 + seq_len(as.integer(record[4])))
    sides <- list(
      antecedents = Map(`[`, records, left),
      consequents = Map(function(record, at) record[-c(1:4, at)], records, left)
    )
  }
  found <- framed(sides, as.numeric(figures[[1]]), total)
  found$confidence <- quotients(figures[[2]])
  found$lift <- quotients(figures[[3]])
  cbind(
    found[setdiff(names(found), "exact_support")],
    found["exact_support"], exact_confidence = figures[[2]], exact_lift = figures[[3]]
  )
}

framed <- function(columns, counts, total) {
  shared <- common(counts, total)
  exact <- sprintf("%.0f/%.0f", counts / shared, total / shared)
  found <- data.frame(count = counts, support = counts / total, exact_support = exact)
  # Of no baskets there is no share.
  if (total == 0) found$exact_support <- rep(NA_character_, length(counts))
  for (name in names(columns)) found[[name]] <- unname(columns[[name]])
  found[c(names(columns), setdiff(names(found), names(columns)))]
}

# The greatest common divisors of numbers and one other, by Euclid.
common <- function(numbers, other) {
  rest <- rep(other, length(numbers))
  while (any(rest > 0)) {
    next_rest <- ifelse(rest > 0, numbers %% rest, 0)
    numbers <- ifelse(rest > 0, rest, numbers)
    rest <- next_rest
  }
  pmax(numbers, 1)
}

# The floats of fractions: the nearest ones where both parts are below 2^53.
quotients <- function(texts) {
  parts <- strsplit(texts, "/", fixed = TRUE)
  as.numeric(vapply(parts, `[`, "", 1)) / as.numeric(vapply(parts, `[`, "", 2))
}

# The labels of lines of numbers.
labelled <- function(lines, baskets) {
  numbers <- strsplit(lines, " ", fixed = TRUE)
  items <- as.character(unlist(numbers))
  if (!is.null(baskets$labels)) items <- baskets$labels[as.integer(items) + 1L]
  unname(split(items, factor(rep(seq_along(numbers), lengths(numbers)), seq_along(numbers))))
}

# The fields of records of CSV, of which one may stand in several lines.
records_of <- function(lines, sep) {
  if (!any(grepl('"', lines, fixed = TRUE))) return(strsplit(lines, sep, fixed = TRUE))
  quotes <- nchar(gsub('[^"]', "", lines))
  record <- c(0, cumsum(quotes) %% 2)[seq_along(lines)]
  records <- vapply(split(lines, cumsum(record == 0)), paste, "", collapse = "\n")
  lapply(records, function(text) {
    scan(text = text, what = "", sep = sep, quote = '"', na.strings = character(), quiet = TRUE, encoding = "UTF-8")
  })
}

# The lines of sets to count, as the program reads them.
lines_of <- function(sets, baskets) {
  if (!is.null(baskets$sep)) {
    quoted <- function(own) paste0('"', gsub('"', '""', own, fixed = TRUE), '"')
    return(vapply(sets, function(own) paste(c("0", quoted(own)[seq_along(own)]), collapse = baskets$sep), ""))
  }
  if (is.null(baskets$labels)) return(vapply(sets, paste, "", collapse = " "))
  vapply(sets, function(own) paste(sprintf("%d", match(own, baskets$labels) - 1L), collapse = " "), "")
}
