# Baskets as the program reads them: a file, the words that say how it is written, the labels of its
# numbers (none where the file has names or numbers itself), and how many baskets it has, if that is known.

baskets_of <- function(data, how) {
  if (isS4(data)) {
    refuse('data is a list, a data frame, a matrix or a path: of transactions of arules write as(data, "list")')
  }
  if (is.character(data) && length(data) == 1 && is.null(dim(data))) return(of_path(data, how))
  others <- setdiff(names(how), c("workers", "miner", "limit", "words"))
  if (is.data.frame(data) && !all(vapply(data, is.logical, NA))) {
    if (length(given <- setdiff(others, c("basket", "item")))) refuse(given[1], " goes with a path alone")
    return(of_frame(data, how))
  }
  if (length(others)) refuse(others[1], " does not go with ", class(data)[1])
  if (is.data.frame(data)) data <- as.matrix(data)
  if (is.matrix(data)) return(of_matrix(data))
  if (is.list(data)) return(of_list(data))
  refuse(
    "data is a data frame with a row for each item, a list of character vectors, a logical matrix or the path ",
    "of a file, not ", class(data)[1]
  )
}

of_frame <- function(data, how) {
  columns <- list(how$basket, how$item)
  if (all(vapply(columns, is.null, NA)) && ncol(data) == 2) columns <- list(1, 2)
  if (any(vapply(columns, is.null, NA))) {
    refuse('a data frame of other than two columns needs basket = "..." and item = "...", the names of its columns')
  }
  parts <- lapply(columns, function(name) {
    is_there <- length(name) == 1 && name %in% (if (is.character(name)) names(data) else seq_along(data))
    if (!is_there) refuse("data has no one column ", deparse(name), ": its columns are ", toString(names(data)))
    if (anyNA(data[[name]])) refuse("column ", name, " has missing values: leave these rows out, as by na.omit(data)")
    data[[name]]
  })
  places <- match(parts[[1]], unique(parts[[1]]))
  order <- order(places)
  items <- texts_of(parts[[2]])
  written(places[order], items[order], unique(items))
}

of_list <- function(data) {
  is_good <- vapply(data, function(basket) is.null(basket) || (is.atomic(basket) && is.null(dim(basket))), NA)
  if (!all(is_good)) {
    refuse("each basket of a list is a vector of items, as c(\"bread\", \"milk\"); number ", which(!is_good)[1], " is none")
  }
  kinds <- unique(vapply(data, function(basket) class(basket)[1], ""))
  # Vectors of one kind are put together at once, others as texts.
  is_plain <- length(kinds) == 1 && kinds %in% c("character", "factor", "integer", "numeric")
  items <- unlist(if (is_plain) data else lapply(data, texts_of), use.names = FALSE)
  if (anyNA(items)) refuse("a basket has a missing item: leave it out, as by lapply(data, na.omit)")
  written(rep(seq_along(data), lengths(data)), texts_of(items))
}

of_matrix <- function(data) {
  if (!is.logical(data)) refuse("a matrix is of TRUE and FALSE: of numbers write data > 0")
  if (anyNA(data)) refuse("the matrix has missing values: fill them with FALSE first")
  labels <- colnames(data)
  if (is.null(labels)) labels <- as.character(seq_len(ncol(data)))
  if (anyDuplicated(labels)) refuse("column ", labels[anyDuplicated(labels)], " stands twice")
  at <- which(t(data), arr.ind = TRUE)
  written(at[, 2], labels[at[, 1]], labels)
}

of_path <- function(path, how) {
  if (!file.exists(path)) refuse("there is no file ", path)
  form <- how$form
  if (is.null(form) || !form %in% c("fimi", "baskets", "single")) {
    refuse(
      'of a path write form = "fimi" (numbers), "baskets" (a record of CSV is a basket) or "single" (a record is ',
      "a basket's id and an item); `basket look FILE` shows which"
    )
  }
  if (!is.null(given <- c(how$basket, how$item))) refuse("basket and item go with a data frame: read.csv(path) makes one")
  words <- paste0("--form=", form)
  if (form == "fimi") return(list(file = normalizePath(path), words = words))
  sep <- if (is.null(how$sep)) "," else how$sep
  if (!sep %in% c(",", ";", "\t", "|")) refuse('sep is ",", ";", "\\t" or "|"')
  words <- c(words, paste0("--sep=", sep), if (isTRUE(how$header)) "--header")
  list(file = normalizePath(path), words = words, sep = sep)
}

# Writes the items of baskets, those of one basket together, as the numbers of their labels.
written <- function(places, items, labels = unique(items)) {
  file <- tempfile("baskets")
  is_last <- c(places[-1] != places[-length(places)], TRUE)[seq_along(places)]
  numbers <- match(items, labels) - 1L
  cat(sprintf(as.character(ifelse(is_last, "%d\n", "%d ")), numbers), file = file, sep = "")
  list(file = file, words = "--form=fimi", labels = labels, total = sum(is_last), is_own = TRUE)
}

# Items as texts: a number as it is written, not as 1e+05.
texts_of <- function(items) {
  if (!is.numeric(items)) return(as.character(items))
  different <- unique(items)
  vapply(different, plain, "")[match(items, different)]
}

refuse <- function(...) stop(..., call. = FALSE)
