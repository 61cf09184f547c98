# Supports and confidences as the program takes them.

# So many digits are those of a number that was computed, as 50 / 300.
DIGITS <- 12
ROUNDING <- 2^-50

support_word <- function(support, total) {
  is_text <- is.character(support) && length(support) == 1
  if (is_text && grepl("^[0-9]+(\\.[0-9]+)?%?$|^[0-9]+/[0-9]+$", support)) return(fraction_of(support))
  is_number <- is.numeric(support) && length(support) == 1 && is.finite(support)
  if (is_number && is.integer(support) && support >= 1) return(sprintf("%d", support))
  if (is_number && support > 1 && support == round(support)) return(sprintf("%.0f", support))
  if (!is_number || support < 0 || support > 1) {
    refuse(
      "support is a share of all baskets from 0 to 1, as 0.2, a count of baskets, as 20 or 1L, or a text as ",
      '"20%" or "1/200", not ', deparse(support)[1]
    )
  }
  if (is_short(support)) return(share_word(support))
  # A computed share is met by the count that it is the share of.
  sprintf("%.0f", max(1, ceiling(support * total() * (1 - ROUNDING))))
}

# The word, and what the confidence has to be: the program is asked for a little less where the number was computed.
confidence_of <- function(confidence) {
  if (is.character(confidence) && length(confidence) == 1) {
    is_whole <- confidence %in% c("0", "1")
    return(list(word = if (is_whole) paste0(confidence, "/1") else fraction_of(confidence), least = 0))
  }
  is_number <- is.numeric(confidence) && length(confidence) == 1 && is.finite(confidence)
  if (!is_number || confidence < 0 || confidence > 1) {
    refuse('confidence is a share from 0 to 1, as 0.6, or a text as "60%" or "2/3", not ', deparse(confidence)[1])
  }
  if (is_short(confidence)) return(list(word = share_word(confidence), least = 0))
  below <- max(0, floor(confidence * 1e9) - 1)
  list(word = sprintf("%.0f/1000000000", below), least = confidence * (1 - ROUNDING))
}

share_word <- function(number) {
  text <- plain(number)
  if (grepl(".", text, fixed = TRUE)) fraction_of(text) else paste0(text, "/1")
}

plain <- function(number) format(number, digits = 15, scientific = FALSE, trim = TRUE)

# Whether the decimal of a number is a fraction that the program can read, and none that was computed.
is_short <- function(number) {
  decimals <- sub("^[0-9]*\\.?", "", plain(number))
  nchar(decimals) <= 9 && nchar(sub("^0*", "", decimals)) < DIGITS
}

# A decimal as a fraction; other texts are the program's own.
fraction_of <- function(text) {
  if (!grepl("^[0-9]+\\.[0-9]{1,9}$", text)) return(text)
  parts <- strsplit(text, ".", fixed = TRUE)[[1]]
  paste0(sub("^0+(?=.)", "", paste0(parts, collapse = ""), perl = TRUE), "/1", strrep("0", nchar(parts[2])))
}
