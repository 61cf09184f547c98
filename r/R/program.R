# Where the program is, and one run of it.

known <- new.env()

how_to_get_it <- paste(
  'install it (`make install` in a clone), or write options(basket.program = "/its/path"),',
  "or let the environment variable BASKET name its file"
)

program <- function() {
  named <- getOption("basket.program", Sys.getenv("BASKET"))
  found <- if (nzchar(named)) path.expand(named) else Sys.which("basket")[[1]]
  if (!nzchar(found) || !file.exists(found)) {
    stop("the program basket is not here", if (nzchar(named)) paste0(" (", named, ")"), ": ", how_to_get_it, call. = FALSE)
  }
  if (!identical(known$program, found)) {
    # What is no program at all is told of twice otherwise.
    told <- tryCatch(
      suppressWarnings(system2(found, "--version", stdout = TRUE, stderr = FALSE)),
      error = function(fault) ""
    )
    if (!any(grepl("^basket 1\\.[1-9][0-9]*\\.", told))) {
      stop(found, " is not basket 1.1 or a later 1.x: ", how_to_get_it, call. = FALSE)
    }
    known$program <- found
  }
  found
}

# The lines of what the program writes. The paths of its input and of sets are words too.
run <- function(words) {
  files <- tempfile(c("report", "told"))
  on.exit(unlink(files))
  status <- system2(program(), shQuote(enc2utf8(words)), stdout = files[1], stderr = files[2])
  if (status != 0) {
    said <- paste(readLines(files[2], warn = FALSE, encoding = "UTF-8"), collapse = "\n")
    if (!nzchar(said)) said <- paste("basket ended with status", status)
    fault <- list(message = paste0(said, advice(status)), call = NULL, status = status)
    stop(structure(fault, class = c("basket_error", "error", "condition")))
  }
  readLines(files[1], warn = FALSE, encoding = "UTF-8")
}

advice <- function(status) {
  switch(as.character(status),
    "3" = '\nA path of CSV needs form = "baskets" or form = "single"; `basket look FILE` shows which.',
    "5" = "\nRaise support, or limit if more itemsets are wanted.",
    "6" = "\nRaise support: fewer itemsets take less memory.",
    ""
  )
}
