library(basketminer)
demo("receipts", package = "basketminer", ask = FALSE)
