# Fifteen receipts of one morning, and how rules are found in them.
receipts <- strsplit(c(
  "bread milk jam", "milk tea", "milk butter", "bread milk tea", "bread butter", "milk butter", "bread butter",
  "bread milk butter jam", "bread milk butter", "bread milk", "milk", "bread milk tea", "bread jam",
  "milk butter apples", "bread milk apples"
), " ")

# What is in every fifth basket or more. The count is exact, and so is the fraction beside the float.
sets(receipts, support = 0.2)

# Who buys the antecedents buys the consequents. A lift above 1 says that both are together more often than by chance.
found <- rules(receipts, support = 0.2, confidence = 2/3)
found[c("antecedents", "consequents", "count", "exact_confidence", "exact_lift")]

# Do they hold again? Rules of the first eight receipts, counted in the others.
chosen <- rules(receipts[1:8], support = 2, confidence = 2/3, maxlen = 2)
both <- count(receipts[9:15], Map(c, chosen$antecedents, chosen$consequents))
left <- count(receipts[9:15], chosen$antecedents)
text <- function(items) vapply(items, function(own) paste(sort(own), collapse = " "), "")
data.frame(
  rule = paste(text(chosen$antecedents), "=>", text(chosen$consequents)),
  chosen_by = chosen$count,
  again = both$count[match(text(Map(c, chosen$antecedents, chosen$consequents)), text(both$itemsets))],
  of = left$count[match(text(chosen$antecedents), text(left$itemsets))]
)
