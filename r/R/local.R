# Local tests of intersections, in exact fractions: the least level at which each one rejects, from the weights that the proved call
# prints and the p-values. From these follow the least levels at which the closed test rejects each set. Numbers that occur more than
# once are computed once, so a number is known by its place in a table of different ones.

local_tests <- c("bonferroni", "simes")

# The local test that a user names, in any case of letters, as other packages write it.
chosen_test <- function(test) chosen(if (is.character(test)) tolower(test) else test, local_tests, "test")

# The local and the closed test of all sets of a report of weights. Levels are texts; one at which no level up to 1 rejects is 1, and
# `reached` is FALSE.
closed_levels <- function(report, p, alpha, test) {
  p <- fraction(unname(p))
  ratios <- if (test == "simes") simes_ratios(report, p) else bonferroni_ratios(report, p)
  values <- c(ratios$values, fraction(alpha), gmp::as.bigq(1))
  ranks <- exact_ranks(values)
  limits <- ranks[length(ratios$values) + 1:2]
  never <- max(ranks) + 1L
  local <- least_of_rows(ranks, ratios$at, never)
  closed <- over_supersets(local, report$codes, ncol(report$weights))
  texts <- as.character(values[match(seq_len(never - 1L), ranks)])
  shown <- function(at) texts[pmin(at, limits[2])]
  list(local = local <= limits[1], closed = closed <= limits[1], p_local = shown(local), p_closed = shown(closed), reached = closed <= limits[2])
}

# The ratios at which weighted Bonferroni tests reject: of each member whose weight is not 0, its p-value by its weight. `at` has the place
# of each in `values`, with a row for each set and a column for each hypothesis.
bonferroni_ratios <- function(report, p) {
  weights <- report$weights
  count <- length(report$texts)
  weights[weights == match("0", report$texts, 0L)] <- NA
  pairs <- weights + count * (as.integer(col(weights)) - 1L)
  different <- unique(pairs[!is.na(pairs)])
  values <- p[(different - 1L) %/% count + 1L] / fraction(report$texts)[(different - 1L) %% count + 1L]
  list(values = values, at = matrix(places_of_numbers(different)[pairs], nrow(pairs)))
}

# For whole numbers from 1 on, at each of them its place.
places_of_numbers <- function(numbers) {
  places <- integer(max(numbers, 0L))
  places[numbers] <- seq_along(numbers)
  places
}

# The same of weighted Simes tests: of each member, its p-value by the sum of the weights of all members whose p-values are at most as large.
# Members are added by rising p-values. Of equal ones the last has the whole sum, and so the least ratio.
simes_ratios <- function(report, p) {
  weights <- report$weights
  at <- array(NA_integer_, dim(weights))
  sums <- "0"
  sum <- rep(1L, nrow(weights))
  values <- gmp::as.bigq(character())
  for (j in ascending(p)) {
    members <- which(!is.na(weights[, j]))
    pairs <- sum[members] + length(sums) * (weights[members, j] - 1)
    different <- unique(pairs)
    added <- as.character(fraction(sums)[(different - 1) %% length(sums) + 1] + fraction(report$texts)[(different - 1) %/% length(sums) + 1])
    sums <- unique(c(sums, added))
    sum[members] <- match(added, sums)[match(pairs, different)]
    positive <- setdiff(unique(sum[members]), 1L)
    at[members, j] <- length(values) + match(sum[members], positive)
    if (length(positive)) values <- c(values, p[rep(j, length(positive))] / fraction(sums[positive]))
  }
  list(values = values, at = at)
}

# For each row of places in a table of ranks, the least rank; `never` if it has none.
least_of_rows <- function(ranks, at, never) {
  ranks <- matrix(ranks[at], nrow(at))
  least <- do.call(pmin, c(lapply(seq_len(ncol(ranks)), function(j) ranks[, j]), na.rm = TRUE))
  ifelse(is.na(least), never, least)
}

# The greatest of the values of each set and all sets that contain it. `codes` has the code of each set.
over_supersets <- function(values, codes, n) {
  # the empty set, whose code is 0, is none of them
  by_code <- rep(values[1], 2L^n)
  by_code[codes + 1] <- values
  for (i in seq_len(n)) {
    # two columns for each set of the later hypotheses: without the i-th one, and with it
    halves <- array(by_code, c(2^(i - 1), 2, 2^(n - i)))
    halves[, 1, ] <- pmax(halves[, 1, ], halves[, 2, ])
    by_code <- as.vector(halves)
  }
  by_code[codes + 1]
}

# ---- the order of fractions

# Ranks of fractions from 1 on: equal ones have the same rank.
exact_ranks <- function(values) {
  if (length(values) == 0) return(integer())
  texts <- as.character(values)
  once <- which(!duplicated(texts))
  ranks <- integer(length(once))
  ranks[ascending(values[once])] <- seq_along(once)
  ranks[match(texts, texts[once])]
}

# The places of fractions, from the least to the greatest. Doubles, to which gmp cuts them, are in the same order or equal; where they are equal the
# fractions are compared.
ascending <- function(values) {
  near <- gmp::asNumeric(values)
  places <- order(near)
  runs <- split(seq_along(places), cumsum(c(TRUE, diff(near[places]) > 0)))
  for (run in runs[lengths(runs) > 1]) {
    own <- values[places[run]]
    before <- vapply(seq_along(run), function(k) sum(as.logical(own < own[k])), 0)
    places[run] <- places[run][order(before)]
  }
  places
}
