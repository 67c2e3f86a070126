# Weights of all intersections, which the proved call prints without p-values.

graph_weights <- function(graph, ...) {
  check_dots(..., instead = weights_arguments)
  graph <- check_graph(graph)
  report <- ask("weights", handed(case_text(graph), graph))
  places <- from_whole_set(report)$weights
  members <- !is.na(places)
  exact <- array(report$texts[places], dim(places))
  weights <- array(double_of(report$texts)[places], dim(places))
  exact[!members] <- "0"
  weights[!members] <- 0
  dimnames(exact) <- list(whole_text(seq_len(nrow(exact))), graph$labels)
  structure(cbind(members + 0, weights), dimnames = list(rownames(exact), rep(graph$labels, 2)), exact = exact,
    class = c("welungad_weights", "matrix", "array"))
}

# A report of weights with its sets in the order of graphicalMCP: from the whole set on, as numbers of n digits fall. The first hypothesis is
# the first digit.
from_whole_set <- function(report) {
  n <- ncol(report$weights)
  falling <- order(as.vector((!is.na(report$weights)) %*% 2^(n - seq_len(n))), decreasing = TRUE)
  report$sets <- report$sets[falling]
  report$codes <- report$codes[falling]
  report$weights <- report$weights[falling, , drop = FALSE]
  report
}

as.matrix.welungad_weights <- function(x, ...) {
  attr(x, "exact") <- NULL
  unclass(x)
}

# A row for each intersection, with its members as one text.
as.data.frame.welungad_weights <- function(x, row.names = NULL, optional = FALSE, ..., exact = FALSE) {
  check_dots(..., allowed = frame_arguments)
  n <- ncol(x) / 2
  labels <- colnames(x)[seq_len(n)]
  members <- unclass(x)[, seq_len(n), drop = FALSE] == 1
  weights <- if (exact) attr(x, "exact") else unclass(x)[, n + seq_len(n), drop = FALSE]
  weights[!members] <- NA
  table <- data.frame(intersection = apply(members, 1, function(own) paste(labels[own], collapse = ", ")), unname(weights),
    row.names = NULL, stringsAsFactors = FALSE)
  names(table) <- c("intersection", paste("weight", labels))
  table
}

format.welungad_weights <- function(x, ...) {
  paste0("Weights of ", count_of(nrow(x), "intersection"), " of ", count_of_hypotheses(ncol(x) / 2))
}

print.welungad_weights <- function(x, exact = FALSE, digits = 6, most = 64, ...) {
  check_dots(...)
  cat(format(x), "\n", sep = "")
  rest <- nrow(x) - most
  table <- as.data.frame(x, exact = exact)
  table <- table[seq_len(min(most, nrow(table))), , drop = FALSE]
  texts <- vapply(table[-1], function(it) ifelse(is.na(it), "", shown(it, digits)), character(nrow(table)))
  texts <- cbind(table$intersection, matrix(texts, nrow(table)))
  colnames(texts) <- names(table)
  write_table(texts)
  if (rest > 0) cat("  and ", count_of(rest, "more intersection"), ", which as.data.frame has\n", sep = "")
  invisible(x)
}
