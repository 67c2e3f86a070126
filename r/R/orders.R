# All orders in which the rejected hypotheses can be rejected. Each weight is one that the proved call prints for the hypotheses that are
# left.

# The most rejections whose orders are listed: eight have up to 40,320.
most_ordered <- 8L

graph_rejection_orderings <- function(x, p = NULL, alpha = 0.025, ...) {
  check_dots(..., instead = order_arguments)
  if (inherits(x, "welungad_test")) {
    if (!is.null(p) || !missing(alpha)) stop_at(if (is.null(p)) "alpha" else "p", "a result of graph_test has its own")
  } else {
    if (is.null(p)) stop_at("p", "a graph needs p-values: give them, or a result of graph_test")
    x <- graph_test(x, p, alpha)
  }
  rejected <- which(unname(x$rejected))
  if (length(rejected) > most_ordered) {
    stop_at("x", count_of_hypotheses(length(rejected)), " are rejected, and orders are listed of at most ", whole_text(most_ordered))
  }
  orders <- legal_orders(x, rejected)
  steps <- if (ncol(orders)) paste("step", whole_text(seq_len(ncol(orders))))
  structure(matrix(x$graph$labels[orders], nrow(orders), dimnames = list(NULL, steps)), class = c("welungad_orderings", "matrix", "array"))
}

as.matrix.welungad_orderings <- function(x, ...) unclass(x)

format.welungad_orderings <- function(x, ...) count_of(nrow(x), "order")

print.welungad_orderings <- function(x, ...) {
  print(unclass(x), quote = FALSE, ...)
  invisible(x)
}

# The orders as rows of positions, one step after the other. A set of removed hypotheses is known by its code among the rejected.
legal_orders <- function(x, rejected) {
  n <- length(rejected)
  weights_without <- proved_weights_of(x$graph)
  orders <- matrix(integer(), 1, 0)
  done <- 0
  for (step in seq_len(n)) {
    codes <- unique(done)
    after <- lapply(codes, function(code) legal_next(x, rejected, bitwAnd(code, 2^(seq_len(n) - 1)) > 0, weights_without))
    after <- after[match(done, codes)]
    ahead <- rep(seq_along(after), lengths(after))
    added <- as.integer(unlist(after))
    orders <- cbind(orders[ahead, , drop = FALSE], rejected[added])
    done <- done[ahead] + 2^(added - 1)
  }
  orders
}

# Which of the rejected hypotheses can be rejected next, once some are: those whose p-value is at most their level.
legal_next <- function(x, rejected, is_done, weights_without) {
  left <- rejected[!is_done]
  weights <- fraction(weights_without(rejected[is_done])[x$graph$names[left]])
  levels <- weights * fraction(rep(x$alpha, length(left)))
  which(!is_done)[as.logical(weights > 0) & as.logical(fraction(x$exact$p[left]) <= levels)]
}

# The weights that the proved call prints without some hypotheses, which were removed in a legal order: by one call for all sets of at
# most 16 hypotheses, else by one for each set.
proved_weights_of <- function(graph) {
  if (length(graph$names) > 16) return(function(deleted) proved_weights(graph, deleted))
  report <- ask("weights", handed(case_text(graph), graph))
  function(deleted) of_set(report, setdiff(seq_along(graph$names), deleted), graph$names)
}
