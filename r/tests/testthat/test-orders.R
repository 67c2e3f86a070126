test_that("all orders of rejection, by hand", {
  each_way(function(way) {
    # H2 first; then H1 has 3/4 of the level and H4 a quarter
    p <- c(0.018, 0.01, 0.105, 0.006)
    orders <- graph_rejection_orderings(diabetes(), p)
    expect_equal(colnames(orders), paste("step", 1:3))
    expect_setequal(apply(orders, 1, paste, collapse = " "), c("H2 H1 H4", "H2 H4 H1"))
    expect_equal(graph_rejection_orderings(graph_test(diabetes(), p)), orders)
    expect_equal(nrow(graph_rejection_orderings(holm(3), rep(0.001, 3))), 6)
    expect_equal(dim(graph_rejection_orderings(holm(3), rep(0.9, 3))), c(1L, 0L))
    # at a higher level H1 can be first
    expect_setequal(apply(graph_rejection_orderings(diabetes(), p, alpha = 0.036), 1, paste, collapse = " "),
      c("H2 H1 H4", "H2 H4 H1", "H1 H2 H4"))
    # the labels, and a tie that rejects
    graph <- graph_create(c("low dose" = 1 / 2, B = 1 / 2), rbind(0:1, 1:0))
    expect_equal(unname(as.matrix(graph_rejection_orderings(graph, c(0.0125, 0.025)))), matrix(c("low dose", "B"), 1))
  })
})

test_that("each order is one in which hypotheses can be removed, and the decision's is among them", {
  each_way(function(way) {
    set.seed(88)
    for (k in seq_len(share_of(way, 60, 3))) {
      edges <- matrix(sample(0:3, 25, replace = TRUE), 5)
      diag(edges) <- 0
      weights <- sample(0:4, 5, replace = TRUE)
      graph <- graph_create(weights / max(sum(weights), 1), edges / pmax(rowSums(edges), 1))
      p <- round(runif(5)^3 / 10, 4)
      x <- graph_test(graph, p)
      orders <- graph_rejection_orderings(x)
      texts <- apply(orders, 1, paste, collapse = " ")
      expect_false(anyDuplicated(texts) > 0)
      for (priority in c("first", "last", "ratio")) {
        expect_true(paste(graph_test(graph, p, priority = priority)$order, collapse = " ") %in% texts)
      }
      expect_setequal(as.vector(orders), names(which(x$rejected)))
      if (!ncol(orders)) next
      order <- orders[sample(nrow(orders), 1), ]
      graphs <- graph_update(graph, order)$graphs
      for (step in seq_along(order)) {
        weight <- stats::setNames(welungad:::total_weights(graphs[[step]]), graphs[[step]]$names)[[order[step]]]
        expect_true(as.logical(gmp::as.bigq(weight) > 0))
        expect_true(as.logical(gmp::as.bigq(as_exact(p[match(order[step], graph$names)])$read) <= gmp::as.bigq(weight) * gmp::as.bigq(1, 40)))
      }
    }
  })
})

test_that("orders of more than 16 hypotheses, and the most that are listed", {
  each_way(function(way) {
    p <- rep(0.9, 17)
    p[c(3, 9)] <- 0.0001
    expect_setequal(apply(graph_rejection_orderings(graph_holm(17), p), 1, paste, collapse = " "), c("H3 H9", "H9 H3"))
    expect_error(graph_rejection_orderings(graph_holm(9), rep(0.0001, 9)), "^x: 9 hypotheses are rejected, and orders are listed of at most 8$")
    if (way == "library") expect_equal(nrow(graph_rejection_orderings(graph_holm(8), rep(0.0001, 8))), factorial(8))
    expect_error(graph_rejection_orderings(holm(2)), "^p: a graph needs p-values")
    expect_error(graph_rejection_orderings(graph_test(holm(2), c(0.1, 0.2)), c(0.1, 0.2)), "^p: a result of graph_test has its own$")
  })
})
