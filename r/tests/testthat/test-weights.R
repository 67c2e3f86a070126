# Without a hypothesis its weight goes along its edges: by hand for the graph of the diabetes trial.
by_hand <- rbind(
  c("1/2", "1/2", "0", "0"), c("1/2", "1/2", "0", "0"), c("1/2", "1/2", "0", "0"), c("1/2", "1/2", "0", "0"),
  c("3/4", "0", "0", "1/4"), c("1", "0", "0", "0"), c("3/4", "0", "0", "1/4"), c("1", "0", "0", "0"),
  c("0", "3/4", "1/4", "0"), c("0", "3/4", "1/4", "0"), c("0", "1", "0", "0"), c("0", "1", "0", "0"),
  c("0", "0", "1/2", "1/2"), c("0", "0", "1", "0"), c("0", "0", "0", "1")
)

members_by_hand <- as.matrix(rev(expand.grid(H4 = 1:0, H3 = 1:0, H2 = 1:0, H1 = 1:0)))[1:15, ]

test_that("the weights of all intersections are laid out as those of graphicalMCP", {
  each_way(function(way) {
    weights <- graph_weights(diabetes())
    expect_equal(dim(weights), c(15, 8))
    expect_equal(colnames(weights), rep(paste0("H", 1:4), 2))
    expect_equal(unname(weights[, 1:4]), unname(members_by_hand))
    expect_equal(unname(attr(weights, "exact")), by_hand)
    expect_equal(unname(weights[, 5:8]), matrix(vapply(parse(text = by_hand), eval, 0), 15))
    expect_equal(class(as.matrix(weights)), c("matrix", "array"))
    expect_null(attr(as.matrix(weights), "exact"))
    expect_equal(as.matrix(weights)[5, ], weights[5, ])
  })
})

test_that("weights need no p-values, and are those of closed tests", {
  each_way(function(way) {
    graph <- graph_create(c("low dose" = 1 / 2, B = 1 / 3, C = 0), rbind(c(0, 1 / 3, 1 / 3), c(1, 0, 0), c(1 / 2, 1 / 2, 0)))
    for (it in list(graph, entangled(), graph_catalogue("improved-parallel", 2, 2), graph_create(1, matrix(0, 1, 1)))) {
      table <- as.data.frame(graph_weights(it), exact = TRUE)
      closed <- as.data.frame(graph_test_closure(it, rep(0.5, length(it$names))), exact = TRUE)
      at <- match(table$intersection, closed$intersection)
      expect_false(anyNA(at))
      for (label in it$labels) expect_equal(table[[paste("weight", label)]], closed[[paste("weight", label)]][at])
    }
    expect_output(print(graph_weights(holm(3)), exact = TRUE), "H1, H3 +1/2 +1/2")
    expect_output(print(graph_weights(holm(4)), most = 3), "and 12 more intersections")
    expect_match(refusal_of(graph_weights(graph_holm(17)))$line, "^limit: closure 17$")
    expect_error(graph_weights(1), "^graph: a graph is needed")
  })
})
