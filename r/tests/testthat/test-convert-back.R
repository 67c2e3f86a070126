test_that("graphs go to graphicalMCP and come back", {
  each_way(function(way) {
    theirs <- as_initial_graph(diabetes())
    expect_identical(class(theirs), "initial_graph")
    expect_identical(names(theirs), c("hypotheses", "transitions"))
    labels <- paste0("H", 1:4)
    expect_identical(theirs$hypotheses, stats::setNames(c(1 / 2, 1 / 2, 0, 0), labels))
    expect_identical(theirs$transitions, matrix(c(0, 1 / 2, 0, 1, 1 / 2, 0, 1, 0, 1 / 2, 0, 0, 0, 0, 1 / 2, 0, 0), 4, dimnames = list(labels, labels)))
    for (graph in list(diabetes(), holm(7), graph_holm(weights = c("a b" = 1 / 7, c = 2 / 7, d = 4 / 7)), graph_fixed_sequence(1))) {
      expect_identical(as_graph(as_initial_graph(graph))$components, graph$components)
    }
    improved <- graph_gatekeeping_improved(2, 2)
    expect_error(as_initial_graph(improved), "^epsilon: the graph has an epsilon: give a small number in its place")
    edges <- as_initial_graph(improved, epsilon = 0.0001)$transitions
    expect_identical(unname(edges["H3", ]), c(0.0001, 0, 0, 0.9999))
    # a quotient in epsilon, (1-e)/(2-e), of which the program's weights have the limit
    after <- graph_update(improved, "H3")$updated_graph
    quotient <- if (prints_graphs(way)) 1 / 3 else 1 / 2
    expect_identical(as_initial_graph(after, epsilon = 1 / 2)$transitions[["H4", "H1"]], quotient)
    expect_error(as_initial_graph(entangled()), "a graph of 2 components")
    for (wrong in list(0, 1, "a", c(0.1, 0.2))) expect_error(as_initial_graph(improved, epsilon = wrong), "^epsilon: a number between 0 and 1 is needed$")
    expect_error(as_initial_graph(1), "^x: a graph is needed")
    expect_identical(as_initial_graph(theirs), theirs)
  })
})

test_that("each call that takes a graph takes those of other packages", {
  each_way(function(way) {
    own <- diabetes()
    theirs <- as_initial_graph(own)
    p <- c(H1 = 0.018, H2 = 0.01, H3 = 0.105, H4 = 0.006)
    expect_identical(graph_test(theirs, p), graph_test(own, p))
    expect_identical(graph_update(theirs, "H2")$updated_graph$components, graph_update(own, "H2")$updated_graph$components)
    expect_identical(graph_test_closure(theirs, p)$rejected, graph_test_closure(own, p)$rejected)
    expect_identical(graph_bounds(theirs, p)$bound, graph_bounds(own, p)$bound)
    expect_identical(graph_simes(theirs, p)$rejected, graph_simes(own, p)$rejected)
    expect_identical(as.matrix(graph_test_many(theirs, rbind(p))), as.matrix(graph_test_many(own, rbind(p))))
    expect_identical(graph_canon(theirs, p), graph_canon(own, p))
    expect_identical(graph_weights(theirs), graph_weights(own))
    expect_identical(graph_rejection_orderings(theirs, p), graph_rejection_orderings(own, p))
    proof <- graph_evidence(theirs, p)
    expect_identical(proof$evidence, graph_evidence(own, p)$evidence)
    expect_true(graph_check(theirs, p, evidence = proof)$yes)
    expect_identical(graph_stages(theirs, rep(list(0.001), 4), at = 1)$case, graph_stages(own, rep(list(0.001), 4), at = 1)$case)
    expect_length(graph_entangle(theirs, own, shares = c(1 / 2, 1 / 2))$components, 2)
    slots <- structure(list(), class = structure("graphMCP", package = "gMCP"), m = theirs$transitions, weights = theirs$hypotheses)
    expect_identical(graph_test(slots, p)$rejected, graph_test(own, p)$rejected)
    expect_error(graph_weights(unclass(theirs)), "^graph: a graph is needed, .* and not a list$")
  })
})

# Classes with the slots of gMCP's, as a session has them that has loaded this package.
with_gMCP_classes <- function(code) {
  skip_if(any(vapply(c("gMCP", "gMCPLite"), requireNamespace, NA, quietly = TRUE)), "gMCP itself is there")
  methods::setClass("graphMCP", methods::representation(m = "matrix", weights = "numeric", nodeAttr = "list", edgeAttr = "list"), where = globalenv())
  methods::setClass("entangledMCP", methods::representation(subgraphs = "list", weights = "numeric", graphAttr = "list"), where = globalenv())
  on.exit({
    methods::removeClass("graphMCP", where = globalenv())
    methods::removeClass("entangledMCP", where = globalenv())
  })
  code
}

test_that("graphs go to gMCP and come back", {
  each_way(function(way) with_gMCP_classes({
    theirs <- as_graphMCP(diabetes())
    expect_true(methods::is(theirs, "graphMCP"))
    expect_identical(theirs@weights, c(H1 = 1 / 2, H2 = 1 / 2, H3 = 0, H4 = 0))
    expect_identical(theirs@m["H1", ], c(H1 = 0, H2 = 1 / 2, H3 = 1 / 2, H4 = 0))
    expect_identical(as_graph(theirs)$components, diabetes()$components)
    improved <- graph_gatekeeping_improved(2, 2)
    expect_identical(as_graphMCP(improved)@m["H3", "H4"], "1-\\epsilon")
    expect_identical(as_graph(as_graphMCP(improved))$components, improved$components)
    both <- as_graphMCP(entangled())
    expect_true(methods::is(both, "entangledMCP"))
    expect_identical(both@weights, c(1 / 2, 1 / 2))
    expect_identical(as_graph(both)$components, entangled()$components)
  }))
  skip_if(any(vapply(c("gMCP", "gMCPLite"), requireNamespace, NA, quietly = TRUE)), "gMCP itself is there")
  each_way(function(way) expect_error(as_graphMCP(diabetes()), "the class graphMCP is of the packages gMCP and gMCPLite, and neither is installed"))
})

test_that("graphs go to igraph", {
  skip_if_not_installed("igraph")
  each_way(function(way) {
    graph <- as_igraph(diabetes())
    expect_identical(igraph::V(graph)$name, paste0("H", 1:4))
    expect_identical(igraph::V(graph)$weight, c(1 / 2, 1 / 2, 0, 0))
    expect_identical(as.matrix(igraph::as_adjacency_matrix(graph, attr = "weight")), diabetes()$transitions)
    expect_identical(sort(igraph::E(graph)$exact), c("1", "1", "1/2", "1/2", "1/2", "1/2"))
    both <- as_igraph(entangled())
    expect_identical(igraph::E(both)$component, c(1L, 1L, 2L, 2L))
    expect_error(as_igraph(graph_gatekeeping_improved(2, 2)), "^epsilon: ")
    expect_identical(sort(unique(igraph::E(as_igraph(graph_gatekeeping_improved(2, 2), 0.001))$weight)), c(0.001, 0.5, 0.999))
    expect_equal(igraph::vcount(as_igraph(graph_bonferroni(3))), 3)
    expect_equal(igraph::vcount(igraph::as.igraph(diabetes())), 4)
  })
})
