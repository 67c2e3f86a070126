edges <- rbind(c(0, 1 / 2, 1 / 2, 0), c(1 / 2, 0, 0, 1 / 2), c(0, 1, 0, 0), c(1, 0, 0, 0))

test_that("graphs of graphicalMCP are taken by their fields", {
  each_way(function(way) {
    names <- paste0("H", 1:4)
    theirs <- structure(list(hypotheses = stats::setNames(c(0.5, 0.5, 0, 0), names), transitions = structure(edges, dimnames = list(names, names))),
      class = "initial_graph")
    expect_equal(as_graph(theirs)$components, diabetes()$components)
    updated <- structure(list(initial_graph = NULL, updated_graph = theirs, deleted = "H5"), class = "updated_graph")
    expect_equal(as_graph(updated)$components, diabetes()$components)
    # deleted hypotheses may stay, without weight and edges
    kept <- graph_update(diabetes(), "H2")$updated_graph$components[[1]]
    all <- list(hypotheses = stats::setNames(rep("0", 4), names), transitions = structure(rep("0", 16), dim = c(4L, 4L), dimnames = list(names, names)))
    all$hypotheses[c(1, 3, 4)] <- kept$weights
    all$transitions[c(1, 3, 4), c(1, 3, 4)] <- kept$edges
    for (deleted in list("H2", 2L, c(FALSE, TRUE, FALSE, FALSE))) {
      updated <- structure(list(initial_graph = theirs, updated_graph = structure(all, class = "initial_graph"), deleted = deleted), class = "updated_graph")
      expect_equal(as_graph(updated)$components[[1]], kept)
    }
    expect_error(as_graph(structure(list(hypotheses = 1), class = "initial_graph")), "x: the object has no part \"transitions\"", fixed = TRUE)
  })
})

# An object of gMCP as a session without gMCP reads it from a file.
of_slots <- function(class, ...) {
  structure(list(), class = structure(class, package = "gMCP"), ...)
}

test_that("graphs of gMCP are taken by their slots", {
  each_way(function(way) {
    names <- paste0("H", 1:4)
    theirs <- of_slots("graphMCP", m = structure(edges, dimnames = list(names, names)), weights = c(0.5, 0.5, 0, 0))
    expect_equal(as_graph(theirs)$components, diabetes()$components)
    small <- of_slots("graphMCP", m = matrix(c("0", "\\epsilon", "1", "0"), 2), weights = c(1, 0))
    expect_equal(unname(as_graph(small)$components[[1]]$edges[2, 1]), "\\epsilon")
    marked <- of_slots("graphMCP", m = structure(edges, dimnames = list(names, names)), weights = c(0.5, 0.5, 0, 0),
      nodeAttr = list(X = 1:4, Y = 1:4, rejected = c(FALSE, TRUE, FALSE, FALSE)))
    expect_error(as_graph(marked), "x: \"H2\" is marked as rejected: give the graph from before its rejection", fixed = TRUE)
    attr(marked, "nodeAttr") <- list(rejected = rep(FALSE, 4))
    expect_equal(as_graph(marked)$components, diabetes()$components)
    half <- function(weights) of_slots("graphMCP", m = matrix(0, 2, 2), weights = weights)
    both <- of_slots("entangledMCP", subgraphs = list(half(c(1, 0)), half(c(0, 1))), weights = c(0.25, 0.75))
    expect_equal(vapply(as_graph(both)$components, `[[`, "", "share"), c("1/4", "3/4"))
    expect_equal(as_graph(diabetes()), diabetes())
    expect_error(as_graph(1), "x: a graph is needed, of this package, of graphicalMCP")
  })
})

test_that("an S4 object whose class is not defined is taken", {
  each_way(function(way) {
    methods::setClass("graphMCP", methods::representation(m = "matrix", weights = "numeric"), where = globalenv())
    theirs <- methods::new("graphMCP", m = edges, weights = c(H1 = 0.5, H2 = 0.5, H3 = 0, H4 = 0))
    expect_equal(as_graph(theirs)$components, diabetes()$components)
    methods::removeClass("graphMCP", where = globalenv())
    expect_equal(as_graph(theirs)$components, diabetes()$components)
  })
})
