test_that("graphs have their weights and edges as numbers", {
  each_way(function(way) {
    graph <- graph_create(c("low dose" = 1 / 3, B = 2 / 3), rbind(c(0, 1 / 2), c(1, 0)))
    labels <- c("low dose", "B")
    expect_identical(graph$hypotheses, c("low dose" = 1 / 3, B = 2 / 3))
    expect_identical(graph$transitions, matrix(c(0, 1, 1 / 2, 0), 2, dimnames = list(labels, labels)))
    expect_identical(as.matrix(graph), graph$transitions)
    expect_identical(as.matrix(graph, exact = TRUE)[1, 2], "1/2")
    expect_identical(graph[["hypotheses"]], graph$hypotheses)
    expect_identical(names(graph), labels)
    expect_identical(dim(graph), c(2L, 2L))
    expect_identical(graph$names, c("low_dose", "B"))
    expect_null(welungad:::graphs_read(graph, 2)[[2]]$written)
    improved <- graph_gatekeeping_improved(2, 2)
    expect_identical(improved$transitions["H3", "H1"], "\\epsilon")
    expect_identical(entangled()$hypotheses, c(A = 0.5, B = 0.5, C = 0, D = 0))
    expect_error(entangled()$transitions, "a graph of 2 components has a matrix for each")
    # the limit, with which it is tested
    expect_identical(graph_update(improved, "H3")$updated_graph$hypotheses, c(H1 = 0.5, H2 = 0.5, H4 = 0))
    expect_output(str(graph), "components")
    expect_identical(utils::.DollarNames(graph, "^hyp"), "hypotheses")
    # graphs with the same parts are equal, and others are not
    expect_true(isTRUE(all.equal(graph, graph_create(c("low dose" = 1 / 3, B = 2 / 3), rbind(c(0, 1 / 2), c(1, 0))))))
    expect_false(isTRUE(all.equal(graph, graph_create(c("low dose" = 1 / 3, B = 1 / 3), rbind(c(0, 1 / 2), c(1, 0))))))
  })
})

# The part after `$` of a computed name.
part_by <- function(x, name) eval(call("$", quote(x), as.name(name)))

test_that("a name that is no part of a result is an error, and so is the beginning of one", {
  each_way(function(way) {
    p <- c(0.018, 0.01, 0.105, 0.006)
    x <- graph_test(diabetes(), p)
    results <- list(diabetes(), x, graph_test_closure(diabetes(), p), graph_bounds(diabetes(), p), graph_simes(diabetes(), p), graph_steps(x), summary(x),
      graph_evidence(diabetes(), p), graph_check(diabetes(), p, evidence = graph_evidence(diabetes(), p)), as_exact(p), graph_stages(diabetes(), rep(list(0.001), 4), at = 1),
      summary(graph_test_many(diabetes(), rbind(p))))
    for (result in results) {
      kind <- class(result)[1]
      expect_error(result$somebody, paste0("^a ", kind, " has no part \"somebody\", but "), info = kind)
      parts <- parts_in(result)
      part <- names(parts)[1]
      expect_identical(part_by(result, part), parts[[1]], info = kind)
      begun <- substr(part, 1, nchar(part) - 1)
      expect_error(part_by(result, begun), paste0("has no part \"", begun, "\""), info = kind)
      if (kind != "welungad_exact" && kind != "welungad_summary" && kind != "welungad_many_summary") expect_error(result[["somebody"]], "has no part", info = kind)
    }
    expect_error(x$outputs$adjusted_p, "has no part \"outputs\": the parts of a result are in the result itself, such as x$rejected", fixed = TRUE)
    expect_error(x$adj, "has no part \"adj\"")
    expect_error(graph_bounds(diabetes(), p)$rejected, "has no part \"rejected\"")
    expect_identical(x[["adjusted"]], x$adjusted)
    expect_error(diabetes()$component, "has no part \"component\"")
    expect_output(str(x), "adjusted")
  })
})

test_that("an assignment to a graph that no call would read is an error, which says what to write", {
  each_way(function(way) {
    graph <- pair()
    before <- graph
    weights <- "^no call would read a new part \"%s\" of a graph: graph_create[(]new, graph[$]transitions[)] makes a graph with the new weights$"
    edges <- "^no call would read a new part \"%s\" of a graph: graph_create[(]graph[$]hypotheses, new[)] makes a graph with the new edges$"
    expect_error(graph$hypotheses <- c(1, 0), sprintf(weights, "hypotheses"))
    expect_error(graph$hypotheses["H1"] <- 0.25, sprintf(weights, "hypotheses"))
    expect_error(graph[["hypotheses"]][["H1"]] <- 0.25, sprintf(weights, "hypotheses"))
    expect_error(graph["hypotheses"] <- list(c(1, 0)), sprintf(weights, "hypotheses"))
    expect_error(graph[["weights"]] <- c(1, 0), sprintf(weights, "weights"))
    expect_error(graph$transitions <- matrix(0, 2, 2), sprintf(edges, "transitions"))
    expect_error(graph$transitions["H1", "H2"] <- 0.5, sprintf(edges, "transitions"))
    expect_error(graph$m <- matrix(0, 2, 2), sprintf(edges, "m"))
    for (part in c("read", "written", "Components")) expect_error(graph[[part]] <- 1, paste0("^no call would read a new part \"", part, "\" of a graph: "))
    elements <- "^no call would read this element of a graph: graph_create"
    expect_error(graph["H1", "H2"] <- 0.5, elements)
    expect_error(graph[["H1", "H2"]] <- 0.5, elements)
    expect_error(diag(graph) <- 0, elements)
    expect_error(graph[[7]] <- 1, elements)
    labels <- "graph[$]labels <- new gives new labels$"
    expect_error(names(graph) <- c("A", "B"), labels)
    expect_error(names(graph)[1] <- "A", labels)
    expect_error(dimnames(graph) <- list(c("A", "B"), c("A", "B")), labels)
    expect_error(dim(graph) <- 4, "a new size of a graph: graph_create makes")
    expect_error(length(graph) <- 1, "a new size of a graph: graph_create makes")
    expect_identical(graph, before)
    # labels and components are read
    graph$labels <- c("low", "high")
    expect_identical(names(graph), c("low", "high"))
    graph[["labels"]] <- c("A", "B")
    graph["labels"] <- list(c("C", "D"))
    expect_identical(names(graph_test(graph, c(0.001, 0.9))$rejected), c("C", "D"))
  })
})

test_that("an assignment to a part of a result is an error", {
  each_way(function(way) {
    p <- c(0.018, 0.01, 0.105, 0.006)
    x <- graph_test(diabetes(), p)
    evidence <- graph_evidence(diabetes(), p)
    results <- list(x, graph_test_closure(diabetes(), p), graph_bounds(diabetes(), p), graph_simes(diabetes(), p), graph_steps(x), summary(x), evidence,
      graph_check(diabetes(), p, evidence = evidence), graph_stages(diabetes(), rep(list(0.001), 4), at = 1), summary(graph_test_many(diabetes(), rbind(p))))
    for (result in results) {
      before <- result
      told <- paste0("^no part of a ", class(result)[1], " is assigned, since it would no longer be what was decided: decide again, or change a copy")
      expect_error(result$graph <- 1, told)
      expect_error(result$rejected <- TRUE, told)
      expect_error(result[["alpha"]] <- "1/20", told)
      expect_error(result["H1"] <- list(TRUE), told)
      expect_error(names(result) <- "a", told)
      expect_identical(result, before)
    }
    expect_error(x$rejected[["H3"]] <- TRUE, "^no part of a welungad_test is assigned")
    expect_error(names(x$rejected) <- rev(names(x$rejected)), "^no part of a welungad_test is assigned")
    expect_error(x["H3", "rejected"] <- TRUE, "^no part of a welungad_test is assigned")
  })
})
