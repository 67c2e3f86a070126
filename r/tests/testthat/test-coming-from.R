# What somebody writes who has used gMCP and graphicalMCP until today: each call is answered, or is an error that says what to write.

p <- c(0.018, 0.01, 0.105, 0.006)

test_that("arguments of other packages are errors that name the one here", {
  each_way(function(way) {
    graph <- diabetes()
    expect_error(graph_test(graph, pvalues = p), "^pvalues: this call has no such argument: write p = [.][.]$")
    expect_error(graph_test(graph, p, test = "Simes"), "^test: .* graph_test_closure\\(graph, p, test = \"simes\"\\) and graph_simes\\(graph, p\\)")
    expect_error(graph_test(graph, p, test_types = "b"), "^test_types: this call has no such argument: graph_test_closure")
    expect_error(graph_test(graph, p, verbose = TRUE), "^verbose: .* graph_steps\\(x\\) and graph_rejections\\(x\\)")
    expect_error(graph_test_closure(graph, p, test_types = "s"), "^test_types: .* write test = \"bonferroni\" or test = \"simes\"")
    expect_error(graph_test_closure(graph, p, test_groups = list(1:4)), "^test_groups: .* one kind of test$")
    for (call in list(graph_test, graph_test_closure, graph_bounds, graph_simes, graph_test_many)) {
      expect_error(call(graph, p, correlation = diag(4)), "^correlation: .* no parametric tests")
      expect_error(call(graph, p, test_values = TRUE), "^test_values: .* as.data.frame\\(x\\)")
    }
    expect_error(graph_test_many(graph, pvalues = rbind(p)), "^pvalues: .* write P = [.][.], with a row for each trial$")
    expect_error(graph_test_many(graph, p = rbind(p)), "^p: .* write P = ")
    expect_error(graph_rejection_orderings(shortcut_test_result = graph_test(graph, p)), "^shortcut_test_result: .* write x = ")
    expect_error(graph_update(graph, node = "H1"), "^node: .* write delete = ")
    expect_error(graph_weights(w = c(1, 0)), "^w: .* graph_create\\(weights, edges\\)")
    expect_error(graph_create(m = matrix(0, 2, 2), weights = c(1, 0)), "^m: .* write transitions = ")
    expect_error(graph_create(weights = c(1, 0), m = matrix(0, 2, 2)), "^weights: .* write hypotheses = ")
    # an argument of nobody, and one without a name
    expect_error(graph_test(graph, p, priorty = "last"), "^priorty: this call has no such argument$")
    expect_error(graph_test(graph, p, 0.025, "last", 1), "^there are more arguments than this call has$")
  })
})

test_that("named graphs are asked for by weights and names", {
  each_way(function(way) {
    for (call in list(graph_bonferroni, graph_holm, graph_fallback, graph_fallback_improved_1, graph_fallback_improved_2)) {
      expect_error(call(c(0.5, 0.25, 0.25)), "^size: one number is needed, and not 3: write weights = [.][.] for weights, and names = [.][.] for names$")
      expect_error(call(hypotheses = c(0.5, 0.5)), "^hypotheses: .* write weights = ")
      expect_error(call(2, hyp_names = c("a", "b")), "^hyp_names: .* write names = ")
      expect_error(call(num_hyps = 2), "^num_hyps: .* write size = ")
      # R takes n for the beginning of names
      expect_error(call(n = 3), "^names: 3 is a number: write size = [.][.] for that of the hypotheses$")
    }
    expect_identical(graph_fallback(weights = c(0.5, 0.25, 0.25))$hypotheses, c(H1 = 0.5, H2 = 0.25, H3 = 0.25))
    for (call in list(graph_simple_successive_1, graph_simple_successive_2, graph_huque_2011, graph_bretz_2011)) {
      expect_error(call(hyp_names = letters[1:4]), "^hyp_names: .* write names = ")
    }
    expect_error(graph_fallback_improved_2(3, epsilon = 0.001), "^epsilon: .* epsilon stays a symbol$")
    part <- "a part from 0 to 1 is needed, such as 1/2$"
    expect_error(graph_hung_wang_2010(), paste0("^nu: ", part))
    expect_error(graph_hung_wang_2010(1 / 2), paste0("^tau: ", part))
    expect_error(graph_hung_wang_2010(1 / 2, 1 / 2), paste0("^omega: ", part))
    expect_error(graph_general_successive(), paste0("^gamma: ", part))
    expect_error(graph_general_successive(gamma = 0), paste0("^delta: ", part))
    expect_error(graph_truncated_holm(), paste0("^gamma: ", part))
    for (call in list(graph_gatekeeping_serial, graph_gatekeeping_parallel, graph_gatekeeping_improved)) {
      expect_error(call(), "^primary: the number of hypotheses is needed, such as 2$")
      expect_error(call(2), "^secondary: the number of hypotheses is needed, such as 2$")
    }
  })
})

test_that("entangled graphs have shares", {
  each_way(function(way) {
    one <- graph_create(c(1, 0), matrix(0, 2, 2))
    expect_error(graph_entangle(one, one, weights = c(0.5, 0.5)), "^weights: this call has no such argument: write shares = [.][.], one for each graph$")
    expect_error(graph_entangle(subgraphs = list(one, one), weights = c(0.5, 0.5)), "^subgraphs: .* one list of them$")
    expect_error(graph_entangle(one, one), "^shares: one share is needed for each graph$")
    # a graph may be called so
    expect_length(graph_entangle(weights = one, other = one, shares = c(0.5, 0.5))$components, 2)
  })
})

test_that("weights come first", {
  each_way(function(way) {
    graph <- diabetes()
    for (edges in list(graph$transitions, as.data.frame(graph$transitions))) {
      expect_error(graph_create(edges, graph$hypotheses), "^hypotheses: a square table is of edges, and the weights come first: graph_create\\(weights, edges\\)$")
    }
    expect_error(graph_create(graph$transitions, graph$transitions), "^hypotheses: a vector is needed, and not a table of 4 by 4$")
    expect_identical(graph_create(matrix(1), matrix(0))$hypotheses, c(H1 = 1))
  })
})

test_that("a number of p-values that does not fit is named with the hypotheses", {
  each_way(function(way) {
    expect_identical(refusal_of(graph_test(diabetes(), p[1:3]))$where, "p: 3 given for 4 hypotheses: H1, H2, H3, H4")
    expect_error(graph_test_many(diabetes(), matrix(0.1, 2, 3)), "^P: 3 columns given for 4 hypotheses: H1, H2, H3, H4$")
    expect_match(refusal_of(graph_bounds(holm(2), 0.1))$where, "^p: 1 given for 2 hypotheses: H1, H2$")
    many <- refusal_of(graph_test(graph_holm(20), 0.1))$where
    expect_match(many, "^p: 1 given for 20 hypotheses: H1, .*, H16, and 4 more$")
  })
})

test_that("p-values of deleted hypotheses are named as such", {
  each_way(function(way) {
    labels <- paste0("H", 1:4)
    theirs <- as_initial_graph(diabetes())
    after <- theirs
    after$hypotheses <- c(H1 = 3 / 4, H2 = 0, H3 = 0, H4 = 1 / 4)
    after$transitions[] <- rbind(c(0, 0, 2 / 3, 1 / 3), 0, c(1 / 2, 0, 0, 1 / 2), c(1, 0, 0, 0))
    for (deleted in list("H2", 2L)) {
      updated <- structure(list(initial_graph = theirs, updated_graph = after, deleted = deleted), class = "updated_graph")
      expect_identical(graph_test(updated, p[-2])$exact$hypothesis, labels[-2])
      expect_identical(refusal_of(graph_test(updated, p))$where, "p: 4 given for 3 hypotheses: H1, H3, H4, without the deleted H2")
      named <- stats::setNames(p, labels)
      expect_error(graph_test(updated, named), "^p: \"H2\" was deleted from this graph, which has 3 hypotheses: H1, H3, H4$")
      expect_error(graph_test_many(updated, rbind(p)), "^P: 4 columns given for 3 hypotheses: H1, H3, H4, without the deleted H2$")
      expect_error(graph_test_many(updated, rbind(named)), "^P: columns: \"H2\" was deleted from this graph")
    }
  })
})

test_that("columns beside hypothesis and p are named", {
  each_way(function(way) {
    table <- data.frame(hypothesis = paste0("H", 1:4), p = p, note = "a", arm = 1)
    expect_error(graph_test(diabetes(), table), "^p: beside the columns hypothesis and p there is \"note\", \"arm\": x\\[c\\(\"hypothesis\", \"p\"\\)\\] leaves")
    expect_identical(graph_test(diabetes(), table[c("hypothesis", "p")])$exact, graph_test(diabetes(), p)$exact)
    weights <- data.frame(hypothesis = c("A", "B"), weight = c(1, 0), note = "a")
    expect_error(graph_create(weights, matrix(0, 2, 2)), "^hypotheses: beside the columns hypothesis and weight there is \"note\"")
    expect_error(graph_test(diabetes(), table[c("hypothesis", "note", "arm")]), "^p: a data frame has one row .* or the columns hypothesis and p$")
  })
})

test_that("names that R gives to columns are named as such", {
  each_way(function(way) {
    P <- rbind(p, p / 2)
    for (frame in list(as.data.frame(unname(P)), data.frame(unname(P)))) {
      cure <- paste0("no hypothesis has the name \"", names(frame)[1], "\": .* Columns without names got .* from R: unname\\(as.matrix\\(x\\)\\) has none")
      expect_error(graph_test_many(diabetes(), frame), paste0("^P: columns: ", cure))
      expect_error(graph_test(diabetes(), frame[1, ]), paste0("^p: ", cure))
      expect_identical(as.matrix(graph_test_many(diabetes(), unname(as.matrix(frame)))), as.matrix(graph_test_many(diabetes(), unname(P))))
    }
    expect_error(graph_create(c(A = 1, B = 0), as.data.frame(matrix(0, 2, 2))), "^transitions: columns: .* unname\\(as.matrix\\(x\\)\\)")
    # hypotheses that are called so
    expect_identical(unname(graph_test(graph_holm(names = c("V2", "V1")), data.frame(V1 = 0.9, V2 = 0.001))$rejected), c(TRUE, FALSE))
  })
})

test_that("matrices of results have no parts, and say where they are", {
  each_way(function(way) {
    x <- graph_test(diabetes(), p)
    orders <- graph_rejection_orderings(x)
    expect_error(orders$valid_orderings, "^a welungad_orderings is a matrix, so it has no part \"valid_orderings\": each of its rows is an order$")
    expect_error(graph_weights(diabetes())$weights, "has no part \"weights\": as.data.frame\\(x\\) is a table")
    expect_error(graph_test_many(diabetes(), rbind(p))$power, "has no part \"power\": .* summary\\(x\\) estimates power$")
    # H2 is first, since H1 has 1/2 of the level before
    expect_identical(unname(orders[, 1]), c("H2", "H2"))
    expect_identical(class(as.matrix(orders)), c("matrix", "array"))
    expect_output(print(orders), "step 1 step 2 step 3\n.*H2 +H1 +H4")
  })
})

test_that("graphs after each rejection are named below the last one", {
  each_way(function(way) {
    steps <- graph_steps(graph_test(diabetes(), p))
    note <- "print(x, all = TRUE) shows the graph at the start and after each removal."
    expect_true(note %in% utils::capture.output(print(steps)))
    expect_false(note %in% utils::capture.output(print(steps, all = TRUE)))
    expect_false(note %in% utils::capture.output(print(graph_update(diabetes(), "H2"))))
  })
})

test_that("closed tests have the sets in the order of graph_weights, and adjusted p-values below", {
  each_way(function(way) {
    for (test in c("bonferroni", "simes")) {
      closed <- graph_test_closure(diabetes(), p, test = test)
      expect_identical(as.data.frame(closed)$intersection, as.data.frame(graph_weights(diabetes()))$intersection)
      expect_identical(closed$sets[c(1, 2, 15)], list(1:4, 1:3, 4L))
      expect_equal(lengths(closed$sets), unname(rowSums(graph_weights(diabetes())[, 1:4])))
    }
    closed <- graph_test_closure(diabetes(), p)
    # the published adjusted p-values of this trial
    expect_output(print(closed), "Adjusted p-values: H1 0.024, H2 0.02, H3 0.105, H4 0.024", fixed = TRUE)
    expect_output(print(closed, exact = TRUE), "Adjusted p-values: H1 3/125, H2 1/50, H3 21/200, H4 3/125", fixed = TRUE)
    expect_output(print(closed[14:15]), "Adjusted p-values: H1 0.024", fixed = TRUE)
    # twice 0.9 is above 1
    never <- graph_test_closure(graph_bonferroni(2), c(0.001, 0.9))
    expect_output(print(never), "Adjusted p-values: H1 0.002, H2 1 not reached", fixed = TRUE)
  })
})

test_that("power at the level gives the shift of a normal statistic", {
  each_way(function(way) {
    # quantiles in place of random numbers: the share is the power but for the last of 2,000 steps
    power <- c(0.8, 0.9, 0.25)
    shift <- qnorm(1 - 0.025) + qnorm(power)
    quantiles <- qnorm(ppoints(share_of(way, 2000, 50)))
    graph <- graph_create(1, matrix(0, 1, 1))
    for (k in seq_along(power)) {
      P <- cbind(pnorm(quantiles + shift[k], lower.tail = FALSE))
      expect_lte(abs(mean(as.matrix(graph_test_many(graph, P, 0.025))) - power[k]), 1 / length(quantiles))
    }
  })
})

test_that("words of other packages are found in the help", {
  pages_with <- function(word) {
    nrow(utils::help.search(word, fields = c("alias", "concept", "title"), package = "welungad", lib.loc = dirname(system.file(package = "welungad")),
      agrep = FALSE, ignore.case = FALSE)$matches)
  }
  skip_if(pages_with("graph_test") == 0, "the package was installed without its pages")
  words <- c("gMCP", "graphicalMCP", "power", "calcPower", "graph_calculate_power", "setWeights", "setEdge", "getWeights", "matrix2graph", "BonferroniHolm",
    "bonferroni_holm", "fixedSequence", "improvedFallbackI", "rejectNode", "generateWeights", "graph_generate_weights", "graph_test_shortcut", "graphTest",
    "adjPValues", "substituteEps", "entangledMCP", "gMCPReport", "graphGUI")
  for (word in words) expect_gt(pages_with(word), 0, label = paste("pages with", word))
})
