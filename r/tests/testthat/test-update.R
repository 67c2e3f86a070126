# All orders of all sets of some of 1 to n.
orders <- function(n) {
  grow <- function(begun) {
    rest <- setdiff(seq_len(n), begun)
    c(list(begun), unlist(lapply(rest, function(k) grow(c(begun, k))), recursive = FALSE))
  }
  Filter(length, grow(integer()))
}

weights_of <- function(graph) stats::setNames(welungad:::total_weights(graph), graph$names)

test_that("removals in every order end in the graph of the set, with the proved weights", {
  each_way(function(way) {
    set.seed(3)
    edges <- matrix(sample(0:3, 16, replace = TRUE), 4)
    diag(edges) <- 0
    edges <- edges / pmax(rowSums(edges), 1)
    graphs <- list(holm(4), diabetes(), entangled(), graph_catalogue("improved-parallel", 2, 2), graph_create(c(0.1, 0.2, 0.3, 0.4), edges))
    for (graph in graphs[seq_len(share_of(way, 5, 2))]) {
      report <- welungad:::ask("weights", welungad:::handed(welungad:::case_text(graph), graph))
      known <- list()
      for (order in sample(orders(4))[seq_len(share_of(way, 64, 12))]) {
        update <- graph_update(graph, order)
        expect_true(update$compared)
        after <- update$updated_graph
        expect_setequal(after$names, graph$names[-order])
        key <- paste(sort(order), collapse = " ")
        if (is.null(known[[key]])) known[[key]] <- after$components
        expect_equal(after$components, known[[key]])
        if (length(after$names)) {
          proved <- welungad:::of_set(report, match(after$names, graph$names), graph$names)
          expect_equal(weights_of(after)[names(proved)], proved)
        }
      }
    }
  })
})

test_that("the graph of the diabetes trial without H2", {
  each_way(function(way) {
    after <- graph_update(diabetes(), "H2")$updated_graph
    expect_equal(after$components[[1]]$weights, c(H1 = "3/4", H3 = "0", H4 = "1/4"))
    expect_equal(after$components[[1]]$edges["H1", ], c(H1 = "0", H3 = "2/3", H4 = "1/3"))
    expect_equal(after$components[[1]]$edges["H3", ], c(H1 = "1/2", H3 = "0", H4 = "1/2"))
    expect_equal(after$components[[1]]$edges["H4", ], c(H1 = "1", H3 = "0", H4 = "0"))
  })
})

test_that("an edge that comes back whole is lost", {
  each_way(function(way) {
    graph <- graph_create(c(1 / 2, 1 / 2, 0), rbind(c(0, 1, 0), c(1, 0, 0), 0))
    after <- graph_update(graph, 1)$updated_graph
    expect_equal(unname(after$components[[1]]$weights), c("1", "0"))
    expect_true(all(after$components[[1]]$edges == "0"))
  })
})

test_that("the graphs of a decision hold its weights", {
  each_way(function(way) {
    x <- graph_test(diabetes(), c(0.018, 0.01, 0.105, 0.006))
    steps <- graph_steps(x)
    expect_equal(steps$deleted, c("H2", "H1", "H4"))
    expect_length(steps$graphs, 4)
    expect_equal(weights_of(steps$updated_graph), c(H3 = "1"))
    expect_equal(as.data.frame(steps, exact = TRUE)$weight, c("1/2", "1/2", "0", "0", "3/4", "0", "1/4", "1/2", "1/2", "1"))
  })
})

test_that("above 16 hypotheses the program leaves edges out", {
  each_way(function(way) {
    graph <- graph_catalogue("fixed-sequence", 17)
    update <- graph_update(graph, "H2")
    expect_true(update$compared)
    # H2 had no weight before it was removed
    expect_equal(weights_of(update$updated_graph), c(H1 = "1", stats::setNames(rep("0", 15), paste0("H", 3:17))))
    after <- graph_update(graph, c("H1", "H2"))
    expect_equal(weights_of(after$updated_graph), c(H3 = "1", stats::setNames(rep("0", 14), paste0("H", 4:17))))
    edges <- after$updated_graph$components[[1]]$edges
    if (prints_graphs(way)) {
      expect_equal(edges["H3", "H4"], "1")
      return(expect_output(print(after), "Each weight and each edge is the one that the proved call prints.", fixed = TRUE))
    }
    expect_true(all(is.na(edges[row(edges) != col(edges)])))
    expect_output(print(after), "The edges after removals are left out", fixed = TRUE)
    expect_output(print(after), "H3 +1 +[.] +[?] +[?]")
    expect_error(graph_test(after$updated_graph, rep(0.1, 15)), "an updated graph that was read without the C library lacks its edges: ", fixed = TRUE)
    expect_error(graph_update(after$updated_graph, 1), "^graph: an updated graph that was read")
    picture <- tempfile(fileext = ".pdf")
    grDevices::pdf(picture)
    on.exit(unlink(picture))
    expect_silent(plot(after))
    grDevices::dev.off()
    expect_true(is.data.frame(as.data.frame(after)))
    expect_true(is.data.frame(as.data.frame(after$updated_graph)))
    # 16 are read
    expect_equal(graph_update(graph_catalogue("fixed-sequence", 16), "H2")$updated_graph$components[[1]]$edges["H1", "H3"], "1")
  })
})

test_that("an updated graph whose edges are quotients in epsilon is not read by the program", {
  each_way(function(way) {
    update <- graph_update(graph_catalogue("improved-parallel", 2, 2), "H3")
    after <- update$updated_graph
    if (!prints_graphs(way)) {
      # the limit of (1 - e) / (2 - e)
      expect_equal(after$components[[1]]$edges["H4", "H1"], "1/2")
      expect_output(print(update), "without its infinitely small part")
      return(expect_error(graph_test(after, c(0.1, 0.2, 0.3)), "lacks the infinitely small parts: give all removals to one call", fixed = TRUE))
    }
    expect_equal(after$components[[1]]$edges["H4", "H1"], "(1-\\epsilon)/(2-\\epsilon)")
    refusal <- refusal_of(graph_test(after, c(0.1, 0.2, 0.3)))
    expect_match(refusal$line, ": divisor$")
    expect_match(refusal$where, "^transitions: the edge from H4 to H1 is ")
  })
})

test_that("a weight that is not the proved one stops", {
  each_way(function(way) {
    graph <- holm(3)
    wrong <- graph_update(graph, "H1")$updated_graph
    wrong$components[[1]]$weights[["H2"]] <- "1/3"
    expect_error(welungad:::hold(wrong, welungad:::proved_weights(graph, 1), "here"), "the proved call 1/2")
  })
})

test_that("hypotheses are removed by name, label, position and logical vector", {
  each_way(function(way) {
    graph <- graph_create(c("low dose" = 1 / 2, B = 1 / 2), rbind(c(0, 1), c(1, 0)))
    ways <- list("low dose", "low_dose", 1, c(TRUE, FALSE))
    for (delete in ways) expect_equal(graph_update(graph, delete)$updated_graph$names, "B")
    expect_error(graph_update(graph, "C"), "delete: no hypothesis has the name \"C\"", fixed = TRUE)
  })
})

test_that("numbers with epsilon are read and written exactly", {
  text <- function(texts) vapply(welungad:::quotients_of(texts), welungad:::quotient_text, "")
  for (number in c("1-\\epsilon", "\\epsilon", "1/2*\\epsilon^2", "1/(2-\\epsilon)", "(1-\\epsilon)/(2-\\epsilon)", "-1/(2-\\epsilon)",
    "(1+2*\\epsilon^2)/(3+\\epsilon)")) {
    expect_equal(text(number), number)
  }
  expect_equal(text("(\\epsilon)/(\\epsilon-\\epsilon^2)"), "1/(1-\\epsilon)")
  expect_equal(as.character(welungad:::limits_of(c("(1-\\epsilon)/(2-\\epsilon)", "1/3", "\\epsilon"))), c("1/2", "1/3", "0"))
  expect_equal(as.character(welungad:::values_of("(1-\\epsilon)/(2-\\epsilon)", gmp::as.bigq(1, 2))), "1/3")
})

# A row of edges with a small common denominator; with epsilon a part of one edge goes to a hypothesis that had none.
random_row <- function(n, i, with_epsilon) {
  parts <- sample(0:3, n, replace = TRUE)
  parts[i] <- 0
  texts <- ifelse(parts == 0, "0", paste0(parts, "/", max(1, sum(parts) + sample(0:1, 1))))
  free <- setdiff(which(parts == 0), i)
  some <- which(parts > 0)
  if (with_epsilon && length(free) && length(some)) {
    small <- sample(c("\\epsilon", "\\epsilon^2"), 1)
    texts[free[1]] <- small
    texts[some[1]] <- paste0(texts[some[1]], "-", small)
  }
  texts
}

random_graph <- function(n, with_epsilon) {
  parts <- sample(0:4, n, replace = TRUE)
  weights <- paste0(parts, "/", max(1, sum(parts) + sample(0:1, 1)))
  graph_create(weights, t(vapply(seq_len(n), random_row, character(n), n = n, with_epsilon = with_epsilon)))
}

# A graph of fractions, or a third of the time with epsilon; a quarter are two graphs with shares.
random_case <- function(k) {
  with_epsilon <- k %% 3 == 0
  n <- sample(2:(if (with_epsilon) 4 else 6), 1)
  graph <- random_graph(n, with_epsilon)
  if (k %% 4 == 0) graph_entangle(graph, random_graph(n, FALSE), shares = c("1/3", "2/3")) else graph
}

test_that("updated graphs are those of the formula, edge by edge, after each prefix of an order", {
  each_way(function(way) {
    set.seed(90)
    prints <- prints_graphs(way)
    compared <- 0
    for (k in seq_len(share_of(way, if (prints) 400 else 120, 8))) {
      graph <- random_case(k)
      order <- sample(length(graph$names))
      update <- tryCatch(graph_update(graph, order), welungad_refusal = identity)
      if (inherits(update, "welungad_refusal")) {
        expect_match(update$line, "^too wide: ")
        next
      }
      own <- graphs_by_formula(graph, order)
      for (step in seq_along(own)[-1]) {
        wanted <- own[[step]]$components
        if (!prints) wanted <- limits_of_components(wanted)
        expect_identical(update$graphs[[step]]$components, wanted, info = paste(k, step))
      }
      compared <- compared + 1
    }
    expect_gt(compared, k / 2)
  })
})
