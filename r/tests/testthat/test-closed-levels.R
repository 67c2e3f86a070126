test_that("the levels from which on intersections are rejected, by hand", {
  each_way(function(way) {
    x <- graph_test_closure(holm(3), c("1/100", "1/200", "3/100"))
    table <- as.data.frame(x, exact = TRUE)
    at <- match(c("H1, H2, H3", "H1, H2", "H1, H3", "H2, H3", "H1", "H2", "H3"), table$intersection)
    expect_equal(table$p_local[at], c("3/200", "1/100", "1/50", "1/100", "1/100", "1/200", "3/100"))
    expect_equal(table$p_closed[at], c("3/200", "3/200", "1/50", "3/200", "1/50", "3/200", "3/100"))
    expect_equal(x$adjusted, c(H1 = 0.02, H2 = 0.015, H3 = 0.03))
    expect_equal(unname(x$reached), c(TRUE, TRUE, TRUE))
    expect_true(x$compared)
    expect_equal(as.data.frame(x)$p_local[at[1]], 0.015)
  })
})

test_that("weighted Simes tests, by hand", {
  each_way(function(way) {
    # with both, min(0.02 / (1/4), 0.03 / 1)
    edges <- rbind(0:1, 1:0)
    x <- graph_test_closure(graph_create(c(1 / 4, 3 / 4), edges), c(0.02, 0.03), test = "simes")
    expect_equal(x$adjusted, c(H1 = 0.03, H2 = 0.03))
    expect_equal(as.data.frame(x, exact = TRUE)$p_local[match("H1, H2", as.data.frame(x)$intersection)], "3/100")
    # without edges, H1 alone has a quarter
    alone <- graph_create(c(1 / 4, 3 / 4), 0 * edges)
    x <- graph_test_closure(alone, c(0.02, 0.03), alpha = 0.05, test = "Simes")
    expect_equal(x$adjusted, c(H1 = 0.08, H2 = 0.04))
    expect_equal(x$rejected, c(H1 = FALSE, H2 = TRUE))
    expect_equal(graph_simes(alone, c(0.02, 0.03), 0.05)$adjusted, x$adjusted)
    # of equal p-values both weights count
    expect_equal(unname(graph_simes(pair(), c(0.04, 0.04))$adjusted), c(0.04, 0.04))
    # a p-value of 0, and a hypothesis that no level rejects
    x <- graph_simes(graph_create(c(1, 0), 0 * edges), c(0, 0.3))
    expect_equal(x$adjusted, c(H1 = 0, H2 = 1))
    expect_equal(x$reached, c(H1 = TRUE, H2 = FALSE))
    expect_error(graph_test_closure(pair(), c(0.1, 0.2), test = "hommel"), "^test: one of \"bonferroni\", \"simes\" is needed")
  })
})

# A random graph: of fractions, with an epsilon, or of two components.
random_graph <- function(n) {
  one <- function() {
    edges <- matrix(sample(0:3, n * n, replace = TRUE), n)
    diag(edges) <- 0
    weights <- sample(0:4, n, replace = TRUE)
    graph_create(weights / max(sum(weights), 1), edges / pmax(rowSums(edges), 1))
  }
  switch(sample(3, 1),
    one(),
    graph_entangle(one(), one(), shares = c(1 / 3, 2 / 3)),
    graph_gatekeeping_improved(2, n - 2)
  )
}

test_that("adjusted values of Bonferroni's closed test are those of the proved call", {
  each_way(function(way) {
    set.seed(86)
    for (k in seq_len(share_of(way, 120, 8))) {
      n <- sample(3:5, 1)
      graph <- random_graph(n)
      p <- sample(c(round(runif(n), 3), 0, 1), n)
      closed <- graph_test_closure(graph, p)
      decided <- graph_test(graph, p)
      expect_identical(closed$adjusted, decided$adjusted, info = k)
      expect_identical(closed$reached, decided$reached, info = k)
      expect_true(closed$compared)
    }
  })
})

test_that("adjusted values of Simes' closed test are Hommel's, and reject what the proved call rejects", {
  each_way(function(way) {
    set.seed(87)
    graphs <- lapply(2:8, holm)
    for (k in seq_len(share_of(way, 150, 7))) {
      n <- 2 + k %% 7
      p <- sample(round(runif(5)^2 / 10, 3), n, replace = TRUE)
      x <- graph_simes(graphs[[n - 1]], p, 0.05)
      expect_equal(unname(x$adjusted), p.adjust(p, "hommel"), tolerance = 1e-12, info = k)
      expect_identical(x$adjusted <= 0.05, x$rejected)
    }
    for (k in seq_len(share_of(way, 60, 4))) {
      graph <- random_graph(4)
      p <- round(runif(4)^3, 4)
      x <- graph_simes(graph, p, 0.1)
      closed <- graph_test_closure(graph, p, 0.1, test = "simes")
      expect_identical(x$rejected, closed$rejected)
      expect_identical(x$adjusted, closed$adjusted)
      expect_identical(unname(closed$p_closed == "1" | welungad:::double_of(closed$p_closed) <= 0.1), closed$p_closed == "1" | closed$closed)
      # at its own adjusted value each is rejected, and below it is not
      value <- welungad:::fraction(x$exact$adjusted[1])
      if (x$reached[1] && x$adjusted[1] > 0.001) {
        own <- graph_test_closure(graph, p, 0.1, test = "simes")
        expect_true(as.logical(value <= welungad:::fraction("1/10")) == unname(own$rejected[1]))
      }
    }
  })
})

test_that("at an adjusted value the program rejects, and at a little less it does not", {
  each_way(function(way) {
    # 0.03 is the adjusted value of both
    graph <- graph_create(c(1 / 4, 3 / 4), rbind(0:1, 1:0))
    expect_true(all(graph_simes(graph, c(0.02, 0.03), 0.03)$rejected))
    expect_false(any(graph_simes(graph, c(0.02, 0.03), 0.0299)$rejected))
  })
})

test_that("an adjusted value that is not the proved one stops", {
  each_way(function(way) {
    case <- graph_canon(pair(), c(0.001, 0.9))
    place <- tempfile("stand-in-")
    for (command in c("bounds", "weights", "canon", "test")) cat(welungad_run(command, case)$text, file = paste0(place, ".", command))
    writeLines(c("#!/bin/sh", "cat \"$0.$1\""), place)
    Sys.chmod(place, "755")
    expect_equal(with_program(place, graph_test_closure(pair(), c(0.001, 0.9))$adjusted), c(H1 = 0.002, H2 = 0.9))
    test <- paste0(place, ".test")
    writeLines(sub("^adjusted H1 .*$", "adjusted H1 1/400", readLines(test)), test)
    expect_error(with_program(place, graph_test_closure(pair(), c(0.001, 0.9))), "the adjusted p-values here are not those of the proved call")
    writeLines("too wide: adjusted", test)
    writeLines(c("#!/bin/sh", "cat \"$0.$1\"", "test \"$1\" != test || exit 5"), place)
    expect_false(with_program(place, graph_test_closure(pair(), c(0.001, 0.9))$compared))
  })
})

test_that("the summary of Simes' closed test names the rejections", {
  each_way(function(way) {
    x <- summary(graph_simes(graph_create(c(A = 1 / 4, B = 3 / 4), matrix(0, 2, 2)), c(0.02, 0.03), 0.05))
    expect_equal(x$rejections, data.frame(hypothesis = "B", p = 0.03, adjusted = 0.04))
    expect_output(print(x), "Closed test of weighted Simes tests at level 0.05 (1/20)\n1 of 2 are rejected", fixed = TRUE)
    expect_output(print(x), "B +0.03 +0.04")
  })
})

test_that("ranks of fractions are exact", {
  # two fractions that are one double
  near <- gmp::as.bigq(c("1/3", "333333333333333333333/1000000000000000000000", "1/3", "0", "333333333333333333334/1000000000000000000000"))
  expect_equal(welungad:::exact_ranks(near), c(3L, 2L, 3L, 1L, 4L))
  expect_equal(welungad:::ascending(near[c(1, 2, 5)]), c(2L, 1L, 3L))
  expect_equal(welungad:::exact_ranks(gmp::as.bigq(character())), integer())
})

test_that("the report of all sets is read only if it is whole", {
  names <- c("A", "AB", "B")
  read <- function(lines, ...) .Call(welungad:::C_welungad_read_sets, lines, names, ...)
  bounds <- c("bound 2 of A AB B", "bound 0 of AB B", "bound 1 of A B", "bound 0 of B", "bound 2 of A AB", "bound 0 of AB", "bound 1 of A")
  expect_equal(read(bounds, FALSE)$codes, c(7L, 6L, 5L, 4L, 3L, 2L, 1L))
  expect_equal(read(bounds, FALSE)$bound, c(2L, 0L, 1L, 0L, 2L, 0L, 1L))
  for (wrong in c("bound 2 of A AB", "bound 1 of A A", "bound 1 of C", "bound 1 of ", "bound 1 of A ", "bound 1 of  A", "bound of A", "bound 111 of A", "bound x of A",
    "bound 1 of A=1", "Bound 1 of A", "")) expect_null(read(replace(bounds, 7, wrong), FALSE), info = wrong)
  expect_null(read(bounds[-7], FALSE))
  weights <- c("set A=1/2 AB=1/2 B=0", "set AB=1 B=0", "set A=1 B=0", "set B=1", "set A=1/2 AB=1/2", "set AB=1", "set A=1")
  found <- read(weights, TRUE)
  expect_equal(found$texts, c("1/2", "0", "1"))
  expect_equal(found$weights[1:2, ], rbind(c(1L, 1L, 2L), c(NA, 3L, 2L)))
  expect_equal(read(weights, TRUE)$sets[[3]], c(1L, 3L))
  for (wrong in c("set A", "set A=", "set =1", "set A=1 ", "set A=1 A=1", "set C=1", "set")) expect_null(read(replace(weights, 7, wrong), TRUE), info = wrong)
})
