test_that("Holm's graph from doubles decides as p.adjust", {
  set.seed(46)
  each_way(function(way) {
    graphs <- lapply(2:20, holm)
    for (k in seq_len(share_of(way, 1000, 40))) {
      n <- 2 + k %% 19
      p <- sample(round(runif(5)^3, sample(2:4, 1)), n, replace = TRUE)
      own <- graph_test(graphs[[n - 1]], p, 0.05)
      theirs <- p.adjust(p, "holm")
      expect_equal(unname(own$adjusted), theirs, tolerance = 1e-12)
      clear <- abs(theirs - 0.05) > 1e-9
      expect_identical(unname(own$rejected)[clear], (theirs <= 0.05)[clear])
    }
  })
})

test_that("ties with the level reject", {
  each_way(function(way) {
    four <- graph_test(holm(4), c(0.001, 0.002, 0.003, 0.025))
    expect_true(all(four$rejected))
    three <- graph_test(holm(3), c(0.00833333333333333, 0.0125, 0.025))
    expect_true(all(three$rejected))
    exact <- graph_test(holm(3), c(1 / 120, 1 / 80, 1 / 40))
    expect_true(all(exact$rejected))
    for (n in c(2:10, 20)) expect_true(all(graph_test(holm(n), 1 / (40 * (n:1)))$rejected), info = n)
  })
})

test_that("Simes on equal weights decides as Hommel's procedure", {
  set.seed(47)
  each_way(function(way) {
    graphs <- lapply(2:8, holm)
    for (k in seq_len(share_of(way, 500, 14))) {
      n <- 2 + k %% 7
      p <- sample(round(runif(5)^2 / 10, 3), n, replace = TRUE)
      theirs <- p.adjust(p, "hommel")
      clear <- abs(theirs - 0.05) > 1e-9
      expect_identical(unname(graph_simes(graphs[[n - 1]], p, 0.05)$rejected)[clear], (theirs <= 0.05)[clear])
    }
  })
})

test_that("the five hypotheses of gMCP's manual", {
  each_way(function(way) {
    x <- graph_test(holm(5), c(0.01, 0.02, 0.04, 0.04, 0.7), 0.05)
    expect_equal(names(which(x$rejected)), "H1")
    expect_identical(unname(x$adjusted), c(0.05, 0.08, 0.12, 0.12, 0.7))
  })
})
