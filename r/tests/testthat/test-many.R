test_that("many trials are decided as one by one", {
  each_way(function(way) {
    set.seed(5)
    graph <- graph_create(c("low dose" = 1 / 2, B = 1 / 2, C = 0), rbind(c(0, 1 / 2, 1 / 2), c(1 / 2, 0, 1 / 2), 0))
    rows <- share_of(way, 600, 20)
    P <- matrix(runif(3 * rows)^4, rows, dimnames = list(NULL, c("C", "low dose", "B")))
    many <- graph_test_many(graph, P)
    expect_equal(dim(many), dim(P))
    expect_equal(colnames(many), graph$labels)
    for (i in c(1, 7, rows)) expect_equal(many[i, ], graph_test(graph, P[i, ])$rejected)
    expect_equal(graph_test_many(graph, as.data.frame(P)), many)
    expect_equal(graph_test_many(graph, unname(P[, c(2, 3, 1)])), many)
    named <- P[1:2, ]
    rownames(named) <- c("first", "second")
    expect_equal(rownames(graph_test_many(graph, named)), c("first", "second"))
    expect_equal(dim(graph_test_many(graph, P[0, ])), c(0L, 3L))
  })
})

test_that("rows that have no decision are named", {
  each_way(function(way) {
    P <- rbind(c(0.1, 0.2), c(0.1, 1.5), c(NA, 0.2))
    expect_error(graph_test_many(pair(), P), "P: row 2, column 2 is 1.5, which is not a p-value", fixed = TRUE)
    expect_error(graph_test_many(pair(), P[-2, ]), "P: row 2, column 1 is NA", fixed = TRUE)
    expect_error(graph_test_many(pair(), rbind(0:1, c(0.5, NaN))), "P: row 2, column 2 is NaN, which is not a p-value", fixed = TRUE)
    expect_error(graph_test_many(pair(), rbind(0:1, c(-1e-300, 1))), "P: row 2, column 1 is -1e-300, which is not a p-value", fixed = TRUE)
    expect_error(graph_test_many(pair(), rbind(0:1, c(1 + 2^-52, 1))), "P: row 2, column 1 is 1.0000000000000002, which is not a p-value", fixed = TRUE)
    expect_error(graph_test_many(pair(), c(0.1, 0.2)), "P: a matrix is needed")
    expect_error(graph_test_many(pair(), matrix(0.1, 2, 3)), "P: 3 columns given for 2 hypotheses")
    turned <- matrix(0.1, 2, 2, dimnames = list(c("H1", "H2"), NULL))
    expect_error(graph_test_many(pair(), turned), "P: its rows have the names of hypotheses, and its columns have none: a row is a trial")
    expect_error(graph_test_many(pair(), matrix("0.1 0.2", 1, 2)), "P: row 1, column 1 is 0.1 0.2")
    small <- matrix("0.1", 515, 2)
    small[514, 2] <- "1e-39"
    if (way == "library") expect_equal(refusal_of(graph_test_many(pair(), small))$where, "P: row 514: the p-value of H2 is \"1e-39\"")
    expect_equal(refusal_of(graph_test_many(pair(), small[514:515, ]))$where, "P: row 1: the p-value of H2 is \"1e-39\"")
    expect_message(graph_test_many(pair(), matrix(c(1e-300, 0.5), 1)), "P: 1 p-value was rounded up to a multiple of 10^-30: row 1", fixed = TRUE)
    small <- cbind(rep(c(0.5, 1e-31), 8), 1e-40)
    expect_message(graph_test_many(pair(), small), "P: 24 p-values were rounded up to a multiple of 10^-30: row 1, 2, 3, 4, 5, 6, 7, 8, 9, 10, and 6 more", fixed = TRUE)
    wide <- graph_create(c(1, 0, 0, 0), rbind(
      c("0", "1/1000000000000000000", "0", "0"), c("0", "0", "1/999999999999999999", "0"), c("0", "0", "0", "1/999999999999999997"), "0"
    ))
    expect_warning(many <- graph_test_many(wide, rbind(rep(1, 4), rep(0, 4)), 0.05), "P: 1 row is NA, since .* too wide: row 2")
    expect_equal(many[1, ], c(H1 = FALSE, H2 = FALSE, H3 = FALSE, H4 = FALSE))
    expect_true(all(is.na(many[2, ])))
  })
})

test_that("a block of doubles is decided as its rows are, and by few calls", {
  skip_if_not(welungad:::has_numbers(), "the library with the calls on numbers is not found")
  set.seed(7)
  graph <- graph_create(c("low dose" = 1 / 2, B = 1 / 2, C = 0), rbind(c(0, 1 / 2, 1 / 2), c(1 / 2, 0, 1 / 2), 0))
  P <- rbind(matrix(runif(3 * 1100)^4, ncol = 3), c(0.0125, 0.025, 1), c(0.1 + 0.2, 0, 1), 0:2 / 3)
  many <- graph_test_many(graph, P, alpha = 0.05)
  texts <- welungad:::decided_texts(graph, "1/20", P)
  expect_identical(unname(as.matrix(many)), texts$rejected)
  expect_true(all(texts$statuses == 0L) && any(many) && !all(many))
  expect_identical(graph_test_many(graph, matrix(0:1, 2, 3)), graph_test_many(graph, matrix(as.character(0:1), 2, 3)))
  expect_identical(graph_test_many(graph, data.frame(C = 0:1, B = c(0.01, 0.02), "low dose" = 1, check.names = FALSE))[, "B"], c(TRUE, FALSE))
})

test_that("a row is too wide for the call of a block only by its decision", {
  skip_if_not(welungad:::has_numbers(), "the library with the calls on numbers is not found")
  near <- graph_create(c("999999999999999967/999999999999999989", "0"), rbind(0:1, 1:0))
  P <- matrix(c(1.2345678901234567e-14, 0.9), 1)
  expect_equal(as.vector(graph_test_many(near, P)), c(TRUE, FALSE))
  expect_warning(texts <- graph_test_many(near, matrix(as_exact(P)$read, 1)), "P: 1 row is NA")
  expect_true(all(is.na(texts)))
})

test_that("a case that is refused is refused by its place", {
  each_way(function(way) expect_equal(refusal_of(graph_test_many(pair(), matrix(0.1, 2, 2), alpha = 0.00001))$where, refusal_of(graph_test(pair(), c(0.1, 0.1), alpha = 0.00001))$where))
})

test_that("a table of no columns is refused by their number", {
  each_way(function(way) {
    for (P in list(data.frame(), matrix(0, 2, 0), data.frame(a = c("0.1", "0.2")))) {
      expect_error(graph_test_many(pair(), P), "^P: (0 columns|1 column) given for 2 hypotheses: H1, H2$")
    }
  })
})

test_that("many trials are summarised with standard errors, by hand", {
  each_way(function(way) {
    # H1 and H2, H1, none, H1 and H2
    many <- graph_test_many(pair(c("A", "B")), rbind(c(0.001, 0.001), c(0.001, 0.9), c(0.9, 0.9), c(0.001, 0.001)))
    table <- as.data.frame(summary(many))
    expect_equal(table$rejected, c("A", "B", "any", "all", "number"))
    expect_equal(table$mean, c(0.75, 0.5, 0.75, 0.5, 1.25))
    expect_equal(table$error, c(sqrt(0.75 * 0.25 / 4), 0.25, sqrt(0.75 * 0.25 / 4), 0.25, sqrt(2.75 / 3 / 4)))
    expect_equal(table$error[5], stats::sd(c(2, 1, 0, 2)) / 2)
    expect_output(print(many), "4 trials of 2 hypotheses at level 0.025 (1/40)", fixed = TRUE)
    expect_output(print(many), "number +1.25 +0.48")
    expect_equal(class(as.matrix(many)), c("matrix", "array"))
    expect_equal(many[3, ], c(A = FALSE, B = FALSE))
    expect_equal(colMeans(many), c(A = 0.75, B = 0.5))
    expect_equal(mean(many[, "A"] & many[, "B"]), 0.5)
    expect_identical(!many, !as.matrix(many))
    expect_identical(t(many), t(as.matrix(many)))
    expect_identical(head(many, 2), as.matrix(many)[1:2, ])
    expect_equal(as.data.frame(many)$B, c(TRUE, FALSE, FALSE, TRUE))
    wide <- graph_create(c(1, 0, 0, 0), rbind(
      c("0", "1/1000000000000000000", "0", "0"), c("0", "0", "1/999999999999999999", "0"), c("0", "0", "0", "1/999999999999999997"), "0"
    ))
    some <- summary(suppressWarnings(graph_test_many(wide, rbind(rep(1, 4), rep(0, 4)), 0.05)))
    expect_equal(c(some$trials, some$undecided), c(1, 1))
    expect_output(print(some), "1 trial without a decision, left out")
    expect_equal(nrow(as.data.frame(summary(graph_test_many(pair(), matrix(0.5, 0, 2))))), 5)
  })
})

test_that("rows that would be decided otherwise with the fractions beside doubles are named", {
  each_way(function(way) {
    P <- rbind(c(0.5, 0.5), c(0.0125 + 2^-59, 1), c(0.2 + 2^-55, 1), c(0.001, 0.001))
    expect_message(found <- graph_test_many(pair(), P), "^P: 1 row would be decided otherwise with the fractions beside doubles: row 2. 0.0125.* is one unit",
      class = "welungad_tie")
    expect_equal(unname(as.matrix(found)), cbind(c(FALSE, FALSE, FALSE, TRUE), c(FALSE, FALSE, FALSE, TRUE)))
    expect_message(graph_test_many(pair(), P[-2, ]), NA)
  })
})
