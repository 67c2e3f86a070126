# The edges of a graph as exact texts, row by row.
edges_of <- function(graph) unname(as.matrix(graph, exact = TRUE))

rejected_by <- function(graph, p, alpha = 0.025) names(which(graph_test(graph, p, alpha)$rejected))

same_graph <- function(graph, other) expect_identical(graph$components, other$components)

test_that("named graphs are those that the program knows by name", {
  each_way(function(way) {
    for (n in c(1, 2, 5)) {
      same_graph(graph_holm(n), graph_catalogue("holm", n))
      same_graph(graph_fixed_sequence(n), graph_catalogue("fixed-sequence", n))
      same_graph(graph_fallback(n), graph_catalogue("fallback", n))
    }
    for (sizes in list(c(2, 2), c(3, 2), c(2, 3), c(1, 2))) {
      same_graph(graph_gatekeeping_parallel(sizes[1], sizes[2]), graph_catalogue("parallel", sizes[1], sizes[2]))
      same_graph(graph_gatekeeping_improved(sizes[1], sizes[2]), graph_catalogue("improved-parallel", sizes[1], sizes[2]))
    }
    same_graph(graph_simple_successive_2(), diabetes())
  })
})

test_that("Bonferroni and Holm: the five hypotheses of gMCP's manual", {
  each_way(function(way) {
    p <- c(0.01, 0.02, 0.04, 0.04, 0.7)
    x <- graph_test(graph_bonferroni(5), p, 0.05)
    expect_identical(unname(x$adjusted), c(0.05, 0.1, 0.2, 0.2, 1))
    expect_false(x$reached[["H5"]])
    expect_identical(unname(graph_test(graph_holm(5), p, 0.05)$adjusted), c(0.05, 0.08, 0.12, 0.12, 0.7))
  })
})

test_that("weighted Holm", {
  each_way(function(way) {
    graph <- graph_holm(weights = c(1 / 2, 1 / 4, 1 / 4))
    expect_identical(edges_of(graph), rbind(c("0", "1/2", "1/2"), c("2/3", "0", "1/3"), c("2/3", "1/3", "0")))
    # p / w is 0.04, 0.04, 0.12; then 0.02 and 0.06; then 0.03
    x <- graph_test(graph, c(0.02, 0.01, 0.03), 0.05)
    expect_true(all(x$rejected))
    expect_identical(unname(x$adjusted), c(0.04, 0.04, 0.04))
    # in each intersection the weights are in proportion
    weights <- as.data.frame(graph_weights(graph_holm(weights = c(A = 1 / 2, B = 1 / 3, C = 1 / 6))), exact = TRUE)
    expect_identical(weights$"weight A"[match(c("A, B", "A, C"), weights$intersection)], c("3/5", "3/4"))
    expect_identical(weights$"weight B"[match(c("A, B", "B, C"), weights$intersection)], c("2/5", "2/3"))
    # weights that sum to less than 1 too
    expect_identical(edges_of(graph_holm(weights = c("1/8", "1/4", "1/8")))[1, ], c("0", "2/3", "1/3"))
    expect_error(graph_holm(weights = c(1, 0)), "^weights: Holm's procedure needs weights above 0$")
  })
})

test_that("fixed sequence and fallback, with both improvements", {
  each_way(function(way) {
    expect_identical(rejected_by(graph_fixed_sequence(3), c(0.01, 0.03, 0.01)), "H1")
    expect_identical(rejected_by(graph_fixed_sequence(names = c("OS", "PFS")), c(0.025, 0.025)), c("OS", "PFS"))
    # H2 has three quarters, 0.01875
    weights <- c(1 / 2, 1 / 4, 1 / 4)
    expect_identical(rejected_by(graph_fallback(weights = weights), c(0.01, 0.02, 0.02)), "H1")
    expect_identical(rejected_by(graph_fallback(weights = weights), c(0.01, 0.018, 0.02)), c("H1", "H2", "H3"))
    one <- graph_fallback_improved_1(weights = weights)
    expect_identical(edges_of(one), rbind(c("0", "1", "0"), c("0", "0", "1"), c("2/3", "1/3", "0")))
    # without H3, H1 has 1/2 + 1/4 * 2/3 = 2/3, 0.0166..
    expect_identical(rejected_by(one, c(0.016, 0.9, 0.006)), c("H1", "H3"))
    expect_identical(rejected_by(graph_fallback(weights = weights), c(0.016, 0.9, 0.006)), "H3")
    two <- graph_fallback_improved_2(weights = c(1 / 4, 1 / 4, 1 / 4, 1 / 4))
    expect_identical(edges_of(two), rbind(c("0", "1", "0", "0"), c("1-\\epsilon", "0", "\\epsilon", "0"), c("1-\\epsilon", "0", "0", "\\epsilon"),
      c("1", "0", "0", "0")))
    # H3 passes all to H1, which has one half; then H2 has three quarters, and H4 all
    expect_identical(graph_test(two, c(0.0125, 0.018, 0.006, 0.02))$order, c("H3", "H1", "H2", "H4"))
    expect_identical(edges_of(graph_fallback_improved_2(2)), rbind(c("0", "1"), c("1", "0")))
    expect_identical(edges_of(graph_fallback_improved_1(1)), matrix("0", 1, 1))
  })
})

test_that("gatekeeping", {
  each_way(function(way) {
    p <- c(0.02, 0.04, 0.01, 0.02)
    # H1 passes a quarter to each of H3 and H4; H2 keeps half, and all once these are rejected in the improved form
    expect_identical(rejected_by(graph_gatekeeping_parallel(2, 2), p, 0.05), c("H1", "H3", "H4"))
    expect_identical(rejected_by(graph_gatekeeping_improved(2, 2), p, 0.05), c("H1", "H2", "H3", "H4"))
    # serial: Holm in the first family, and then in the second
    serial <- graph_gatekeeping_serial(2, 2)
    expect_identical(rejected_by(serial, c(0.01, 0.03, 0.001, 0.02), 0.05), c("H1", "H2", "H3", "H4"))
    expect_identical(rejected_by(serial, c(0.01, 0.06, 0.001, 0.001), 0.05), "H1")
    expect_identical(rejected_by(serial, c(0.01, 0.03, 0.03, 0.03), 0.05), c("H1", "H2"))
    # weighted Holm in the first family: without A, B has 3/4 of the level
    weighted <- graph_gatekeeping_serial(3, 1, weights = c(A = 1 / 2, B = 3 / 8, C = 1 / 8), names = c("A", "B", "C", "D"))
    expect_identical(graph_weights(weighted)[c("1", "9"), 5:8], rbind("1" = c(A = 1 / 2, B = 3 / 8, C = 1 / 8, D = 0), "9" = c(0, 3 / 4, 1 / 4, 0)))
    expect_identical(unname(graph_weights(weighted)["15", 8]), 1)
    for (n in 2:4) for (m in 1:3) {
      # as long as a primary hypothesis is left, the secondary ones have no weight
      weights <- graph_weights(graph_gatekeeping_serial(n, m))
      left <- rowSums(weights[, seq_len(n), drop = FALSE])
      expect_true(all(weights[left > 0, n + m + n + seq_len(m)] == 0))
      expect_equal(unname(rowSums(weights[, n + m + seq_len(n + m)])), rep(1, nrow(weights)))
    }
    # a single secondary hypothesis passes all back
    expect_identical(rejected_by(graph_gatekeeping_improved(1, 1), c(0.01, 0.02)), c("H1", "H2"))
    expect_identical(edges_of(graph_gatekeeping_improved(1, 1)), rbind(c("0", "1"), c("1", "0")))
    expect_identical(graph_gatekeeping_parallel(2, 1, weights = c(2 / 3, 1 / 3))$hypotheses, c(H1 = 2 / 3, H2 = 1 / 3, H3 = 0))
    # the weights in the order of the names
    named <- graph_gatekeeping_parallel(2, 1, weights = c(B = 1 / 3, A = 2 / 3), names = c("A", "B", "C"))
    expect_identical(named$hypotheses, c(A = 2 / 3, B = 1 / 3, C = 0))
  })
})

test_that("truncated Holm", {
  each_way(function(way) {
    graph <- graph_truncated_holm(1 / 2)
    expect_identical(edges_of(graph), rbind(c("0", "1/2", "1/4", "1/4"), c("1/2", "0", "1/4", "1/4"), c("0", "0", "0", "1"), c("0", "0", "1", "0")))
    # without H1, H2 has (1 + 1/2)/2 of the level, 0.0375; H3 and H4 have an eighth, 0.00625
    expect_identical(rejected_by(graph, c(0.01, 0.04, 0.005, 0.012), 0.05), c("H1", "H3", "H4"))
    expect_identical(rejected_by(graph, c(0.01, 0.0375, 0.9, 0.9), 0.05), c("H1", "H2"))
    same_graph(graph_truncated_holm(0), graph_gatekeeping_parallel(2, 2))
    expect_identical(edges_of(graph_truncated_holm("1-\\epsilon"))[1, ], c("0", "1-\\epsilon", "1/2*\\epsilon", "1/2*\\epsilon"))
    for (wrong in list(1.1, -0.1, "a", c(0.1, 0.2), NA)) expect_error(graph_truncated_holm(wrong), "^gamma: ")
  })
})

test_that("successive procedures", {
  each_way(function(way) {
    one <- graph_simple_successive_1()
    expect_identical(edges_of(one), rbind(c("0", "0", "1", "0"), c("0", "0", "0", "1"), c("0", "1", "0", "0"), c("1", "0", "0", "0")))
    # half for H1, then for H3, then all for H2 and for H4
    expect_identical(graph_test(one, c(0.02, 0.03, 0.02, 0.04), 0.05)$order, c("H1", "H3", "H2", "H4"))
    # the published adjusted p-values of the diabetes trial
    x <- graph_test(graph_simple_successive_2(), c(0.018, 0.01, 0.105, 0.006))
    expect_identical(unname(x$adjusted), c(0.024, 0.02, 0.105, 0.024))
    expect_identical(names(which(x$rejected)), c("H1", "H2", "H4"))
    expect_identical(edges_of(graph_general_successive(1 / 3, 1 / 4)), rbind(c("0", "1/3", "2/3", "0"), c("1/4", "0", "0", "3/4"),
      c("0", "1", "0", "0"), c("1", "0", "0", "0")))
    same_graph(graph_general_successive(0, 0), one)
    expect_identical(graph_general_successive(0, 0, weights = c(0.6, 0.4), names = c("a", "b", "c", "d"))$hypotheses, c(a = 0.6, b = 0.4, c = 0, d = 0))
  })
})

test_that("graphs of publications", {
  each_way(function(way) {
    # H1 passes half to H2 and H3; H3 passes half to H2, which then has 3/4, 0.01875
    expect_identical(rejected_by(graph_huque_2011(), c(0.01, 0.02, 0.001, 0.2)), c("H1", "H3"))
    expect_identical(rejected_by(graph_huque_2011(), c(0.01, 0.0187, 0.001, 0.2)), c("H1", "H2", "H3"))
    expect_equal(unname(rowSums(graph_huque_2011()$transitions)), c(1, 1, 1, 1))
    # H21 and H31 have 1/3, 0.00833..; then H32 has 4/9 * 3/5 = 4/15, 0.00667..; in the end H11 has 2/3 and H22 1/3
    x <- graph_test(graph_bretz_2011(), c(0.1, 0.008, 0.005, 0.15, 0.04, 0.006))
    expect_identical(x$order, c("H21", "H31", "H32"))
    expect_identical(x$exact$weight, c("2/3", "1/3", "4/9", "0", "1/3", "4/15"))
    expect_equal(unname(rowSums(graph_bretz_2011()$transitions)), rep(1, 6))
    # S1 has 1/2 + 1/2 * 1/2, 0.01875
    graph <- graph_hung_wang_2010(nu = 1 / 2, tau = 1 / 2, omega = 1 / 2)
    expect_identical(rejected_by(graph, c(0.01, 0.02, 0.01, 0.3)), c("NI1", "NI2"))
    expect_identical(rejected_by(graph, c(0.01, 0.018, 0.01, 0.3)), c("NI1", "S1", "NI2"))
    expect_identical(edges_of(graph_hung_wang_2010(1 / 4, 1 / 5, 1 / 8)), rbind(c("0", "1/4", "3/4", "0"), c("0", "0", "1/5", "4/5"),
      c("0", "1/8", "0", "7/8"), "0"))
    expect_error(graph_huque_2011(c("a", "b")), "^names: 2 hypotheses given, and by graph 4$")
  })
})

test_that("number, weights and names of hypotheses fit", {
  each_way(function(way) {
    expect_identical(names(graph_holm(names = c("low dose", "high dose"))), c("low dose", "high dose"))
    expect_identical(graph_fallback(weights = c(B = 1 / 4, A = 3 / 4), names = c("A", "B"))$hypotheses, c(A = 3 / 4, B = 1 / 4))
    expect_error(graph_holm(), "^size: the number of hypotheses is needed, or their weights or names$")
    expect_error(graph_holm(3, names = c("a", "b")), "^names: 2 hypotheses given, and by size 3$")
    expect_error(graph_fallback(weights = c(A = 1), names = "B"), "^weights: no hypothesis has the name \"A\"")
    expect_error(graph_holm(0), "^size: a whole number from 1 on is needed$")
    expect_error(graph_holm(2.5), "^size: the first is 2.5, which is not a whole number$")
    expect_error(graph_gatekeeping_parallel(2, 2, weights = c(1, 0, 0)), "^weights: 3 hypotheses given, and by primary 2$")
    expect_error(graph_gatekeeping_parallel(2, 2, names = "a"), "^names: 1 hypothesis given")
    expect_match(refusal_of(graph_fallback(weights = c(0.7, 0.7)))$where, "^hypotheses: the weights sum to more than 1")
    expect_match(refusal_of(graph_holm(65))$line, "^limit: hypotheses 65$")
  })
})
