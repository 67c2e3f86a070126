test_that("the diabetes trial", {
  each_way(function(way) {
    x <- graph_test(diabetes(), c(0.018, 0.01, 0.105, 0.006))
    expect_equal(names(which(x$rejected)), c("H1", "H2", "H4"))
    expect_identical(unname(x$adjusted), c(0.024, 0.02, 0.105, 0.024))
    table <- as.data.frame(x)
    expect_identical(table$level[table$hypothesis == "H2"], 0.0125)
    expect_equal(as.data.frame(x, exact = TRUE)$level, c("3/160", "1/80", "1/40", "1/80"))
    expect_equal(graph_rejections(x)$hypothesis, c("H2", "H1", "H4"))
    expect_output(print(x), "Rejected: H1, H2, H4")
    expect_output(print(x, exact = TRUE), "3/160")
  })
})

test_that("p-values are handed back as they were given, and doubles are on the side that was decided", {
  each_way(function(way) {
    one <- graph_create(c(H1 = 1), matrix(0, 1, 1))
    x <- graph_test(one, 0.0125 + 2^-59, 0.0125)
    expect_false(x$rejected[["H1"]])
    expect_false(x$adjusted[["H1"]] <= 0.0125)
    expect_identical(as.data.frame(x)$p, 0.0125 + 2^-59)
    expect_false(as.data.frame(x)$p <= as.data.frame(x)$level)
    half <- graph_test(pair(), c(0.0125 + 2^-59, 1))
    expect_false(half$adjusted[["H1"]] <= 0.025)
    expect_false(half["H1", "p"] <= half["H1", "level"])
    # a text that is above the level, and whose nearest double is that of the level
    above <- graph_test(one, "0.025000000000000000000001")
    expect_identical(as.data.frame(above)$p, 0.025)
    expect_identical(as.data.frame(above)$level, 0.025 - 2^-58)
    expect_identical(above$adjusted[["H1"]], 0.025 + 2^-58)
    below <- graph_test(one, "0.024999999999999999999999")
    expect_identical(c(as.data.frame(below)$p, as.data.frame(below)$level, below$adjusted), c(0.025, 0.025, H1 = 0.025))
    # the level 1, at which a value that is not reached is the double after it
    expect_identical(unname(graph_test(graph_create(c(1, 0), matrix(0, 2, 2)), c(1, 0.5), 1)$adjusted), c(1, 1 + 2^-52))
    # a p-value that is rounded up is the one that was given, unless it is rounded up above its level
    expect_message(x <- graph_test(one, 1e-300), class = "welungad_rounded")
    expect_identical(as.data.frame(x)$p, 1e-300)
    tiny <- graph_create(c(H1 = "1/1000000000000000000", H2 = "0"), rbind(c("0", "1/1000000000000000000"), "0"))
    expect_message(x <- graph_test(tiny, c(0, 1e-300)), class = "welungad_rounded")
    expect_identical(as.data.frame(x)$p, c(0, 1e-30))
    expect_identical(unname(x$rejected), c(TRUE, FALSE))
    expect_false(x["H2", "p"] <= x["H2", "level"])
    # the levels of a closed test
    closed <- as.data.frame(graph_test_closure(pair(), c(0.0125 + 2^-59, 1)))
    expect_equal(unname(0.0125 + 2^-59 <= closed[["level H1"]]), c(FALSE, TRUE, NA)[match(closed$intersection, c("H1, H2", "H1", "H2"))])
    # the double nearest to a level that no double is read as: its decimal is above the level or below it
    sides <- vapply(1:20, function(n) {
      p <- n / 3999640
      decimal <- welungad:::fraction(as_exact(p)$read) <= gmp::as.bigq(n, 3999640)
      closed <- as.data.frame(graph_test_closure(graph_create(c(H1 = paste0(n, "/99991")), matrix("0", 1, 1)), p, 0.025))
      expect_identical(p <= closed[["level H1"]], as.logical(decimal), info = n)
      expect_identical(closed$p_local <= 0.025, closed$local, info = n)
      as.logical(decimal)
    }, NA)
    expect_true(any(sides) && any(!sides))
  })
})

test_that("a result that was changed is an error", {
  each_way(function(way) {
    fault <- "^x: the result was changed after it was made: decide again what is meant$"
    x <- graph_test(diabetes(), c(0.018, 0.01, 0.105, 0.006))
    calls <- list(print, summary, as.data.frame, plot, graph_steps, graph_rejections, function(x) x["H1"], function(x) graph_report(x, tempfile()))
    changes <- list(
      function(x) with_part(x, "rejected", replace(x$rejected, "H3", TRUE)),
      function(x) with_part(x, "rejected", stats::setNames(x$rejected, rev(names(x$rejected)))),
      function(x) with_part(x, "order", rev(x$order)),
      function(x) with_part(x, "alpha", "1/20"),
      function(x) with_part(x, "adjusted", replace(x$adjusted, TRUE, 0.001)),
      function(x) with_part(x, "exact", replace(x$exact, "weight", list(c("1", x$exact$weight[-1])))),
      function(x) with_part(x, "graph", holm(4)),
      function(x) with_part(with_part(x, "case", sub("p ", "p 0 ", x$case)), "graph", pair()),
      function(x) with_part(x, "report", x$report[-2])
    )
    for (change in changes) for (call in calls) expect_error(call(change(x)), fault)
    expect_error(graph_steps(changes[[6]](x)), fault)
    closed <- graph_test_closure(pair(), c(0.001, 0.9))
    closed <- with_part(closed, "rejected", stats::setNames(closed$rejected, c("H2", "H1")))
    for (call in list(print, as.data.frame, plot)) expect_error(call(closed), fault)
    bounds <- graph_bounds(pair(), c(0.001, 0.9))
    bounds <- with_part(bounds, "graph", pair(c("A", "B")))
    for (call in list(print, as.data.frame)) expect_error(call(bounds), fault)
    staged <- graph_stages(pair(), list(0.01, 0.01), data.frame(hypothesis = "H1", stage = 1, p = 0.001), at = 1)
    for (change in list(list("rejected", c(H1 = TRUE, H2 = TRUE)), list("alpha", "1/20"), list("graph", pair(c("A", "B"))))) {
      changed <- with_part(staged, change[[1]], change[[2]])
      for (call in list(print, as.data.frame, plot)) expect_error(call(changed), fault)
    }
  })
})

test_that("p-values of 0, and those beside fractions, are named below what is printed", {
  each_way(function(way) {
    zero <- "The p-value of H1 is 0, which is at most every level above 0: give a value"
    for (call in list(graph_test, graph_test_closure, graph_bounds, graph_simes)) {
      expect_output(print(call(pair(), c(0, 0.5))), zero)
      expect_false(any(grepl("which is at most every level", utils::capture.output(print(call(pair(), c(0.1, 0.5)))))))
    }
    p <- c(0.0125 + 2^-59, 1)
    expect_output(print(graph_test(pair(), p)), "is one unit in the last place above 1/80; its level")
    for (call in list(graph_test_closure, graph_bounds, graph_simes)) {
      expect_output(print(call(pair(), p)), "is one unit in the last place above 1/80, with which the")
      # on the same side of its level
      expect_false(any(grepl("in the last place", utils::capture.output(print(call(pair(), c(0.2 + 2^-55, 1)))))))
    }
  })
})

test_that("labels of a picture are not those of other hypotheses", {
  each_way(function(way) {
    grDevices::pdf(NULL)
    on.exit(grDevices::dev.off())
    expect_error(plot(pair(), labels = c("H2", "H1")), "^labels: \"H2\" is another hypothesis$")
    expect_error(plot(pair(), labels = c(H2 = "low", H1 = "high")), NA)
  })
})

test_that("arguments that nothing reads are an error", {
  each_way(function(way) {
    p <- c(0.001, 0.9)
    x <- graph_test(pair(), p)
    results <- list(pair(), x, graph_test_closure(pair(), p), graph_bounds(pair(), p), graph_stages(pair(), list(0.01, 0.01), at = 1), graph_steps(x),
      graph_evidence(pair(), p), graph_check(pair(), p, evidence = graph_evidence(pair(), p)))
    for (result in results) for (call in list(print, as.data.frame)) {
      expect_error(call(result, exat = TRUE), "^exat: this call has no such argument$")
      expect_error(call(result, 1, 2, 3, 4, 5, 6), "^there are more arguments than this call has$")
    }
    for (result in results[c(1:3, 5:6)]) expect_error(plot(result, lay = cbind(1:2, 1), colour = "red"), "^colour: this call has no such argument$")
    expect_equal(data.frame(x, check.names = FALSE)$hypothesis, c("H1", "H2"))
    expect_error(as.data.frame(x, row.names = NULL, optional = TRUE, exact = TRUE), NA)
  })
})

test_that("labels are told apart in tables of any width", {
  each_way(function(way) with_options(list(width = 80), {
    labels <- paste("Change from baseline in HbA1c at week 26, semaglutide", c(5, 10), "mg vs placebo")
    graph <- graph_create(stats::setNames(c(1 / 2, 1 / 2), labels), rbind(0:1, 1:0))
    for (result in list(graph, graph_test_closure(graph, c(0.001, 0.9)), graph_bounds(graph, c(0.001, 0.9)))) {
      lines <- utils::capture.output(print(result))
      tables <- lines[seq(2, grep("^  H1: ", lines) - 1)]
      expect_true(all(nchar(tables) <= 80))
      expect_equal(sum(grepl("semaglutide", tables)), 0)
      text <- gsub(" +", " ", paste(lines, collapse = " "))
      for (i in 1:2) expect_match(text, paste0("H", i, ": ", labels[i]), fixed = TRUE)
    }
    # short labels stay, in however wide a table
    expect_output(print(graph_test_closure(holm(8), rep(0.5, 8))), "H1, H2, H3, H4, H5, H6, H7, H8")
    # a tag is no other hypothesis's label
    turned <- graph_create(stats::setNames(c(1 / 2, 1 / 2), c(labels[1], "H1")), rbind(0:1, 1:0))
    lines <- utils::capture.output(print(graph_test_closure(turned, c(0.001, 0.9))))
    expect_true(any(grepl("^  h2: H1$", lines)))
    broken <- graph_create(c("low\ndose" = 1 / 2, B = 1 / 2), rbind(0:1, 1:0))
    expect_output(print(graph_test(broken, c(0.001, 0.9))), "low\\ndose", fixed = TRUE)
    expect_output(print(broken), "low_dose for low\\ndose", fixed = TRUE)
  }))
  expect_equal(welungad:::shortened(paste0(strrep("1", 61), c(1, 2))), paste0(strrep("1", 61), c(1, 2)))
  expect_equal(welungad:::shortened(c(strrep("1", 61), "2")), c(paste0(strrep("1", 40), ".."), "2"))
})

test_that("a value that is not reached is reported", {
  each_way(function(way) {
    graph <- graph_create(c(1, 0), matrix(0, 2, 2))
    x <- graph_test(graph, c(0.01, 0.01))
    expect_equal(unname(x$reached), c(TRUE, FALSE))
    expect_output(print(x), "1 not reached")
  })
})

test_that("a p-value that looks like its level is reported", {
  each_way(function(way) {
    x <- graph_test(holm(3), c("0.0083333334", "0.5", "0.5"))
    expect_false(any(x$rejected))
    expect_output(print(x), "agree in the digits shown")
  })
})

test_that("the priorities order the rejections", {
  each_way(function(way) {
    graph <- graph_create(rep("1/4", 4), matrix(0, 4, 4))
    p <- c(0.004, 0.003, 0.001, 0.002)
    expect_equal(graph_test(graph, p)$order, c("H1", "H2", "H3", "H4"))
    expect_equal(graph_test(graph, p, priority = "last")$order, c("H4", "H3", "H2", "H1"))
    expect_equal(graph_test(graph, p, priority = "ratio")$order, c("H3", "H4", "H2", "H1"))
  })
})

test_that("each call decides at the level that it is given", {
  each_way(function(way) {
    graph <- pair()
    p <- c(0.02, 0.04)
    expect_equal(unname(graph_test(graph, p)$rejected), c(FALSE, FALSE))
    expect_equal(unname(graph_test(graph, p, alpha = 0.05)$rejected), c(TRUE, TRUE))
    expect_equal(unname(graph_test_closure(graph, p, alpha = 0.05)$rejected), c(TRUE, TRUE))
    expect_equal(bound_of(graph_bounds(graph, p, alpha = 0.05), 1:2), 2)
    expect_equal(bound_of(graph_bounds(graph, p), 1:2), 0)
    expect_equal(unname(graph_simes(graph, c(0.04, 0.05), alpha = 0.05)$rejected), c(TRUE, TRUE))
    expect_equal(unname(as.matrix(graph_test_many(graph, rbind(p, p), alpha = 0.05))), matrix(TRUE, 2, 2))
    expect_equal(graph_canon(graph, p, alpha = 0.05)[1], "alpha 1/20")
    proof <- graph_evidence(graph, p, alpha = 0.05)
    expect_equal(proof$evidence[c(1, 2, 3)], c("evidence 2", "step H1", "step H2"))
    expect_true(graph_check(graph, p, alpha = 0.05, evidence = proof)$yes)
    expect_false(graph_check(graph, p, evidence = proof)$yes)
    expect_equal(grep("^step", graph_evidence(graph, c(0.001, 0.002), priority = "last")$evidence, value = TRUE), c("step H2", "step H1"))
  })
})

test_that("closed tests show each intersection", {
  each_way(function(way) {
    x <- graph_test_closure(holm(3), c(0.01, 0.005, 0.03))
    expect_equal(names(which(x$rejected)), c("H1", "H2"))
    table <- as.data.frame(x, exact = TRUE)
    expect_equal(nrow(table), 7)
    expect_equal(table$"level H1"[table$intersection == "H1, H3"], "1/80")
    expect_equal(table$local, table$intersection != "H3")
    expect_equal(table$closed, table$intersection != "H3")
    expect_output(print(x), "Rejected: H1, H2")
    decided <- graph_test(diabetes(), c(0.018, 0.01, 0.105, 0.006))$rejected
    expect_equal(graph_test_closure(diabetes(), c(0.018, 0.01, 0.105, 0.006))$rejected, decided)
  })
})

test_that("verdicts that are not the proved ones stop", {
  sets <- list(1:2, 2L, 1L)
  expect_silent(welungad:::hold_verdicts(sets, c(TRUE, TRUE, FALSE), c(TRUE, TRUE, FALSE), 2))
  expect_error(welungad:::hold_verdicts(sets, c(FALSE, TRUE, FALSE), c(FALSE, TRUE, FALSE), 2), "not those of the proved call")
})

test_that("a closed test with other verdicts than the proved ones stops", {
  each_way(function(way) {
    case <- graph_canon(pair(), c(0.001, 0.9))
    place <- tempfile("stand-in-")
    for (command in c("bounds", "weights", "canon", "test")) cat(welungad_run(command, case)$text, file = paste0(place, ".", command))
    writeLines(c("#!/bin/sh", "cat \"$0.$1\""), place)
    Sys.chmod(place, "755")
    expect_equal(with_program(place, graph_test_closure(pair(), c(0.001, 0.9))$rejected), c(H1 = TRUE, H2 = FALSE))
    bounds <- paste0(place, ".bounds")
    writeLines(sub("^bound 1 of H1$", "bound 0 of H1", readLines(bounds)), bounds)
    expect_error(with_program(place, graph_test_closure(pair(), c(0.001, 0.9))), "the verdicts here are not those of the proved call")
  })
})

test_that("bounds of true discoveries", {
  each_way(function(way) {
    x <- graph_bounds(holm(3), c(0.01, 0.005, 0.03))
    expect_equal(bound_of(x, c("H1", "H2")), 2)
    expect_equal(bound_of(x, 3), 0)
    expect_equal(bound_of(x, 1:3), 2)
    expect_equal(bound_of(x, character()), 0)
    expect_output(print(x), "Bonferroni")
    expect_equal(nrow(as.data.frame(x)), 7)
    pair <- graph_create(c(1 / 2, 1 / 2), rbind(0:1, 1:0))
    simes <- graph_simes(pair, c(0.04, 0.05), 0.05)
    expect_true(all(simes$rejected))
    expect_equal(simes$top, 1:2)
    expect_output(print(simes), "Simes")
  })
})

test_that("entangled graphs remember where weight came from", {
  each_way(function(way) {
    x <- graph_test(entangled(), c(0.02, 0.04, 0.01, 0.04), 0.05)
    expect_equal(names(which(x$rejected)), c("A", "B", "C"))
    expect_true(graph_steps(x)$compared)
    expect_output(print(entangled()), "2 components")
    expect_error(graph_entangle(holm(2), holm(3), shares = c(0.5, 0.5)), "same hypotheses")
    other <- graph_create(c("a b" = 1), matrix(0, 1, 1))
    alike <- graph_create(c(a_b = 1), matrix(0, 1, 1))
    expect_error(graph_entangle(other, alike, shares = c(0.5, 0.5)), "same hypotheses")
  })
})

test_that("names and labels", {
  each_way(function(way) {
    graph <- graph_create(c("HbA1c low" = 1 / 2, "HbA1c_low" = 1 / 2), rbind(0:1, 1:0))
    expect_equal(graph$labels, c("HbA1c low", "HbA1c_low"))
    expect_equal(graph$names, c("HbA1c_low_2", "HbA1c_low"))
    x <- graph_test(graph, c("HbA1c_low" = 0.5, "HbA1c low" = 0.001))
    expect_equal(unname(x$rejected), c(TRUE, FALSE))
    expect_output(print(x), "HbA1c low ")
    expect_error(graph_test(graph, c(a = 0.1, b = 0.2)), "p: no hypothesis has the name \"a\"", fixed = TRUE)
    long <- graph_create(1, matrix(0, 1, 1), hyp_names = strrep("long name ", 9))
    expect_true(nchar(long$names) <= 32)
    other <- graph_create(c(A = 1), matrix(0, 1, 1), labels = "overall survival")
    expect_output(print(other), "A for overall survival")
    expect_error(graph_create(c(A = 1, B = 0), matrix(0, 2, 2, dimnames = list(c("B", "A"), NULL))), "name rows and columns")
  })
})

test_that("a graph shows what was read", {
  each_way(function(way) {
    expect_output(print(holm(3)), "0.333333333333333 as 1/3")
    expect_output(print(graph_create(c(0.1 + 0.2, 0.5), matrix(0, 2, 2))), "0.30000000000000004 as this decimal")
    table <- as.data.frame(holm(3))
    expect_identical(table$weight, rep(1 / 3, 3))
    expect_equal(as.data.frame(holm(3), exact = TRUE)$weight, rep("1/3", 3))
  })
})

test_that("evidence is made and checked", {
  each_way(function(way) {
    p <- c(0.018, 0.01, 0.105, 0.006)
    proof <- graph_evidence(diabetes(), p)
    check <- graph_check(diabetes(), p, evidence = proof)
    expect_true(check$yes)
    expect_setequal(check$listed, c("H1", "H2", "H4"))
    expect_equal(check$kept, "H3")
    expect_output(print(check), "The evidence holds")
    other <- graph_check(diabetes(), c(0.5, 0.01, 0.105, 0.006), evidence = proof$evidence)
    expect_false(other$yes)
    expect_match(other$reason, "^step [0-9] ?.*above level")
    expect_output(print(other), "does not hold")
    expect_equal(proof$case, graph_canon(diabetes(), p))
    broken <- refusal_of(graph_check(diabetes(), p, evidence = proof$evidence[-1]))
    expect_match(broken$line, "^malformed: proof line 1: ")
  })
})

test_that("pictures are drawn", {
  each_way(function(way) {
    file <- tempfile(fileext = ".pdf")
    grDevices::pdf(file)
    on.exit(unlink(file))
    plot(holm(8), main = "Holm")
    plot(entangled())
    plot(graph_catalogue("improved-parallel", 3, 3), layout = cbind(1:3, rep(2:1, each = 3)))
    x <- graph_test(diabetes(), c(0.018, 0.01, 0.105, 0.006))
    plot(x)
    plot(graph_steps(x))
    plot(graph_create(1, matrix(0, 1, 1)))
    plot(holm(16))
    plot(graph_catalogue("fallback", 20), main = "fallback")
    plot(graph_catalogue("improved-parallel", 5, 5), layout = structure(cbind(1:10, rep(2:1, 5)), dimnames = list(paste0("H", 1:10), NULL)))
    closed <- graph_test_closure(diabetes(), c(0.018, 0.01, 0.105, 0.006))
    plot(closed)
    plot(graph_stages(diabetes(), rep(list(0.001), 4), at = 1))
    expect_error(plot(graph_bounds(diabetes(), c(0.018, 0.01, 0.105, 0.006))), "x: bounds have no picture: plot(x$graph) draws", fixed = TRUE)
    expect_error(plot(holm(3), layout = cbind(1:2, 1:2)), "layout: a matrix of numbers is needed")
    expect_error(plot(holm(2), layout = cbind(1:2, c(1, Inf))), "layout: a matrix of numbers is needed")
    expect_error(plot(holm(3), layout = cbind(c(1, 2, 1), 1)), "^layout: the third has the place of another hypothesis$")
    grDevices::dev.off()
    expect_true(file.size(file) > 1000)
  })
})

# A chain of hypotheses with long labels.
chain_of <- function(n) {
  edges <- matrix(0, n, n)
  edges[cbind(seq_len(n - 1), seq_len(n - 1) + 1)] <- 1
  graph_create(c(1, rep(0, n - 1)), edges, labels = paste("Change from baseline in the secondary endpoint number", seq_len(n)))
}

# What is planned for the picture of a graph on a page of 7 by 7 inches.
plan_of <- function(graph, layout = NULL) {
  grDevices::pdf(NULL)
  on.exit(grDevices::dev.off())
  graphics::par(mar = rep(0.5, 4))
  graphics::plot.new()
  nodes <- welungad:::nodes_of(graph, graph, layout, NULL)
  picture <- welungad:::picture_of(graph, graph, nodes, 1)
  plan <- picture$plan
  boxes <- welungad:::boxes_of(plan$points, plan$unit)
  list(
    side = plan$side,
    is_crowded = picture$is_crowded,
    is_clear = plan$side == "inside" || welungad:::are_clear(plan$labels, nodes, plan$texts, plan$size, plan$unit),
    is_whole = all(apply(boxes[, 3:4], 2, max) - apply(boxes[, 1:2], 2, min) <= graphics::par("pin") + 1e-6)
  )
}

test_that("labels of pictures are whole, and hide neither each other nor circles", {
  each_way(function(way) {
    for (n in c(2, 3, 8, 12, 16, 24, 40)) {
      plan <- plan_of(chain_of(n))
      expect_true(plan$is_clear && plan$is_whole, info = n)
      expect_equal(plan$side, if (n <= 8) "inside" else if (n <= 12) "outwards" else "rays", info = n)
    }
    plan <- plan_of(chain_of(24), cbind(rep(1:6, 4), rep(1:4, each = 6)))
    expect_true(plan$is_clear && plan$is_whole)
    expect_equal(plan_of(holm(24))$side, "inside")
  })
})

test_that("numbers of edges that would hide each other are below the picture", {
  each_way(function(way) {
    expect_false(plan_of(diabetes())$is_crowded)
    expect_false(plan_of(holm(6))$is_crowded)
    expect_true(plan_of(holm(8))$is_crowded)
    expect_true(plan_of(graph_catalogue("improved-parallel", 4, 4))$is_crowded)
    file <- tempfile(fileext = ".pdf")
    grDevices::pdf(file)
    on.exit(unlink(file))
    plot(graph_catalogue("improved-parallel", 4, 4))
    plot(graph_entangle(holm(8), graph_catalogue("fixed-sequence", 8), shares = c(1 / 2, 1 / 2)), main = "two graphs")
    plot(graph_steps(graph_test(chain_of(5), c(0.01, 0.01, 0.01, 1, 1))))
    grDevices::dev.off()
    expect_true(file.size(file) > 1000)
  })
})

test_that("numbers in pictures are short", {
  expect_equal(welungad:::short_text("3333/10000"), "0.3333")
  expect_equal(welungad:::short_text("1/3"), "1/3")
  expect_true(is.expression(welungad:::short_text("1-\\epsilon")))
  expect_true(is.expression(welungad:::short_text("12345678/98765432")))
  expect_equal(welungad:::plain_text("1-1/2*\\epsilon"), "1-1/2*eps")
  expect_equal(welungad:::plain_text("12345678/98765432"), "about 0.125")
  expect_equal(welungad:::columns_for(5, c(7, 7)), 3)
  expect_equal(welungad:::columns_for(4, c(7, 2)), 4)
})

test_that("each arrow goes from its hypothesis to the other, and each weight is at its own", {
  each_way(function(way) {
    edges <- rbind(c("0", "1/4", "0"), "0", c("3/4", "0", "0"))
    graph <- graph_create(c(A = "1/2", B = "1/3", C = "1/7"), edges)
    at <- welungad:::default_layout(3)
    nearest <- function(point) graph$labels[which.min((at[, 1] - point[1])^2 + (at[, 2] - point[2])^2)]
    drawn <- function(graph, all) vapply(welungad:::arrows_of(graph, all, welungad:::nodes_of(graph, all, at, NULL), FALSE), function(it) {
      paste(nearest(it$path[1, ]), nearest(it$path[nrow(it$path), ]), it$text)
    }, "")
    expect_setequal(drawn(graph, graph), c("A B 1/4", "C A 3/4"))
    rest <- graph_update(graph, "A")$updated_graph
    expect_equal(drawn(rest, graph), "C B 3/16")
    nodes <- welungad:::nodes_of(rest, graph, at, NULL)
    expect_equal(nodes$weights, list(character(), "11/24", "1/7"))
    expect_equal(nodes$here, c(FALSE, TRUE, TRUE))
    x <- graph_test(graph, c(A = 0.9, B = 0.001, C = 0.9))
    expect_equal(welungad:::nodes_of(graph, graph, at, x$rejected)$fill, replace(rep(welungad:::fill_plain, 3), 2, welungad:::fill_rejected))
  })
})

test_that("gatekeeping graphs are drawn in two rows", {
  each_way(function(way) {
    expect_equal(welungad:::default_layout(6, graph_bretz_2011()), cbind(c(-2, 0, 2, -2, 0, 2), rep(c(1, -1), each = 3)))
    expect_equal(welungad:::default_layout(5, graph_catalogue("parallel", 2, 3))[, 1], c(-1, 1, -2, 0, 2))
    for (graph in list(holm(6), graph_fixed_sequence(6), graph_gatekeeping_parallel(2, 7), graph_fallback(6))) {
      expect_equal(welungad:::default_layout(length(graph$names), graph), welungad:::circle_places(length(graph$names)))
    }
    # labels beside the circles are above and below them
    wide <- graph_catalogue("parallel", 3, 3)
    labels <- paste("Change from baseline in the secondary endpoint number", 1:6, "of the trial, with imputed values")
    nodes <- welungad:::nodes_of(wide, wide, NULL, NULL, labels)
    expect_equal(nodes$side, "rows")
    grDevices::pdf(NULL)
    on.exit(grDevices::dev.off())
    graphics::plot.new()
    points <- welungad:::label_points(nodes, labels, 0.5)
    expect_true(all(points$up[1:3] > 0 & points$down[1:3] == 0) && all(points$down[4:6] > 0 & points$up[4:6] == 0))
  })
})

test_that("no text at an arrow hides the head of an arrow", {
  each_way(function(way) {
    for (graph in list(graph_catalogue("improved-parallel", 3, 3), graph_catalogue("improved-parallel", 2, 2), graph_bretz_2011(), holm(5), diabetes())) {
      for (size in c(5, 7, 10)) for (layout in list(NULL, "circle", "grid")) {
        grDevices::pdf(NULL, size, size)
        graphics::par(mar = rep(0.5, 4))
        graphics::plot.new()
        places <- welungad:::places_given(layout, graph, NULL, NULL)
        nodes <- welungad:::nodes_of(graph, graph, places, NULL)
        picture <- welungad:::picture_of(graph, graph, nodes, 1)
        heads <- welungad:::head_boxes(picture$arrows, picture$unit, 1)
        if (!picture$is_crowded) {
          hidden <- apply(picture$boxes$boxes, 1, function(box) sum(welungad:::hidden_area(box, heads)))
          expect_equal(max(hidden), 0, info = paste(format(graph), size, layout))
        }
        grDevices::dev.off()
      }
    }
  })
})

test_that("places, labels and colours are the user's", {
  each_way(function(way) {
    graph <- graph_create(c("low dose" = 1 / 2, B = 1 / 2, C = 0), rbind(c(0, 1, 0), c(0, 0, 1), c(1, 0, 0)))
    look <- welungad:::look_of(graph, "grid", c(C = "third", B = "second", low_dose = "first"), c("#6baed6", "#cccccc"), nrow = 1)
    expect_equal(look$layout, cbind(0:2, 0))
    expect_equal(look$labels, c("first", "second", "third"))
    expect_equal(welungad:::places_given("grid", graph, NULL, NULL), cbind(c(0, 1, 0), c(0, 0, -1)))
    expect_equal(welungad:::places_given(NULL, graph, NULL, 1), cbind(0, -(0:2)))
    nodes <- welungad:::nodes_of(graph, graph, look$layout, c(FALSE, TRUE, FALSE), look$labels, look$palette)
    expect_equal(nodes$fill, c("#6baed6", "#cccccc", "#6baed6"))
    expect_equal(nodes$labels, c("first", "second", "third"))
    grDevices::pdf(NULL)
    on.exit(grDevices::dev.off())
    expect_silent(plot(graph, nrow = 1, labels = c("a", "b", "c"), v_palette = "white"))
    expect_silent(plot(graph_steps(graph_test(graph, c(0.01, 0.9, 0.9))), layout = "circle", v_palette = c("white", "grey50")))
    expect_silent(plot(graph_test(graph, c(0.01, 0.9, 0.9)), ncol = 2, labels = c("a", "b", "c")))
    if (requireNamespace("igraph", quietly = TRUE)) expect_silent(plot(graph, layout = igraph::layout_in_circle))
    expect_error(plot(graph, labels = c("a", "a", "b")), "^labels: the name \"a\" occurs twice$")
    expect_error(plot(graph, labels = c("a", "b")), "^labels: 2 given for 3 hypotheses$")
    expect_error(plot(graph, labels = c(A = "a", B = "b", C = "c")), "^labels: no hypothesis has the name \"A\"")
    expect_error(plot(graph, layout = "ring"), "^layout: one of \"grid\", \"circle\" is needed")
    expect_error(plot(graph, nrow = 1, ncol = 2), "^nrow: 1 rows of 2 have no room for 3 hypotheses$")
    expect_error(plot(graph, v_palette = "no colour"), "^v_palette: ")
    expect_error(plot(graph, v_palette = c("white", "grey", "black")), "^v_palette: one or two colours are needed$")
  })
})

test_that("parts of results are taken, and summaries are made", {
  each_way(function(way) {
    p <- c(0.018, 0.01, 0.105, 0.006)
    x <- graph_test(diabetes(), p)
    expect_equal(x["H2"]$step, 1)
    expect_equal(x["H2", "p"], 0.01)
    expect_equal(dim(x["H2", c("p", "step")]), c(1, 2))
    expect_equal(x[]$hypothesis, x$graph$labels)
    expect_equal(x["H2", ]$step, x["H2", drop = FALSE]$step)
    expect_equal(x[c(H4 = TRUE, H1 = FALSE, H2 = FALSE, H3 = FALSE)]$hypothesis, "H4")
    expect_output(print(summary(x)), "3 of 4 are rejected")
    expect_match(format(x), "Graphical test of 4 hypotheses at level 0.025")
    closed <- graph_test_closure(diabetes(), p)
    expect_equal(length(closed[1:2]$sets), 2)
    expect_equal(summary(closed)$intersections, c(4, 6, 4, 1))
    expect_equal(sum(summary(closed)$closed), sum(closed$closed))
    expect_output(print(closed, most = 2), "and 13 more intersections")
    expect_equal(head(closed, 12)$bound, closed$bound[1:12])
    expect_equal(tail(closed, 2)$sets, closed$sets[14:15])
    expect_equal(c(head(x, -3)$hypothesis, tail(x, 1)$hypothesis), c("H1", "H4"))
    expect_equal(nrow(head(x)), 4)
    bounds <- graph_bounds(diabetes(), p)
    expect_equal(sum(summary(bounds)), 15)
    expect_equal(nrow(as.data.frame(head(bounds, 20))), 15)
    expect_equal(tail(bounds, 1)$sets, bounds$sets[15])
    expect_output(print(bounds[1:3], most = 2), "and 1 more set, which as.data.frame has")
    for (wrong in list("H1", "H1, H2", 16, c(16, 1), NA, c(TRUE, NA))) {
      for (x in list(bounds, closed)) expect_error(x[wrong], "^i: sets are taken by their places from 1 to 15$")
    }
    expect_equal(bound_of(bounds[], 1:4), bound_of(bounds, 1:4))
    expect_equal(closed[rep(c(FALSE, TRUE), c(14, 1))]$bound, closed$bound[15])
    expect_equal(summary(diabetes())$edges_from, c(2, 2, 1, 1))
    expect_equal(format(entangled()), "Graph of 4 hypotheses with 2 components")
    n <- share_of(way, 16, 8)
    expect_output(print(graph_test_closure(holm(n), rep(1, n)), most = 3), paste("and", 2^n - 4, "more intersections"))
  })
})
