# A data frame with whole numbers as the names of its rows, as read.csv(row.names = 1) makes them.
with_rows <- function(frame, rows) {
  attr(frame, "row.names") <- as.integer(rows)
  frame
}

test_that("whole numbers that are the names of rows are names", {
  each_way(function(way) {
    edges <- matrix(c("0", "0", "0", "1/2", "0", "0", "1/2", "1", "0"), 3)
    graph <- graph_create(c("10" = "1/2", "20" = "1/3", "30" = "1/6"), edges)
    p <- with_rows(data.frame(p = c(0.004, 0.9, 0.03)), c(20, 10, 30))
    expect_equal(graph_test(graph, p)$exact$p, c("9/10", "1/250", "3/100"))
    read <- utils::read.csv(text = "dose,p\n20,0.004\n10,0.9\n30,0.03", row.names = 1)
    expect_equal(graph_test(graph, read)$exact$p, c("9/10", "1/250", "3/100"))
    expect_equal(as_exact(read)["10", "p"]$read, "9/10")
    # sorted
    counted <- graph_create(c("1" = "1/2", "2" = "1/3", "3" = "1/6"), edges)
    plain <- data.frame(p = c(0.9, 0.004, 0.03))
    expect_equal(graph_test(counted, plain[order(plain$p), , drop = FALSE])$exact$p, c("9/10", "1/250", "3/100"))
    expect_equal(graph_test(counted, plain)$exact$p, c("9/10", "1/250", "3/100"))
    expect_error(graph_test(graph_create(c(H1 = 1, H2 = 0, H3 = 0), edges), plain[order(plain$p), , drop = FALSE]),
      "^p: no hypothesis has the name \"2\".*give rows the names of the hypotheses, or a column hypothesis$")
    expect_error(graph_test(counted, plain[c(1, 3), , drop = FALSE]), "^p: nothing is given for \"2\"$")
    # beside a column hypothesis the order of rows says nothing
    long <- data.frame(hypothesis = c("3", "1", "2"), p = c(0.03, 0.9, 0.004))
    expect_equal(graph_test(counted, long[order(long$hypothesis), ])$exact$p, c("9/10", "1/250", "3/100"))
    expect_error(graph_test(graph, with_rows(data.frame(hypothesis = c("10", "20", "30"), p = 0.1), c(20, 10, 30))), "^p: the numbers have the names 20, 10, 30")
    weights <- with_rows(data.frame(weight = c("1/3", "1/2", "1/6")), c(20, 10, 30))
    expect_equal(graph_create(weights, edges, hyp_names = c("10", "20", "30"))$components, graph$components)
    sheet <- utils::read.csv(text = "dose,10,20,30\n20,0,0,1\n10,0,0.5,0.5\n30,0,0,0", row.names = 1, check.names = FALSE)
    for (form in list(sheet, as.matrix(sheet), as_exact(sheet))) {
      expect_equal(graph_create(weights, form, hyp_names = c("10", "20", "30"))$components, graph$components)
    }
    levels <- with_rows(data.frame(V1 = c(0.002, 0.001, 0.003), V2 = c(0.004, 0.003, 0.005)), c(20, 10, 30))
    expect_match(graph_stages(graph, levels, at = 1)$case, "spend 10 1/25 3/25\nspend 20 2/25 4/25\nspend 30 3/25 1/5\n", fixed = TRUE)
    at <- with_rows(data.frame(at = c(1, 1 / 2, 1)), c(20, 10, 30))
    expect_match(graph_stages(graph, levels, at = at)$case, "spend 10 2/25 6/25\n", fixed = TRUE)
    place <- with_rows(data.frame(x = c(1, 0, 2), y = 0), c(20, 10, 30))
    expect_equal(welungad:::checked_layout(place, graph)[, 1], 0:2)
    expect_equal(welungad:::checked_layout(with_rows(place, 1:3), graph)[, 1], c(1, 0, 2))
  })
})

test_that("rows that are only numbered are an error if the hypotheses are called 1, 2 and so on in another order", {
  each_way(function(way) {
    labels <- c("3", "1", "2")
    edges <- matrix(c("0", "0", "0", "1/2", "0", "0", "1/2", "1", "0"), 3)
    graph <- graph_create(stats::setNames(c("1/2", "1/3", "1/6"), labels), edges)
    told <- "the rows are numbered 1, 2 and so on, and the hypotheses are called 3, 1, 2: give a "
    vector <- paste0(told, "vector with these names, or a column hypothesis")
    plain <- data.frame(p = c(0.004, 0.9, 0.03))
    # as a file has them that was written with the names of the rows
    read <- utils::read.csv(text = "dose,p\n1,0.004\n2,0.9\n3,0.03", row.names = 1)
    for (p in list(plain, read, structure(plain, class = c("tbl_df", "tbl", "data.frame")))) {
      for (call in list(graph_test, graph_bounds, graph_simes, graph_test_closure, graph_evidence, graph_canon)) {
        expect_error(call(graph, p), paste0("p: ", vector), fixed = TRUE)
      }
    }
    expect_error(graph_create(data.frame(weight = c(1 / 2, 1 / 3, 1 / 6)), edges, hyp_names = labels), paste0("hypotheses: ", vector), fixed = TRUE)
    expect_error(graph_create(data.frame(weight = c(1 / 2, 1 / 3, 1 / 6)), `rownames<-`(edges, labels)), paste0("hypotheses: ", vector), fixed = TRUE)
    levels <- stats::setNames(list(0.002, 0.001, 0.003), labels)
    expect_error(graph_stages(graph, levels, at = data.frame(at = c(1, 1 / 2, 1))), paste0("at: ", vector), fixed = TRUE)
    expect_error(graph_fallback(names = labels, weights = data.frame(weight = c(1 / 2, 1 / 3, 1 / 6))), paste0("weights: ", vector), fixed = TRUE)
    graphs <- stats::setNames(list(graph, graph, graph), labels)
    expect_error(graph_entangle(graphs, shares = data.frame(share = c(1 / 2, 1 / 3, 1 / 6))), paste0("shares: ", vector), fixed = TRUE)
    # edges and places have a column beside
    rows <- paste0(told, "matrix whose rows have these names")
    square <- stats::setNames(as.data.frame(edges), labels)
    expect_error(graph_create(c(1 / 2, 1 / 3, 1 / 6), square), paste0("transitions: ", rows), fixed = TRUE)
    expect_error(plot(graph, layout = data.frame(x = 1:3, y = 0)), paste0("layout: ", rows), fixed = TRUE)
    # what says which hypothesis is meant is taken
    long <- data.frame(hypothesis = c("1", "2", "3"), p = plain$p)
    for (p in list(stats::setNames(plain$p, 1:3), plain[c(3, 1, 2), , drop = FALSE], long, `row.names<-`(plain, c("1", "2", "3")),
      `rownames<-`(as.matrix(plain), 1:3), stats::setNames(as.data.frame(t(plain$p)), 1:3))) {
      expect_equal(graph_test(graph, p)$exact$p, c("3/100", "1/250", "9/10"))
    }
    # without names the order is that of the graph
    expect_equal(graph_test(graph, plain$p)$exact$p, c("1/250", "9/10", "3/100"))
    expect_equal(graph_test(graph_create(c(A = 1 / 2, B = 1 / 3, C = 1 / 6), edges), plain)$exact$p, c("1/250", "9/10", "3/100"))
    expect_equal(graph_test(graph_create(c("1" = 1 / 2, "2" = 1 / 3, "3" = 1 / 6), edges), plain)$exact$p, c("1/250", "9/10", "3/100"))
  })
})

test_that("many trials are rows, also if rows have the names of hypotheses", {
  each_way(function(way) {
    graph <- pair(c("1", "2"))
    P <- data.frame("1" = c(0.001, 0.9), "2" = c(0.9, 0.9), check.names = FALSE)
    expect_equal(unname(as.matrix(graph_test_many(graph, P))), rbind(c(TRUE, FALSE), FALSE))
    rows <- "^P: its rows have the names of hypotheses"
    expect_error(graph_test_many(graph, P[2:1, ]), rows)
    expect_error(graph_test_many(graph, `rownames<-`(as.matrix(P), c("2", "1"))), rows)
    expect_error(graph_test_many(pair(), data.frame(t1 = c(0.1, 0.2), t2 = 0.3, row.names = c("H2", "H1"))), rows)
    sorted <- rbind(P, 0.5)[3:1, ]
    expect_equal(dimnames(graph_test_many(graph, sorted)), list(c("3", "2", "1"), c("1", "2")))
  })
})

test_that("numbers that are called as those of another argument are an error", {
  each_way(function(way) {
    graph <- pair()
    long <- data.frame(hypothesis = c("H1", "H2"), weight = c(0.001, 0.9))
    expect_error(graph_test(graph, long), "^p: beside the column hypothesis a column p is needed, and not \"weight\"$")
    names(long)[2] <- "p"
    expect_equal(unname(graph_test(graph, long)$rejected), c(TRUE, FALSE))
    expect_error(graph_create(long, rbind(0:1, 1:0)), "^hypotheses: beside the column hypothesis a column weight is needed, and not \"p\"$")
    expect_error(graph_stages(graph, list(0.01, 0.01), at = long), "^at: beside the column hypothesis a column at is needed, and not \"p\"$")
    table <- as.data.frame(graph_test(graph, long))
    row.names(table) <- table$hypothesis
    for (name in c("weight", "level", "adjusted", "step")) {
      expect_error(graph_test(graph, table[name]), paste0("^p: these numbers are called \"", name, "\"$"))
      expect_error(graph_test(graph, as.matrix(table[name])), paste0("^p: these numbers are called \"", name, "\"$"))
      expect_error(graph_test(graph, t(as.matrix(table[name]))), paste0("^p: these numbers are called \"", name, "\"$"))
    }
    expect_equal(graph_test(graph, table["p"])$exact$p, c("1/1000", "9/10"))
    expect_error(graph_create(table["p"], rbind(0:1, 1:0)), "^hypotheses: these numbers are called \"p\"$")
    expect_equal(graph_test(graph, setNames(table["p"], "value"))$exact$p, c("1/1000", "9/10"))
    own <- graph_create(c(weight = 1 / 2, p = 1 / 2), rbind(0:1, 1:0))
    expect_equal(graph_test(own, data.frame(p = 0.001, weight = 0.9))$exact$p, c("9/10", "1/1000"))
  })
})

test_that("labels that look alike are told apart", {
  each_way(function(way) {
    zeros <- matrix(0, 2, 2)
    for (label in c("H1 ", " H1", "H1\u00a0", "H1\t", "H\u200b1", "H1\n")) {
      expect_error(graph_create(c(1 / 2, 1 / 2), zeros, hyp_names = c("H1", label)), "^hyp_names: the names \"H1\" and \".*\" are alike but for blanks: character . is ")
    }
    expect_error(graph_create(c(1 / 2, 1 / 2), zeros, labels = c("low dose", "low  dose")), "^labels: the names .* are alike but for blanks: character 5 is U.0020, and not U.0064$")
    expect_equal(graph_create(c(1 / 2, 1 / 2), zeros, labels = c("low dose", "lowdose"))$labels, c("low dose", "lowdose"))
    graph <- graph_create(c("dose \u00fc" = 1 / 2, "low dose" = 1 / 2), zeros)
    expect_error(graph_test(graph, c("dose u\u0308" = 0.1, "low dose" = 0.2)), "which looks like \"dose \u00fc\": character 6 is U+0075, and not U+00FC", fixed = TRUE)
    expect_error(graph_test(graph, c("dose \u00fc" = 0.1, "low\u00a0dose" = 0.2)), "which looks like \"low dose\": character 4 is U+00A0, and not U+0020", fixed = TRUE)
    expect_error(graph_update(graph, "low dose "), "^delete: no hypothesis has the name \"low dose \", which looks like \"low dose\": character 9 is U.0020, and not nothing$")
    expect_error(graph_test(graph, c("dose \u00fc" = 0.1, low_dose = 0.2)), "^p: some names are labels and others are the program's names, so they fit in no way: give all labels")
    expect_equal(graph_test(graph, c(low_dose = 0.2, dose = 0.1))$exact$p, c("1/10", "1/5"))
  })
})

test_that("labels and names that change places are an error, and new ones are not", {
  each_way(function(way) {
    p <- c(0.001, 0.9)
    labelled <- graph_create(c(A = 1 / 2, B = 1 / 2), rbind(0:1, 1:0), labels = c("low dose", "high dose"))
    for (part in c("labels", "names")) {
      turned <- labelled
      turned[[part]] <- rev(turned[[part]])
      for (call in list(graph_test, graph_canon, graph_evidence, graph_bounds, function(x, p) graph_test_many(x, t(p)), function(x, p) graph_update(x, 1),
        function(x, p) graph_entangle(x, shares = 1), function(x, p) print(x), function(x, p) as.data.frame(x), function(x, p) summary(x), function(x, p) plot(x))) {
        expect_error(call(turned, p), paste0("^graph: \".*\" was the ", sub("s$", "", part), " of another hypothesis, whose numbers stay where they are"))
      }
    }
    mixed <- labelled
    mixed$labels <- c("high dose", "new")
    expect_error(graph_test(mixed, p), "^graph: \"high dose\" was the label of another hypothesis")
    mixed$labels <- c("B", "new")
    expect_error(graph_test(mixed, p), "is the name of another hypothesis")
    fresh <- labelled
    fresh$labels <- c("10 mg", "20 mg")
    expect_equal(graph_test(fresh, c("20 mg" = 0.9, "10 mg" = 0.001))$rejected, c("10 mg" = TRUE, "20 mg" = FALSE))
    fresh <- labelled
    fresh$names <- c("X", "Y")
    expect_match(graph_test(fresh, p)$case, "hypotheses X Y", fixed = TRUE)
    # also of a result
    x <- graph_test(labelled, p)
    x <- with_part(x, "graph", with_part(x$graph, "labels", rev(x$graph$labels)))
    for (call in list(print, as.data.frame, summary, plot, graph_steps, graph_rejections, function(x) graph_report(x, tempfile()))) {
      expect_error(call(x), "^graph: \"high dose\" was the label of another hypothesis")
    }
  })
})

test_that("labels are distinct", {
  each_way(function(way) {
    zeros <- matrix(0, 2, 2)
    twice <- "the name \"low dose\" occurs twice"
    expect_error(graph_create(c("low dose" = 1 / 2, "low dose" = 1 / 2), zeros), paste0("hypotheses: ", twice), fixed = TRUE)
    expect_error(graph_create(c(1 / 2, 1 / 2), zeros, hyp_names = c("low dose", "low dose")), paste0("hyp_names: ", twice), fixed = TRUE)
    expect_error(graph_create(c(1 / 2, 1 / 2), zeros, labels = c("low dose", "low dose")), paste0("labels: ", twice), fixed = TRUE)
    rows <- matrix(0, 2, 2, dimnames = list(c("low dose", "low dose"), NULL))
    expect_error(graph_create(c(1 / 2, 1 / 2), rows), paste0("transitions: ", twice), fixed = TRUE)
    expect_error(graph_create(c(A = 1 / 2, B = 1 / 2), zeros, labels = c("B", "A")), "is the name of another hypothesis")
    expect_error(graph_create(c(A = 1 / 2, 1 / 2), zeros), "hypotheses: the second has no name", fixed = TRUE)
    expect_error(graph_create(c(1 / 2, 1 / 2), zeros, hyp_names = c("A", NA)), "hyp_names: the second has no name", fixed = TRUE)
    made <- graph_create(c("a b" = 1 / 2, c = 1 / 2), zeros, labels = c("first", "a_b"))
    expect_false("a_b" %in% made$names)
  })
})

test_that("p-values with names are put in order, whatever their class", {
  each_way(function(way) {
    p <- c(H2 = 0.001, H1 = 0.9)
    fractions <- gmp::as.bigq(c(1, 9), c(1000, 10))
    names(fractions) <- c("H2", "H1")
    forms <- list(
      p,
      as_exact(p),
      c(H2 = "0.001", H1 = "0.9"),
      fractions,
      data.frame(H2 = 0.001, H1 = "0.9"),
      data.frame(hypothesis = c("H2", "H1"), p = p),
      data.frame(p = p),
      matrix(p, 1, dimnames = list(NULL, c("H2", "H1"))),
      matrix(p, 2, dimnames = list(c("H2", "H1"), "p")),
      as.table(p)
    )
    for (form in forms) {
      x <- graph_test(pair(), form)
      expect_equal(x$rejected, c(H1 = FALSE, H2 = TRUE), info = class(form)[1])
      expect_equal(x$exact$p, c("9/10", "1/1000"))
    }
    for (graph_call in list(graph_bounds, graph_simes, graph_test_closure, graph_evidence)) {
      expect_match(paste(graph_call(pair(), as_exact(p))$case, collapse = "\n"), "p 9/10 1/1000", fixed = TRUE)
    }
    expect_equal(graph_canon(pair(), as_exact(p))[3], "p 9/10 1/1000")
    expect_error(graph_test(pair(), c(H1 = 0.1, H1 = 0.2)), "p: the name \"H1\" occurs twice", fixed = TRUE)
    expect_error(graph_test(pair(), c("H1 low" = 0.1, "H2 low" = 0.2)), "p: no hypothesis has the name \"H1 low\"", fixed = TRUE)
    expect_error(graph_test(pair(), c(H = 0.1, H2 = 0.2)), "p: no hypothesis has the name \"H\"", fixed = TRUE)
    expect_error(graph_test(pair(), c(H1 = 0.1, 0.2)), "p: the second has no name, and others have one", fixed = TRUE)
    expect_error(graph_test(pair(), c(H1 = 0.1, H2 = 0.2, H3 = 0.3)), "p: no hypothesis has the name \"H3\"", fixed = TRUE)
    for (own in list("H2", c("H2", NA))) {
      names(fractions) <- own
      expect_error(graph_test(pair(), fractions), "p: the second has no name, and others have one", fixed = TRUE)
    }
    names(fractions) <- c(NA, "H1")
    expect_error(graph_test(pair(), fractions), "p: the first has no name, and others have one", fixed = TRUE)
    expect_equal(graph_test(pair(), rev(gmp::as.bigq(c(1, 9), c(1000, 10))))$exact$p, c("9/10", "1/1000"))
    for (none in list(c("", ""), c(NA, ""), NA_character_)) {
      expect_equal(graph_test(pair(), structure(c(0.001, 0.9), names = rep_len(none, 2)))$exact$p, c("1/1000", "9/10"))
    }
    expect_error(graph_test(pair(), c(H1 = 0.1)), "p: nothing is given for \"H2\"", fixed = TRUE)
    expect_error(graph_test(pair(), matrix(0.1, 2, 2)), "p: a vector is needed, and not a table of 2 by 2")
    expect_error(graph_test(pair(), data.frame(a = 1:2, b = 1:2)), "p: a data frame has one row")
    expect_equal(refusal_of(graph_test(pair(), c(0.1, 0.2, 0.3)))$line, "malformed: case: p count 3")
  })
})

# A data frame of two rows whose columns keep their names, as those of a tibble do.
tibble_of_two <- function(...) structure(list(...), row.names = .set_row_names(2L), class = c("tbl_df", "tbl", "data.frame"))

test_that("the names of the elements of a row or a column, and of the numbers of a data frame, are kept", {
  each_way(function(way) {
    p <- c(H2 = 0.001, H1 = 0.9)
    row <- matrix(p, 1)
    column <- matrix(p, 2)
    exact <- as_exact(column)
    names(row) <- names(column) <- names(exact) <- names(p)
    for (form in list(row, column, exact, tibble_of_two(p = p), tibble_of_two(p = as_exact(p)))) {
      expect_equal(graph_test(pair(), form)$exact$p, c("9/10", "1/1000"), info = class(form)[1])
    }
    single <- "name rows and columns, since names of single elements say nothing of them"
    expect_error(graph_test_many(pair(), row), paste0("^P: ", single))
    edges <- matrix(c(0, 1, 1, 0), 2)
    names(edges) <- c("H2", "H1")
    expect_error(graph_create(c(H1 = 1, H2 = 0), edges), paste0("^transitions: ", single))
    made <- graph_create(c(H1 = 1, H2 = 0), tibble_of_two(H1 = c(H2 = "1/3", H1 = "0"), H2 = c(H2 = 0, H1 = 1)))
    expect_equal(made$components, graph_create(c(H1 = 1, H2 = 0), rbind(c("0", "1"), c("1/3", "0")))$components)
    wrong <- tibble_of_two(H1 = c(H2 = "1/3", H1 = "0"), H2 = c(H1 = 1, H2 = 0))
    expect_error(graph_create(c(H1 = 1, H2 = 0), wrong), "^transitions: the columns have different names for their rows$")
  })
})

test_that("numbers beside the names of other hypotheses are an error", {
  each_way(function(way) {
    fault <- ": the numbers have the names H2, H1, and the column hypothesis has H1, H2$"
    p <- c(H2 = 0.001, H1 = 0.9)
    for (wrong in list(data.frame(hypothesis = c("H1", "H2"), p = p), tibble_of_two(hypothesis = c("H1", "H2"), p = p))) {
      expect_error(graph_test(pair(), wrong), paste0("^p", fault))
      wrong$stage <- 1
      expect_error(graph_stages(pair(), list(0.01, 0.01), wrong, at = 1), paste0("^looks", fault))
      wrong$hypothesis <- c("H2", "H1")
      expect_equal(graph_stages(pair(), list(0.01, 0.01), wrong, at = 1)$looks$p, c("1/1000", "9/10"))
    }
  })
})

test_that("weights and edges with names are put in order", {
  each_way(function(way) {
    edges <- matrix(c(0, 0, 0, "1/3", 0, 0, "2/3", 1, 0), 3, dimnames = list(c("A", "B", "C"), c("A", "B", "C")))
    straight <- graph_create(c(A = 1, B = 0, C = 0), edges)
    turned <- edges[c(3, 1, 2), c(2, 3, 1)]
    frame <- data.frame(B = turned[, "B"], C = turned[, "C"], A = turned[, "A"], row.names = c("C", "A", "B"))
    for (form in list(turned, frame, as_exact(turned))) {
      expect_equal(graph_create(c(A = 1, B = 0, C = 0), form)$components, straight$components)
    }
    expect_equal(graph_create(c(B = 0, C = 0, A = 1), edges, hyp_names = c("A", "B", "C"))$components, straight$components)
    expect_error(graph_create(c(B = 0, C = 0, D = 1), edges, hyp_names = c("A", "B", "C")), "hypotheses: no hypothesis has the name \"D\"", fixed = TRUE)
    expect_error(graph_create(c(A = 1, B = 0, C = 0), unname(edges)[, 1:2]), "transitions: a square matrix is needed")
    expect_equal(graph_create(c(1, 0, 0), matrix(0, 3, 3, dimnames = list(NULL, c("A", "B", "C"))))$labels, c("A", "B", "C"))
    labelled <- graph_create(c(A = 1, B = 0, C = 0), edges, labels = c(C = "three", A = "one", B = "two"))
    expect_equal(labelled$labels, c("one", "two", "three"))
  })
})

test_that("shares are put in the order of the graphs", {
  each_way(function(way) {
    one <- graph_create(c(A = 1, B = 0), matrix(0, 2, 2))
    two <- graph_create(c(A = 0, B = 1), matrix(0, 2, 2))
    both <- graph_entangle(first = one, second = two, shares = c(second = 0.2, first = 0.7))
    expect_equal(vapply(both$components, `[[`, "", "share"), c("7/10", "1/5"))
    expect_error(graph_entangle(one, two, shares = c(second = 0.2, first = 0.7)), "shares: the shares have names, and the graphs have none")
    expect_error(graph_entangle(one, two, shares = 1), "shares: one share is needed for each graph")
    turned <- graph_create(c(B = 1, A = 0), matrix(0, 2, 2))
    expect_error(graph_entangle(one, turned, shares = c(0.5, 0.5)), "...: the graphs have the same hypotheses in the same order", fixed = TRUE)
  })
})

test_that("names decide the direction of a table of levels", {
  each_way(function(way) {
    by_columns <- cbind(H1 = c(0.005, 0.004), H2 = c(0.003, 0.002))
    x <- graph_stages(pair(), by_columns, at = 1 / 2)
    expect_match(x$case, "spend H1 2/5 8/25\nspend H2 6/25 4/25\n", fixed = TRUE)
    expect_equal(graph_stages(pair(), t(by_columns)[2:1, ], at = 1 / 2)$case, x$case)
    expect_equal(graph_stages(pair(), as.data.frame(by_columns), at = 1 / 2)$case, x$case)
    expect_equal(graph_stages(pair(), list(H2 = c(0.003, 0.002), H1 = as_exact(c(0.005, 0.004))), at = c(H2 = 0.5, H1 = 0.5))$case, x$case)
    expect_error(graph_stages(pair(), unname(by_columns), at = 1), "levels: neither rows nor columns of the table name the hypotheses")
    square <- matrix(0.001, 2, 2, dimnames = list(c("H1", "H2"), c("H1", "H2")))
    expect_error(graph_stages(pair(), square, at = 1), "levels: both rows and columns of the table name the hypotheses")
    expect_error(graph_stages(pair(), list(H1 = 0.001, H3 = 0.002), at = 1), "levels: no hypothesis has the name \"H3\"", fixed = TRUE)
    expect_error(graph_stages(pair(), list(H1 = 0.001, H2 = c(0.001, 0.002)), at = 1), "levels: \"H2\" has 2 stages, and \"H1\" 1", fixed = TRUE)
    # nothing is recycled
    expect_error(graph_stages(diabetes(), list(0.001, 0.002), at = 1), "levels: 2 given for 4 hypotheses", fixed = TRUE)
    expect_error(graph_stages(diabetes(), list(0.001), at = 1), "levels: 1 given for 4 hypotheses", fixed = TRUE)
    expect_error(graph_stages(diabetes(), rep(list(0.001), 4), at = c(1, 1 / 2)), "at: 2 given for 4 hypotheses", fixed = TRUE)
    # a level at a weight that no hypothesis has
    for (at in list(-1, 0, 2, 50, "x", NA)) {
      fault <- paste0("^at: the weight of H1 is ", at, ", and not above 0 and at most 1$")
      expect_error(graph_stages(pair(), list(H1 = 0.001, H2 = 0.001), at = at), fault)
    }
    expect_error(graph_stages(pair(), list(H1 = -0.001, H2 = -0.001), at = c(1, -1)), "at: the weight of H2 is -1, and not above 0", fixed = TRUE)
  })
})

test_that("the stages of looks are whole numbers", {
  each_way(function(way) {
    levels <- list(H1 = c(0.001, 0.002, 0.003), H2 = c(0.001, 0.002, 0.003))
    looks <- function(stage) data.frame(hypothesis = c("H1", "H2"), stage = stage, p = c(0.5, 0.6))
    for (stage in list(c(2, 3), c(2L, 3L), c("2", "3"))) expect_equal(graph_stages(pair(), levels, looks(stage), at = 1)$looks$stage, 2:3)
    expect_error(graph_stages(pair(), levels, looks(factor(c("2", "3"))), at = 1), "looks: stage: the first is \"2\" of a factor, which is not a whole number", fixed = TRUE)
    expect_error(graph_stages(pair(), levels, looks(c(1, 1.9)), at = 1), "looks: stage: the second is 1.9, which is not a whole number", fixed = TRUE)
    expect_error(graph_stages(pair(), levels, looks(c(1, 2 + 2^-51)), at = 1), "looks: stage: the second is 2.0000000000000004, which is not a whole number", fixed = TRUE)
    expect_error(graph_stages(pair(), levels, looks(c(1, NA)), at = 1), "looks: stage: the second is NA")
    expect_error(graph_stages(pair(), levels, data.frame(hypothesis = 1:2, stage = 1, p = 0.1), at = 1), "looks: the column hypothesis has numbers")
    expect_error(graph_stages(pair(), levels, data.frame(hypothesis = "H3", stage = 1, p = 0.1), at = 1), "looks: no hypothesis has the name \"H3\"", fixed = TRUE)
    expect_equal(refusal_of(graph_stages(pair(), levels, looks(c(4, 4)), at = 1))$line, "malformed: case: arrival 1 stage")
    codes <- data.frame(hypothesis = factor(c("H2", "H1"), levels = c("H2", "H1")), stage = 1, p = c(0.0001, 0.9))
    expect_equal(graph_stages(pair(), levels, codes, at = 1)$looks$hypothesis, c("H2", "H1"))
    twice <- cbind(looks(1), data.frame(p = 0.001))
    expect_error(graph_stages(pair(), levels, twice, at = 1), "looks: the column p occurs twice", fixed = TRUE)
  })
})

test_that("a list of factors has their texts", {
  each_way(function(way) {
    frame <- data.frame(p = c(0.001, 0.9))
    frame$hypothesis <- list(factor("2", c("2", "1")), factor("1", c("2", "1")))
    expect_equal(graph_test(pair(c("1", "2")), frame)$rejected, c("1" = FALSE, "2" = TRUE))
    frame$stage <- 1
    expect_equal(graph_stages(pair(c("1", "2")), list(0.01, 0.01), frame, at = 1)$looks$hypothesis, c("2", "1"))
  })
})

test_that("a number that is the name of a hypothesis at another position is an error", {
  each_way(function(way) {
    graph <- pair(c("2", "1"))
    expect_error(graph_update(graph, 1), "^delete: 1 is the name of another hypothesis: give names as texts$")
    expect_error(bound_of(graph_bounds(graph, c(0.001, 0.9)), 2), "^hypotheses: 2 is the name of another hypothesis")
    expect_equal(graph_update(graph, "1")$deleted, "1")
    expect_equal(graph_update(pair(c("1", "2")), 2)$deleted, "2")
    expect_error(graph_update(graph_create(c(1, 0), matrix(0, 2, 2), hyp_names = c("2", "1"), labels = c("low", "high")), 1), "^delete: 1 is ")
  })
})

test_that("logical vectors with names are put in order", {
  each_way(function(way) {
    expect_equal(graph_update(pair(), c(H2 = TRUE, H1 = FALSE))$deleted, "H2")
    expect_error(graph_update(pair(), TRUE), "delete: 1 given for 2 hypotheses")
  })
})

test_that("results have the labels of the user", {
  each_way(function(way) {
    labels <- c("dose \u00fc", "dose b")
    graph <- graph_create(stats::setNames(c(1 / 2, 1 / 2), labels), rbind(0:1, 1:0))
    x <- graph_test(graph, c(0.001, 0.9))
    expect_true(x$rejected[["dose \u00fc"]])
    expect_equal(names(x$adjusted), labels)
    expect_equal(names(x$reached), labels)
    expect_equal(x$order, labels[1])
    expect_equal(x$exact$hypothesis, labels)
    expect_equal(graph_steps(x)$deleted, labels[1])
    expect_equal(names(graph$components[[1]]$weights), labels)
    expect_equal(rownames(graph$components[[1]]$edges), labels)
    expect_equal(names(graph_test_closure(graph, c(0.001, 0.9))$rejected), labels)
    expect_equal(names(graph_simes(graph, c(0.001, 0.9))$rejected), labels)
    check <- graph_check(graph, c(0.001, 0.9), evidence = graph_evidence(graph, c(0.001, 0.9)))
    expect_equal(c(check$listed, check$kept), labels)
    staged <- graph_stages(graph, stats::setNames(list(0.01, 0.01), labels), data.frame(hypothesis = labels[1], stage = 1, p = 0.001), at = 1)
    expect_equal(names(staged$rejected), labels)
    expect_equal(staged$rejections$hypothesis, labels[1])
  })
})

test_that("evidence in which the program's names stand for other labels is an error", {
  each_way(function(way) {
    of <- function(labels) graph_create(stats::setNames(c(1 / 2, 1 / 2), labels), matrix(0, 2, 2))
    one <- of(c("\u03b1", "\u03b2"))
    other <- of(c("\u03b2", "\u03b1"))
    evidence <- graph_evidence(one, c(0.001, 0.9))
    expect_equal(graph_check(one, c(0.001, 0.9), evidence = evidence)$listed, "\u03b1")
    expect_error(graph_check(other, c(0.001, 0.9), evidence = evidence), "^evidence: it is about other hypotheses: ")
  })
})

test_that("a graph that was changed is decided as it is", {
  each_way(function(way) {
    graph <- pair()
    graph$components[[1]]$weights[] <- c("1", "0")
    expect_equal(graph_test(graph, c(0.02, 0.9))$exact$weight, c("1", "1"))
    expect_match(graph_canon(graph)[3], "weights 1 0")
    # weights and edges are taken in their order
    turned <- graph
    turned$components[[1]]$weights <- c(H2 = "1", H1 = "0")
    expect_error(graph_test(turned, c(0.02, 0.9)), "^graph: its weights and edges have the names H2, H1, and its hypotheses H1, H2$")
    for (show in list(print, summary, as.data.frame, plot)) expect_error(show(turned), "^graph: its weights and edges have the names H2, H1")
    turned <- graph
    turned$components[[1]]$edges <- turned$components[[1]]$edges[, 2:1]
    expect_error(graph_canon(turned), "graph: its weights and edges have the names H2, H1", fixed = TRUE)
    after <- graph_update(diabetes(), "H1")$updated_graph
    after$components[[1]]$weights <- rev(after$components[[1]]$weights)
    expect_error(graph_test_many(after, matrix(0.1, 2, 3)), "graph: its weights and edges have the names H4, H3, H2", fixed = TRUE)
    # a double that is assigned is a text of 15 digits
    graph$components[[1]]$weights["H1"] <- 1 / 3
    expect_warning(graph_canon(graph), "graph: \"0.333333333333333\" is what R writes for 1/3", fixed = TRUE, class = "welungad_written")
    expect_warning(graph_entangle(graph, shares = 1), "graph: \"0.333333333333333\" is what R writes for 1/3", fixed = TRUE)
    graph$components[[1]]$weights <- unname(graph$components[[1]]$weights)
    graph$components[[1]]$weights[1] <- "1/3"
    expect_match(graph_canon(graph)[3], "weights 1/3 0")
  })
})

test_that("what no call would read of a graph that was changed is an error", {
  each_way(function(way) {
    fault <- "^graph: a graph has the parts .*, and nothing reads a part \"%s\"$"
    for (part in c("hypotheses", "transitions", "weights", "Components")) {
      graph <- with_part(pair(), part, c(H1 = 1, H2 = 0))
      expect_error(graph_test(graph, c(0.02, 0.9)), sprintf(fault, part))
    }
    graph <- pair()
    expect_error(graph$component[[1]]$weights["H1"] <- "1", "^a welungad_graph has no part \"component\"")
    graph <- with_part(graph, "component", list(list(weights = c(H1 = "1", H2 = "0"))))
    for (call in list(graph_canon, function(x) graph_stages(x, list(0.01, 0.01), at = 1), function(x) graph_entangle(x, shares = 1))) {
      expect_error(call(graph), sprintf(fault, "component"))
    }
    graph <- pair()
    graph$components[[1]]$weight <- c("1", "0")
    expect_error(graph_canon(graph), "^graph: a component of a graph has the parts .*, and nothing reads a part \"weight\"$")
    for (edges in list(matrix("0", 1, 1), matrix("0", 3, 3), "0")) {
      graph <- pair()
      graph$components[[1]]$edges <- edges
      expect_error(graph_canon(graph), "^graph: its edges need a row and a column for each hypothesis$")
    }
    for (weights in list(c(0.1 + 0.2, 0.5), as_exact(c(1 / 3, 1 / 3)), gmp::as.bigq(1, 3:4), list("1", "0"), NULL)) {
      graph <- pair()
      graph$components[[1]]["weights"] <- list(weights)
      expect_error(graph_canon(graph), "^graph: its shares, weights and edges are texts, as as.character[(]as_exact[(]x[)][)] gives them")
    }
    graph$components[[1]]$weights <- as.character(as_exact(c(H1 = 0.1 + 0.2, H2 = 1 / 3)))
    expect_match(graph_canon(graph)[3], "weights 7500000000000001/25000000000000000 1/3", fixed = TRUE)
    graph <- pair()
    for (labels in list(c("A", "A"), c("A", NA), c("H2", "A"))) {
      graph$labels <- labels
      expect_error(graph_test(graph, c(0.02, 0.9)), "^labels: ")
    }
    graph$labels <- "A"
    expect_error(graph_test(graph, c(0.02, 0.9)), "^graph: one label is needed for each hypothesis$")
    graph$labels <- c("first", "second")
    expect_equal(graph_test(graph, c(second = 0.9, first = 0.001))$rejected, c(first = TRUE, second = FALSE))
    relabelled <- pair(c("low dose", "high dose"))
    relabelled$labels <- c("low", "high")
    expect_output(print(relabelled), "low +1/2")
    expect_equal(graph_test(relabelled, c(high = 0.9, low = 0.001))$rejected, c(low = TRUE, high = FALSE))
  })
})

test_that("names and labels are texts", {
  each_way(function(way) {
    edges <- rbind(0:1, 1:0)
    for (wrong in list(mean, globalenv(), quote(x), data.frame(a = c("A", "B"), b = c("C", "D")), list("A", c("B", "C")), getClass("numeric"))) {
      expect_error(graph_create(c(1 / 2, 1 / 2), edges, hyp_names = wrong), "^hyp_names: texts are needed, and not an object of class ")
      expect_error(graph_create(c(1 / 2, 1 / 2), edges, labels = wrong), "^labels: texts are needed, and not an object of class ")
    }
    factors <- list(factor("A", c("B", "A")), factor("B", c("B", "A")))
    for (right in list(c("A", "B"), factor(c("A", "B")), list("A", "B"), factors, c(A = "A", B = "B"))) {
      expect_equal(graph_create(c(1 / 2, 1 / 2), edges, hyp_names = right)$labels, c("A", "B"))
    }
  })
})

test_that("an error is the same once a package has methods for brackets", {
  skip_if_not_installed("igraph")
  loadNamespace("igraph")
  each_way(function(way) {
    zeros <- matrix(0, 2, 2)
    graph <- graph_create(c(A = 1 / 2, B = 1 / 2), zeros)
    expect_error(graph_test(graph, c(A = 0.1, C = 0.2)), "^p: no hypothesis has the name")
    expect_error(graph_create(c(A = 1 / 2, B = 1 / 2), zeros, hyp_names = c("A", "C")), "^(hyp_names|hypotheses): ")
    place <- matrix(c(0, 1, 0, 1), 2, dimnames = list(c("A", "C"), NULL))
    expect_error(plot(graph, layout = place), "^layout: no hypothesis has the name")
    expect_error(graph_stages(graph, list(A = c(second = 0.01, first = 0.02), B = c(0.01, 0.02)), at = "1/2", stages = c("first", "final")), "^levels")
    expect_error(graph_stages(graph, list(A = c(second = 0.01, first = 0.02), B = c(0.01, 0.02)), at = "1/2"), "^levels")
  })
})
