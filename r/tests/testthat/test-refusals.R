test_that("sums above 1 are refused with their amount", {
  each_way(function(way) {
    weights <- refusal_of(graph_create(c(0.1 + 0.2, 0.7), matrix(0, 2, 2)))
    expect_s3_class(weights, "welungad_refusal")
    expect_s3_class(weights, "error")
    expect_equal(weights$status, 3L)
    expect_equal(weights$line, "malformed: case: weight sum component 1")
    expect_match(weights$amount, "The weights sum to 1.00000000000000004, which is 4e-17 above 1.", fixed = TRUE)
    expect_match(conditionMessage(weights), "^hypotheses: the weights sum to more than 1 [(]malformed: case: weight sum component 1[)]\n")
    expect_match(conditionMessage(weights), "Write thirds as 1/3")
    row <- refusal_of(graph_create(c(1, 0, 0), rbind(c(0, "2/3", "0.34"), 0, 0)))
    expect_match(row$amount, "The edges from H1 sum to 151/150, which is 0.00667 above 1.", fixed = TRUE)
    small <- refusal_of(graph_create(c(1, 0, 0), rbind(c("0", "1-\\epsilon", "2*\\epsilon"), "0", "0")))
    expect_match(small$amount, "sum to 1+\\epsilon, which is above 1", fixed = TRUE)
    one <- graph_create(c(1, 0), matrix(0, 2, 2))
    shares <- refusal_of(graph_entangle(one, one, shares = c(0.5, 0.51)))
    expect_match(shares$amount, "The shares sum to 1.01", fixed = TRUE)
  })
})

test_that("refusals name the argument and the place", {
  each_way(function(way) {
    graph <- graph_create(c("low dose" = 1 / 2, B = 1 / 2), rbind(0:1, 1:0))
    where <- function(code) refusal_of(code)$where
    expect_equal(where(graph_test(graph, c(0.1, NA))), "p: the p-value of B is missing")
    expect_equal(where(graph_test(graph, gmp::as.bigq(c("1/10", NA)))), "p: the p-value of B is missing")
    expect_equal(where(graph_test(graph, c(-0.5, 0.1))), "p: the p-value of low dose is -1/2")
    expect_equal(where(graph_test(graph, c("0.1", "x"))), "p: the p-value of B is \"x\"")
    expect_equal(where(graph_test(graph, 0.1)), "p: 1 given for 2 hypotheses: low dose, B")
    expect_equal(where(graph_test(graph, numeric())), "p: no p-values are given")
    for (call in list(graph_test, graph_bounds, graph_evidence)) expect_equal(where(call(graph, NULL)), "p: no p-values are given")
    for (long in c("1e-39", "0.5e40", paste0("0.", strrep("3", 39)), paste0("1/", strrep("7", 39)), "12345678901234567890e19")) {
      expect_equal(where(graph_test(graph, c("0.00000000000000000000000000000000000001", long))), paste0("p: the p-value of B is \"", long, "\""))
    }
    expect_equal(where(graph_test(graph, c(0.1, 0.2), 2)), "alpha: the level is 2")
    expect_equal(where(graph_test(graph, c(0.1, 0.2), "x")), "alpha: the level is \"x\"")
    expect_equal(where(graph_create(c(NA, 0.5), matrix(0, 2, 2))), "hypotheses: the weight of H1 is \"NA\"")
    expect_equal(where(graph_create(c(0.5, -0.5), matrix(0, 2, 2))), "hypotheses: the weight of H2 is -1/2")
    expect_equal(where(graph_create(c(0.5, 0.5), rbind(c(0, 2), 0))), "transitions: the edge from H1 to H2 is not from 0 to 1")
    expect_equal(where(graph_create(c(0.5, 0.5), rbind(c("0", "x y"), "0"))), "transitions: the edge from H1 to H2 is \"x y\"")
    expect_equal(where(graph_create(c(0.5, 0.5), diag(2))), "transitions: the edge from H1 to itself is not 0")
    nan <- matrix(c(0, 0, NaN, 0), 2)
    expect_equal(where(graph_create(c(0.5, 0.5), nan)), "transitions: \"1, 2\" is NaN")
    dimnames(nan) <- list(c("A", "B"), c("A", "B"))
    expect_equal(where(graph_create(c(0.5, 0.5), nan)), "transitions: \"A, B\" is NaN")
    expect_equal(where(graph_create(numeric(), matrix(0, 0, 0))), "hypotheses: there is none")
    expect_equal(where(graph_create(rep(0, 65), matrix(0, 65, 65))), "hypotheses: there are too many")
    one <- graph_create(c(1, 0), matrix(0, 2, 2))
    expect_equal(where(graph_entangle(one, one, shares = c(-0.5, 0.5))), "shares: the share of graph 1")
    numbered <- graph_create(c(1, 0), matrix(0, 2, 2), hyp_names = c("1", "2"), labels = c("low", "high"))
    expect_equal(where(graph_entangle(numbered, numbered, shares = c(-0.5, 0.5))), "shares: the share of graph 1")
    expect_equal(where(graph_stages(numbered, list(0.001, -0.001), at = 1)), "levels: the level of high at stage 1 is out of order")
    expect_equal(where(graph_stages(graph, list(0.03, 0.02), at = 1)), "levels: the levels of low dose sum to more than its own")
    expect_equal(where(graph_stages(graph, list(0.001, -0.001), at = 1)), "levels: the level of B at stage 1 is out of order")
    expect_equal(where(graph_bounds(holm(17), rep(0.1, 17))), "graph: it has too many hypotheses")
    expect_equal(where(graph_catalogue("holm", 65)), "size: there are too many hypotheses, or none")
    expect_equal(where(graph_check(graph, c(0.1, 0.2), evidence = "x")), "evidence: a line is not allowed")
    expect_match(conditionMessage(refusal_of(graph_test(graph, c(0.1, NA)))), "p: the p-value of B is missing (malformed: case: p missing B)", fixed = TRUE)
    expect_error(graph_catalogue("holm", 2.5), "size: the first is 2.5, which is not a whole number")
    expect_error(graph_catalogue("holm", -1), "^size: -1 is below 0$")
    expect_error(graph_catalogue("holm", NULL), "^size: one number is needed$")
    expect_error(graph_catalogue("parallel", 2, mean), "^second: a whole number is needed, and not an object of class function$")
    expect_error(graph_catalogue("parallel", 2), "second: the number of secondary hypotheses is needed for parallel")
    expect_error(graph_catalogue("holm", 2, 3), "second: the number of secondary hypotheses is not used for holm")
    expect_error(graph_read("/nowhere"), "file: there is no file \"/nowhere\"", fixed = TRUE)
    expect_error(graph_test(1, 0.1), "graph: a graph is needed")
    alpha <- refusal_of(graph_test(graph, c(0.1, 0.2), 1 / 140 + 2^-60))
    expect_match(alpha$amount, "is one unit in the last place above 1/140")
  })
})

test_that("other refusals carry status, line and advice", {
  each_way(function(way) {
    graph <- holm(3)
    line <- function(code) refusal_of(code)$line
    expect_equal(line(graph_test(graph, c(0.1, NA, 0.2))), "malformed: case: p missing H2")
    expect_equal(line(graph_test(graph, c(0.1, -0.1, 0.2))), "malformed: case: p of H2")
    expect_equal(line(graph_test(graph, c(0.1, 1.5, 0.2))), "malformed: case: p of H2")
    expect_equal(line(graph_test(graph, c(0.1, 0.2))), "malformed: case: p count 2")
    expect_equal(line(graph_test(graph, c("0.1", "x", "0.2"))), "malformed: line 3: number")
    expect_equal(line(graph_test(graph, c("0.1", "1e-300", "0.2"))), "limit: line 3: digits")
    expect_equal(line(graph_test(graph, c(0.1, 0.2, 0.3), 0)), "malformed: case: alpha")
    expect_equal(line(graph_test(graph, c(0.1, 0.2, 0.3), 1 / 12347)), "limit: case: part alpha")
    expect_equal(line(graph_create(c(NA, 0.5), matrix(0, 2, 2))), "malformed: line 3: number")
    expect_equal(line(graph_create(c(0.5, 0.5), diag(2))), "malformed: case: self edge of H1 component 1")
    expect_equal(line(graph_bounds(holm(17), rep(0.1, 17))), "limit: closure 17")
    expect_equal(line(graph_catalogue("holm", 65)), "limit: size 65")
    several <- "name: one of \"holm\", \"fixed-sequence\", \"fallback\", \"parallel\", \"improved-parallel\" is needed"
    expect_error(graph_catalogue("hochberg", 3), paste0(several, ", and not \"hochberg\""), fixed = TRUE)
    wide <- refusal_of(graph_test(graph_create(c(1, 0, 0, 0), rbind(
      c("0", "1/1000000000000000000", "0", "0"), c("0", "0", "1/999999999999999999", "0"), c("0", "0", "0", "1/999999999999999997"), "0"
    )), c(0, 0, 0, 0), 0.05))
    expect_equal(wide$status, 5L)
    expect_match(wide$advice, "common denominators")
  })
})

test_that("what could mislead says what is meant", {
  each_way(function(way) {
    graph <- pair()
    p <- c(0.01, 0.02)
    # levels as a spending function gives them
    spent <- refusal_of(graph_stages(graph, rep(list(c(.001525323, .023474677)), 2), at = 1))
    expect_equal(spent$line, "limit: case: part spend of H1 stage 1")
    expect_equal(spent$where, "levels: the level of H1 at stage 1 is a fraction of alpha with parts above 10,000")
    expect_match(spent$advice, "^Finer fractions need a table, which takes levels[.] In R a table is a matrix of levels by weight: rbind[(]\"1/2\" = c[(]..[)], \"1\" = c[(]..[)][)][.]$")
    tables <- rep(list(rbind("1/2" = c(.0007, .0117), "1" = c(.001525323, .023474677))), 2)
    expect_equal(graph_stages(graph, tables, at = 1)$plan$count, 2)
    # no graph, but something that has one
    x <- graph_test(graph, p)
    for (has in list(x, list(graph = graph, alpha = "1/40"), graph_bounds(graph, p))) expect_error(graph_test(has, p), "^graph: a graph is needed, .*: x[$]graph is one$")
    expect_error(graph_test(graph_steps(x), p), "^graph: a graph is needed, .*: x[$]updated_graph and x[$]initial_graph are graphs$")
    expect_error(graph_test(list(a = 1), p), "^graph: a graph is needed, .* and not a list$")
    # levels of a call
    alpha <- refusal_of(graph_test(graph, p, 1 - 0.975))
    expect_equal(alpha$line, "limit: case: part alpha")
    expect_match(alpha$amount, "^1/40 is beside it[.]$")
    expect_equal(refusal_of(graph_test(graph, p, .02281))$amount, "")
    expect_match(refusal_of(graph_test(graph, p, .02281))$advice, ", or compare the adjusted p-values with any level[.]$")
    expect_error(graph_create(p, matrix(c(FALSE, TRUE, TRUE, FALSE), 2)), "^transitions: .* and not of class logical$")
    none <- refusal_of(graph_test(graph, numeric()))
    expect_equal(none[c("line", "where", "advice")], list(line = "malformed: case: p count 0", where = "p: no p-values are given", advice = "Give one p-value for each hypothesis."))
    expect_error(graph_canon(graph, character()), "p: no p-values are given", class = "welungad_refusal")
    expect_error(graph_create(c(1, 0), rbind(c("0", "1-\\gamma"), "0")), "transitions: the edge at 1, 2 is \".*gamma\", and epsilon is the one variable: replaceVariables")
    failed <- graph_check(graph, c(0.5, 0.5), evidence = graph_evidence(graph, p))
    expect_output(print(failed), "The evidence does not hold: step .*: above level\nThe p-value is above the weight that the flows prove, times alpha.")
  })
  for (way in list("program", NULL)) with_options(list(welungad.way = way), {
    expect_error(welungad:::stop_without_way(), "is (not )?found: .*; ./install PREFIX, in a checkout of Welungad, makes both, as its README says$")
  })
})

test_that("each line of evidence that fails has its row", {
  rows <- c("step 1: repeated", "step 1: component 1 flow of A negative", "keep A: component 1 exit of A negative", "step 1: component 1 flow of A exceeds",
    "step 1: no level", "step 1: above level", "keep A: component 1 exit of A short", "keep A: component 1 level above one", "keep A: legal")
  advice <- vapply(paste("no:", rows), welungad:::advice, "")
  expect_true(all(grepl("^[A-Z].*[.]$", advice)))
})

test_that("each refusal has advice", {
  kinds <- c("unexpected", "ended", "words", "unknown name", "whole number", "number", "zero denominator", "expression", "divisor",
    "zero divisor")
  cases <- c("no hypothesis", "name 2", "duplicate name 2", "no component", "alpha", "share component 1", "share sum",
    "weight count component 1", "weight of A component 1", "weight sum component 1", "self edge of A component 1",
    "repeated edge A B component 1", "edge A B component 1", "row sum of A component 1", "mixed", "p count 2", "p missing A", "p of A",
    "no stage", "spend count 1", "step 1 of A", "spend of A stage 1", "spend sum of A", "arrival 1 stage", "arrival 1 repeated",
    "arrival 1 p")
  proofs <- c("unexpected", "ended", "words", "version", "unknown name", "flow", "exit", "number")
  parts <- c("alpha", "share component 1", "weight of A component 1", "p of A", "spend of A stage 1", "step 1 of A", "arrival 1")
  lines <- c(
    "usage: word 3",
    paste("malformed: line 3:", kinds),
    paste("malformed: commands line 3:", kinds[1:7]),
    paste("malformed: case:", cases),
    paste("malformed: row 1 column 1:", c("header", "records", "width", "name", kinds[6:10])),
    paste("malformed: proof line 3:", proofs),
    "malformed: json: syntax",
    paste("malformed: /p/0:", c("shape", "not whole", kinds[c(4, 6:10)])),
    "malformed: : shape",
    "malformed: kind",
    "malformed: record 1",
    paste("limit:", c("bytes 4194305", "proof bytes 4194305", "commands bytes 4194305", "closure 17", "line 3: digits", "line 3: degree",
      "line 3: part", "line 3: depth", "size 65", "seed 1", "hypotheses 65", "components 9", "stages 13", "spend steps 33")),
    paste("limit: case: part", parts),
    "too wide: step 3: component 1 weight of H4 mul",
    "read fault",
    "keeper fault",
    "no memory"
  )
  advice <- vapply(lines, welungad:::advice, "", command = "test")
  expect_equal(names(advice)[!nzchar(advice)], character())
  expect_true(all(grepl("^[A-Za-z].*[.]$", advice)))
  expect_match(advice[["malformed: line 3: zero divisor"]], "other than 0")
  expect_match(advice[["limit: case: part alpha"]], "whole numbers up to 10,000")
})

test_that("what to do is read off the page, for the command that was asked", {
  rows <- welungad:::rows_of_page(c("## A kind", "", "All of these begin with `bad: case: `.", "", "| Rest of the line | Cause | Cure |", "|---|---|---|",
    "| `p of NAME` | Beyond. | Use `p` as [here](X.md#p). |", "", "Each line begins with `no: a: ` or `no: b: `, and names it.", "",
    "| Rest of the line | Broken condition |", "|---|---|", "| `N short`, `over ..` | It is broken. |", "", "## Another", "", "| Line | Cause | Cure |",
    "|---|---|---|", "| `kind` for `test`, `canon --to csv` | Lacks. | Add (it). |", "", "| Other | Cure |", "|---|---|", "| `other` | None. |"))
  expect_identical(lapply(rows, `[[`, "cure"), list("Use p as here.", "It is broken.", "Add (it)."))
  expect_identical(lapply(rows, `[[`, "commands"), list(character(), character(), c("test", "canon")))
  expect_identical(rows[[1]]$patterns, "^bad: case: p of .*$")
  expect_identical(vapply(rows[[2]]$patterns, grepl, NA, x = "no: a: 7 short", USE.NAMES = FALSE), c(TRUE, FALSE, FALSE, FALSE))
  kind <- vapply(c("test", "stages", "study", "canon", ""), function(command) welungad:::advice("malformed: kind", command), "")
  expect_identical(unname(kind[1:4]), c("Add a line p; a case with stages is for stages or study.",
    "Add the line stages with what each hypothesis spends, or use another command.", "Leave out the lines arrive: a study takes looks.", "Use --to json."))
  expect_true(all(vapply(kind[1:4], grepl, NA, x = kind[[5]], fixed = TRUE)))
  expect_identical(welungad:::advice("malformed: row 2 column 3: number"), welungad:::advice("malformed: line 2: number"))
  expect_identical(welungad:::advice("no such line"), "")
})

test_that("the proved call answers as the program prints", {
  each_way(function(way) {
    answer <- welungad_run("help")
    expect_equal(answer$status, 0L)
    expect_match(answer$text, "\nend\n$")
    expect_equal(welungad_run(character())$status, 2L)
    expect_equal(welungad_run(c("study", "x"))$text == "", FALSE)
    case <- c("alpha 0.05", "hypotheses A", "p 0.01", "weights 1")
    expect_equal(welungad_run("test", case)$text, welungad_run("test", charToRaw(paste0(case, "\n", collapse = "")))$text)
    expect_error(welungad_run("test", 1), "a raw vector, a text or lines")
    for (words in list(NA, c("test", NA), NA_character_)) expect_error(welungad_run(words), "words: a word is NA", fixed = TRUE)
    for (wrong in list(NA, c("alpha 1", NA), NULL, list("x"))) expect_error(welungad_run("test", wrong), "case: a raw vector, a text or lines")
    expect_error(welungad_run(c("check", "-"), "x", NA_character_), "proof: a raw vector, a text or lines")
  })
})

test_that("what is none of the choices of an argument is an error that names it", {
  each_way(function(way) {
    graph <- pair()
    p <- c(0.01, 0.02)
    orders <- "^priority: one of \"first\", \"last\", \"ratio\" is needed"
    for (wrong in list(NULL, character(), NA_character_, "", "lest", c("last", "ratio"), 2, factor("last"), TRUE)) {
      expect_error(graph_test(graph, p, priority = wrong), orders)
      expect_error(graph_evidence(graph, p, priority = wrong), orders)
      expect_error(graph_catalogue(wrong, 3), "^name: one of \"holm\", ")
      expect_error(graph_read(tempfile(), wrong), "^form: one of \"text\", \"csv\", \"json\" is needed")
    }
    expect_error(graph_test(graph, p, priority = "lest"), ", and not \"lest\"$")
    expect_equal(graph_test(graph, p, priority = "la")$order, graph_test(graph, p, priority = "last")$order)
    expect_equal(graph_catalogue("par", 2, 2), graph_catalogue("parallel", 2, 2))
    expect_equal(graph_test(graph, p, priority = c("first", "last", "ratio"))$priority, "first")
  })
})

test_that("the refusal of a file names it", {
  file <- tempfile()
  on.exit(unlink(file))
  each_way(function(way) {
    writeLines(sub("^weights .*", "weights x 1/2", graph_canon(pair(), c(0.01, 0.02))), file)
    refusal <- refusal_of(graph_read(file))
    expect_equal(refusal[c("line", "where")], list(line = "malformed: line 4: number", where = paste0("file: \"", file, "\"")))
    expect_match(conditionMessage(refusal), "(malformed: line 4: number)\n  Write 0.025", fixed = TRUE)
    if ("program" %in% welungad_ways()) expect_equal(refusal_of(graph_study("alpha 2", tempfile()))$where, "case: the text")
    cat(welungad_run(c("canon", "--to", "csv"), graph_canon(pair(), c(0.01, 0.02)))$text, file = file)
    for (level in c("x", "2", "1/12347")) expect_equal(refusal_of(graph_read(file, "csv", level))$where, "alpha: the level")
  })
})

test_that("a level is given for a sheet alone", {
  file <- tempfile()
  on.exit(unlink(file))
  each_way(function(way) {
    writeLines(graph_canon(pair(), c(0.01, 0.02)), file)
    expect_error(graph_read(file, alpha = 0.05), "^alpha: a case of the form text has a level of its own$")
    expect_error(graph_read(file, "json", 0.05), "^alpha: a case of the form json has a level of its own$")
    expect_error(graph_read(file, "csv"), "^alpha: a case of the form csv has no level of its own, so one is needed$")
    for (form in c("csv", "json")) {
      cat(welungad_run(c("canon", "--to", form), graph_canon(pair(), c(0.01, 0.02)))$text, file = file)
      read <- graph_read(file, form, if (form == "csv") 0.025)
      expect_equal(read$graph$components, pair()$components)
      expect_equal(read[c("alpha", "p", "stages")], list(alpha = "1/40", p = c(H1 = "1/100", H2 = "1/50"), stages = character()))
    }
  })
})

test_that("the errors of the package name the argument", {
  each_way(function(way) {
    graph <- pair()
    p <- c(0.01, 0.02)
    expect_error(graph_create(c(0.5, 0.5), matrix(0, 2, 2), hyp_names = "A"), "^hyp_names: one name is needed for each hypothesis$")
    expect_error(graph_create(c(0.5, 0.5), matrix(0, 2, 2), labels = "A"), "^labels: one label is needed for each hypothesis$")
    expect_error(graph_entangle(shares = 1), "^[.]{3}: graphs are needed, as graph_create makes them$")
    expect_error(graph_entangle(graph, 1, shares = c(0.5, 0.5)), "^[.]{3}: graphs are needed")
    expect_error(graph_entangle(entangled(), shares = 1), "^[.]{3}: a graph that is entangled already can't be entangled again$")
    expect_error(graph_update(graph, list("H1")), "^delete: hypotheses are given by their names, labels or positions$")
    expect_error(graph_update(graph, 0.5), "^delete: hypotheses are given by their names, labels or positions$")
    expect_error(graph_steps(1), "^x: a result of graph_test is needed$")
    expect_error(graph_rejections(1), "^x: a result of graph_test is needed$")
    bounds <- graph_bounds(graph, p)
    expect_error(bound_of(1, "H1"), "^x: a result of graph_bounds or graph_simes is needed$")
    expect_error(bound_of(bounds[1:2], "H1"), "^hypotheses: this set is not among the 2 sets of x$")
    for (wrong in list(1, NA_character_, character(), c("evidence 2", NA))) {
      expect_error(graph_check(graph, p, evidence = wrong), "^evidence: a result of graph_evidence or the lines of a document are needed$")
    }
    expect_error(graph_stages(graph, 0.01, at = 1), "^levels: a list is needed with a vector or a matrix for each hypothesis, or a matrix")
    expect_error(graph_stages(graph, list(0.01, NA), at = 1), "^levels: \"H2\": a number is needed for each stage$")
    expect_error(graph_stages(graph, list(numeric(), numeric()), at = 1), "^levels: \"H1\": a number is needed for each stage$")
    expect_error(graph_stages(graph, list(0.01, matrix(0.01)), at = 1), "^levels: \"H2\": a matrix of levels has row names: the weights")
    expect_error(graph_stages(graph, list(0.01, rbind(x = 0.01)), at = 1), "^levels: \"H2\": the row name \"x\" is not a weight$")
    levels <- list(0.01, 0.01)
    expect_error(graph_stages(graph, levels, data.frame(hypothesis = "H1", p = 0.1), at = 1), "^looks: a data frame with the columns hypothesis, stage and p")
    expect_error(graph_stages(graph, levels, data.frame(hypothesis = "H1", stage = 1, p = NA), at = 1), "^looks: the p-value of row 1 is missing$")
    for (level in list(0, -0.5, "x", 2)) {
      expect_equal(refusal_of(graph_stages(graph, levels, alpha = level, at = 1))$line, refusal_of(graph_test(graph, p, level))$line)
    }
    expect_error(as_exact(c("1-\\epsilon", "1"), total = 1), "^x: a sum needs numbers without epsilon, and none missing$")
    frame <- data.frame(A = 1:2)
    frame$B <- matrix(0, 2, 2)
    expect_error(as_exact(frame), "^x: column \"B\" is a table of its own$")
    with_options(list(welungad.way = "both"), expect_error(graph_canon(graph), "^the option welungad.way: \"library\" or \"program\" is needed$"))
  })
})
