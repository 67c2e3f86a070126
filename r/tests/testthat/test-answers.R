test_that("only the whole answer to the command is taken", {
  each_way(function(way) {
    graph <- pair()
    p <- c(0.001, 0.9)
    report <- graph_test(graph, p)$report
    fault <- "gives no whole answer of Welungad to test"
    taken <- function(lines, ...) with_program(stand_in(lines, ...), graph_test(graph, p))
    expect_equal(taken(report)$rejected, c(H1 = TRUE, H2 = FALSE))
    for (program in c("/bin/true", "/bin/cat")) with_program(program, expect_error(graph_test(graph, p), fault))
    expect_error(taken(report[report != "end"]), fault)
    expect_error(taken(c(report[report != "end"], "more")), fault)
    expect_error(taken(report, end = ""), fault)
    expect_error(taken(report[-2]), fault)
    expect_error(taken(report[-1]), fault)
    expect_error(taken(sub("H2", "H3", report)), fault)
    expect_error(taken(sub("^rejected H1$", "rejected", report)), fault)
    expect_error(taken(sub("^kept H2", "step 2 H2", report)), fault)
    expect_error(taken(graph_test(holm(3), rep(0.9, 3))$report), fault)
    expect_error(taken(character()), fault)
    expect_error(taken(report, status = 1), fault)
    expect_error(taken(report, status = 3), fault)
    expect_error(taken("usage: word 1", status = 4), fault)
    expect_equal(refusal_of(taken("usage: word 1", status = 2))$line, "usage: word 1")
  })
})

test_that("so it is for each command", {
  each_way(function(way) {
    graph <- pair()
    p <- c(0.001, 0.9)
    levels <- list(H1 = 0.01, H2 = 0.01)
    looks <- data.frame(hypothesis = c("H1", "H2"), stage = 1, p = c(0.001, 0.5))
    evidence <- graph_evidence(graph, p)
    case <- charToRaw(paste0(evidence$case, "\n", collapse = ""))
    lines_of <- function(words, case) strsplit(welungad_run(words, case, paste0(evidence$evidence, "\n", collapse = ""))$text, "\n")[[1]]
    calls <- list(
      evidence = function() graph_evidence(graph, p),
      check = function() graph_check(graph, p, evidence = evidence),
      bounds = function() graph_bounds(graph, p),
      simes = function() graph_simes(graph, p),
      stages = function() graph_stages(graph, levels, looks, at = 1)
    )
    for (command in names(calls)) {
      words <- c(command, if (command == "check") "evidence")
      lines <- lines_of(words, if (command == "stages") charToRaw(calls$stages()$case) else case)
      handed <- welungad:::handed("", graph, version = 2L, looks = data.frame(name = c("H1", "H2"), stage = 1))
      read <- function(lines) welungad:::read_answer(command, 0L, lines, handed)
      expect_false(is.null(read(lines)), info = command)
      for (k in seq_along(lines)) expect_null(suppressWarnings(read(lines[-k])), info = paste(command, k, "is missing"))
      expect_null(read(gsub("H2", "H3", lines)), info = command)
      with_program("/bin/true", expect_error(calls[[command]](), "gives no whole answer"))
    }
    canon <- graph_canon(graph, p)
    read <- function(lines) welungad:::read_answer("canon", 0L, lines, welungad:::handed("", graph))
    expect_false(is.null(read(canon)))
    expect_null(read(sub("H2", "H3", canon)))
    expect_null(read(canon[-1]))
    expect_null(read(sub("^weights .*", "weights 1", canon)))
    first <- sub("^evidence 2", "evidence 1", evidence$evidence[!grepl("^(keep|exit)", evidence$evidence)])
    for (before in list(NULL, "", "# by a reviewer", c(" \t", "  # evidence 2"), "# one line\n", "#\xff")) {
      expect_equal(graph_check(graph, p, evidence = c(before, first))$listed, "H1")
      expect_equal(graph_check(graph, p, evidence = c(before, evidence$evidence))$kept, "H2")
    }
    expect_equal(graph_check(graph, p, evidence = paste0(first, "\r", collapse = "\n"))$listed, "H1")
    with_program("/bin/true", expect_error(pair(), "gives no whole answer of Welungad to canon"))
    with_program("/bin/true", expect_error(graph_catalogue("holm", 3), "gives no whole answer of Welungad to catalogue"))
  })
})

test_that("the reply to a study has one to each look", {
  case <- welungad:::handed("", list(names = c("H1", "H2")), looks = data.frame(name = c("H1", "H2", "H1"), stage = c(1, 1, 2)))
  lines <- c("alpha 1/40", "records 2", "look H1 1 1/100", "reject H1 stage 1 weight 1/2", "refused 2: known", "look H1 2 1/2",
    "show looks 4 rejected H1", "end")
  read <- function(lines, looks = case$looks) {
    case$looks <- looks
    welungad:::read_answer("study", 0L, lines, case)
  }
  expect_equal(read(lines)[c("records", "taken", "rejected", "arrival")], list(records = 2L, taken = 4L, rejected = c(TRUE, FALSE), arrival = 1L))
  for (k in setdiff(seq_along(lines), 4)) expect_null(read(lines[-k]), info = lines[k])
  for (k in c(3, 5, 6)) expect_null(read(lines[c(seq_len(k), k:8)]), info = lines[k])
  expect_null(read(lines[c(1, 2, 6, 5, 3, 4, 7, 8)]))
  for (change in list(c("look H1 1", "look H2 1"), c("look H1 2", "look H1 3"), c("refused 2", "refused 3"), c("refused 2", "refused 02"),
    c("refused 2:", "refused x:"), c("looks 4", "looks 3"), c("looks 4", "looks x"), c("records 2", "records"), c("records 2", "records 2 2"),
    c("weight 1/2", "weight"), c("reject H1", "reject H3"), c("rejected H1", "rejected H3"))) {
    expect_null(read(sub(change[1], change[2], lines, fixed = TRUE)), info = change[2])
  }
  expect_null(read(lines, case$looks[1:2, ]))
  expect_null(read(lines, rbind(case$looks, case$looks[1, ])))
})

test_that("a program that a signal ends is not taken for its status", {
  each_way(function(way) {
    graph <- pair()
    with_program(stand_in("keeper fault", -9), expect_error(graph_test(graph, c(0.1, 0.2)), "was ended by signal 9"))
    with_program(stand_in("", 77), expect_error(graph_test(graph, c(0.1, 0.2)), "can't be run: it ends with 77"))
    # an interrupt of the program is one of R
    said <- function(code) tryCatch(code, interrupt = function(i) "interrupted", error = conditionMessage)
    with_program(stand_in("usage: word 1", -2), expect_equal(said(graph_test(graph, c(0.1, 0.2))), "interrupted"))
    with_program(stand_in("usage: word 1", -2), expect_equal(said(graph_test_many(graph, matrix(0.1, 3, 2))), "interrupted"))
    x <- graph_test(graph, c(0.1, 0.2))
    # one that comes after the program has answered, or while the shell begins
    lines <- c("#!/bin/sh", "kill -2 $PPID", paste("echo", shQuote(x$report)))
    program <- stand_in("")
    writeLines(lines, program)
    with_program(program, expect_equal(said(graph_test(graph, c(0.1, 0.2))), "interrupted"))
    writeLines(lines[-2], program)
    with_program(program, expect_equal(said(graph_test(graph, c(0.1, 0.2)))$report, x$report))
  })
})

test_that("a way that the option names and that is not there is named", {
  with_program("/nowhere/welungad", expect_error(welungad_run("help"), "^the program welungad is not found: let the environment variable WELUNGAD"))
  if (!"library" %in% welungad_ways()) {
    with_options(list(welungad.way = "library"), expect_error(welungad_run("help"), "the option welungad.way is \"library\"", fixed = TRUE))
  }
})

test_that("the file of the proof is the word that names it", {
  expect_equal(welungad:::file_word(c("check", "x")), 2)
  expect_equal(welungad:::file_word(c("check", "--form", "csv", "--alpha=0.05", "x")), 5)
  expect_equal(welungad:::file_word(c("check", "--form", "x")), NA_integer_)
  expect_equal(welungad:::file_word(c("test", "x")), NA_integer_)
  each_way(function(way) {
    proof <- graph_evidence(pair(), c(0.01, 0.02))
    sheet <- welungad_run(c("canon", "--to", "csv"), proof$case)$text
    answer <- welungad_run(c("check", "--form", "csv", "--alpha=0.025", "x"), sheet, proof$evidence)
    expect_equal(answer$status, 0L)
    expect_match(answer$text, "^yes\n")
    expect_equal(welungad_run(c("check", "--form", "text"), proof$case, proof$evidence)$text, "usage: word 4\n")
  })
})

test_that("a report of test is read word by word", {
  names <- c("H1", "H2", "H10")
  lines <- c("alpha 1/40", "step 1 H2 p 1/200 weight 1/3", "step 2 H10 p 1/100 weight 1/2", "kept H1 p 1/50 weight 0", "rejected H2 H10",
    "adjusted H1 1 not reached", "adjusted H2 3/200", "adjusted H10 1", "end")
  read <- function(lines) welungad:::read_answer("test", 0L, lines, list(graph = list(names = names)))
  expect_equal(read(lines), list(alpha = "1/40", order = c(2L, 3L), rejected = c(FALSE, TRUE, TRUE), p = c("1/50", "1/200", "1/100"),
    weight = c("0", "1/3", "1/2"), adjusted = c("1", "3/200", "1"), reached = c(FALSE, TRUE, TRUE)))
  numbers <- list(2, c(5, 7), c(5, 7), c(4, 6), integer(), integer(), 3, 3, integer())
  for (k in seq_along(lines)) {
    words <- strsplit(lines[k], " ")[[1]]
    expect_null(read(lines[-k]))
    expect_null(read(lines[c(seq_len(k), k:length(lines))]))
    expect_null(read(replace(lines, k, paste0(lines[k], " "))))
    expect_null(read(replace(lines, k, "")))
    for (j in seq_along(words)) {
      for (new in c("x", "H1", "", "2")) {
        changed <- replace(lines, k, paste(replace(words, j, new), collapse = " "))
        if (identical(changed, lines)) next
        if (nzchar(new) && j %in% numbers[[k]]) expect_false(is.null(read(changed))) else expect_null(read(changed), info = changed[k])
      }
    }
  }
  expect_null(read(lines[c(1, 3, 2, 4:9)]))
  expect_null(read(lines[c(1, 2, 4, 3, 5:9)]))
  expect_null(read(c(lines[c(1, 2, 4)], sub("step 2", "step 3", lines[3]), lines[5:9])))
  expect_null(read(sub("rejected H2 H10", "rejected H10 H2", lines)))
  expect_null(read(sub("kept H1", "kept H2", lines)))
})
