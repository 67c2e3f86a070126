# Runs code by each way with the name of a file in a folder of its own, if a page can be made.
with_page <- function(code) {
  testthat::skip_if_not("program" %in% welungad:::welungad_ways(), "the program is not found")
  testthat::skip_if_not(nzchar(Sys.which("python3")), "python3 is not found")
  folder <- tempfile("page-")
  dir.create(folder)
  on.exit(unlink(folder, recursive = TRUE))
  each_way(function(way) code(file.path(folder, paste0(way, ".html"))))
}

# Runs code with variables of the environment.
with_variables <- function(wish, code) {
  old <- Sys.getenv(names(wish), NA, names = TRUE)
  on.exit({
    Sys.unsetenv(names(wish)[is.na(old)])
    if (!all(is.na(old))) do.call(Sys.setenv, as.list(old[!is.na(old)]))
  })
  do.call(Sys.setenv, as.list(wish))
  code
}

page_in <- function(file) paste(readLines(file, encoding = "UTF-8"), collapse = "\n")

# How a text is written in HTML.
escaped <- function(text) {
  for (pair in list(c("&", "&amp;"), c("<", "&lt;"), c(">", "&gt;"), c("\"", "&quot;"), c("'", "&#x27;"))) {
    text <- gsub(pair[1], pair[2], text, fixed = TRUE)
  }
  text
}

has <- function(page, text) grepl(text, page, fixed = TRUE)

doses <- function(labels = c("low dose", "high dose")) graph_create(stats::setNames(c(1 / 2, 1 / 2), labels), rbind(0:1, 1:0))

test_that("a page has the decision, in the user's labels", {
  with_page(function(file) {
    x <- graph_test(doses(), c("high dose" = 0.02, "low dose" = 0.01))
    said <- withVisible(graph_report(x, file))
    expect_equal(said, list(value = normalizePath(file), visible = FALSE))
    page <- page_in(file)
    expect_true(has(page, "<h1>Graphical test of 2 hypotheses at level 0.025 (1/40)</h1>"))
    expect_true(has(page, "<strong>low dose and high dose</strong>"))
    expect_true(has(page, paste0("<pre>", paste(x$report, collapse = "\n"), "\n</pre>")))
    expect_true(has(page, paste0("<pre>", x$case)) || has(page, sub("\n$", "</pre>", paste0("<pre>", x$case))))
    expect_equal(lengths(regmatches(page, gregexpr("<figure>", page))), 3)
    graph_report(doses(), file, p = c(0.01, 0.02), title = "Two <doses>")
    body <- function(page) sub("(?s).*<main>", "", page, perl = TRUE)
    expect_equal(body(page_in(file)), sub("Graphical test of 2 hypotheses at level 0.025 (1/40)", "Two &lt;doses&gt;", body(page), fixed = TRUE))
    expect_true(has(page_in(file), "<title>Two &lt;doses&gt;</title>"))
    expect_true(has(page, "<dt>Protocol</dt><dd><span class=\"blank\"></span></dd>"))
    graph_report(x, file, protocol = "NN-1 <2>", data_cut = "d\u00e9c. 2026", author = "A & B")
    for (text in c("<dd>NN-1 &lt;2&gt;</dd>", "<dd>d\u00e9c. 2026</dd>", "<dd>A &amp; B</dd>")) expect_true(has(page_in(file), text))
    expect_error(graph_report(x, file, author = 1), "author: one text is needed")
  })
})

test_that("a page has the priority of the decision, and the looks of a staged one", {
  with_page(function(file) {
    x <- graph_test(doses(c("A", "B")), c(0.012, 0.001), priority = "ratio")
    graph_report(x, file)
    expect_true(has(page_in(file), paste0("<pre>", paste(x$report, collapse = "\n"), "\n</pre>")))
    expect_true(has(page_in(file), "welungad test --priority ratio &lt; case.txt"))
    graph_report(doses(c("A", "B")), file, p = c(0.02, 0.04), alpha = 0.05)
    expect_true(has(page_in(file), "\nrejected A B\n"))
    expect_true(has(page_in(file), "<h1>Graphical test of 2 hypotheses at level 0.05 (1/20)</h1>"))
    looks <- data.frame(hypothesis = c("PFS <1>", "OS"), stage = c(1, 1), p = c(0.002, 0.5))
    y <- graph_stages(doses(c("PFS <1>", "OS")), list("PFS <1>" = c(0.005, 0.02), OS = c(0.005, 0.02)), looks, at = 1)
    graph_report(y, file)
    expect_true(has(page_in(file), paste0("<pre>", paste(y$report, collapse = "\n"), "\n</pre>")))
    expect_true(has(page_in(file), "PFS &lt;1&gt;"))
    expect_true(has(page_in(file), "<h1>Staged test of 2 hypotheses at 2 stages"))
  })
})

test_that("labels are texts on the page, whatever they are", {
  with_page(function(file) {
    long <- paste0("a long label ", strrep("w<", 5000))
    labels <- c("</th></table><script>alert(1)</script>", "\"q\" & 'r' &amp;", "Dosis \u00fc \u2265 \U1F4A7", long, "two\nlines")
    graph <- graph_create(stats::setNames(rep(1 / 5, 5), labels), matrix(0, 5, 5))
    graph_report(graph, file, p = rep(0.001, 5))
    page <- page_in(file)
    for (label in labels) expect_true(has(page, escaped(label)), info = substr(label, 1, 40))
    for (raw in c("<script", "</th></table><", "\"q\" & ")) expect_false(has(page, raw), info = raw)
    latin <- "Dosis \xfc"
    Encoding(latin) <- "latin1"
    graph_report(graph_create(stats::setNames(1, latin), matrix(0, 1, 1)), file, p = 0.5, title = latin)
    expect_equal(lengths(regmatches(page_in(file), gregexpr("Dosis \u00fc", page_in(file)))) > 3, TRUE)
  })
})

test_that("a title keeps its letters in a locale that is not UTF-8", {
  with_page(function(file) {
    script <- tempfile(fileext = ".R")
    writeLines(c("library(welungad)", "graph <- graph_create(c(A = 1), matrix(0, 1, 1))",
      "invisible(graph_report(graph, commandArgs(TRUE), p = 0.01, title = \"Dosis \\u00fc\"))"), script)
    libraries <- paste0("R_LIBS=", shQuote(paste(.libPaths(), collapse = ":")))
    system2(file.path(R.home("bin"), "Rscript"), shQuote(c("--vanilla", script, file)), env = c("LC_ALL=C", libraries))
    expect_true(has(page_in(file), "<h1>Dosis \u00fc</h1>"))
  })
})

test_that("a file has the whole page, or stays as it was", {
  with_page(function(file) {
    x <- graph_test(doses(), c(0.01, 0.02))
    for (wrong in list(1, NA_character_, "", c("a", "b"), NULL)) expect_error(graph_report(x, wrong), "file: one text is needed")
    folder <- dirname(file)
    pipe <- tempfile("pipe-", folder)
    system2("mkfifo", shQuote(pipe))
    before <- list.files(folder, all.files = TRUE)
    expect_error(graph_report(x, file.path(folder, "no", "page.html")), "there is no page: .*no/page.html can't be written: No such file or directory$")
    expect_error(graph_report(x, folder), "can't be written: it is not a file$")
    expect_error(graph_report(x, pipe), "can't be written: it is not a file$")
    expect_equal(list.files(folder, all.files = TRUE), before)
    writeLines("old", file)
    changed <- with_part(x, "report", replace(x$report, 2, "step 1 low_dose p 1/50 weight 1/2"))
    expect_error(graph_report(changed, file), "x: the result was changed after it was made: decide again what is meant", fixed = TRUE)
    changed <- with_part(x, "case", sub("1/100", "1/10", x$case))
    expect_error(graph_report(changed, file), "there is no page: the program decides this case otherwise than the report that was given", fixed = TRUE)
    changed <- with_part(changed, "graph", with_part(x$graph, "labels", c("a", "a")))
    expect_error(graph_report(changed, file), "labels: the name \"a\" occurs twice", fixed = TRUE)
    expect_equal(readLines(file), "old")
  })
})

test_that("what a page needs is named", {
  each_way(function(way) {
    x <- graph_test(doses(), c(0.01, 0.02))
    file <- tempfile()
    expect_error(graph_report(1, file), "x: a result of graph_test or graph_stages is needed, or a graph and p-values")
    expect_error(graph_report(doses(), file), "p: a graph is reported with p-values")
    expect_error(graph_report(x, file, p = c(1, 1)), "p: a result has its own")
    expect_error(graph_report(x, file, alpha = 0.025), "alpha: a result has its own")
    expect_error(graph_report(x, file, title = 1), "title: one text is needed")
    with_variables(c(WELUNGAD = "/nowhere/welungad"), expect_error(graph_report(x, file), "a page needs the program welungad: let the environment"))
    lone <- stand_in("end")
    with_variables(c(WELUNGAD = lone), {
      message <- conditionMessage(tryCatch(graph_report(x, file), error = identity))
      expect_match(message, "a page needs the script report.py of Welungad, which is not beside the program .*: it is none of ")
      expect_false(grepl("\n", message))
    })
    top <- tempfile("top-")
    dir.create(file.path(top, "bin"), recursive = TRUE)
    dir.create(file.path(top, "share", "welungad", "tools"), recursive = TRUE)
    program <- file.path(top, "bin", "welungad")
    file.copy(lone, program)
    script <- file.path(top, "share", "welungad", "tools", "report.py")
    writeLines("import sys; sys.exit('report.py: what it says')", script)
    with_variables(c(WELUNGAD = program), {
      expect_equal(welungad:::script_path("report.py", program), script)
      for (python in c("/nowhere/python3", "no-such-python")) {
        with_variables(c(WELUNGAD_PYTHON = python), expect_error(graph_report(x, file), "a page needs python3, 3.9 or later, which is not found: let"))
      }
      with_variables(c(WELUNGAD_PYTHON = stand_in("", 1)), expect_error(graph_report(x, file), "a page needs python3, 3.9 or later, and .* is not: let"))
      if (nzchar(Sys.which("python3"))) expect_error(graph_report(x, file), "^there is no page: what it says$")
    })
    expect_false(file.exists(file))
  })
})
