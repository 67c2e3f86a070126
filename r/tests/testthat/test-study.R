staged <- function(names = c("PFS", "OS"), alpha = 0.025) {
  graph_stages(pair(names), stats::setNames(list(c(0.005, 0.02), c(0.005, 0.02)), names), alpha = alpha, at = 1)
}

look <- function(hypothesis, stage, p) data.frame(hypothesis = hypothesis, stage = stage, p = p)

# Runs code in each way, with a folder for files, if there is a program.
with_folder <- function(code) {
  testthat::skip_if_not("program" %in% welungad:::welungad_ways(), "the program is not found")
  folder <- tempfile("study-")
  dir.create(folder)
  on.exit(unlink(folder, recursive = TRUE))
  each_way(function(way) code(file.path(folder, paste0(way, ".db"))))
}

test_that("a study keeps its looks, and the case beside them", {
  with_folder(function(store) {
    first <- graph_study(staged(), store)
    expect_equal(c(first$records, first$taken), c(0L, 0L))
    expect_equal(readLines(paste0(store, ".case"))[2], "hypotheses PFS OS")
    second <- graph_study(staged(), store, look("PFS", 1, 0.002))
    expect_equal(second$rejected, c(PFS = TRUE, OS = FALSE))
    expect_equal(second$rejections$weight, "1/2")
    third <- graph_study(staged(), store, rbind(look("PFS", 1, 0.5), look("OS", 1, 0.004)), refused = "keep")
    expect_equal(c(third$records, third$taken), 1:2)
    expect_equal(third$refused$why, "known")
    expect_equal(third$refused$hypothesis, "PFS")
    expect_true(all(third$rejected))
    expect_equal(third$rejections[c("look", "hypothesis")], data.frame(look = 2L, hypothesis = "OS"))
    wrong <- graph_study(staged(), store, rbind(look("PFS", 3, 0.1), look("OS", 2, 1.5)), refused = "keep")
    expect_equal(wrong$refused[c("stage", "why")], data.frame(stage = 3:2, why = c("stage", "range")))
    expect_equal(c(wrong$records, wrong$taken), c(2L, 2L))
    later <- graph_study(staged(), store, rbind(look("PFS", 2, 0.6), look("OS", 2, 0.5), look("OS", 1, 0.7)), refused = "keep")
    expect_equal(later$refused[c("row", "hypothesis", "why")], data.frame(row = 3L, hypothesis = "OS", why = "known"))
    expect_output(print(third), "Not taken: row 1, PFS at stage 1: known")
    again <- graph_study(readLines(paste0(store, ".case")), store)
    expect_true(all(again$rejected))
  })
})

test_that("a look that is not taken is an error, and then none is", {
  with_folder(function(store) {
    graph_study(staged(), store, look("PFS", 1, 0.002))
    none <- "^looks: not taken, so none of this call is: "
    for (wrong in list(look("OS", 1, 15), look("PFS", 1, 0.5), look("OS", 3, 0.1), look("OS", 0, 0.1))) {
      expect_error(graph_study(staged(), store, rbind(look("PFS", 2, 0.9), wrong)), paste0(none, "row 2, .* at stage . *"), class = "welungad_looks_refused")
      expect_equal(graph_study(staged(), store)$records, 1L)
      kept <- graph_study(staged(), store, wrong, refused = "keep")
      expect_equal(c(kept$records, kept$taken, nrow(kept$refused)), c(1L, 1L, 1L))
    }
    expect_error(graph_study(staged(), store, look("OS", 1, 15)), "row 1, OS at stage 1: its p-value is not from 0 to 1, with a denominator up to 10^30 (15)", fixed = TRUE)
    expect_error(graph_study(staged(), store, look("PFS", 1, 0.002)), "row 1, PFS at stage 1: a p-value of it at this stage is kept already", fixed = TRUE)
    expect_error(graph_study(staged(), store, look("OS", 3, 0.1)), "row 1, OS at stage 3: there is no such stage", fixed = TRUE)
    # twice in one call
    expect_error(graph_study(staged(), store, rbind(look("OS", 2, 0.5), look("OS", 2, 0.6))), "row 2, OS at stage 2: a p-value of it")
    refusal <- tryCatch(graph_study(staged(), store, look("OS", 3, 0.1)), welungad_looks_refused = identity)
    expect_equal(refusal$refused$why, "stage")
    expect_error(graph_study(staged(), store, refused = "no"), "^refused: one of \"stop\", \"keep\" is needed")
    other <- paste0(store, "2")
    expect_error(graph_study(staged(), other, look("OS", 1, 15)), none)
    expect_equal(graph_study(staged(), other, look("OS", 1, 0.1))$taken, 1L)
    unlink(c(other, paste0(other, c(".case", ".kept"))))
  })
})

test_that("a file of looks that is lost, or has fewer looks than were kept, is an error", {
  with_folder(function(store) {
    graph_study(staged(), store)
    unlink(store)
    # no look is lost
    expect_equal(graph_study(staged(), store)$records, 0L)
    graph_study(staged(), store, look("PFS", 1, 0.002))
    early <- tempfile()
    on.exit(unlink(early))
    expect_true(file.copy(store, early))
    graph_study(staged(), store, look("OS", 1, 0.9))
    expect_equal(readLines(paste0(store, ".kept")), "2")
    file.copy(early, store, overwrite = TRUE)
    for (looks in list(NULL, look("OS", 2, 0.9))) {
      expect_error(graph_study(staged(), store, looks), "^store: .*[.]db has 1 look, and 2 were kept: it is another file, or an earlier copy$")
    }
    unlink(store)
    lost <- "^store: .*[.]db is not there, and .*[.]db[.]case is: the 2 looks that were kept are lost unless it is put back"
    for (looks in list(NULL, look("OS", 2, 0.9))) for (refused in c("stop", "keep")) {
      expect_error(graph_study(staged(), store, looks, refused), lost)
      expect_false(file.exists(store))
    }
    # of an earlier release, which did not write how many
    unlink(paste0(store, ".kept"))
    expect_error(graph_study(staged(), store), "the looks that were kept are lost unless it is put back")
    file.copy(early, store)
    expect_equal(graph_study(staged(), store)$records, 1L)
    expect_equal(readLines(paste0(store, ".kept")), "1")
    writeLines("many", paste0(store, ".kept"))
    expect_error(graph_study(staged(), store), "^store: .*[.]kept does not say how many looks were kept$")
    unlink(c(store, paste0(store, c(".case", ".kept"))))
    expect_equal(graph_study(staged(), store)$records, 0L)
  })
})

test_that("looks of a study name stages as its case does, and have notes", {
  with_folder(function(store) {
    case <- graph_stages(pair(c("PFS", "OS")), rbind(PFS = c(late = 0.02, early = 0.005), OS = c(0.02, 0.005)), at = 1, stages = c("early", "late"))
    expect_equal(graph_study(case, store, look("PFS", "early", 0.002))$looks$stage, 1L)
    x <- graph_study(case, store, look("OS", "late", 0))
    expect_output(print(x), "The p-value of OS is 0")
    unlink(c(store, paste0(store, c(".case", ".kept"))))
    x <- graph_study(case, store, look("PFS", "late", 0.01 + 2^-59))
    expect_output(print(x), "is one unit in the last place above 1/100, with which the\n  decision would be another one")
  })
})

test_that("the looks of another case are not read", {
  with_folder(function(store) {
    graph_study(staged(), store, look("PFS", 1, 0.002))
    expect_error(graph_study(staged(c("OS", "PFS")), store), "was made for a case with hypotheses PFS OS")
    expect_error(graph_study(staged(alpha = 0.05), store), "was made for a case with the line \"alpha 1/40\", and not \"alpha 1/20\"", fixed = TRUE)
    unlink(paste0(store, ".case"))
    expect_error(graph_study(staged(), store), "so it is not known for which case it was made")
    expect_false(file.exists(paste0(store, ".case")))
  })
})

test_that("the looks of hypotheses with other labels are not read", {
  with_folder(function(store) {
    greek <- c("\u03b1", "\u03b2")
    graph_study(staged(greek), store, look(greek[1], 1, 0.002))
    fault <- "store: .*[.]db was made for the hypotheses "
    for (labels in list(rev(greek), c("\u03b1", "\u03b3"))) {
      expect_equal(staged(labels)$case, staged(greek)$case)
      expect_error(graph_study(staged(labels), store, look(labels[1], 1, 0.001)), fault)
    }
    expect_equal(graph_study(staged(greek), store)$rejected, stats::setNames(c(TRUE, FALSE), greek))
    # names that the user gives are in the case
    expect_equal(graph_study(readLines(paste0(store, ".case")), store)$rejected, c(H1 = TRUE, H2 = FALSE))
    expect_equal(list.files(dirname(store), "labels$"), paste0(basename(store), ".labels"))
    unlink(paste0(store, ".labels"))
  })
})

test_that("a study needs a file, and a staged case without looks", {
  with_folder(function(store) {
    for (wrong in list(":memory:", "file:x", "", NA, 1, c("a", "b"))) expect_error(graph_study(staged(), wrong), "store: the name of a file is needed")
    expect_error(graph_study(staged(), file.path(store, "x.db")), "store: there is no folder")
    expect_error(graph_study(staged(), dirname(store)), "store: .* is a folder")
    expect_error(graph_study(graph_canon(pair()), store), "case: a study has a staged case")
    late <- graph_stages(pair(), list(H1 = 0.01, H2 = 0.01), look("H1", 1, 0.5), at = 1)
    expect_error(graph_study(late, store), "case: a study begins without looks")
    expect_error(graph_study(1, store), "case: a result of graph_stages")
    for (change in list(list("alpha", "1/20"), list("alpha", 0.05), list("graph", graph_create(c(PFS = 1, OS = 0), rbind(0:1, 1:0))))) {
      changed <- with_part(staged(), change[[1]], change[[2]])
      expect_error(graph_study(changed, store), "^case: its level or its graph was changed: call graph_stages with the new one$")
    }
    changed <- with_part(staged(), "levels", list(PFS = 0.01, OS = 0.01))
    expect_error(graph_study(changed, store), "^case: a staged test has the parts .*, and nothing reads a part \"levels\"$")
    expect_false(file.exists(paste0(store, ".case")))
    expect_error(plot(graph_study(staged(), store)), "a study has no picture")
  })
})

test_that("a file of looks has its own name in a locale that is not UTF-8", {
  skip_if_not("program" %in% welungad:::welungad_ways(), "the program is not found")
  skip_if_not(l10n_info()[["UTF-8"]], "this locale is not UTF-8")
  folder <- tempfile("study-")
  dir.create(folder)
  on.exit(unlink(folder, recursive = TRUE))
  store <- file.path(folder, "l\u00f6oks.db")
  script <- file.path(folder, "script.R")
  case <- file.path(folder, "case.txt")
  cat(staged()$case, file = case)
  writeLines(c("library(welungad)", "words <- commandArgs(TRUE)", "looks <- data.frame(hypothesis = 'PFS', stage = 1, p = '0.002')",
    "cat(graph_study(readLines(words[1]), words[2], looks)$taken)"), script)
  libraries <- paste0("R_LIBS=", shQuote(paste(.libPaths(), collapse = ":")))
  said <- system2(file.path(R.home("bin"), "Rscript"), shQuote(c("--vanilla", script, case, store)), stdout = TRUE, env = c("LC_ALL=C", libraries))
  expect_equal(said, "1")
  expect_setequal(setdiff(list.files(folder), paste0(basename(store), "-wal")), c("case.txt", paste0(basename(store), c("", ".case", ".kept")), "script.R"))
  expect_equal(graph_study(staged(), store)$records, 1L)
})

test_that("a file of looks has a name in UTF-8, since the program reads no other", {
  skip_if_not(l10n_info()[["UTF-8"]], "the locale is not UTF-8")
  with_folder(function(store) {
    expect_error(graph_study(staged(), paste0(store, "\xff")), "^store: \".*\" is not the name of a file in UTF-8$")
    expect_error(graph_study(as.raw(0:1), store), "case: it has a byte 0", fixed = TRUE)
    expect_equal(list.files(dirname(store)), character())
  })
})
