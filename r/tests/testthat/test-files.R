# Files that get only a part of what is written to them, as on a full disk.

test_that("a file that can't be written, or not as a whole, is an error", {
  write_whole <- welungad:::write_whole
  file <- tempfile()
  on.exit(unlink(file))
  write_whole(charToRaw("a case"), file)
  expect_equal(readBin(file, "raw", 100), charToRaw("a case"))
  write_whole(raw(), file)
  expect_equal(file.size(file), 0)
  expect_error(write_whole(raw(1), file.path(file, "x")), "x can't be written: ", fixed = TRUE)
  skip_if_not(file.exists("/dev/full"), "there is no /dev/full")
  for (count in c(1, 5000, 1e5)) expect_error(write_whole(raw(count), "/dev/full"), "^/dev/full can't be written: ")
})

# Runs code in another R whose files may have 4,096 bytes, and returns what it prints.
with_short_files <- function(code) {
  script <- tempfile(fileext = ".R")
  on.exit(unlink(script))
  writeLines(c("library(welungad)", code), script)
  words <- paste("trap '' XFSZ; ulimit -f 8; exec", shQuote(file.path(R.home("bin"), "Rscript")), "--vanilla", shQuote(script), "2>&1")
  libraries <- paste0("R_LIBS=", shQuote(paste(.libPaths(), collapse = ":")))
  suppressWarnings(system2("/bin/sh", c("-c", shQuote(words)), stdout = TRUE, env = libraries))
}

# A case of more than 4,096 bytes.
long_case <- c(
  "names <- sprintf('hypothesis-%02d', 1:15)",
  "edges <- matrix(1/14, 15, 15, dimnames = list(names, names))",
  "diag(edges) <- 0",
  "said <- function(code) tryCatch(code, error = conditionMessage)"
)

test_that("no part of a case is decided", {
  each_way(function(way) {
    printed <- with_short_files(c(
      paste0("options(welungad.way = \"", way, "\")"), long_case,
      "graph <- said(graph_create(stats::setNames(rep(1/15, 15), names), edges))",
      "cat(if (is.list(graph)) sum(graph$components[[1]]$edges == '1/14') else graph)"
    ))
    if (way == "library") expect_equal(printed, "210") else expect_match(printed, "-case can't be written: ", fixed = TRUE)
  })
})

test_that("no part of the looks is taken, and no part of a case is kept", {
  testthat::skip_if_not("program" %in% welungad:::welungad_ways(), "the program is not found")
  folder <- tempfile("short-")
  dir.create(folder)
  on.exit(unlink(folder, recursive = TRUE))
  store <- file.path(folder, "looks.db")
  printed <- with_short_files(c(
    "names <- sprintf('hypothesis-%02d', 1:15)",
    "lines <- c('alpha 1/40', paste(c('hypotheses', names), collapse = ' '), paste(c('weights', rep('1/15', 15)), collapse = ' '), 'stages 12',",
    "  paste('spend', names, paste(rep('1/12', 12), collapse = ' ')))",
    "looks <- data.frame(hypothesis = rep(names, 12), stage = rep(1:12, each = 15), p = '0.123456789')",
    paste0("cat(tryCatch(welungad::graph_study(lines, ", deparse(store), ", looks)$taken, error = conditionMessage))")
  ))
  expect_match(printed, "welungad-commands-.* can't be written: ")
  expect_false(file.exists(store))
})
