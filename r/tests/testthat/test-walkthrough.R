test_that("the walkthrough prints what is stored", {
  skip_if_not(prints_graphs(welungad_way()), "the library that prints updated graphs is not found")
  folder <- system.file("walkthrough", package = "welungad")
  skip_if_not(nzchar(folder))
  library <- paste0("R_LIBS=", paste(.libPaths(), collapse = .Platform$path.sep))
  rscript <- file.path(R.home("bin"), "Rscript")
  printed <- system2(rscript, c("--vanilla", shQuote(file.path(folder, "echo.R"))), stdout = TRUE, env = library)
  expect_equal(printed, readLines(file.path(folder, "walkthrough.txt")))
})
