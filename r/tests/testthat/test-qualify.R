# Runs code with a folder for a report, if an installation can be qualified.
with_qualification <- function(code) {
  testthat::skip_if_not("program" %in% welungad:::welungad_ways(), "the program is not found")
  testthat::skip_if_not(nzchar(Sys.which("python3")), "python3 is not found")
  script <- tryCatch(welungad:::script_path("qualify.py", welungad:::program_path()), error = function(e) "")
  testthat::skip_if_not(nzchar(script), "qualify.py is not beside the program")
  stamp <- file.path(dirname(welungad:::program_path()), "stamp")
  identity <- file.path(dirname(dirname(welungad:::program_path())), "share", "welungad", "identity")
  testthat::skip_if_not(any(file.exists(c(stamp, identity))), "nothing says which program was proved")
  folder <- tempfile("qualification-")
  on.exit(unlink(folder, recursive = TRUE))
  code(folder)
}

test_that("an installation is qualified, and this package with it", {
  with_qualification(function(folder) {
    said <- NULL
    printed <- capture.output(said <- withVisible(welungad_qualify(folder)))
    expect_equal(said, list(value = normalizePath(file.path(folder, c("qualification.txt", "qualification.html"))), visible = FALSE))
    lines <- readLines(said$value[1], encoding = "UTF-8")
    expect_equal(lines[1], "Qualification of Welungad: passed")
    expect_equal(lines[1], printed[1])
    for (way in welungad_ways()) {
      own <- lines[startsWith(lines, paste0("passed  R, by the ", way, ": "))]
      expect_gt(length(own), 25)
      expect_true(any(grepl("test < diabetes.txt", own, fixed = TRUE)))
      about <- lines[startsWith(lines, paste0("R, by the ", way, ": "))]
      expect_true(grepl(R.version.string, about, fixed = TRUE))
    }
    expect_false(any(startsWith(lines, "failed")))
    expect_true(any(startsWith(lines, "Signature: ")))
  })
})

test_that("an answer that is not the one of the page fails the qualification", {
  with_qualification(function(folder) {
    old <- welungad:::welungad_run
    changed <- function(words, case = "", proof = "") {
      answer <- old(words, case, proof)
      answer$text <- sub("rejected H2 H3", "rejected H2", answer$text, fixed = TRUE)
      answer
    }
    namespace <- asNamespace("welungad")
    put <- function(value) {
      unlockBinding("welungad_run", namespace)
      assign("welungad_run", value, namespace)
    }
    on.exit(put(old))
    put(changed)
    printed <- capture.output(expect_error(welungad_qualify(folder), "the qualification failed: see .*qualification.txt"))
    expect_true(any(grepl("^failed  R, by the .*: test < fallback-unequal.txt: status 0, and no text of the section fallback-unequal", printed)))
  })
})

test_that("what is missing is named", {
  old <- Sys.getenv("WELUNGAD", NA)
  on.exit(if (is.na(old)) Sys.unsetenv("WELUNGAD") else Sys.setenv(WELUNGAD = old))
  Sys.setenv(WELUNGAD = tempfile())
  expect_error(welungad_qualify(tempdir()), "^a qualification needs the program welungad: ")
  expect_error(welungad_qualify(1), "folder: one text is needed")
})
