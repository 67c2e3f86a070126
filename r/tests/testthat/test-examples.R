# The repository's examples, whose README has what each prints. The environment variable WELUNGAD_EXAMPLES names their folder.
examples <- function() {
  named <- Sys.getenv("WELUNGAD_EXAMPLES")
  near <- file.path(testthat::test_path(), "..", "..", "..", "examples")
  folder <- if (nzchar(named)) named else near
  testthat::skip_if_not(file.exists(file.path(folder, "README.md")), "the examples are not here")
  normalizePath(folder)
}

# The reports of `test` in the section of an example.
reports_of <- function(lines, name) {
  begin <- which(lines == paste("##", name))
  if (length(begin) == 0) return(list())
  end <- c(which(startsWith(lines, "## ")), length(lines) + 1L)
  section <- lines[begin:(end[end > begin[1]][1] - 1L)]
  code <- startsWith(section, "    ")
  blocks <- split(sub("^    ", "", section), cumsum(!code))
  blocks <- lapply(blocks, function(block) block[-1])
  Filter(function(block) length(block) > 1 && startsWith(block[1], "alpha ") && grepl("^(step|kept) ", block[2]), unname(blocks))
}

test_that("each example decides as its README says", {
  folder <- examples()
  lines <- readLines(file.path(folder, "README.md"))
  each_way(function(way) {
    found <- 0
    for (file in list.files(folder, "[.]txt$", full.names = TRUE)) {
      case <- tryCatch(graph_read(file), welungad_refusal = function(refusal) NULL)
      if (is.null(case$p)) next
      name <- sub("[.]txt$", "", basename(file))
      own <- lapply(c("first", "last", "ratio"), function(priority) {
        tryCatch(graph_test(case$graph, case$p, case$alpha, priority)$report, welungad_refusal = function(refusal) refusal$line)
      })
      for (report in reports_of(lines, name)) {
        expect_true(any(vapply(own, identical, NA, report)), info = name)
        found <- found + 1
      }
    }
    expect_true(found >= 7)
    expect_match(refusal_of({
      case <- graph_read(file.path(folder, "too-wide.txt"))
      graph_test(case$graph, case$p, case$alpha)
    })$line, "^too wide: step 3: ")
  })
})

test_that("sheets and stages of the examples", {
  folder <- examples()
  each_way(function(way) {
    case <- graph_read(file.path(folder, "sheet.csv"), "csv", alpha = 0.025)
    expect_equal(unname(graph_test(case$graph, case$p, case$alpha)$rejected), c(TRUE, FALSE))
    staged <- graph_read(file.path(folder, "staged.txt"))
    expect_equal(staged$stages[1], "stages 2")
    expect_equal(length(staged$stages), 6)
    pair <- graph_read(file.path(folder, "simes-pair.txt"))
    expect_true(all(graph_simes(pair$graph, pair$p, pair$alpha)$rejected))
  })
})
