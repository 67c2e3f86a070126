# Tables that the tests of R and Python both read, in python/tests.

# The rows of a table, as parts of texts without blanks around them.
rows_of_table <- function(name) {
  table <- file.path(dirname(Sys.getenv("WELUNGAD_EXAMPLES", "/nowhere/examples")), "python", "tests", name)
  skip_if_not(file.exists(table), paste("the table", name, "is not found"))
  lines <- readLines(table, encoding = "UTF-8")
  lapply(strsplit(lines[nzchar(lines) & !startsWith(lines, "#")], "|", fixed = TRUE), trimws)
}

test_that("the program's names are made of labels as the table says", {
  rows <- rows_of_table("label_names.txt")
  expect_gt(length(rows), 10)
  words <- function(text) {
    texts <- trimws(strsplit(text, ",", fixed = TRUE)[[1]])
    gsub("\\n", "\n", gsub("\\t", "\t", texts, fixed = TRUE), fixed = TRUE)
  }
  for (row in rows) expect_identical(welungad:::names_for(words(row[1])), words(row[2]), info = row[1])
})

test_that("fractions are beside doubles as the table says", {
  rows <- rows_of_table("beside.txt")
  expect_gt(length(rows), 5)
  for (row in rows) {
    words <- strsplit(row, " ")[[1]]
    bytes <- as.raw(strtoi(substring(words[1], seq(1, 15, 2), seq(2, 16, 2)), 16L))
    read <- welungad:::read_doubles(readBin(bytes, "double", 1, endian = "big"), "x")
    found <- if (read$rule == "shortest decimal") welungad:::beside(read$read) else list(fraction = NA)
    expect_identical(if (is.na(found$fraction)) c("none", "0") else c(found$fraction, sprintf("%.0f", found$units)), words[2:3], info = row)
  }
})

test_that("refusals name the places that the table says", {
  rows <- rows_of_table("places_of_refusals.txt")
  expect_gt(length(rows), 10)
  graph <- list(names = c("low_dose", "B"), labels = c("low dose", "B"))
  case <- list(text = "alpha 1/40\nhypotheses low_dose B\nweights 1/2 1/2\n", graph = graph)
  for (row in rows) expect_true(startsWith(welungad:::where_of(row[1], case), row[2]), info = paste(row[1], "is", welungad:::where_of(row[1], case)))
})

test_that("levels are taken in the order of their stages as the table says", {
  rows <- lapply(rows_of_table("stage_labels.txt"), function(row) lapply(row, function(part) trimws(strsplit(part, ",", fixed = TRUE)[[1]])))
  expect_gt(length(rows), 25)
  each_way(function(way) {
    graph <- graph_create(c(A = 1), matrix(0, 1, 1))
    for (row in rows) {
      levels <- seq_along(row[[1]]) / 1000
      given <- matrix(levels, 1, dimnames = list("A", row[[1]]))
      stages <- if (length(row[[2]])) row[[2]]
      if (identical(row[[3]], "refused")) {
        expect_error(graph_stages(graph, given, stages = stages), info = row[[1]])
        next
      }
      ordered <- levels[match(row[[3]], row[[1]])]
      expect_identical(graph_stages(graph, given, stages = stages)$case, graph_stages(graph, list(A = ordered))$case, info = row[[1]])
    }
  })
})
