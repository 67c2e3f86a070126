# Runs code once by each way to the proved call. Without a way the test is skipped.
each_way <- function(code) {
  ways <- welungad:::welungad_ways()
  testthat::skip_if(length(ways) == 0, "neither the C library nor the program is found")
  old <- getOption("welungad.way")
  on.exit(options(welungad.way = old))
  for (way in ways) {
    options(welungad.way = way)
    code(way)
  }
}

# How many cases a way gets: the library all, and the program few, since each of its calls starts a process. All for both if
# the environment variable WELUNGAD_TEST_ALL is set.
share_of <- function(way, all, few) if (way == "library" || nzchar(Sys.getenv("WELUNGAD_TEST_ALL"))) all else few

# Whether the calls by this way print updated graphs: those of a library with welungad_update.
prints_graphs <- function(way) way == "library" && welungad:::has_update()

# Runs code with another program in place of Welungad.
with_program <- function(program, code) {
  force(program)
  old <- Sys.getenv("WELUNGAD", NA)
  wish <- options(welungad.way = "program")
  on.exit({
    if (is.na(old)) Sys.unsetenv("WELUNGAD") else Sys.setenv(WELUNGAD = old)
    options(wish)
  })
  Sys.setenv(WELUNGAD = program)
  code
}

# A program that prints these lines, whatever it is asked, and ends with a status.
stand_in <- function(lines, status = 0, end = "\n") {
  program <- tempfile("stand-in-")
  text <- tempfile("text-")
  cat(paste(lines, collapse = "\n"), if (length(lines)) end, file = text, sep = "")
  writeLines(c("#!/bin/sh", paste("cat", shQuote(text)), if (status >= 0) paste("exit", status) else paste("kill", status, "$$")), program)
  Sys.chmod(program, "755")
  program
}

# Runs code with options of R.
with_options <- function(wish, code) {
  old <- options(wish)
  on.exit(options(old))
  code
}

# Holm's graph from doubles.
holm <- function(n) {
  edges <- matrix(1 / (n - 1), n, n)
  diag(edges) <- 0
  graph_create(rep(1 / n, n), edges)
}

# Two hypotheses, each of which passes all to the other.
pair <- function(names = c("H1", "H2")) graph_create(stats::setNames(c(1 / 2, 1 / 2), names), rbind(0:1, 1:0))

# Two doses with a primary and a secondary endpoint each (Bretz and others 2011).
diabetes <- function() {
  graph_create(c(1 / 2, 1 / 2, 0, 0), rbind(c(0, 1 / 2, 1 / 2, 0), c(1 / 2, 0, 0, 1 / 2), c(0, 1, 0, 0), c(1, 0, 0, 0)))
}

entangled <- function() {
  one <- graph_create(c(A = 1, B = 0, C = 0, D = 0), rbind(c(0, 0, 1, 0), 0, c(0, 1, 0, 0), 0))
  two <- graph_create(c(A = 0, B = 1, C = 0, D = 0), rbind(0, c(0, 0, 1, 0), c(0, 0, 0, 1), 0))
  graph_entangle(one, two, shares = c(1 / 2, 1 / 2))
}

refusal_of <- function(code) tryCatch(code, welungad_refusal = identity)

# A graph or a result with another part, which an assignment refuses: such as one of an older version, from a file.
with_part <- function(x, part, value) {
  parts <- unclass(x)
  parts[[part]] <- value
  structure(parts, class = class(x))
}
