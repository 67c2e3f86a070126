test_that("data frames are read column by column", {
  each_way(function(way) {
    edges <- data.frame(A = c("0", "1", "0"), B = c(1 / 3, 0, 0), C = c(2 / 3, 0, 0))
    expect_equal(unname(graph_create(c(A = 1, B = 0, C = 0), edges)$components[[1]]$edges[1, ]), c("0", "1/3", "2/3"))
    expect_error(graph_create(c(1, 0), data.frame(a = factor(0:1), b = 0)), "transitions: column \"a\": numbers are doubles", fixed = TRUE)
    expect_error(graph_create(c(1, 0), data.frame(V1 = 0:1, V2 = 0)), NA)
    expect_error(graph_create(c(A = 1, B = 0), data.frame(V1 = 0:1, V2 = 0)), "transitions: columns: no hypothesis has the name \"V1\"", fixed = TRUE)
  })
})

test_that("texts that R made of fractions are named", {
  expect_warning(as_exact(format(1 / 3)), "x: \"0.3333333\" is what R writes for 1/3", fixed = TRUE, class = "welungad_written")
  m <- matrix("0", 2, 2)
  m[1, 2] <- 1 / 3
  expect_warning(as_exact(m), "\"0.333333333333333\" is what R writes for 1/3", fixed = TRUE)
  expect_warning(as_exact(paste(0.05 / 7)), "\"0.00714285714285714\" is what R writes for 1/140", fixed = TRUE)
  expect_warning(as_exact(as.character(9973 / 9999)), "9973/9999", fixed = TRUE)
  # R drops zeros at the end
  expect_warning(as_exact(format(20 / 21)), "\"0.952381\" is what R writes for 20/21", fixed = TRUE)
  expect_warning(as_exact(as.character(1 / 31)), "\"0.032258064516129\" is what R writes for 1/31", fixed = TRUE)
  # texts from which the double is read
  for (text in c("0.3333333333333333", "0.33333333333333331")) expect_warning(as_exact(text), "is what R writes for 1/3", fixed = TRUE)
  expect_no_warning(as_exact(c("0.3333333333333334", "0.333333333333333333333333333333", "0.123456", "0.12345", "0.000", "0.10000000000000000")))
  expect_no_warning(as_exact(c("0.3333", "0.1234567", "0.5000000", "0.123456789012345", "1/3", "0.025", "1e-300", "1-\\epsilon", NA)))
  each_way(function(way) {
    expect_warning(graph_test(pair(), c("0.3333333", "0.5")), "^p: ")
    expect_warning(graph_create(c("0.3333333", "0.5"), matrix(0, 2, 2)), "^hypotheses: ")
  })
})

test_that("each fraction that R writes as another number is named", {
  set.seed(31)
  d <- sample(10000, 4000, TRUE)
  n <- ceiling(runif(4000) * d)
  for (digits in c(15, 16, 17)) {
    texts <- vapply(n / d, format, "", digits = digits)
    meant <- as.character(gmp::as.bigq(n, d))
    is_it <- as.logical(welungad:::fraction(texts) == gmp::as.bigq(n, d))
    # one of 16 digits can be another double
    same <- if (digits == 16) as.numeric(texts) == n / d else TRUE
    found <- welungad:::written_fractions(texts)
    expect_identical(found[same], ifelse(is_it, NA, meant)[same], info = digits)
  }
  texts <- vapply(n / d, format, "")
  is_it <- as.logical(welungad:::fraction(texts) == gmp::as.bigq(n, d))
  short <- d <= 1000 & nchar(sub("^0[.]0*", "", texts)) == 7
  expect_gt(sum(short), 200)
  expect_identical(is.na(welungad:::written_fractions(texts))[short], is_it[short])
})

test_that("each element is one numeral", {
  each_way(function(way) {
    expect_error(graph_test(pair(), c("0.01 0.9", "")), "p: the first is \"0.01 0.9\", which is not one number", fixed = TRUE)
    expect_error(graph_test(pair(), c("0.01", "")), "p: the second is \"\", which is not one number", fixed = TRUE)
    expect_error(graph_test(pair(), c(H2 = "0.01\n0.9", H1 = "1")), "p: \"H2\" is", fixed = TRUE)
    expect_error(graph_create(c("1 0", ""), matrix(0, 2, 2)), "hypotheses: the first is \"1 0\"", fixed = TRUE)
    expect_error(graph_create(c(1, 0), matrix(c("0", "0", "1/2\nedge H2 H1 1", "0"), 2)), "transitions: the edge at 1, 2 is", fixed = TRUE)
    expect_error(graph_test(pair(), c(0.1, 0.2), "0.05 0.1"), "alpha: the first is \"0.05 0.1\"", fixed = TRUE)
    expect_error(graph_test(pair(), c(0.1, 0.2), c(0.05, 0.1)), "alpha: one level is needed")
  })
})

test_that("an edge is 0 if it is written as 0, and a text without a numerator is refused", {
  each_way(function(way) {
    of <- function(edge) graph_create(c(1, 0), matrix(c("0", "0", edge, "0"), 2))
    for (zero in c("0", "-0", "+0", "00", "0.", "0.00", ".0", "-.0", "0/7", "-00/0010")) {
      expect_equal(unname(of(zero)$components[[1]]$edges[1, 2]), "0", info = zero)
    }
    for (text in c("/10", "-/10", "+/20", "./10", "/0010", "0/0", "0/")) {
      expect_equal(refusal_of(of(text))$where, paste0("transitions: the edge from H1 to H2 is \"", text, "\""))
    }
  })
})

test_that("no option of R changes what is handed in or printed", {
  each_way(function(way) {
    plain <- list(graph = capture.output(print(holm(3))), canon = graph_canon(holm(3), c(1e-5, 0.1 + 0.2, 1)))
    odd <- list(scipen = -20, OutDec = ",", digits = 3)
    with_options(odd, {
      expect_equal(graph_catalogue("holm", 10)$labels, paste0("H", 1:10))
      expect_equal(capture.output(print(holm(3))), plain$graph)
      expect_equal(graph_canon(holm(3), c(1e-5, 0.1 + 0.2, 1)), plain$canon)
      x <- graph_test(diabetes(), c(0.018, 0.01, 0.105, 0.006))
      for (it in list(x, graph_steps(x), graph_test_closure(diabetes(), c(0.018, 0.01, 0.105, 0.006)))) expect_output(print(it))
      expect_output(print(as_exact(c(0.1 + 0.2, 1 / 3))), "0.3333333", fixed = TRUE)
      levels <- list(H1 = 0.01, H2 = 0.01)
      staged <- graph_stages(pair(), levels, data.frame(hypothesis = "H1", stage = 1, p = 0.001), at = 1)
      expect_output(print(staged), "levels 0.01 at weight 1", fixed = TRUE)
    })
  })
})

# Makes a locale in a folder of its own, and sets its numbers. Returns whether that was possible. It is there until R ends.
has_made_locale <- function(name) {
  folder <- tempfile("locale-")
  dir.create(folder)
  words <- c("-i", sub("[.].*", "", name), "-f", "UTF-8", file.path(folder, name))
  if (nzchar(Sys.which("localedef"))) suppressWarnings(system2("localedef", shQuote(words), stdout = FALSE, stderr = FALSE))
  Sys.setenv(LOCPATH = folder)
  nzchar(suppressWarnings(Sys.setlocale("LC_NUMERIC", name)))
}

test_that("a locale with a decimal comma changes nothing", {
  x <- c(1 / 3, 0.1 + 0.2, 0.025, 1.5e-30, 2^-24, 3.0000000000000004)
  plain <- list(numbers = unclass(as_exact(x)), shown = capture.output(print(as_exact(x))))
  old <- Sys.getlocale("LC_NUMERIC")
  path <- Sys.getenv("LOCPATH", NA)
  on.exit({
    if (is.na(path)) Sys.unsetenv("LOCPATH") else Sys.setenv(LOCPATH = path)
    suppressWarnings(Sys.setlocale("LC_NUMERIC", old))
  })
  set <- vapply(c("de_DE.UTF-8", "de_DE.utf8", "fr_FR.UTF-8", "tr_TR.UTF-8", "nl_NL.UTF-8"), function(name) {
    nzchar(suppressWarnings(Sys.setlocale("LC_NUMERIC", name)))
  }, NA)
  skip_if_not(any(set) || has_made_locale("de_DE.UTF-8"), "no locale with a decimal comma is there, and none can be made")
  expect_equal(Sys.localeconv()[["decimal_point"]], ",")
  expect_identical(unclass(as_exact(x)), plain$numbers)
  expect_identical(capture.output(print(as_exact(x))), plain$shown)
  expect_warning(as_exact("0.3333333"), "is what R writes for 1/3")
  expect_equal(as_exact(c(0.1 + 0.2, 0.7), total = 1)$read, c("3/10", "7/10"))
  each_way(function(way) {
    expect_output(print(graph_test(pair(), c(0.0125, 0.5))), "H1 +0.0125 +0.5 +0.0125 +yes")
    expect_equal(graph_canon(pair(), c(0.1 + 0.2, 0.025), 0.05)[c(1, 3)], c("alpha 1/20", "p 7500000000000001/25000000000000000 1/40"))
  })
})

test_that("a decimal point of two bytes is written as one", {
  x <- c(1 / 3, 0.1 + 0.2, 0.025, 1.5e-30, 2^-24, 3.0000000000000004, -0.5)
  plain <- unclass(as_exact(x))
  old <- Sys.getlocale("LC_NUMERIC")
  path <- Sys.getenv("LOCPATH", NA)
  on.exit({
    if (is.na(path)) Sys.unsetenv("LOCPATH") else Sys.setenv(LOCPATH = path)
    suppressWarnings(Sys.setlocale("LC_NUMERIC", old))
  })
  made <- has_made_locale("ps_AF.UTF-8")
  skip_if_not(made && nchar(Sys.localeconv()[["decimal_point"]], "bytes") == 2, "no locale with such a point can be made")
  expect_identical(unclass(as_exact(x)), plain)
})

test_that("sums of doubles say what was read, and how to read the fractions", {
  each_way(function(way) {
    refusal <- refusal_of(graph_create(seq(0.1, 0.4, 0.1), matrix(0, 4, 4)))
    expect_match(refusal$amount, "0.30000000000000004 is one unit in the last place above 3/10", fixed = TRUE)
    expect_match(refusal$amount, "as_exact(hypotheses, total = 1) reads them as the fractions that sum to 1", fixed = TRUE)
    expect_equal(unname(graph_create(as_exact(seq(0.1, 0.4, 0.1), total = 1), matrix(0, 4, 4))$components[[1]]$weights), c("1/10", "1/5", "3/10", "2/5"))
    counts <- rbind(c(0, 1, 2, 3), c(1, 0, 5, 1), c(1, 1, 0, 4), 0)
    edges <- as_exact(counts / pmax(rowSums(counts), 1), total = 1)
    graph <- graph_create(rep(1 / 4, 4), edges)
    expect_equal(unname(graph$components[[1]]$edges[2, ]), c("1/7", "0", "5/7", "1/7"))
    row <- refusal_of(graph_create(c(1, 0, 0), rbind(c(0, 0.1 + 0.2, 0.7), 0, 0)))
    expect_match(row$amount, "as_exact(transitions, total = 1)", fixed = TRUE)
    # texts are not read as other numbers
    written <- refusal_of(graph_create(c("0.30000000000000004", "0.7"), matrix(0, 2, 2)))
    expect_match(written$amount, "0.30000000000000004 is one unit in the last place above 3/10", fixed = TRUE)
    expect_false(grepl("as_exact", written$amount))
    one <- graph_create(c(1, 0), matrix(0, 2, 2))
    expect_match(refusal_of(graph_entangle(one, one, shares = c(0.1 + 0.2, 0.7)))$amount, "as_exact(shares, total = 1)", fixed = TRUE)
  })
  expect_error(as_exact(c(0.1, 0.2), total = 1), "x: the row reads as 3/10, and not as 1", fixed = TRUE)
  expect_error(as_exact(c(0.1, NA), total = 1), "none missing")
  expect_error(as_exact(0.1, total = c(1, 2)), "total: one number is needed")
  expect_equal(as_exact(c("1/3", "2/3"), total = 1)$read, c("1/3", "2/3"))
  expect_equal(as_exact(c(0.1, 0.2, 0.7), total = "1")$read, c("1/10", "1/5", "7/10"))
})

test_that("a p-value beside a fraction that decides a tie is named", {
  each_way(function(way) {
    graph <- graph_create(rep("1/7", 7), matrix(0, 7, 7))
    above <- 1 / 140 + 2^-60
    expect_gt(above, 1 / 140)
    x <- graph_test(graph, c(above, rep(1, 6)), 0.05)
    expect_false(x$rejected[[1]])
    note <- "The p-value [0-9.]+ of H1 is one unit in the last place above 1/140; its level is 1/140"
    printed <- function(...) gsub("\\s+", " ", paste(capture.output(print(x, ...)), collapse = " "))
    expect_match(printed(), note)
    expect_match(printed(exact = TRUE), note)
    expect_false(any(grepl("last place", capture.output(print(graph_test(graph, c(1 / 140, rep(1, 6)), 0.05))))))
    expect_false(any(grepl("last place", capture.output(print(graph_test(graph, c(0.1 + 0.2, rep(1, 6)), 0.05))))))
  })
})
