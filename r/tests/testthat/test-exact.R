test_that("exact numbers are taken apart and put together", {
  x <- as_exact(c(a = 1 / 3, b = 0.25, c = NA))
  expect_equal(x["b"]$read, "1/4")
  expect_equal(names(x[c(TRUE, FALSE, TRUE)]), c("a", "c"))
  expect_equal(as.character(x[-3]), c(a = "1/3", b = "1/4"))
  expect_error(x["d"], "no number has this name or place")
  expect_error(x[4], "no number has this name or place")
  expect_equal(as.character(c(x[1:2], d = 0.5, "2/3")), c(a = "1/3", b = "1/4", d = "1/2", "2/3"))
  expect_null(names(unname(x)))
  expect_equal(unname(x)$read, x$read)
  expect_equal(format(x[1:2]), c(a = "1/3", b = "1/4"))
  expect_equal(summary(x)$numbers, c(2, 1))
  expect_equal(length(rev(x)), 3)
  expect_output(print(x), "least denominator")
  expect_output(print(as_exact(numeric())), "No numbers")
  m <- as_exact(matrix(c(0, 0.5, 1 / 3, 0), 2, dimnames = list(c("r", "s"), c("t", "u"))))
  expect_equal(m["r", ]$read, c("0", "1/3"))
  expect_equal(names(m["r", ]), c("t", "u"))
  expect_equal(dim(m[, 2:1]), c(2, 2))
  expect_output(print(m), "s, t")
  expect_equal(as_exact(data.frame(a = c("1/3", "0"), b = c(0.5, 0)))$read, c("1/3", "0", "1/2", "0"))
})

test_that("numbers that are put together have the names that R gives", {
  one <- as_exact(0.9)
  for (parts in list(list(a = 1, b = 2), list(1, b = 2), list(1, 2), list(a = c(x = 1, y = 2), 3), list(a = 1:2, b = c(z = 3)))) {
    expect_identical(names(do.call(c, lapply(parts, as_exact))), names(do.call(c, parts)))
  }
  expect_identical(names(c(one)), NULL)
  expect_identical(c(one, NULL)$read, "9/10")
  expect_identical(names(c(a = one, b = NULL, c = one)), c("a", "c"))
  expect_identical(c(a = one, b = "1/3")$read, c("9/10", "1/3"))
  expect_identical(names(c(a = as_exact(gmp::as.bigq(1, 3)), b = gmp::as.bigq(2, 3))), c("a", "b"))
  each_way(function(way) {
    expect_equal(graph_test(pair(), c(H2 = as_exact(0.001), H1 = one))$rejected, c(H1 = FALSE, H2 = TRUE))
    expect_error(graph_test(pair(), c(as_exact(0.001), H1 = 0.9)), "p: the first has no name, and others have one", fixed = TRUE)
  })
})

test_that("numbers are changed where they are", {
  x <- as_exact(c(a = 1 / 3, b = 0.25, c = NA))
  changed <- function(...) as.character(replace(x, ...))
  expect_equal(changed("b", 0.5), c(a = "1/3", b = "1/2", c = NA))
  expect_equal(changed(3, "1/7"), c(a = "1/3", b = "1/4", c = "1/7"))
  expect_equal(changed(is.na(x), 0.1), c(a = "1/3", b = "1/4", c = "1/10"))
  expect_equal(changed(2:3, c(b = 0.1 + 0.2, 0)), c(a = "1/3", b = "0.30000000000000004", c = "0"))
  expect_equal(changed(-1, as_exact("2/3")), c(a = "1/3", b = "2/3", c = "2/3"))
  expect_equal(changed(integer(), 1), as.character(x))
  y <- x
  y[["c"]] <- 1L
  y[] <- rev(y)
  expect_identical(unclass(y), unclass(as_exact(c(a = 1, b = 0.25, c = 1 / 3))))
  expect_equal(y$given, c("1", "0.25", "0.333333333333333"))
  for (wrong in list("d", 4, c(TRUE, FALSE, FALSE, TRUE))) expect_error(x[wrong] <- 0.5, "no number has this name or place")
  expect_error(x[1:2] <- c(0.1, 0.2, 0.3), "^value: 3 given for 2 numbers$")
  expect_error(x[1:3] <- c(0.1, 0.2), "^value: 2 given for 3 numbers$")
  expect_error(x["a"] <- TRUE, "^value: numbers are doubles")
  expect_error(x[["d"]] <- 0.5, "no number has this name or place")
  expect_error(x[[1:2]] <- 0.5, "[[ takes one number, and not 2", fixed = TRUE)
  expect_error(x$a <- 0.5, "numbers that were read are changed by their names or places")
  expect_equal(as.character(x), c(a = "1/3", b = "1/4", c = NA))
  m <- as_exact(matrix(c(0, 0.5, 1 / 3, 0), 2, dimnames = list(c("r", "s"), c("t", "u"))))
  m["r", "u"] <- "2/3"
  m[cbind(2, 2)] <- 1
  expect_equal(m$read, c("0", "1/2", "2/3", "1"))
  m["s", ] <- 0
  expect_equal(m$read, c("0", "0", "2/3", "0"))
  expect_equal(dimnames(m), list(c("r", "s"), c("t", "u")))
  expect_error(x[1, 2] <- 0, "these numbers have no rows and columns")
  each_way(function(way) {
    p <- as_exact(c(H1 = 0.9, H2 = 0.9))
    p["H1"] <- 0.001
    expect_equal(graph_test(pair(), p)$rejected, c(H1 = TRUE, H2 = FALSE))
    expect_equal(graph_test(pair(), replace(p, "H2", 0.001))$rejected, c(H1 = TRUE, H2 = TRUE))
  })
})

test_that("single numbers, rows, columns and missing ones are taken as of other vectors", {
  x <- as_exact(c(a = 1 / 3, b = 0.25, c = NA))
  expect_identical(unclass(x[["b"]]), unclass(as_exact(0.25)))
  expect_equal(x[[1]]$read, "1/3")
  expect_error(x[["d"]], "no number has this name or place")
  expect_error(x[[1:2]], "[[ takes one number, and not 2", fixed = TRUE)
  expect_equal(vapply(x, as.character, ""), as.character(x))
  expect_equal(unlist(Map(function(it, k) it$read, x, 1:3)), as.character(x))
  expect_output(utils::str(x), "1/3")
  expect_equal(is.na(x), c(a = FALSE, b = FALSE, c = TRUE))
  expect_true(anyNA(x))
  expect_false(anyNA(x[1:2]))
  expect_equal(as.character(rep(x[1:2], times = c(1, 2))), c(a = "1/3", b = "1/4", b = "1/4"))
  names(x) <- c("A", "B")
  expect_equal(names(x), c("A", "B", NA))
  names(x) <- factor(c("u", "v", "w"), levels = c("w", "v", "u"))
  expect_identical(names(x), c("u", "v", "w"))
  expect_error(names(x) <- letters[1:4], "^names: 4 given for 3 numbers$")
  m <- as_exact(matrix(c(0, 0.5, 1 / 3, 0), 2, dimnames = list(c("r", "s"), c("t", "u"))))
  expect_equal(m[cbind(c(1, 2), c(2, 1))]$read, c("1/3", "1/2"))
  expect_equal(m[["s", "t"]]$read, "1/2")
  expect_equal(dim(m["r", , drop = FALSE]), c(1L, 2L))
  expect_equal(dimnames(m["r", , drop = FALSE]), list("r", c("t", "u")))
  expect_equal(is.na(m), is.na(matrix(0, 2, 2, dimnames = list(c("r", "s"), c("t", "u")))))
  expect_equal(dim(m[]), c(2L, 2L))
  expect_error(x[1, 2], "these numbers have no rows and columns")
  each_way(function(way) {
    P <- as_exact(matrix(c(0.001, 0.9, 0.9, 0.001), 2, dimnames = list(NULL, c("H1", "H2"))))
    expect_equal(unname(as.matrix(graph_test_many(pair(), P[2, , drop = FALSE]))), matrix(c(FALSE, TRUE), 1))
  })
})

test_that("rows and columns of numbers are given, turned and named as of other vectors", {
  x <- as_exact(c(a = 0, b = 1 / 2, c = 1 / 3, d = 0))
  m <- x
  dim(m) <- c(2, 2)
  expect_identical(unclass(m), unclass(as_exact(matrix(c(0, 1 / 2, 1 / 3, 0), 2))))
  expect_error(dim(x) <- c(2, 3))
  rownames(m) <- c("r", "s")
  expect_identical(dimnames(m), list(c("r", "s"), NULL))
  dimnames(m) <- list(1:2, c("t", "u"))
  expect_identical(dimnames(m), list(c("1", "2"), c("t", "u")))
  for (wrong in list(list("r", NULL), list(NULL, c("t", "u", "v")), "r")) expect_error(dimnames(m) <- wrong)
  expect_error(dimnames(x) <- list(letters[1:4]))
  expect_identical(unclass(t(m)), unclass(as_exact(t(matrix(c(0, 1 / 2, 1 / 3, 0), 2, dimnames = list(1:2, c("t", "u")))))))
  expect_identical(dimnames(t(x)), list(NULL, c("a", "b", "c", "d")))
  # whose elements are six, as the parts of the object
  six <- as_exact(1:6 / 10)
  dim(six) <- c(2, 3)
  expect_identical(dim(six), c(2L, 3L))
  dim(six) <- NULL
  expect_identical(unclass(six), unclass(as_exact(1:6 / 10)))
  length(x) <- 2
  expect_identical(as.character(x), c(a = "0", b = "1/2"))
  each_way(function(way) {
    edges <- as_exact(c(0, 1, 1, 0))
    dim(edges) <- c(2, 2)
    expect_equal(graph_create(c(1 / 2, 1 / 2), edges)$components, pair()$components)
  })
})

test_that("numbers are compared exactly, and not computed with", {
  x <- as_exact(c(a = "1/3", b = "0.25", c = NA, d = "1-\\epsilon"))
  expect_identical(x == 1 / 3, c(a = TRUE, b = FALSE, c = NA, d = NA))
  expect_identical(x == "1/4", c(a = FALSE, b = TRUE, c = NA, d = NA))
  expect_identical(0.3 <= as_exact(c("0.2999999999999999999", "0.3")), c(FALSE, TRUE))
  expect_identical(as_exact(matrix(0:1, 1)) < as_exact(1), matrix(c(TRUE, FALSE), 1))
  expect_identical(as_exact(numeric()) < 1, logical())
  expect_error(x < 1:3, "^<: 3 given for 4 numbers$")
  for (call in list(function() x + 1, function() -x, function() !x)) expect_error(call(), "are compared, and not computed with")
  expect_equal(as.character(sort(as_exact(c(a = "1/3", b = "0.3", c = "0.33333333333333333333")))), c(b = "0.3", c = "0.33333333333333333333", a = "1/3"))
  y <- as_exact(c("1/2", "0.5", "x", NA, "x", "2/4", "1/3", NA))
  expect_identical(duplicated(y), c(FALSE, TRUE, FALSE, FALSE, TRUE, TRUE, FALSE, TRUE))
  expect_identical(unique(y)$read, c("1/2", "x", NA, "1/3"))
})

test_that("numbers are a column of a data frame, and have their names in one of their own", {
  p <- as_exact(c(H2 = 0.001, H1 = 0.9))
  frame <- data.frame(n = 1:2, p = p)
  expect_identical(unclass(frame$p), unclass(unname(p)))
  expect_identical(row.names(frame), c("H2", "H1"))
  expect_identical(row.names(as.data.frame(p)), c("H2", "H1"))
  expect_identical(row.names(as.data.frame(as_exact(matrix(0:1, 1, dimnames = list("r", c("s", "t")))))), c("r, s", "r, t"))
  expect_identical(as.data.frame(c(p, p))$read, rep(p$read, 2))
  each_way(function(way) {
    for (form in list(data.frame(p = p), data.frame(hypothesis = names(p), p = unname(p)), cbind(data.frame(hypothesis = names(p)), p = unname(p)))) {
      expect_equal(graph_test(pair(), form)$exact$p, c("9/10", "1/1000"))
    }
    looks <- data.frame(hypothesis = names(p), stage = 1, p = unname(p))
    expect_equal(graph_stages(pair(), list(0.01, 0.01), looks, at = 1)$looks$p, c("1/1000", "9/10"))
  })
})

test_that("whole numbers of 64 bits are read without the package bit64", {
  of_bytes <- function(bytes) structure(readBin(as.raw(bytes), "double", 1, endian = "little"), class = "integer64")
  expect_equal(as_exact(of_bytes(c(1, 0, 0, 0, 0, 0, 0, 0)))$read, "1")
  expect_equal(as_exact(of_bytes(rep(255, 8)))$read, "-1")
  expect_equal(as_exact(of_bytes(c(0, 0, 0, 128, 1, 0, 0, 0)))$read, "6442450944")
  expect_equal(as_exact(of_bytes(c(0, 0, 0, 0, 0, 0, 0, 128)))$read, NA_character_)
  expect_equal(as_exact(of_bytes(c(1, 0, 0, 0, 0, 0, 32, 0)))$read, "9007199254740993")
})

test_that("names end with their last letter", {
  is_name <- welungad:::is_name
  expect_false(is_name("H1\n"))
  expect_true(is_name("H1"))
  each_way(function(way) {
    graph <- graph_create(c("H1\n" = 1), matrix(0, 1, 1))
    expect_equal(graph$names, "H1")
    expect_output(print(graph), "H1 for")
  })
})


test_that("exact numbers are compared with those of each class, from either side", {
  x <- c(as_exact(c(a = 1 / 3, b = 1 / 2)), c = "0.10")
  wanted <- c(a = FALSE, b = TRUE, c = FALSE)
  for (half in list(0.5, "1/2", "0.50", as_exact("2/4"), gmp::as.bigq(1, 2))) {
    expect_identical(x == half, wanted, info = class(half))
    expect_identical(half == x, wanted, info = class(half))
    expect_identical(x != half, !wanted)
    expect_identical(x < half, c(a = TRUE, b = FALSE, c = TRUE))
    expect_identical(half > x, c(a = TRUE, b = FALSE, c = TRUE))
    expect_identical(x >= half, wanted)
    expect_identical(half <= x, wanted)
  }
  thirds <- gmp::as.bigq(c(1, 1, 1), c(3, 2, 10))
  expect_true(all(x == thirds))
  expect_true(all(thirds == x))
  expect_identical(as_exact(c(0, 1)) == gmp::as.bigz(1), c(FALSE, TRUE))
  expect_identical(gmp::as.bigz(1) == as_exact(c(0, 1)), c(FALSE, TRUE))
  expect_error(gmp::as.bigq(c(1, 1), 2:3) == x, "^==: 3 given for 2 numbers$")
  for (wrong in list(factor("1/2"), as.Date("2026-01-01"), TRUE, NULL)) {
    expect_error(x == wrong, "^==: numbers are doubles")
    expect_error(wrong == x, "^==: numbers are doubles")
  }
})

test_that("exact numbers are not computed with, from either side", {
  x <- as_exact(c(1 / 3, 1 / 2))
  fault <- "^numbers that were read are compared, and not computed with"
  for (other in list(x, 1, gmp::as.bigq(1, 2), gmp::as.bigz(1))) {
    expect_error(x + other, fault)
    expect_error(other * x, fault)
  }
  expect_error(-x, fault)
  expect_error(!x, fault)
})

test_that("what R does with a vector by itself is refused for exact numbers, and never walks their parts", {
  x <- as_exact(c(a = 1 / 3, b = 1 / 2))
  expect_error(for (v in x) NULL, "invalid for() loop sequence", fixed = TRUE)
  refused <- "requires vector arguments|no method for coercing|are compared by =="
  expect_error(x %in% 0.5, refused)
  expect_error(0.5 %in% x, refused)
  expect_error(match("1/2", x), refused)
  expect_error(is.element(0.5, x), refused)
  expect_error(setdiff(x, 0.5), refused)
  expect_error(union(x, x), refused)
  expect_error(intersect(x, x), refused)
  expect_error(as.vector(x), refused)
  expect_error(matrix(x, 1), refused)
  expect_error(nchar(x), refused)
  expect_error(rbind(x, x), refused)
  expect_error(ifelse(x == 1 / 2, x, 0), "incompatible types")
  expect_error(as.numeric(x), "cannot coerce|cannot be coerced")
  for (call in list(sum, max, prod, round, abs, exp)) expect_error(call(x))
  expect_error(c(gmp::as.bigq(1, 2), x))
  expect_error(welungad:::mtfrm.welungad_exact(x), "^numbers that were read are compared by ==, as in any[(]x == 0.5[)]$")
  expect_identical(unlist(list(x)), list(x))
  # what walks the numbers
  walked <- character()
  for (v in as.list(x)) walked <- c(walked, v$read)
  expect_identical(walked, c("1/3", "1/2"))
  expect_identical(vapply(x, format, ""), c(a = "1/3", b = "1/2"))
  expect_identical(unlist(lapply(x, function(v) v == 0.5)), c(a = FALSE, b = TRUE))
  expect_identical(mapply(function(v, w) v == w, x, c(1 / 3, 0.4)), c(a = TRUE, b = FALSE))
  expect_identical(as.character(Filter(function(v) v > 0.4, x)), c(b = "1/2"))
  expect_identical(Reduce(c, x)$read, x$read)
  expect_identical(sort(x, decreasing = TRUE)$read, c("1/2", "1/3"))
  expect_identical(order(x), 1:2)
  expect_true(identical(x, as_exact(c(a = 1 / 3, b = 1 / 2))))
  expect_false(identical(x, rev(x)))
  expect_output(print(x), "least denominator")
  expect_output(methods::show(x), "least denominator")
  file <- tempfile(fileext = ".rds")
  saveRDS(x, file)
  expect_identical(readRDS(file), x)
  unlink(file)
})
