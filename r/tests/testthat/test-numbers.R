read <- function(x) as_exact(x)$read

test_that("doubles are read at the edges of the rule", {
  expect_equal(read(c(0, -0, 1)), c("0", "0", "1"))
  expect_equal(as_exact(c(0, -0, 1, -1))$given, c("0", "0", "1", "-1"))
  expect_equal(read(c(1 / 3, 2 / 3, 1 / 7, 1 / 63)), c("1/3", "2/3", "1/7", "1/63"))
  expect_equal(read(c(0.025, 0.3333, 0.1, 0.0001)), c("1/40", "3333/10000", "1/10", "1/10000"))
  expect_equal(read(c(9999 / 10000, 1 / 9973)), c("9999/10000", "1/9973"))
  expect_equal(read(0.1 + 0.2), "0.30000000000000004")
  expect_equal(read(1 - 1 / 3 - 1 / 3), "0.3333333333333334")
  expect_equal(read(c(1e-5, 1e-300)), c("1e-05", "1e-30"))
  expect_equal(read(-0.25), "-1/4")
  expect_equal(read(c(2L, NA)), c("2", NA))
  expect_equal(read(NA), NA_character_)
})

test_that("each fraction with a small denominator is read as itself", {
  for (d in c(1:60, 97, 360, 9999, 10000)) {
    n <- unique(round(seq(0, d, length.out = 25)))
    expect_true(all(gmp::as.bigq(read(n / d)) == gmp::as.bigq(n, d)), info = d)
  }
})

test_that("another double is read as the shortest decimal that is read back", {
  set.seed(1)
  x <- c(runif(200), runif(50) * 1e-9, 1 / 10007, pi / 4, 0.05 / 7 * 1e-3)
  texts <- as_exact(x)
  own <- texts$rule == "shortest decimal"
  expect_true(sum(own) > 240)
  expect_identical(as.numeric(texts$read[own]), x[own])
  expect_identical(texts$given[own], texts$read[own])
  shorter <- mapply(function(text, value) {
    digits <- nchar(gsub("[^0-9]", "", sub("e.*", "", sub("^0[.]0*", "", text))))
    digits == 1 || as.numeric(sprintf("%.*e", digits - 2L, value)) != value
  }, texts$read[own], x[own])
  expect_true(all(shorter))
})

test_that("a power of two is read as the shortest decimal, also if the nearest one is read back as another double", {
  expect_equal(read(c(2^-24, 2^-44)), c("5.960464477539063e-08", "5.684341886080802e-14"))
  expect_equal(read(c(-2^-24, 2^-30)), c("-5.960464477539063e-08", "9.313225746154785e-10"))
})

test_that("a double that is too small for 30 places is rounded up", {
  small <- as_exact(c(1.5e-30, 1e-30, 0.9e-30, 1.024e-28, 5e-324, -1e-300))
  expect_equal(small$read, c("2e-30", "1e-30", "1e-30", "1.03e-28", "1e-30", "-1e-30"))
  expect_equal(small$given, c("1.5e-30", "1e-30", "9e-31", "1.024e-28", "5e-324", "-1e-300"))
  expect_equal(unique(small$rule[-2]), "rounded up to a multiple of 10^-30")
  expect_equal(small$rule[2], "shortest decimal")
})

test_that("doubles above 1, which no case has, are read for the refusal", {
  expect_equal(read(c(2, 2.5, -7 / 3, 2^60)), c("2", "5/2", "-7/3", "1152921504606846976"))
  expect_equal(read(c(3.0000000000000004, -1.5000000000000002)), c("3.0000000000000004", "-1.5000000000000002"))
})

# The doubles with these bits, as hexadecimal digits from the sign on.
of_bits <- function(digits) {
  bytes <- vapply(digits, function(it) as.raw(strtoi(substring(it, seq(1, 15, 2), seq(2, 16, 2)), 16L)), raw(8))
  readBin(as.vector(bytes), "double", length(digits), endian = "big")
}

test_that("doubles are read as the table of Python has them", {
  table <- file.path(dirname(Sys.getenv("WELUNGAD_EXAMPLES", "/nowhere/examples")), "python", "tests", "readings.txt")
  skip_if_not(file.exists(table), "the table of readings is not found")
  rows <- read.table(table, colClasses = "character", col.names = c("bits", "printed", "reading", "part"))
  rows <- rows[rows$part != "refused", ]
  expect_gt(nrow(rows), 130)
  for (own in c(TRUE, FALSE)) {
    found <- welungad:::read_doubles(of_bits(rows$bits), "x", own = own)
    expect_true(all(welungad:::fraction(found$read) == welungad:::fraction(rows$reading)))
    rule <- c(small = "least denominator", decimal = "shortest decimal", up = "rounded up to a multiple of 10^-30")
    expect_equal(found$rule, unname(rule[rows$part]))
  }
})

# Doubles from 0 to 1 of each kind: random bits, decimals, quotients, powers of two and what is beside them, less than normal ones.
doubles_of_each_kind <- function(count) {
  bytes <- matrix(as.raw(sample(0:255, 8 * count, TRUE)), 8)
  bytes[1, ] <- as.raw(sample(0:63, count, TRUE))
  less <- bytes
  less[1, ] <- as.raw(0)
  less[2, ] <- as.raw(sample(0:15, count, TRUE))
  bits <- function(it) readBin(as.vector(it), "double", count, endian = "big")
  powers <- 2^-(0:1074)
  beside <- c(powers, powers * (1 + 2^-52), powers * (1 - 2^-53))
  x <- c(bits(bytes), bits(less[, seq_len(count %/% 4)]), round(runif(count), sample(17, count, TRUE)),
    sample(3000, count, TRUE) / 3000 / sample(c(1, 3, 7, 60, 9999, 10000, 10007), count, TRUE), 10^-runif(count, 0, 32), beside)
  x[!is.na(x) & x >= 0 & x <= 1]
}

test_that("the package's own reading is that of the library", {
  skip_if_not(welungad:::has_numbers(), "the library with the calls on numbers is not found")
  set.seed(11)
  x <- doubles_of_each_kind(25000)
  expect_gt(length(x), 1e5)
  expect_identical(welungad:::read_doubles(x, "x"), welungad:::read_doubles(x, "x", own = TRUE))
})

test_that("numbers without a value are refused", {
  for (x in list(NaN, Inf, -Inf)) {
    refusal <- refusal_of(as_exact(x))
    expect_s3_class(refusal, "welungad_refusal")
    expect_equal(refusal$line, "malformed: number")
  }
  expect_error(as_exact(factor("a")), "doubles, integers, texts")
  expect_error(as_exact(TRUE), "doubles, integers, texts")
  # half a percent, as the package units has it
  percent <- structure(0.5, units = structure(list(numerator = "%", denominator = character()), class = "symbolic_units"), class = "units")
  expect_error(as_exact(percent), "^x: numbers are doubles, .* and not of class units$")
  # numbers that are held otherwise, and can be none of R's doubles
  registerS3method("is.numeric", "held_otherwise", function(x) TRUE)
  expect_error(as_exact(structure(list(0.5), class = "held_otherwise")), "^x: numbers are doubles, .* and not of class held_otherwise$")
})

test_that("the level that is not given is the one that is read", {
  expect_equal(unclass(welungad:::level_at_first), unclass(as_exact(0.025)))
})

test_that("a value that is missing is told from one that is none, whatever its bits are", {
  # a NaN of R is missing if its low half is 1954, also with a sign, and also if it was never quiet
  missing <- of_bits(c("7ff00000000007a2", "7ff80000000007a2", "fff80000000007a2"))
  for (x in missing) expect_identical(as_exact(x)$read, NA_character_)
  for (x in of_bits(c("7ff8000000000000", "fff8000000000000", "7ff0000000000001", "ffffffffffffffff"))) {
    expect_equal(refusal_of(as_exact(x))$where, "x: the first is NaN")
    expect_error(graph_test_many(pair(), matrix(c(0.5, x), 1)), "P: row 1, column 2 is NaN, which is not a p-value", fixed = TRUE)
  }
  expect_error(graph_test_many(pair(), matrix(c(0.5, missing[2]), 1)), "P: row 1, column 2 is NA, which is not a p-value", fixed = TRUE)
  for (own in c(TRUE, FALSE)) {
    read <- .Call(welungad:::C_welungad_readings, c(0.5, of_bits("fff8000000000000"), missing, Inf, 0.25), own)
    expect_identical(read$read, c("1/2", rep(NA, 5), "1/4"))
    expect_identical(read$rule, c(1L, rep(4L, 5), 1L))
  }
})

test_that("texts and exact fractions stay as they are", {
  expect_equal(read(c("1/3", "0.1", "1-\\epsilon")), c("1/3", "0.1", "1-\\epsilon"))
  expect_equal(read(gmp::as.bigq(c(1, 2), c(3, 4))), c("1/3", "1/2"))
  expect_equal(read(gmp::as.bigz(2)), "2")
  expect_identical(read(gmp::as.bigq(c("1/3", NA))), c("1/3", NA))
  expect_identical(as_exact(gmp::as.bigz(c(NA, 2)))$rule, c("missing", "fraction of gmp"))
  expect_equal(as.character(as_exact(c(a = 0.5))), c(a = "1/2"))
})

test_that("numerals have the values that FORMATS says", {
  value <- function(text) as.character(welungad:::numeral_value(text))
  expect_equal(value("1e3"), "1000")
  expect_equal(value("007.50"), "15/2")
  expect_equal(value("-.5"), "-1/2")
  expect_equal(value("5."), "5")
  expect_equal(value("2.5e-2"), "1/40")
  expect_equal(value("4/160"), "1/40")
  expect_equal(value("010/020"), "1/2")
  expect_equal(value("-08/010"), "-4/5")
  expect_true(all(welungad:::fraction(c("020/1000", "007", "-010/08")) == gmp::as.bigq(c(1, 7, -5), c(50, 1, 4))))
  expect_equal(value("1e-00001"), "1/10")
  expect_equal(value("0e99999999999"), "0")
  for (text in c("", ".", "1/0", "1e", "1/2/3", "a", "1-\\epsilon", "--1", "1 2", "1e99999999999")) {
    expect_true(is.na(welungad:::numeral_value(text)), info = text)
  }
})

test_that("small p-values are rounded up to multiples of 10^-30, with a message", {
  one <- list(names = "H1", labels = "H1")
  p <- function(x) welungad:::read_p(as_exact(x), one)$read
  expect_message(expect_equal(p(1e-300), "1e-30"), class = "welungad_rounded")
  expect_message(expect_equal(p(2e-31), "1e-30"), "rounded up")
  expect_message(expect_equal(p(1.1e-30), "2e-30"), "The p-value 1.1e-30 of H1 was rounded up to 2e-30, a multiple of 10^-30", fixed = TRUE)
  expect_message(expect_equal(p(1.024e-28), "1.03e-28"), "1.024e-28 of H1")
  expect_no_message(expect_equal(p(1e-30), "1e-30"))
  expect_no_message(expect_equal(p(1.23e-28), "1.23e-28"))
  expect_no_message(expect_equal(p("1e-300"), "1e-300"))
  expect_no_message(expect_equal(p(0), "0"))
})

test_that("doubles of fractions are the ones that R computes", {
  expect_identical(welungad:::double_of(c("1/3", "2/3", "3333/10000")), c(1 / 3, 2 / 3, 0.3333))
  expect_identical(welungad:::double_of(c("0.1", NA, "1/3", "-2", "\\epsilon", "")), c(0.1, NA, 1 / 3, -2, NA, NA))
  long <- paste0("1", strrep("0", 20), "/3", strrep("0", 20))
  expect_identical(welungad:::double_of(c(long, "1/2")), c(1 / 3, 1 / 2))
})

# A double as an exact fraction.
fraction_of <- function(x) {
  exponent <- floor(log2(abs(x))) - 52
  power <- gmp::as.bigz(2)^abs(exponent)
  digits <- gmp::as.bigz(sprintf("%.0f", x * 2^-exponent))
  if (exponent < 0) gmp::as.bigq(digits, power) else gmp::as.bigq(digits * power)
}

test_that("a double is the one that is nearest to its fraction", {
  set.seed(13)
  whole <- function(most) paste0(sample(1:9, 1), paste(sample(0:9, sample(0:most, 1), TRUE), collapse = ""))
  texts <- c(replicate(60, paste0(whole(37), "/", whole(37))), replicate(20, paste0(whole(60), "/", whole(60))), replicate(20, paste0("0.", whole(25))),
    "9007199254740993", "9007199254740995", "1/9007199254740993", "18014398509481985/18014398509481984", "-10000000000000000000000000000/30000000000000000000000000001")
  found <- welungad:::double_of(texts)
  values <- welungad:::fraction(texts)
  for (i in seq_along(texts)) {
    away <- abs(fraction_of(found[i]) - values[i])
    for (above in c(TRUE, FALSE)) expect_true(away <= abs(fraction_of(welungad:::next_double(found[i], above)) - values[i]), info = texts[i])
  }
  expect_identical(welungad:::double_of(c("9007199254740993", "9007199254740995")), c(9007199254740992, 9007199254740996))
  expect_identical(welungad:::double_of(c("5e-324", "1e-310", "1e-400", "1e400", "0.1", "-0.5")), c(5e-324, 1e-310, 0, Inf, 0.1, -0.5))
})

test_that("the double that was given is known from what it was read as", {
  set.seed(14)
  x <- c(runif(2000), 1:100 / 100, 1 / 1:100, 10^-runif(200, 0, 320), 2^-(0:1074), 0.1 + 0.2, 0, 1)
  expect_identical(welungad:::given_doubles(as_exact(x)), x)
})

test_that("what is no fraction of two whole numbers has no double", {
  most <- strrep("9", 38)
  for (text in c("1/0", "0/0", paste0(most, c("/0", "/", "//1", "/1/1", "/x")), "/1", "1/2/3", "1/-2", "0x1/3", "1 /3", "NA")) {
    expect_identical(.Call(welungad:::C_welungad_doubles, c("1/2", text, "1/4")), c(0.5, NA, 0.25), info = text)
    expect_identical(welungad:::double_of(c(text, "1/2")), c(NA, 0.5), info = text)
  }
  expect_identical(welungad:::double_of(c("0", "0/7", paste0("0/", most), paste0(most, "/", most), "9007199254740993", "007/0014")),
    c(0, 0, 0, 1, 9007199254740992, 0.5))
  expect_identical(welungad:::double_of(character()), numeric())
})

test_that("fractions beside doubles are found, each within its own room", {
  found <- function(x, room = 0) {
    it <- welungad:::small_fractions(x, room)
    ifelse(is.na(it$n), NA_character_, paste0(it$n, "/", it$d))
  }
  x <- c(0.1 + 0.2, 1 / 3, -0.25, 2.5, 0, 1 / 10007, NA, NaN, Inf, -Inf, 1e300)
  expect_identical(found(x), c(NA, "1/3", "-1/4", "5/2", "0/1", NA, NA, NA, NA, NA, "1e+300/1"))
  expect_identical(found(c(0.1 + 0.2, 0.1 + 0.2, -0.1 - 0.2), c(0, 2^-54, 2^-54)), c(NA, "3/10", "-3/10"))
  expect_identical(found(c(0.5, 0.1 + 0.2, 0.7, -0.1 - 0.2), 2^-50), c("1/2", "3/10", "7/10", "-3/10"))
  expect_identical(found(c(0.12345, 0.5), c(NA, NaN)), rep(NA_character_, 2))
  expect_identical(found(numeric()), logical())
  expect_identical(found(c(9999 / 10000, 1 / 10000, 1 / 10001)), c("9999/10000", "1/10000", NA))
})

test_that("doubles of long fractions are those of gmp", {
  set.seed(12)
  digits <- function(most) paste0(sample(1:9, 1), paste(sample(0:9, sample(0:most, 1), TRUE), collapse = ""))
  texts <- replicate(2000, paste0(digits(37), "/", digits(37)))
  own <- as.character(gmp::as.bigq(texts))
  expect_identical(welungad:::double_of(own), welungad:::as_double(gmp::as.bigq(own)))
  most <- paste0(strrep("9", 38), c("/1", "/7", paste0("/", strrep("9", 37), "8")))
  expect_identical(welungad:::double_of(most), welungad:::as_double(gmp::as.bigq(most)))
  longer <- c(paste0(strrep("9", 39), c("/7", paste0("/", strrep("9", 38), "7"))), paste0("7/", strrep("9", 39)))
  expect_identical(welungad:::double_of(longer), welungad:::as_double(gmp::as.bigq(longer)))
})

test_that("a text whose bytes are not one is named", {
  skip_if_not(l10n_info()[["UTF-8"]], "the locale is not UTF-8")
  bytes <- "\xe9"
  Encoding(bytes) <- "bytes"
  each_way(function(way) {
    for (wrong in c("0.5\xe9", bytes)) {
      expect_error(as_exact(c("0.5", wrong)), "^x: the second is \".*\", whose bytes are not a text in its encoding$")
      expect_error(graph_test(pair(), c(A = wrong, B = "0.5")), "^p: \"A\" is \".*\", whose bytes are not a text in its encoding$")
      expect_error(graph_create(c("1/2", "1/2"), rbind(0:1, 1:0), hyp_names = c("A", wrong)), "^hyp_names: the second is ")
    }
    expect_equal(as_exact(iconv("0.5", "UTF-8", "latin1"))$read, "0.5")
  })
})
