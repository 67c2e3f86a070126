# The C code of the package: what it takes of a library, with stand-ins for it, and how it treats R.

# The paths of files of the checkout or the installation that the examples are in.
beside_examples <- function(...) file.path(dirname(Sys.getenv("WELUNGAD_EXAMPLES", "/nowhere/examples")), ...)

# Compiles the package's C code in a new folder. Returns a function that links it to a stand-in for the library, whose code it is given,
# and returns the routines of .Call. What was linked stays loaded.
compile_shim <- function(flags = "-DWELUNGAD_LIBRARY") {
  header <- Filter(file.exists, c(beside_examples("c", "welungad.h"), beside_examples("..", "..", "include", "welungad.h")))
  sources <- list.files(beside_examples("r", "src"), "[.][ch]$", full.names = TRUE)
  testthat::skip_if(length(header) == 0 || length(sources) == 0, "the sources of the package are not found")
  testthat::skip_if_not(all(nzchar(Sys.which(c("make", "cc")))), "make or cc is missing")
  folder <- tempfile("shim-")
  dir.create(folder)
  file.copy(c(header[1], sources), folder)
  files <- basename(grep("[.]c$", sources, value = TRUE))
  number <- 0
  function(code = character()) {
    old <- setwd(folder)
    on.exit(setwd(old))
    number <<- number + 1
    dir.create(as.character(number))
    stand_in <- sprintf("stand_in_%d.c", number)
    writeLines(c("#include <string.h>", "#include <welungad.h>", code), stand_in)
    output <- file.path(number, "welungad.so")
    flags <- paste0("PKG_CPPFLAGS=", shQuote(paste(flags, "-I.")))
    said <- suppressWarnings(system2(file.path(R.home("bin"), "R"), c("CMD", "SHLIB", "-o", output, files, stand_in), TRUE, TRUE, env = flags))
    if (!file.exists(output)) stop("the shim can't be compiled: ", paste(said, collapse = "\n"))
    files <<- sub("[.]c$", ".o", files)
    getDLLRegisteredRoutines(dyn.load(output))$.Call
  }
}

# The stand-ins with all calls, with none of those on numbers, and with one, and the package without the library.
shim_of <- local({
  link <- NULL
  linked <- list()
  function(name) {
    if (is.null(linked[[name]])) {
      if (name == "none") return(linked[[name]] <<- compile_shim("")())
      if (is.null(link)) link <<- compile_shim()
      calls <- list(all = c(interface, runs, reads, rows), older = c(interface, runs), reading = c(interface, runs, reads))
      linked[[name]] <<- link(calls[[name]])
    }
    linked[[name]]
  }
})

# The interface is the one that the environment variable STAND_IN names.
interface <- c("#include <stdio.h>", "#include <stdlib.h>", "uint32_t welungad_interface(void) { return (uint32_t)atoi(getenv(\"STAND_IN\")); }")

# Answers by the first letter of the words: with a text of as many letters as the case says, which fill what they get of the room; with
# how much room there is; with two texts that need more and more of it, and then out of memory; with a part of a text; with no room for as
# much as there is.
runs <- c(
  "uint8_t welungad_run(const uint8_t *words, size_t words_len, const uint8_t *kase, size_t kase_len, const uint8_t *proof,",
  "                     size_t proof_len, uint8_t *out, size_t out_len, size_t *needed) {",
  "  static size_t calls = 0;",
  "  size_t len = 0;",
  "  switch (words[0]) {",
  "    case 'l':",
  "      for (size_t k = 0; k < kase_len; k++) len = 10 * len + (kase[k] - '0');",
  "      memset(out, 'a', len < out_len ? len : out_len);",
  "      *needed = len;",
  "      return len <= out_len ? 0 : 7;",
  "    case 'r': *needed = (size_t)sprintf((char *)out, \"%zu\", out_len); return 0;",
  "    case 'm':",
  "      *needed = calls < 2 ? 70000 + 10000 * calls : 10;",
  "      if (calls++ < 2) return 7;",
  "      memcpy(out, \"no memory\\n\", 10);",
  "      return 8;",
  "    case 'p': memset(out, 'a', out_len); *needed = out_len + 1; return 0;",
  "    case 'e': *needed = out_len; return 7;",
  "    default: *needed = 0; return 0;",
  "  }",
  "}"
)

# Reads each double as 1/7, but for nine of them.
reads <- c("uint8_t welungad_read(const uint64_t *bits, size_t bits_len, uint64_t *out, size_t out_len) {",
  "  for (size_t k = 0; k < out_len; k++) out[k] = k % 4 == 0 ? 1 : k % 4 == 2 ? 7 : 0;", "  return bits_len == 9 ? 11 : 0;", "}")

# Puts the length of the case in place of each mark, and of each status that of the doubles, and ends with status 0.
rows <- c("uint8_t welungad_test_rows(const uint8_t *kase, size_t kase_len, const uint64_t *p, size_t p_len, uint8_t *rejected,",
  "                           size_t rejected_len, uint8_t *statuses, size_t statuses_len) {",
  "  memset(rejected, (int)kase_len, rejected_len);", "  memset(statuses, (int)p_len, statuses_len);", "  return 0;", "}")

# Calls of a stand-in that has an interface.
with_interface <- function(number, code) {
  Sys.setenv(STAND_IN = number)
  on.exit(Sys.unsetenv("STAND_IN"))
  code
}
interface_of <- function(shim) .Call(shim$welungad_interface)
numbers_of <- function(shim) .Call(shim$welungad_has_numbers)
run_by <- function(shim, word = "none", case = "") .Call(shim$welungad_call, word, charToRaw(case), raw())
read_by <- function(shim, x = 0.3, own = FALSE) .Call(shim$welungad_readings, x, own)$read
rows_by <- function(shim, case = raw(1), P = matrix(0.5, 1, 2)) .Call(shim$welungad_rows, case, P)

test_that("a library is taken only with the interface and the calls that the package knows", {
  one <- shim_of("all")
  with_interface(1, {
    expect_identical(interface_of(one), 1L)
    expect_true(numbers_of(one))
    expect_equal(run_by(one), list(status = 0L, text = ""))
    expect_equal(read_by(one), "1/7")
    expect_equal(read_by(one, own = TRUE), "3/10")
    expect_error(read_by(one, rep(0.3, 9)), "the C library does not read doubles", fixed = TRUE)
    expect_equal(rows_by(one), list(status = 0L, rejected = matrix(TRUE, 1, 2), statuses = 2L))
    for (name in c("older", "reading")) {
      older <- shim_of(name)
      expect_identical(interface_of(older), 1L)
      expect_false(numbers_of(older))
      expect_equal(run_by(older)$status, 0L)
      expect_equal(read_by(older), "3/10")
      expect_error(rows_by(older), "the C library is of another release", fixed = TRUE)
    }
  })
  for (number in c(0, 2, 257)) {
    with_interface(number, {
      expect_identical(interface_of(one), 0L)
      expect_false(numbers_of(one))
      expect_error(run_by(one), "the C library has another interface", fixed = TRUE)
      expect_equal(read_by(one), "3/10")
      expect_error(rows_by(one), "the C library is of another release", fixed = TRUE)
    })
  }
})

test_that("without the library there is none of its calls", {
  none <- shim_of("none")
  expect_identical(interface_of(none), 0L)
  expect_false(numbers_of(none))
  expect_equal(read_by(none), "3/10")
  expect_error(run_by(none), "the package was installed without the C library", fixed = TRUE)
  expect_error(rows_by(none), "the package was installed without the C library", fixed = TRUE)
})

test_that("a text is taken whole, whatever its length", {
  shim <- shim_of("all")
  with_interface(1, {
    for (len in c(0, 1, 65535, 65536, 65537, 70000, 300000)) {
      found <- run_by(shim, "letters", sprintf("%.0f", len))
      expect_equal(found$status, 0L)
      expect_true(identical(found$text, strrep("a", len)), info = len)
    }
    expect_equal(run_by(shim, "room")$text, "65536") # as much as there is on the stack
    expect_equal(run_by(shim, "more"), list(status = 8L, text = "no memory\n"))
    for (word in c("part", "endless")) expect_error(run_by(shim, word), "the C library gives no whole text", fixed = TRUE)
  })
})

test_that("answers are whole at the size of the first room", {
  names <- sprintf("hypo%04d", 1:48)
  # a case in its one spelling, of so many bytes
  case_of <- function(bytes) {
    lines <- function(names, zeros) {
      from <- rep(seq_along(names), each = length(names))
      to <- rep(seq_along(names), length(names))
      c("alpha 1/40", paste(c("hypotheses", names), collapse = " "), paste(c("p", paste0("1/1", strrep("0", 1 + zeros))), collapse = " "),
        paste(c("weights", rep("1/48", 48)), collapse = " "), paste("edge", names[from], names[to], "1/47")[from != to])
    }
    missing <- bytes - sum(nchar(lines(names, rep(0, 48))) + 1)
    longer <- seq_len(missing %/% 95)
    names[longer] <- paste0(names[longer], "x")
    zeros <- missing %% 95 %/% 48 + (1:48 <= missing %% 95 %% 48)
    paste0(lines(names, zeros), "\n", collapse = "")
  }
  each_way(function(way) {
    for (bytes in 65535:65538) {
      case <- case_of(bytes)
      expect_equal(nchar(case), bytes)
      found <- welungad_run("canon", case)
      expect_equal(found$status, 0L)
      expect_true(identical(found$text, case), info = bytes)
    }
  })
})

test_that("what is no answer to many trials is an error", {
  skip_if_not(welungad_way() == "library", "the library is not found")
  # decides two trials with another answer in place of the library's
  decide <- function(status, rejected = matrix(FALSE, 2, 2), statuses = c(0L, 0L)) {
    with_answer <- welungad:::decided_doubles
    stand_in <- list(.Call = function(...) list(status = status, rejected = rejected, statuses = statuses))
    environment(with_answer) <- list2env(stand_in, parent = asNamespace("welungad"))
    with_answer(pair(), "1/40", matrix(0.5, 2, 2))
  }
  expect_equal(decide(0L)$statuses, c(0L, 0L))
  expect_equal(decide(0L, statuses = c(0L, 5L))$statuses, c(0L, 5L))
  expect_equal(decide(5L)$statuses, c(5L, 5L))
  fault <- "the C library gives no whole answer to many trials"
  for (status in c(3L, 4L, 11L)) expect_error(decide(status), fault)
  for (status in c(1L, 3L, 4L, 8L)) expect_error(decide(0L, statuses = c(0L, status)), fault)
  expect_error(decide(0L, matrix(c(FALSE, TRUE, NA, FALSE), 2)), fault)
  expect_error(decide(8L), "the C library is out of memory", fixed = TRUE)
  expect_equal(lengths(welungad:::blocks_over(1025), use.names = FALSE), c(512, 512, 1))
})

test_that("a mark that is neither 0 nor 1 is no decision", {
  shim <- shim_of("all")
  with_interface(1, {
    marks <- function(count) as.vector(rows_by(shim, raw(count), matrix(0.5, 3, 2))$rejected)
    expect_identical(marks(0), rep(FALSE, 6))
    expect_identical(marks(1), rep(TRUE, 6))
    expect_identical(marks(2), rep(NA, 6))
    expect_identical(marks(255), rep(NA, 6))
  })
})

test_that("a call for which the stack is too short is an error", {
  skip_if_not("library" %in% welungad_ways(), "the library is not found")
  skip_if(is.na(Cstack_info()[["size"]]), "the stack has no limit")
  # calls a function where R has less than 450,000 bytes of its stack left
  deep_down <- function(call) {
    force(call)
    down <- function() {
      info <- Cstack_info()
      if (info[["size"]] - info[["current"]] < 450000) call() else down()
    }
    down()
  }
  said <- function(call) tryCatch(deep_down(call), error = conditionMessage)
  with_options(list(expressions = 500000, welungad.way = "library"), {
    expect_equal(said(function() 1 + 1), 2)
    expect_match(said(function() welungad_run("help")), "C stack usage")
    if (welungad:::has_numbers()) {
      expect_match(said(function() as_exact(0.5)), "C stack usage")
      expect_match(said(function() .Call(welungad:::C_welungad_rows, raw(), matrix(0.5, 1, 1))), "C stack usage")
    }
  })
})

# One call of each routine, and of each way through it. A call makes objects of one size one after the other, so that one that is lost
# becomes another one.
routine_calls <- function() {
  names <- paste0("H", 1:6)
  report <- c("alpha 1/40", "step 1 H2 p 1/2003 weight 2/33", paste("kept", names[-2], "p 1/503 weight 5/77"), "rejected H2",
    paste("adjusted", names, c("1 not reached", "3/200", "1")), "end")
  case <- charToRaw("alpha 1/40\nhypotheses A B\np 1/200 1\nweights 1/2 1/2\nedge A B 1\nedge B A 1\n")
  calls <- list(
    quote(.Call(welungad:::C_welungad_interface)),
    quote(.Call(welungad:::C_welungad_has_numbers)),
    bquote(.Call(welungad:::C_welungad_fractions, .(c(1 / 3, -0.25)), 0)),
    bquote(.Call(welungad:::C_welungad_readings, .(c(0.1 + 0.2, 1e-40, NA, -0.25)), FALSE)),
    bquote(.Call(welungad:::C_welungad_readings, .(c(1 / 3, 7.5, 2^60)), TRUE)),
    bquote(.Call(welungad:::C_welungad_doubles, .(c("1/3", NA, "x", "12345678901234567890/98765432109876543210")))),
    bquote(.Call(welungad:::C_welungad_read_test, .(report), .(names))),
    bquote(.Call(welungad:::C_welungad_read_test, .(report), .(sub("6", "7", names)))),
    bquote(.Call(welungad:::C_welungad_read_test, .(report[-2]), .(names)))
  )
  if (!"library" %in% welungad_ways()) return(calls)
  more <- list(
    bquote(.Call(welungad:::C_welungad_call, "test", .(case), .(raw()))),
    bquote(.Call(welungad:::C_welungad_call, .(c("check", "\u00e9", "-")), .(raw()), .(raw()))),
    bquote(.Call(welungad:::C_welungad_call, "x", .(raw()), .(raw())))
  )
  P <- rbind(c(0.001, 0.9), c(0.5, 0.6), c(NaN, 1))
  if (welungad:::has_numbers()) more <- c(more, list(bquote(.Call(welungad:::C_welungad_rows, .(case), .(P)))))
  c(calls, more)
}

test_that("no object of a call is lost to the garbage collector", {
  on.exit(gctorture(FALSE))
  for (call in routine_calls()) {
    # as bytes, which keep no object of the call
    wanted <- serialize(eval(call), NULL)
    # what has outlived a collection goes in each twentieth one
    few <- grepl("fractions|rows", deparse(call[[2]]))
    for (k in seq_len(if (few) 20 else 1)) {
      gctorture(TRUE)
      found <- eval(call)
      gctorture(FALSE)
      expect_identical(serialize(found, NULL), wanted)
      found <- NULL
    }
  }
})

test_that("each call leaves what R protects as it was", {
  # R prints a line of an imbalance
  for (call in routine_calls()) expect_identical(capture.output(invisible(eval(call)), type = "message"), character())
})

test_that("what is no argument of a call is an error", {
  expect_error(.Call(welungad:::C_welungad_fractions, 1:2, 0), "doubles are needed")
  expect_error(.Call(welungad:::C_welungad_fractions, c(0.5, 0.25), 0L), "doubles are needed")
  expect_error(.Call(welungad:::C_welungad_fractions, c(0.5, 0.25, 0.1), c(0, 0)), "one room is needed, or one for each double")
  expect_error(.Call(welungad:::C_welungad_readings, 1L, FALSE), "doubles are needed, and TRUE or FALSE")
  expect_error(.Call(welungad:::C_welungad_readings, 0.5, c(TRUE, FALSE)), "doubles are needed, and TRUE or FALSE")
  expect_error(.Call(welungad:::C_welungad_readings, 0.5, 1), "doubles are needed, and TRUE or FALSE")
  expect_error(.Call(welungad:::C_welungad_doubles, 1), "texts are needed")
  expect_error(.Call(welungad:::C_welungad_read_test, list("end"), "H1"), "lines and names are needed")
  skip_if_not("library" %in% welungad_ways(), "the library is not found")
  for (words in list(list(NULL, raw(), raw()), list("test", "", raw()), list("test", raw(), NULL))) {
    expect_error(do.call(.Call, c(list(welungad:::C_welungad_call), words)), "words, a case and a proof are needed")
  }
  for (words in list(list("", matrix(0.5, 1, 1)), list(raw(), 0.5), list(raw(), matrix(1L, 1, 1)), list(raw(), array(0.5, c(1, 1, 1))))) {
    expect_error(do.call(.Call, c(list(welungad:::C_welungad_rows), words)), "a case and a matrix of doubles are needed")
  }
})
