# Many trials with one graph.

# How many rows are decided between two looks at the clock, in which R also sees an interrupt.
rows_of_block <- 512L

graph_test_many <- function(graph, P, alpha = 0.025, ...) {
  check_dots(..., instead = many_arguments)
  deleted <- deleted_of(graph)
  graph <- check_graph(graph)
  level <- level_of(alpha)
  P <- rows_of_p(P, graph, deleted)
  out <- matrix(NA, nrow(P), ncol(P), dimnames = list(rownames(P), graph$labels))
  decide <- if (is.double(P) && welungad_way() == "library" && has_numbers()) decided_doubles else decided_texts
  progress <- progress_over(nrow(P))
  on.exit(progress$close())
  for (rows in blocks_over(nrow(P))) {
    block <- decide(graph, level, P[rows, , drop = FALSE], rows)
    done <- block$statuses == 0L
    out[rows[done], ] <- block$rejected[done, ]
    progress$at(max(rows))
  }
  report_wide(out)
  report_many_ties(graph, level, P, out, decide)
  new_many(out, graph, level)
}

# The p-values, a row a trial, with the columns in the order of the hypotheses: doubles, or else texts. None is missing.
rows_of_p <- function(P, graph, deleted = character()) {
  if (!is.data.frame(P) && length(dim(P)) != 2) {
    stop_at("P", "a matrix is needed, with a row for each trial and a column for each hypothesis")
  }
  n <- length(graph$names)
  check_deleted(colnames(P), deleted, graph, "P: columns")
  if (ncol(P) != n) stop_at("P", count_of(ncol(P), "column"), " given for ", hypotheses_text(graph, deleted))
  if (!is.data.frame(P)) check_elements(P, "P")
  P <- if (is_of_doubles(P)) matrix_of_doubles(P) else matrix_of_texts(P)
  given <- colnames(P)
  if (are_hypotheses(rownames(P), graph, is.null(given))) {
    stop_at("P", "its rows have the names of hypotheses", if (is.null(given)) ", and its columns have none", ": a row is a trial",
      if (!is.null(given)) ", and rownames(P) <- NULL drops the names of rows")
  }
  columns <- if (is.null(given)) seq_len(n) else places_among(given, hypothesis_keys(graph), "P: columns")
  check_p(P)
  if (is.double(P)) report_many_rounded(P)
  P[, columns, drop = FALSE]
}

# Whether rows have the names of hypotheses: of all of them, once each, or if it is enough of some.
are_hypotheses <- function(rows, graph, some) {
  keys <- hypothesis_keys(graph)
  if (some) any(rows %in% unlist(keys)) else any(vapply(keys, function(key) length(rows) == length(key) && setequal(rows, key), NA))
}

is_of_doubles <- function(P) if (is.data.frame(P)) length(P) > 0 && all(vapply(P, is_plain, NA)) else is_plain(P)

# Whether numbers are doubles or integers, and nothing else.
is_plain <- function(x) (is.double(x) || is.integer(x)) && !is.object(x)

matrix_of_doubles <- function(P) {
  if (is.data.frame(P)) {
    values <- vapply(P, as.double, numeric(nrow(P)))
    P <- matrix(values, nrow(P), length(P), dimnames = list(own_row_names(P), names(P)))
  }
  storage.mode(P) <- "double"
  P
}

matrix_of_texts <- function(P) {
  read <- if (is.data.frame(P)) exact_frame(P, "P", own_row_names(P)) else exact_of(P, "P")
  report_rounded(read, paste("row", rep(whole_text(seq_len(read$dim[1])), read$dim[2])))
  matrix(read$read, read$dim[1], read$dim[2], dimnames = read$dimnames)
}

# Stops at the first p-value that is missing or not from 0 to 1, with its row and column.
check_p <- function(P) {
  values <- if (is.double(P)) P else double_of(P)
  wrong <- which(is.na(values) | values < 0 | values > 1)
  if (length(wrong) == 0) return(invisible())
  at <- wrong[order((wrong - 1) %% nrow(P))][1]
  given <- if (is.double(P) && !is.na(P[at])) double_text(P[at]) else as.character(P[at])
  stop_at("P", "row ", whole_text((at - 1) %% nrow(P) + 1), ", column ", whole_text((at - 1) %/% nrow(P) + 1), " is ",
    if (is.na(given)) "NA" else given, ", which is not a p-value")
}

# Reports how many p-values are rounded up. Only doubles below 10^-12 can be, since a decimal has at most 17 digits.
report_many_rounded <- function(P) {
  small <- which(P > 0 & P < 1e-12)
  at <- small[read_doubles(P[small], "P")$rule == rounded_up]
  rows <- sort(unique((at - 1) %% nrow(P) + 1))
  if (length(at)) {
    say_rounded(paste0("P: ", count_of(length(at), "p-value was", "p-values were"), " rounded up to a multiple of 10^-30: row ",
      listed(whole_text(rows))))
  }
}

# Decides a block of rows of doubles by one call. Returns a logical matrix of the rejected, and a status for each row: 0, or 5 if it is
# too wide.
decided_doubles <- function(graph, level, P, rows = seq_len(nrow(P))) {
  text <- case_text(graph, level)
  found <- .Call(C_welungad_rows, charToRaw(text), P)
  if (found$status == 0L && all(found$statuses %in% c(0L, 5L)) && !anyNA(found$rejected)) return(found)
  if (found$status == 5L) return(list(rejected = matrix(FALSE, nrow(P), ncol(P)), statuses = rep(5L, nrow(P))))
  if (found$status == 8L) stop("the C library is out of memory", call. = FALSE)
  ask("canon", handed(text, graph))
  stop("the C library gives no whole answer to many trials: it ends with ", found$status, call. = FALSE)
}

# Decides a block of rows one by one, as decided_doubles. `rows` are their numbers.
decided_texts <- function(graph, level, P, rows = seq_len(nrow(P))) {
  if (is.double(P)) P <- matrix(read_doubles(P, "P")$read, nrow(P))
  parts <- graph_text(graph)
  p <- do.call(paste, lapply(seq_len(ncol(P)), function(j) P[, j]))
  cases <- paste0("alpha ", level, "\n", parts$head, "p ", p, "\n", parts$body)
  out <- list(rejected = matrix(FALSE, nrow(P), ncol(P)), statuses = integer(nrow(P)))
  for (i in seq_along(cases)) {
    case <- handed(cases[i], graph)
    answer <- welungad_run("test", case$text)
    if (answer$status == 5L && is_refusal(5L, whole_lines(answer$text))) {
      out$statuses[i] <- 5L
    } else {
      out$rejected[i, ] <- rejected_in(answer, case, rows[i])
    }
  }
  out
}

# What the answer to a row rejects. The refusal of a p-value names the row.
rejected_in <- function(answer, case, row) {
  tryCatch(taken(answer, "test", case), welungad_refusal = function(refusal) {
    if (!startsWith(refusal$where, "p: ")) stop(refusal)
    refuse(refusal$status, refusal$line, refusal$amount, paste0("P: row ", whole_text(row), sub("^p", "", refusal$where)))
  })$rejected
}

blocks_over <- function(rows) split(seq_len(rows), (seq_len(rows) - 1L) %/% rows_of_block)

# A bar from two seconds on, if somebody is there to see it.
progress_over <- function(rows) {
  started <- proc.time()[["elapsed"]]
  bar <- NULL
  list(
    at = function(row) {
      if (!interactive() || proc.time()[["elapsed"]] - started < 2) return(invisible())
      if (is.null(bar)) bar <<- utils::txtProgressBar(0, rows, style = 3)
      utils::setTxtProgressBar(bar, row)
    },
    close = function() if (!is.null(bar)) close(bar)
  )
}

report_wide <- function(out) {
  wide <- which(is.na(out[, 1]))
  if (length(wide)) {
    warn("welungad_wide", "P", count_of(length(wide), "row is", "rows are"), " NA, since numbers of the run are too wide: row ",
      listed(whole_text(wide)))
  }
}

# Reports the rows with p-values that are doubles beside fractions, with which they would be decided otherwise.
report_many_ties <- function(graph, level, P, out, decide) {
  meant <- if (is.double(P)) fractions_beside(P) else P[NA]
  rows <- sort(unique(row(P)[!is.na(meant)]))
  if (length(rows) == 0) return(invisible())
  other <- decide(graph, level, ifelse(is.na(meant), P, meant)[rows, , drop = FALSE], rows)
  differs <- which(other$statuses == 0L & rowSums(other$rejected != out[rows, , drop = FALSE], na.rm = TRUE) > 0)
  if (length(differs) == 0) return(invisible())
  at <- which(row(P) == rows[differs[1]] & !is.na(meant))[1]
  say("welungad_tie", paste0("P: ", count_of(length(differs), "row"), " would be decided otherwise with the fractions beside doubles: row ",
    listed(whole_text(rows[differs])), ". ", beside_sentences(read_doubles(P[at], "P")$read), "."))
}

# The doubles of the fractions beside doubles; NA for those that have none.
fractions_beside <- function(P) {
  near <- small_fractions(as.vector(P), as.vector(beside_units * last_place(P)))
  meant <- near$n / near$d
  at <- which(!is.na(meant) & meant != as.vector(P))
  read <- read_doubles(P[at], "P")
  has <- read$rule == "shortest decimal" & !is.na(beside(read$read)$fraction)
  out <- P
  out[] <- NA
  out[at[has]] <- meant[at[has]]
  out
}
