# Answers. One function takes them all: an answer is read only if it is the whole text of the command, for the hypotheses of the
# case. Whatever else the program that was started prints is an error.

# Makes a call for a case, and returns its answer, read. A refusal becomes a condition.
ask <- function(words, case, proof = raw()) {
  taken(welungad_run(words, case$text, proof), words[1], case)
}

# An answer that was read, with its `lines`.
taken <- function(answer, command, case) {
  lines <- whole_lines(answer$text)
  if (answer$status >= 2L && is_refusal(answer$status, lines)) refuse_case(answer$status, lines, case, command)
  read <- if (answer$status <= 1L && length(lines)) read_answer(command, answer$status, lines, case)
  if (is.null(read)) stop(answerer(), " gives no whole answer of Welungad to ", command, call. = FALSE)
  read$lines <- lines
  read
}

answerer <- function() {
  if (welungad_way() == "library") return("the C library")
  paste("the program", program_path())
}

# The lines of a text, each of which has to end with a line feed; NULL if the last one doesn't.
whole_lines <- function(text) {
  if (!endsWith(text, "\n")) return(NULL)
  strsplit(text, "\n", fixed = TRUE)[[1]]
}

# Whether a text is one line that refuses with this status.
is_refusal <- function(status, lines) {
  beginning <- switch(as.character(status), "2" = "usage: ", "3" = "malformed: ", "4" = "limit: ", "5" = "too wide: ",
    "6" = "read fault", "8" = "no memory", "9" = "keeper fault")
  length(lines) == 1 && !is.null(beginning) && startsWith(lines, beginning)
}

# The parts of an answer; NULL if it isn't a whole one for the hypotheses of the case. Of a case from a file they aren't known.
read_answer <- function(command, status, lines, case) {
  names <- case$graph$names
  if (status == 1L) return(if (command == "check" && startsWith(lines[1], "no: ") && length(lines) == 1) read_no(lines))
  if (lines[length(lines)] != "end" && !command %in% c("canon", "catalogue")) return(NULL)
  switch(command,
    canon = ,
    catalogue = read_canon(lines, names),
    test = read_test(lines, names),
    weights = read_weights(lines, names),
    bounds = read_bounds(lines, names),
    simes = read_simes(lines, names),
    evidence = read_evidence(lines, names, length(case$graph$components)),
    check = read_yes(lines, names, case$version),
    stages = read_stages(lines, names, case$looks),
    study = read_study(lines, names, case$looks)
  )
}

# Lines of so many words each, as a matrix with a column for each line; NULL if a line has another number of words.
columns_of <- function(lines, count) {
  words <- strsplit(lines, " ", fixed = TRUE)
  if (any(lengths(words) != count)) return(NULL)
  matrix(as.character(unlist(words)), nrow = count)
}

# The words after the first one of a line.
words_after_first <- function(line) strsplit(line, " ", fixed = TRUE)[[1]][-1]

has_same <- function(x, y) length(x) == length(y) && !anyDuplicated(x) && all(x %in% y)

# The line with the names of the rejected, by position.
rejected_line <- function(names, rejected) paste(c("rejected", names[names %in% rejected]), collapse = " ")

# ---- test

read_test <- function(lines, names) .Call(C_welungad_read_test, lines, names)

# ---- all sets

# The sets of a report, in its order, with their codes, and with bounds or weights; NULL if they are not all sets. `word` is that of its first
# line. Of weights there is a matrix with a row for each set: places among different `texts`, and NA for those that are no members.
read_sets <- function(lines, names, word, has_weights) {
  if (lines[1] != paste(word, whole_text(length(names)))) return(NULL)
  .Call(C_welungad_read_sets, lines[-c(1, length(lines))], names, has_weights)
}

# A number for each set: the sum of 2^(position - 1) over its members.
codes_of <- function(sets) {
  if (length(sets) == 0) return(numeric())
  as.vector(rowsum(2^(unlist(sets) - 1), rep(seq_along(sets), lengths(sets)), reorder = FALSE))
}

read_weights <- function(lines, names) read_sets(lines, names, "weights", TRUE)

read_bounds <- function(lines, names, word = "bounds") read_sets(lines, names, word, FALSE)

read_simes <- function(lines, names) {
  n <- length(names)
  count <- length(lines)
  if (count != 2^n + n + 2) return(NULL)
  rejected <- lines[count - 1]
  top <- columns_of(lines[2^n + seq_len(n)], 4L)
  read <- read_bounds(lines[c(seq_len(2^n), count)], names, "simes")
  if (is.null(top) || is.null(read) || !all(top[1, ] == "top" & top[2, ] == seq_len(n))) return(NULL)
  listed <- words_after_first(rejected)
  if (rejected != rejected_line(names, listed)) return(NULL)
  c(read, list(top = as.integer(top[4, ]), rejected = names %in% listed))
}

# ---- evidence

# The hypotheses of lines "WORD NAME".
named_by <- function(lines, word) sub(paste0("^", word, " "), "", lines[startsWith(lines, paste0(word, " "))])

# Each step has a line for each graph and earlier step, and each kept hypothesis one for each graph and step.
read_evidence <- function(lines, names, graphs) {
  step <- named_by(lines, "step")
  keep <- named_by(lines, "keep")
  flows <- graphs * length(step) * (length(step) - 1) / 2
  exits <- graphs * length(step) * length(keep)
  whole <- length(lines) == 2 + length(names) + flows + exits
  if (lines[1] == "evidence 2" && whole && has_same(c(step, keep), names)) list()
}

# The answer to evidence of version 1 lacks the line kept.
read_yes <- function(lines, names, version) {
  count <- if (version == 1) 3L else 4L
  if (length(lines) != count || lines[1] != "yes" || !startsWith(lines[2], "listed")) return(NULL)
  listed <- words_after_first(lines[2])
  kept <- if (count == 4L) words_after_first(lines[3]) else character()
  if (anyDuplicated(listed) || !all(listed %in% names)) return(NULL)
  if (count == 4L && !(startsWith(lines[3], "kept") && has_same(c(listed, kept), names))) return(NULL)
  list(yes = TRUE, listed = listed, kept = kept, reason = "")
}

read_no <- function(lines) list(yes = FALSE, listed = character(), kept = character(), reason = sub("^no: ", "", lines[1]))

# ---- stages

# The arrivals are the looks, in their order.
read_stages <- function(lines, names, looks) {
  count <- length(lines)
  if (count < 3 || !startsWith(lines[1], "alpha ")) return(NULL)
  own <- lines[seq_len(count - 3) + 1L]
  arrives <- startsWith(own, "arrive ")
  arrived <- columns_of(own[arrives], 4L)
  rejects <- columns_of(own[!arrives], 6L)
  if (is.null(arrived) || is.null(rejects) || !all(rejects[1, ] == "reject")) return(NULL)
  if (!identical(arrived[2, ], looks$name) || !identical(arrived[3, ], whole_text(looks$stage))) return(NULL)
  if (!all(rejects[2, ] %in% names) || lines[count - 1] != rejected_line(names, rejects[2, ])) return(NULL)
  list(alpha = words_after_first(lines[1]), p = arrived[4, ], rejects = rejects, arrival = cumsum(arrives)[!arrives],
    rejected = names %in% rejects[2, ])
}

# The reply to the commands of a study: to a look for each row of `given`, and to show.
read_study <- function(lines, names, given) {
  count <- length(lines)
  if (count < 4 || !all(startsWith(lines[c(1, 2, count - 1)], c("alpha ", "records ", "show looks ")))) return(NULL)
  own <- lines[seq_len(count - 4) + 2L]
  looks <- columns_of(own[startsWith(own, "look ")], 4L)
  rejects <- columns_of(own[startsWith(own, "reject ")], 6L)
  refused <- columns_of(own[startsWith(own, "refused ")], 3L)
  if (is.null(looks) || is.null(rejects) || is.null(refused) || length(own) != ncol(looks) + ncol(rejects) + ncol(refused)) return(NULL)
  shown <- words_after_first(lines[count - 1])
  rejected <- shown[-(1:3)]
  if (!all(c(rejects[2, ], rejected) %in% names) || !are_replies(looks, refused, given)) return(NULL)
  counts <- c(words_after_first(lines[2]), shown[2])
  if (length(counts) != 2 || !all(is_whole(counts)) || diff(as.integer(counts)) != ncol(looks)) return(NULL)
  list(
    alpha = words_after_first(lines[1]),
    records = as.integer(counts[1]),
    taken = as.integer(counts[2]),
    rejected = names %in% rejected,
    looks = looks,
    rejects = rejects,
    arrival = cumsum(startsWith(own, "look "))[startsWith(own, "reject ")],
    refused = refused
  )
}

# Whether each look that was given is either taken or refused, in order.
are_replies <- function(looks, refused, given) {
  rows <- match(refused[2, ], sprintf("%.0f:", seq_along(given$name)))
  if (anyNA(rows) || is.unsorted(rows, strictly = TRUE)) return(FALSE)
  is_taken <- !seq_along(given$name) %in% rows
  identical(looks[2, ], given$name[is_taken]) && identical(looks[3, ], whole_text(given$stage[is_taken]))
}

# ---- cases

read_canon <- function(lines, names) {
  if (length(lines) < 3 || !startsWith(lines[1], "alpha ") || !startsWith(lines[2], "hypotheses ")) return(NULL)
  case <- parse_case(lines)
  n <- length(case$names)
  if (!is.null(names) && !identical(case$names, names)) return(NULL)
  counts <- vapply(case$components, function(it) length(it$weights), 1L)
  if (n == 0 || length(counts) == 0 || any(counts != n) || length(case$p) > 0 && length(case$p) != n) NULL else case
}
