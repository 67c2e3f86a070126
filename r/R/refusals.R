# Refusals: what to do about each line that the proved call refuses with, and the R condition that carries it.

# What to do is the cure of docs/REFUSALS.md, of which the installation keeps a copy. The page has one table a section. The first cell of a row
# has the lines that the row is about, in backquotes, where a word in capitals and `..` denote any text. A sentence above a table may say how all its
# lines begin, and `for` in a cell which commands it is about. The other cells are the cause and the cure, or the condition that is broken.

# The rows of a page: the patterns of their lines, the commands that they are about, none of which is named by most, and what to do.
rows_of_page <- function(page) {
  rows <- list()
  begins <- head <- ""
  for (line in page) {
    cells <- trimws(strsplit(gsub("^\\||\\|$", "", line), "|", fixed = TRUE)[[1]])
    if (startsWith(line, "## ")) begins <- ""
    if (grepl("begins? with `", line)) begins <- in_backquotes(sub("[,.] .*", "", sub(".* begins? with ", "", line)))
    if (!startsWith(line, "|")) head <- ""
    else if (!nzchar(head)) head <- cells[1]
    else if (head %in% c("Line", "Rest of the line") && grepl("`", cells[1], fixed = TRUE)) rows <- c(rows, list(row_of_page(cells, begins)))
  }
  rows
}

row_of_page <- function(cells, begins) {
  parts <- strsplit(cells[1], " for ", fixed = TRUE)[[1]]
  lines <- as.vector(outer(begins, in_backquotes(parts[1]), paste0))
  cure <- cells[min(3L, length(cells))]
  list(
    patterns = paste0("^", gsub("\\b[A-Z]+\\b|\\\\[.]\\\\[.]", ".*", gsub("([^A-Za-z0-9 :/])", "\\\\\\1", lines), perl = TRUE), "$"),
    commands = if (length(parts) > 1) sub(" .*", "", in_backquotes(parts[2])) else character(),
    cure = gsub("`", "", gsub("\\[([^]]*)\\]\\([^)]*\\)", "\\1", cure), fixed = TRUE)
  )
}

in_backquotes <- function(text) gsub("`", "", regmatches(text, gregexpr("`[^`]*`", text))[[1]], fixed = TRUE)

page_read <- new.env(parent = emptyenv())

# The rows of the copy of the page, which is read once; none if it is missing.
page_rows <- function() {
  if (is.null(page_read$rows)) {
    page <- system.file("REFUSALS.md", package = "welungad")
    page_read$rows <- if (nzchar(page)) rows_of_page(readLines(page, encoding = "UTF-8")) else list()
  }
  page_read$rows
}

# What R adds, since the page says how a case is written: a refusal of its own, and how R gives levels.
own_advice <- c(
  "^malformed: number$" = "Give a finite number.",
  "^limit: case: part spend of .* stage " = "In R a table is a matrix of levels by weight: rbind(\"1/2\" = c(..), \"1\" = c(..))."
)

# Returns the sentences that say what to do about a line that a command printed, or "" if no row fits. Without the command, what to do is given
# for each one.
advice <- function(line, command = "") {
  own <- own_advice[vapply(names(own_advice), grepl, NA, x = line)]
  paste(c(cure_of(line, command), own), collapse = " ")
}

cure_of <- function(line, command) {
  # the kinds of a text occur in sheets, JSON and commands too, at other places
  other <- sub("^(malformed|limit): (row [0-9]+ column [0-9]+|commands line [0-9]+|/[^ ]*): ", "\\1: line 1: ", line)
  for (text in c(line, other)) {
    rows <- Filter(function(row) any(vapply(row$patterns, grepl, NA, x = text)), page_rows())
    own <- Filter(function(row) command %in% row$commands, rows)
    if (length(own)) return(own[[1]]$cure)
    if (length(rows) && length(rows[[1]]$commands) == 0) return(rows[[1]]$cure)
    if (length(rows)) return(vapply(rows, function(row) paste0(listed(row$commands), ": ", row$cure), ""))
  }
  NULL
}

# Signals a refusal: a condition with its status, its line, the argument and the place that it is about, and a sentence that says
# what to do.
refuse <- function(status, line, amount = "", where = "", command = "") {
  advice <- advice(line, command)
  sentences <- c(amount, advice)
  head <- if (nzchar(where)) sprintf("%s (%s)", where, line) else sprintf("refused with status %d: %s", status, line)
  text <- paste0(c(head, sentences[nzchar(sentences)]), collapse = "\n  ")
  condition <- list(message = text, call = NULL, status = as.integer(status), line = line, where = where, amount = amount,
    advice = advice)
  stop(structure(condition, class = c("welungad_refusal", "error", "condition")))
}

# The refusal of a case that was handed in.
refuse_case <- function(status, line, case, command = "") {
  refuse(status, line, amount_of(line, case), where_of(line, case), command)
}

# ---- the argument and the place

# Left: what the line says of the case. Right: the argument and the place, with the words of the line that the parentheses
# select: %s is the label of a hypothesis, and # a number.
place_table <- rbind(
  c("^alpha$", "alpha", "the level"),
  c("^share component (\\S+)$", "shares", "the share of graph #"),
  c("^share sum$", "shares", "the shares sum to more than 1"),
  c("^weight count component \\S+$", "hypotheses", "the number of the weights is not that of the hypotheses"),
  c("^weight of (\\S+) component \\S+$", "hypotheses", "the weight of %s"),
  c("^weight sum component \\S+$", "hypotheses", "the weights sum to more than 1"),
  c("^self edge of (\\S+) component \\S+$", "transitions", "the edge from %s to itself is not 0"),
  c("^(?:repeated )?edge (\\S+) (\\S+) component \\S+$", "transitions", "the edge from %s to %s is not from 0 to 1"),
  c("^row sum of (\\S+) component \\S+$", "transitions", "the edges from %s sum to more than 1"),
  c("^p count (\\S+)$", "p", "# given for "),
  c("^p missing (\\S+)$", "p", "the p-value of %s is missing"),
  c("^p of (\\S+)$", "p", "the p-value of %s"),
  c("^no stage$", "levels", "the number of stages is 0"),
  c("^spend count (\\S+)$", "levels", "the number of the levels of hypothesis # is not that of the stages"),
  c("^step (\\S+) of (\\S+)$", "levels", "the weight of row # of %s is out of order"),
  c("^spend of (\\S+) stage (\\S+)$", "levels", "the level of %s at stage # is out of order"),
  c("^spend sum of (\\S+)$", "levels", "the levels of %s sum to more than its own"),
  c("^arrival (\\S+)(?: stage| repeated| p)?$", "looks", "row # is not allowed"),
  c("^(?:duplicate )?name (\\S+)$", "hypotheses", "the name of hypothesis # is not allowed"),
  c("^no hypothesis$", "hypotheses", "there is none")
)

# The same of a number whose parts are too large, where the sentence above would name another cause.
limit_table <- rbind(
  c("^spend of (\\S+) stage (\\S+)$", "levels", "the level of %s at stage # is a fraction of alpha with parts above 10,000"),
  c("^step (\\S+) of (\\S+)$", "levels", "row # of %s has a number with too large parts"),
  c("^arrival (\\S+)$", "looks", "the p-value of row # has too large parts")
)

# Left: whole lines, or their beginnings. Right: the argument, and what it is about.
argument_table <- rbind(
  c("^limit: hypotheses ", "hypotheses", "there are too many"),
  c("^limit: components ", "...", "there are too many graphs"),
  c("^limit: (stages|spend steps) ", "levels", "there are too many stages or rows"),
  c("^limit: closure ", "graph", "it has too many hypotheses"),
  c("^limit: size ", "size", "there are too many hypotheses, or none"),
  c("^malformed: kind$", "p", "no p-values are given"),
  c("^malformed: proof line ", "evidence", "a line is not allowed"),
  c("^limit: proof bytes ", "evidence", "it is too long"),
  c("^malformed: record ", "store", "the file has a look that is not of this case"),
  c("^keeper fault", "store", "the file cannot be opened or written"),
  c("^too wide: ", "graph", "its numbers become too wide")
)

# The argument and the place that a line is about, and what was given there; "" if it is about none.
where_of <- function(line, case) {
  if (is.null(case$graph)) return(source_of(line, case))
  if (grepl("^(malformed|limit): line [0-9]+: ", line)) return(where_in_text(line, case))
  rest <- sub("^(malformed: case|limit: case: part|limit: case): ?(part )?", "", line)
  rows <- rbind(if (startsWith(line, "limit: ")) limit_table, place_table)
  for (i in seq_len(if (identical(rest, line)) 0 else nrow(rows))) {
    found <- regmatches(rest, regexec(rows[i, 1], rest, perl = TRUE))[[1]]
    if (length(found)) return(paste0(rows[i, 2], ": ", filled(rows[i, 3], found[-1], case$graph), value_at(rest, case)))
  }
  at <- which(vapply(argument_table[, 1], grepl, NA, x = line))
  if (length(at)) paste0(argument_table[at[1], 2], ": ", argument_table[at[1], 3]) else ""
}

# The argument that gave a case as a text. A sheet has its level beside it.
source_of <- function(line, case) {
  if (!is.null(case[["level"]]) && grepl("^usage: |alpha$", line)) return("alpha: the level")
  if (is.null(case$source)) "" else case$source
}

# A sentence with the words of a line.
filled <- function(sentence, words, graph) {
  labels <- label_of(words, graph)
  kinds <- regmatches(sentence, gregexpr("%s|#", sentence))[[1]]
  shown <- ifelse(kinds == "#" | is.na(labels), words, labels)
  do.call(sprintf, as.list(c(gsub("#", "%s", sentence, fixed = TRUE), shown)))
}

# What was given for one p-value or weight, or for the level; for the number of p-values, what is needed.
value_at <- function(rest, case) {
  if (startsWith(rest, "p count ")) return(hypotheses_text(case$graph, case$deleted))
  lines <- strsplit(as_text_of(case$text), "\n", fixed = TRUE)[[1]]
  words <- strsplit(rest, " ", fixed = TRUE)[[1]]
  given <- switch(paste(words[1:2], collapse = " "),
    "alpha NA" = words_after(lines, "alpha"),
    "p of" = words_after(lines, "p")[match(words[3], case$graph$names)],
    "weight of" = {
      all <- lines[startsWith(lines, "weights ")]
      words_after_first(all[as.integer(words[5])])[match(words[3], case$graph$names)]
    }
  )
  if (length(given) == 1 && !is.na(given)) paste(" is", given) else ""
}

as_text_of <- function(text) if (is.raw(text)) rawToChar(text) else text

# The argument and the place of a line of the text that was handed in.
where_in_text <- function(line, case) {
  number <- as.integer(sub("^[a-z]+: line ([0-9]+): .*", "\\1", line))
  kind <- sub("^[a-z]+: line [0-9]+: ", "", line)
  words <- strsplit(strsplit(as_text_of(case$text), "\n", fixed = TRUE)[[1]][number], " ", fixed = TRUE)[[1]]
  given <- words[-1]
  named <- function(i) label_of(given[i], case$graph)
  at <- culprit(given, kind)
  switch(words[1],
    alpha = sprintf("alpha: the level is %s", quoted(given[1])),
    hypotheses = "hypotheses: the names",
    p = if (length(given)) sprintf("p: the p-value of %s is %s", case$graph$labels[at], quoted(given[at])) else "p: no p-values are given",
    component = sprintf("shares: a share is %s", quoted(given[1])),
    weights = sprintf("hypotheses: the weight of %s is %s", case$graph$labels[at], quoted(given[at])),
    edge = sprintf("transitions: the edge from %s to %s is %s", named(1), named(2), quoted(paste(given[-(1:2)], collapse = " "))),
    stages = "levels: the number of stages",
    spend = ,
    table = sprintf("levels: the levels of %s are %s", named(1), paste(given[-1], collapse = " ")),
    arrive = sprintf("looks: the p-value of %s at stage %s is %s", named(1), given[2], quoted(given[3])),
    ""
  )
}

# The place of the first word that is refused in a list of numerals.
culprit <- function(words, kind) {
  wrong <- switch(kind,
    "zero denominator" = grepl("/0+$", words),
    digits = vapply(words, has_many_digits, NA),
    !is_numeral(words)
  )
  if (any(wrong)) which(wrong)[1] else 1L
}

# Whether a numeral has more than 38 digits, as docs/FORMATS.md counts them.
has_many_digits <- function(word) {
  if (!is_numeral(word)) return(FALSE)
  if (grepl("/", word, fixed = TRUE)) return(any(nchar(sub("^[-+]?0*", "", strsplit(word, "/", fixed = TRUE)[[1]])) > 38))
  parts <- regmatches(word, regexec("^[-+]?([0-9]*)[.]?([0-9]*)[eE]?(.*)$", word))[[1]]
  digits <- sub("^0+", "", paste0(parts[2], parts[3]))
  kept <- sub("0+$", "", digits)
  # how many places after the point the last digit other than 0 has
  places <- nchar(parts[3]) - sum(as.numeric(parts[4]), na.rm = TRUE) - (nchar(digits) - nchar(kept))
  nzchar(kept) && max(nchar(kept), nchar(kept) - places, places) > 38
}

# ---- amounts

# The sentences with the amount of a sum above its bound, and the doubles beside fractions in it; "" for any other line.
amount_of <- function(line, case) {
  graph <- case$graph
  if (line == "limit: case: part alpha") return(sentence_beside_alpha(alpha_of(case)))
  if (is.null(graph) || !grepl("^malformed: case: (share|weight|row|spend) sum", line)) return("")
  words <- strsplit(sub("^malformed: case: ", "", line), " ", fixed = TRUE)[[1]]
  component <- graph$components[[if ("component" %in% words) as.integer(words[length(words)]) else 1L]]
  doubles <- doubles_in(graph)
  switch(words[1],
    share = sum_sentence("The shares", vapply(graph$components, `[[`, "", "share"), argument = "shares", doubles = doubles),
    weight = sum_sentence("The weights", component$weights, argument = "hypotheses", doubles = doubles),
    row = row_sentence(match(words[4], graph$names), component, graph),
    spend = levels_sentence(words[4], case)
  )
}

# The texts of the doubles of a graph that were read as decimals.
doubles_in <- function(graph) graph$read$read[graph$read$rule == "shortest decimal"]

sentence_of <- function(parts) if (length(parts)) paste0(listed(parts, 3L), ".") else ""

# The fraction beside a level that was computed, such as 1 - 0.975.
sentence_beside_alpha <- function(alpha) {
  sentences <- beside_sentences(alpha)
  if (length(sentences)) return(sentence_of(sentences))
  near <- small_fractions(double_of(alpha), 1e-12)
  if (length(alpha) != 1 || is.na(near$d)) "" else paste0(quotient_of(near$n, near$d), " is beside it.")
}

# The level of a case, which a sheet has beside it.
alpha_of <- function(case) {
  if (!is.null(case[["level"]])) return(level_of(case[["level"]]))
  words_after(strsplit(as_text_of(case$text), "\n", fixed = TRUE)[[1]], "alpha")
}

# `texts` are the terms, `argument` is what they were given for, and `doubles` are those that were given as doubles.
sum_sentence <- function(what, texts, bound = gmp::as.bigq(1), argument = NULL, doubles = character()) {
  total <- sum_of(fraction(texts))
  if (is.na(total) || total <= bound) return("")
  excess <- decimal_text(as_double(total - bound), 3)
  sentence <- sprintf("%s sum to %s, which is %s above %s.", what, exact_decimal(total), excess, exact_decimal(bound))
  paste(c(sentence, cure_of_sum(texts, bound, argument, doubles)), collapse = "\n  ")
}

# What numbers beside fractions have to do with a sum, and how doubles are read as these fractions; texts stay as they are written.
cure_of_sum <- function(texts, bound, argument, doubles) {
  sentences <- beside_sentences(texts)
  if (length(sentences) == 0) return(NULL)
  found <- beside(texts)$fraction
  found[!texts %in% doubles] <- NA
  meant <- sum_of(fraction(ifelse(is.na(found), texts, found)))
  c(
    sentence_of(sentences),
    if (meant == bound && !is.null(argument)) sprintf("as_exact(%s, total = %s) reads them as the fractions that sum to %s.", argument,
      as.character(bound), as.character(bound))
  )
}

# The proved call reads an expression with epsilon.
row_sentence <- function(i, component, graph) {
  given <- unname(component$edges[i, ])
  what <- paste("The edges from", graph$labels[i])
  texts <- vapply(given, canonical_edge, "", USE.NAMES = FALSE)
  if (any(grepl(epsilon, texts, fixed = TRUE))) {
    total <- Reduce(poly_add, lapply(texts, entry_polynomial))
    return(sprintf("%s sum to %s, which is above 1.", what, polynomial_text(total)))
  }
  sum_sentence(what, given, argument = "transitions", doubles = doubles_in(graph))
}

levels_sentence <- function(name, case) {
  rows <- case$levels[[name]]
  over <- Filter(nzchar, lapply(rows, function(it) {
    sum_sentence(paste("The levels of", label_of(name, case$graph)), it$levels, it$bound)
  }))
  if (length(over)) over[[1]] else ""
}
