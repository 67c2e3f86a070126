# Decisions.

priorities <- c("first", "last", "ratio")

graph_test <- function(graph, p, alpha = 0.025, priority = c("first", "last", "ratio"), ...) {
  check_dots(..., instead = decision_arguments)
  priority <- if (missing(priority)) "first" else chosen(priority, priorities, "priority")
  case <- case_of(graph, p, alpha)
  new_test(ask(c("test", if (priority != "first") c("--priority", priority)), case), priority, case)
}

# The report of `test` as a result.
new_test <- function(report, priority, case) {
  result <- c(list(graph = case$graph, alpha = report$alpha, priority = priority), report_parts(report, case$graph$labels),
    list(read = case$p, case = case$text, report = report$lines))
  class(result) <- "welungad_test"
  result
}

# The parts of a result that its report has.
report_parts <- function(report, labels) {
  adjusted <- adjusted_doubles(report$adjusted, report$rejected, report$alpha)
  names(report$rejected) <- names(report$reached) <- names(adjusted) <- labels
  list(
    rejected = report$rejected,
    adjusted = adjusted,
    reached = report$reached,
    order = labels[report$order],
    exact = table_of(hypothesis = labels, p = report$p, weight = report$weight, adjusted = report$adjusted)
  )
}

# A data frame of columns of one length, without the checks that take data.frame its time.
table_of <- function(...) {
  columns <- list(...)
  attr(columns, "row.names") <- .set_row_names(length(columns[[1]]))
  class(columns) <- "data.frame"
  columns
}

# A row for each hypothesis: its p-value, its weight and local level when it was rejected or in the end, and its adjusted
# p-value.
as.data.frame.welungad_test <- function(x, ..., exact = FALSE) {
  check_dots(..., allowed = frame_arguments)
  check_result(x)
  level <- levels_of(x)
  shown <- if (exact) list(p = x$exact$p, level = level) else passing_doubles(x$read, x$exact$p, level)
  data.frame(
    hypothesis = x$graph$labels,
    p = shown$p,
    weight = if (exact) x$exact$weight else double_of(x$exact$weight),
    level = shown$level,
    rejected = unname(x$rejected),
    step = match(x$exact$hypothesis, x$order),
    adjusted = if (exact) x$exact$adjusted else unname(x$adjusted),
    reached = unname(x$reached),
    stringsAsFactors = FALSE
  )
}

levels_of <- function(x) as.character(fraction(x$exact$weight) * fraction(x$alpha))

# The rejections in their order, a row each.
graph_rejections <- function(x, exact = FALSE) {
  if (!inherits(x, "welungad_test")) stop_at("x", "a result of graph_test is needed")
  table <- as.data.frame(x, exact = exact)
  table <- table[order(table$step), c("step", "hypothesis", "p", "weight", "level")]
  table <- table[!is.na(table$step), ]
  row.names(table) <- NULL
  table
}

# The rows of some hypotheses, by label or position, and some of their columns.
`[.welungad_test` <- function(x, i, j, ...) {
  table <- as.data.frame(x)
  row.names(table) <- table$hypothesis
  at <- if (missing(i)) seq_along(x$graph$names) else positions_of(x$graph, i, "i")
  if (missing(j)) table[at, ] else table[at, j]
}

# The rows of the first and the last hypotheses.
head.welungad_test <- function(x, n = 6L, ...) utils::head(x[x$graph$labels], n)

tail.welungad_test <- function(x, n = 6L, ...) utils::tail(x[x$graph$labels], n)

format.welungad_test <- function(x, ...) {
  paste0("Graphical test of ", count_of_hypotheses(length(x$graph$names)), " at level ", level_text(x$alpha),
    if (x$priority != "first") paste(", priority", x$priority))
}

# The table of the rejections and how many there are.
summary.welungad_test <- function(object, ...) {
  structure(list(head = format(object), rejections = graph_rejections(object), hypotheses = length(object$graph$names)),
    class = "welungad_summary")
}

print.welungad_summary <- function(x, digits = 6, ...) {
  check_dots(...)
  cat(x$head, "\n", sep = "")
  cat(nrow(x$rejections), "of", x$hypotheses, "are rejected\n")
  table <- x$rejections
  if (nrow(table)) write_table(do.call(cbind, lapply(table, function(it) if (is.double(it)) shown(it, digits) else it)))
  invisible(x)
}

print.welungad_test <- function(x, exact = FALSE, digits = 6, ...) {
  check_dots(...)
  table <- as.data.frame(x, exact = exact)
  cat(format(x), "\n", sep = "")
  write_table(cbind(
    hypothesis = table$hypothesis,
    p = shown(table$p, digits),
    weight = shown(table$weight, digits),
    level = shown(table$level, digits),
    rejected = ifelse(table$rejected, "yes", "no"),
    step = table$step,
    adjusted = paste0(shown(table$adjusted, digits), ifelse(table$reached, "", " not reached"))
  ))
  print_rejected(x)
  close <- near_ties(x, digits)
  if (length(close) && !exact) {
    cat("The p-value of ", paste(close, collapse = ", "), " and its level agree in the digits shown; ",
      "print(x, exact = TRUE) shows the fractions.\n", sep = "")
  }
  print_notes(c(tie_notes(x), zero_notes(x$read, x$graph$labels)))
  print_read(as_read(x$read))
  invisible(x)
}

# Numbers for display: doubles with so many digits; texts as they are.
shown <- function(x, digits) if (is.character(x)) x else ifelse(is.na(x), "", decimal_text(x, digits))

level_text <- function(alpha) {
  decimal <- decimal_text(double_of(alpha), 6)
  if (decimal == alpha) alpha else paste0(decimal, " (", alpha, ")")
}

# The labels whose p-value and level look equal and are not.
near_ties <- function(x, digits) {
  levels <- levels_of(x)
  alike <- decimal_text(double_of(x$exact$p), digits) == decimal_text(double_of(levels), digits) & x$exact$p != levels
  x$graph$labels[alike]
}

# A sentence for each p-value that is a double beside a fraction, on the other side of its level than the fraction.
tie_notes <- function(x) {
  near <- beside_doubles(x$read)
  at <- near$at
  if (length(at) == 0) return(character())
  level <- levels_of(x)[at]
  decides <- as.logical(fraction(x$exact$p[at]) <= fraction(level)) != as.logical(fraction(near$fraction) <= fraction(level))
  sprintf("The p-value %s of %s is %s %s; its level is %s, and the p-value %s would be on the other side of it.",
    x$read$given[at], x$graph$labels[at], units_text_of(near$units), near$fraction, level, near$fraction)[decides]
}

units_text_of <- function(units) vapply(units, units_text, "")

print_rejected <- function(x) {
  labels <- one_line(x$graph$labels[x$rejected])
  cat("Rejected: ", if (length(labels)) paste(labels, collapse = ", ") else "none", "\n", sep = "")
}
