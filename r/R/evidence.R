# Evidence for a decision, and its check.

graph_evidence <- function(graph, p, alpha = 0.025, priority = c("first", "last", "ratio")) {
  priority <- chosen(priority, priorities, "priority")
  case <- case_of(graph, p, alpha)
  evidence <- ask(c("evidence", if (priority != "first") c("--priority", priority)), case)
  structure(list(evidence = evidence$lines, case = ask("canon", case)$lines, graph = case$graph), class = "welungad_evidence")
}

graph_check <- function(graph, p, alpha = 0.025, evidence) {
  case <- case_of(graph, p, alpha)
  graph <- case$graph
  if (inherits(evidence, "welungad_evidence")) {
    check_own_labels(evidence, graph)
    evidence <- evidence$evidence
  }
  if (!is.character(evidence) || anyNA(evidence) || length(evidence) == 0) {
    stop_at("evidence", "a result of graph_evidence or the lines of a document are needed")
  }
  case$version <- if (is_first_version(evidence)) 1L else 2L
  found <- ask(c("check", "evidence"), case, paste0(evidence, "\n", collapse = ""))
  structure(list(
    yes = found$yes,
    listed = label_of(found$listed, graph),
    kept = label_of(found$kept, graph),
    reason = found$reason,
    report = found$lines
  ), class = "welungad_check")
}

# Stops if the document of evidence names a hypothesis of the graph otherwise than the program does: it is about other labels.
check_own_labels <- function(evidence, graph) {
  own <- evidence$graph
  if (!identical(own$names[match(graph$labels, own$labels)], graph$names)) {
    stop_at("evidence", "it is about other hypotheses: ", listed(quoted(own$labels)))
  }
}

# Whether a document is of version 1, by its first line that is neither blank nor a comment.
is_first_version <- function(evidence) {
  lines <- unlist(strsplit(evidence, "\n", fixed = TRUE, useBytes = TRUE))
  lines <- lines[!grepl("^[ \t]*(#|\r?$)", lines, useBytes = TRUE)]
  length(lines) > 0 && grepl("^[ \t]*evidence[ \t]+1[ \t]*\r?$", lines[1], useBytes = TRUE)
}

format.welungad_evidence <- function(x, ...) x$evidence

print.welungad_evidence <- function(x, ...) {
  check_dots(...)
  cat("Evidence for a decision\n")
  cat(x$evidence, sep = "\n")
  print_names(x$graph)
  invisible(x)
}

as.data.frame.welungad_evidence <- function(x, ...) {
  check_dots(..., allowed = frame_arguments)
  data.frame(line = x$evidence, stringsAsFactors = FALSE)
}

format.welungad_check <- function(x, ...) if (x$yes) "The evidence holds." else paste0("The evidence does not hold: ", x$reason)

print.welungad_check <- function(x, ...) {
  check_dots(...)
  cat(format(x), "\n", sep = "")
  if (!x$yes) cat(advice(paste0("no: ", x$reason)), "\n", sep = "")
  if (x$yes) cat("The closed test rejects: ", if (length(x$listed)) paste(x$listed, collapse = ", ") else "none", "\n", sep = "")
  if (length(x$kept)) cat("It does not reject: ", paste(x$kept, collapse = ", "), "\n", sep = "")
  invisible(x)
}

as.data.frame.welungad_check <- function(x, ...) {
  check_dots(..., allowed = frame_arguments)
  data.frame(
    hypothesis = c(x$listed, x$kept),
    rejected = rep(c(TRUE, FALSE), c(length(x$listed), length(x$kept))),
    stringsAsFactors = FALSE
  )
}
