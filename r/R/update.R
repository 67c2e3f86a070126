# Updated graphs. The package computes none: the call of the C library prints them (update_proved.R), and without it they are read off the
# weights that `test` prints (update_read.R).

graph_update <- function(graph, delete, ...) {
  check_dots(..., instead = update_arguments)
  graph <- check_graph(graph)
  new_update(graph, unique(positions_of(graph, delete, "delete")))
}

# The graphs of a decision. Its report has the weight of each hypothesis when it was rejected, and those of the others in the end.
graph_steps <- function(x) {
  if (!inherits(x, "welungad_test")) stop_at("x", "a result of graph_test is needed")
  check_result(x)
  deleted <- match(x$order, x$graph$labels)
  update <- new_update(x$graph, deleted)
  for (k in seq_along(deleted)) hold(update$graphs[[k]], proved_of(x, deleted[k]), "at its rejection")
  hold(update$updated_graph, proved_of(x, which(!x$rejected)), "in the end")
  update
}

# The weights that a report has for hypotheses, by name.
proved_of <- function(x, at) stats::setNames(x$exact$weight[at], x$graph$names[at])

new_update <- function(graph, deleted) {
  prints <- welungad_way() == "library" && has_update()
  graphs <- if (prints) graphs_of_library(graph, deleted) else graphs_read(graph, deleted)
  structure(list(
    initial_graph = graph,
    updated_graph = graphs[[length(graphs)]],
    deleted = graph$labels[deleted],
    graphs = graphs,
    compared = TRUE,
    held = if (prints) "library" else if (length(graph$names) > most_read) "weights" else if (has_epsilon(graph)) "limits" else "read"
  ), class = "welungad_update")
}

# The weights of a graph over all components: the limits of the sums of share times weight.
total_weights <- function(graph) {
  if (length(graph$names) == 0) return(character())
  parts <- lapply(graph$components, function(component) {
    limits_of(unname(component$weights)) * fraction(rep(component$share, length(component$weights)))
  })
  as.character(Reduce(`+`, parts))
}

# The weights that `test` prints for a graph once some hypotheses are removed, by name. They have the p-value 0 and the others 1, so that
# exactly these are rejected. NULL if one of them has no weight before it is removed, and so is not rejected.
kept_weights <- function(graph, deleted) {
  if (length(deleted) == length(graph$names)) return(character())
  p <- replace(rep("1", length(graph$names)), deleted, "0")
  report <- ask("test", handed(case_text(graph, p = p), graph))
  left <- setdiff(seq_along(graph$names), deleted)
  if (setequal(report$order, deleted)) stats::setNames(report$weight[left], graph$names[left])
}

# The weights that the proved call prints for a graph without some hypotheses, by name; NULL if it prints none.
proved_weights <- function(graph, deleted) {
  kept <- tryCatch(kept_weights(graph, deleted), welungad_refusal = function(refusal) NULL)
  if (!is.null(kept) || length(graph$names) > 16) return(kept)
  report <- ask("weights", handed(case_text(graph), graph))
  of_set(report, setdiff(seq_along(graph$names), deleted), graph$names)
}

# The weights of one set in the report of `weights`.
of_set <- function(report, set, names) {
  at <- match(codes_of(list(set)), report$codes)
  members <- report$sets[[at]]
  stats::setNames(report$texts[report$weights[at, members]], names[members])
}

# Stops if a weight of the graph is not the proved one.
hold <- function(graph, proved, when) {
  own <- stats::setNames(total_weights(graph), graph$names)[names(proved)]
  wrong <- which(is.na(own) | own != proved)
  if (length(wrong)) {
    stop("the updated graph has the weight ", own[wrong[1]], " of ", names(proved)[wrong[1]], " ", when, ", and the proved call ",
      proved[wrong[1]], ": don't use this package, and report the graph", call. = FALSE)
  }
}

format.welungad_update <- function(x, ...) {
  if (length(x$deleted) == 0) "No hypothesis is removed." else paste("Removed:", paste(x$deleted, collapse = ", "))
}

print.welungad_update <- function(x, all = FALSE, ...) {
  check_dots(...)
  if (length(x$deleted) == 0) cat("No hypothesis is removed.\n")
  graphs <- if (all) x$graphs else x$graphs[length(x$graphs)]
  after <- if (all) seq_along(x$graphs) - 1L else length(x$deleted)
  for (k in seq_along(graphs)) {
    if (after[k] > 0) cat("After the removal of ", paste(x$deleted[seq_len(after[k])], collapse = ", "), ":\n", sep = "")
    if (length(graphs[[k]]$names)) print(graphs[[k]]) else cat("No hypothesis is left.\n")
  }
  cat(held_sentences[[x$held]], "\n", sep = "")
  if (!all && length(x$deleted) > 1) cat("print(x, all = TRUE) shows the graph at the start and after each removal.\n")
  invisible(x)
}

held_sentences <- list(
  library = "Each weight and each edge is the one that the proved call prints.",
  read = "Each weight and each edge is read off the weights that the proved call prints.",
  limits = paste("Each weight and each edge is read off the weights that the proved call prints, without its infinitely small part:",
    "the call of the C library prints it."),
  weights = paste("Each weight is read off those that the proved call prints. The edges after removals are left out, since they are read off it",
    "for at most 16 hypotheses: the call of the C library prints them for 64.")
)

as.data.frame.welungad_update <- function(x, ..., exact = FALSE) {
  check_dots(..., allowed = frame_arguments)
  rows <- lapply(seq_along(x$graphs), function(k) {
    graph <- x$graphs[[k]]
    if (length(graph$names) == 0) return(NULL)
    weight <- total_weights(graph)
    if (!exact) weight <- double_of(weight)
    data.frame(removed = rep(k - 1L, length(weight)), hypothesis = graph$labels, weight = weight, stringsAsFactors = FALSE)
  })
  do.call(rbind, rows)
}
