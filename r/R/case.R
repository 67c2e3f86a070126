# Cases as texts: the text that is handed in, and the canonical text that the proved call gives back.

default_alpha <- "1/40"

# What is handed in: a text, and the graph whose names and labels it has. Further parts are what a staged case spends (`levels`)
# and its looks, the version of a document of evidence, and the argument that gave a text (`source`) and that of its `level`.
handed <- function(text, graph = NULL, ...) list(text = text, graph = graph, ...)

# The lines of a component; an edge that is 0 has no line.
component_lines <- function(component, names, one) {
  edges <- component$edges
  at <- which(!edges %in% c("0", "0/1"))
  from <- row(edges)[at]
  to <- col(edges)[at]
  ahead <- order(from, to)
  c(
    if (!one || component$share != "1") paste("component", component$share),
    paste(c("weights", component$weights), collapse = " "),
    if (length(at)) paste("edge", names[from[ahead]], names[to[ahead]], edges[at[ahead]])
  )
}

# The text of the names and the graph of a case. The graph keeps it, with the names and components that it was made of: a graph
# that was changed since then is written anew.
graph_text <- function(graph) {
  check_moved(graph)
  if (is_as_written(graph)) return(graph$written)
  check_order(graph)
  if (!is.null(graph$written)) warn_written(unlist(lapply(graph$components, function(it) c(it$weights, it$edges))), "graph")
  write_graph(graph)
}

is_as_written <- function(graph) {
  kept <- graph$written
  !is.null(kept) && identical(kept$names, graph$names) && identical(kept$components, graph$components)
}

# Stops if a label or a name of a graph was that of another hypothesis when the graph was made, since the numbers stay where they are. New
# labels and names are allowed.
check_moved <- function(graph) {
  kept <- graph$written
  if (is.null(kept) || identical(kept$labels, graph$labels) && identical(kept$names, graph$names)) return(invisible())
  for (own in c("labels", "names")) for (old in c("labels", "names")) {
    at <- match(graph[[own]], kept[[old]])
    moved <- which(!is.na(at) & at != seq_along(at))
    if (length(moved)) {
      stop_at("graph", quoted(graph[[own]][moved[1]]), " was the ", substr(old, 1, nchar(old) - 1), " of another hypothesis, whose numbers stay ",
        "where they are: make a graph with the hypotheses in this order")
    }
  }
}

# Stops if the weights or the edges of a graph, which are written in their order, have other names than its hypotheses, or have them in
# another order, if they are not texts, or if edges are not those of its hypotheses.
check_order <- function(graph) {
  check_moved(graph)
  if (is_as_written(graph)) return(invisible())
  n <- length(graph$names)
  for (component in graph$components) {
    if (!all(vapply(component, is.character, NA))) {
      stop_at("graph", "its shares, weights and edges are texts, as as.character(as_exact(x)) gives them for numbers")
    }
    if (!identical(dim(component$edges), c(n, n))) stop_at("graph", "its edges need a row and a column for each hypothesis")
    for (given in c(list(names(component$weights)), dimnames(component$edges))) {
      if (!is.null(given) && !identical(given, graph$labels) && !identical(given, graph$names)) {
        stop_at("graph", "its weights and edges have the names ", listed(given, 4L), ", and its hypotheses ", listed(graph$labels, 4L))
      }
    }
  }
}

write_graph <- function(graph) {
  one <- length(graph$components) == 1
  written_graph(graph, unlist(lapply(graph$components, component_lines, names = graph$names, one = one)))
}

# The parts of the text of a graph with the lines of its components.
written_graph <- function(graph, lines) {
  list(
    names = graph$names,
    labels = graph$labels,
    components = graph$components,
    head = paste0(paste(c("hypotheses", graph$names), collapse = " "), "\n"),
    body = paste0(lines, "\n", collapse = "")
  )
}

# The text of a case.
case_text <- function(graph, alpha = default_alpha, p = NULL, stages = NULL) {
  parts <- graph_text(graph)
  p <- if (!is.null(p)) paste0("p ", paste(p, collapse = " "), "\n")
  stages <- if (!is.null(stages)) paste0(stages, "\n", collapse = "")
  paste0("alpha ", alpha, "\n", parts$head, p, parts$body, stages)
}

# The rest of the first line that begins with this word, as words.
words_after <- function(lines, word) {
  found <- lines[startsWith(lines, paste0(word, " ")) | lines == word]
  if (length(found) == 0) character() else words_after_first(found[1])
}

# The lines of the blocks of components of a canonical text, one block after the other.
blocks_of <- function(lines) {
  lines <- lines[grepl("^(component|weights|edge) ", lines)]
  begins <- if (any(startsWith(lines, "component "))) startsWith(lines, "component ") else startsWith(lines, "weights ")
  split(lines, cumsum(begins))
}

# A component of a canonical text.
component_of <- function(lines, names) {
  share <- words_after(lines, "component")
  weights <- words_after(lines, "weights")
  edges <- matrix("0", length(names), length(names), dimnames = list(names, names))
  words <- columns_of(lines[startsWith(lines, "edge ")], 4L)
  edges[cbind(match(words[2, ], names), match(words[3, ], names))] <- words[4, ]
  list(
    share = if (length(share)) share else "1",
    weights = if (length(weights) == length(names)) stats::setNames(weights, names) else weights,
    edges = edges
  )
}

# A canonical text as the parts that it has.
parse_case <- function(lines) {
  names <- words_after(lines, "hypotheses")
  p <- words_after(lines, "p")
  list(
    alpha = words_after(lines, "alpha"),
    names = names,
    p = if (length(p) == length(names)) stats::setNames(p, names) else if (length(p)) p,
    components = unname(lapply(blocks_of(lines), component_of, names = names)),
    stages = lines[grepl("^(stages|spend|table|arrive) ", lines)]
  )
}

# An edge in the spelling of the program. A numeral keeps its own.
canonical_edge <- function(text) {
  if (!is.na(numeral_value(text))) return(as.character(numeral_value(text)))
  pair <- list(names = c("a", "b"), labels = c("a", "b"))
  lines <- paste0("alpha 1/40\nhypotheses a b\nweights 1 0\nedge a b ", text, "\n")
  ask("canon", handed(lines, pair))$components[[1]]$edges[1, 2]
}

# Components with labels in place of the program's names.
labelled <- function(components, labels) {
  lapply(components, function(it) {
    names(it$weights) <- labels
    dimnames(it$edges) <- list(labels, labels)
    it
  })
}
