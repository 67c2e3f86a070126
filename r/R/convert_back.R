# Graphs as objects of other packages: of graphicalMCP, of gMCP, and of igraph.

as_initial_graph <- function(x, epsilon = NULL) {
  graph <- graph_from(x, "x")
  structure(list(hypotheses = graph$hypotheses, transitions = edges_at(edges_of_one(graph), epsilon)), class = "initial_graph")
}

# gMCP keeps epsilon in texts, and so does this graph. Its classes are those of the package gMCP or gMCPLite.
as_graphMCP <- function(x) {
  graph <- graph_from(x, "x")
  parts <- lapply(graph$components, graphMCP_of)
  if (length(parts) == 1 && graph$components[[1]]$share == "1") return(parts[[1]])
  shares <- double_of(vapply(graph$components, `[[`, "", "share"))
  methods::new(class_of_gMCP("entangledMCP"), subgraphs = parts, weights = shares)
}

graphMCP_of <- function(component) {
  weights <- double_of(component$weights)
  if (anyNA(weights)) stop_at("x", "gMCP has no weights with epsilon: give the graph from before the removals")
  edges <- component$edges
  if (!any(grepl(epsilon, edges, fixed = TRUE))) edges <- matrix(double_of(as.vector(edges)), nrow(edges), dimnames = dimnames(edges))
  methods::new(class_of_gMCP("graphMCP"), m = edges, weights = stats::setNames(weights, rownames(edges)))
}

# The definition of a class of gMCP.
class_of_gMCP <- function(name) {
  for (package in c("gMCP", "gMCPLite")) {
    if (requireNamespace(package, quietly = TRUE)) return(methods::getClass(name, where = asNamespace(package)))
  }
  if (methods::isClass(name)) return(methods::getClass(name))
  stop("the class ", name, " is of the packages gMCP and gMCPLite, and neither is installed", call. = FALSE)
}

as_igraph <- function(x, epsilon = NULL) {
  graph <- graph_from(x, "x")
  if (!requireNamespace("igraph", quietly = TRUE)) stop("the package igraph is not installed", call. = FALSE)
  edges <- do.call(rbind, lapply(seq_along(graph$components), function(k) edge_rows(graph, k, epsilon)))
  nodes <- data.frame(name = graph$labels, weight = unname(graph$hypotheses), exact = total_weights(graph), stringsAsFactors = FALSE)
  igraph::graph_from_data_frame(edges, vertices = nodes)
}

# A row for each edge of a component.
edge_rows <- function(graph, k, epsilon) {
  edges <- graph$components[[k]]$edges
  at <- which(edges != "0", arr.ind = TRUE)
  data.frame(from = graph$labels[at[, 1]], to = graph$labels[at[, 2]], weight = as.vector(edges_at(edges, epsilon))[which(edges != "0")],
    exact = edges[at], component = rep(k, nrow(at)), stringsAsFactors = FALSE)
}

# Edges as doubles, with a small number in place of epsilon.
edges_at <- function(edges, epsilon) {
  has <- grepl("\\epsilon", edges, fixed = TRUE)
  if (!any(has)) return(matrix(double_of(as.vector(edges)), nrow(edges), dimnames = dimnames(edges)))
  if (is.null(epsilon)) stop_at("epsilon", "the graph has an epsilon: give a small number in its place, such as 0.0001")
  small <- exact_of(epsilon, "epsilon")
  value <- fraction(small$read)
  if (length(small) != 1 || is.na(value) || value <= 0 || value >= 1) stop_at("epsilon", "a number between 0 and 1 is needed")
  out <- double_of(as.vector(edges))
  out[has] <- as_double(values_of(edges[has], value))
  matrix(out, nrow(edges), dimnames = dimnames(edges))
}
