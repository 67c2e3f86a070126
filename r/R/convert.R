# Graphs of the packages graphicalMCP and gMCP, taken by the fields of their objects. Neither package is needed.

as_graph <- function(x) graph_from(x, "x")

# The classes of graphs that are read.
graph_classes <- c("welungad_graph", "initial_graph", "updated_graph", "graphMCP", "entangledMCP")

is_any_graph <- function(x) any(graph_classes %in% attr(x, "class"))

# A graph of an object that an argument has.
graph_from <- function(x, what) {
  if (inherits(x, "welungad_graph")) return(x)
  classes <- attr(x, "class")
  if ("initial_graph" %in% classes || "updated_graph" %in% classes) return(graph_of_list(x))
  if ("graphMCP" %in% classes) return(graph_of_slots(x))
  if ("entangledMCP" %in% classes) return(graph_of_entangled(x))
  stop_at(what, "a graph is needed, of this package, of graphicalMCP (initial_graph) or of gMCP (graphMCP, entangledMCP), and not a ",
    class(x)[1], place_of_graph(x))
}

# Where an object has a graph that could be meant.
place_of_graph <- function(x) {
  if (!is.list(x)) return("")
  if (inherits(x, "welungad_update")) return(": x$updated_graph and x$initial_graph are graphs")
  if (inherits(unclass(x)$graph, "welungad_graph")) ": x$graph is one" else ""
}

# graphicalMCP: a list of hypotheses and transitions.
graph_of_list <- function(x) {
  parts <- unclass(x)
  if (!is.null(parts$updated_graph)) return(graph_of_update(parts))
  graph_create(field_of(parts, "hypotheses"), field_of(parts, "transitions"))
}

# graphicalMCP: a graph in which deleted hypotheses may stay, without weight and edges. Here they are left out. They are given by their
# names, or by their places in the first graph.
graph_of_update <- function(parts) {
  graph <- unclass(parts$updated_graph)
  weights <- field_of(graph, "hypotheses")
  left <- setdiff(seq_along(weights), match(deleted_in(parts), names(weights)))
  graph_create(weights[left], field_of(graph, "transitions")[left, left, drop = FALSE])
}

deleted_in <- function(parts) {
  deleted <- parts$deleted
  if (is.character(deleted)) deleted else names(unclass(parts$initial_graph)$hypotheses)[deleted]
}

# The hypotheses that were deleted from a graph of graphicalMCP, and so are no hypotheses of it here.
deleted_of <- function(x) if ("updated_graph" %in% attr(x, "class")) deleted_in(unclass(x)) else character()

# Stops at names of hypotheses that were deleted.
check_deleted <- function(given, deleted, graph, what) {
  wrong <- given[given %in% deleted]
  if (length(wrong)) stop_at(what, quoted(wrong[1]), " was deleted from this graph, which has ", hypotheses_text(graph))
}

# gMCP: an object with the slots m and weights. Its edges are numbers, or texts with epsilon. It can mark hypotheses as rejected, which
# here would be hypotheses without weight.
graph_of_slots <- function(x) {
  edges <- field_of(attributes(x), "m")
  weights <- field_of(attributes(x), "weights")
  rejected <- which(as.logical(attributes(x)$nodeAttr$rejected))
  if (length(rejected)) {
    stop_at("x", place_text(rejected[1], rownames(edges)), " is marked as rejected: give the graph from before its rejection")
  }
  if (is.null(names(weights))) names(weights) <- rownames(edges)
  graph_create(weights, edges)
}

# gMCP: graphs with a share each.
graph_of_entangled <- function(x) {
  graphs <- field_of(attributes(x), "subgraphs")
  graph_entangle(lapply(unname(graphs), as_graph), shares = as.vector(field_of(attributes(x), "weights")))
}

field_of <- function(parts, name) {
  if (is.null(parts[[name]])) stop_at("x", "the object has no part ", quoted(name))
  parts[[name]]
}
