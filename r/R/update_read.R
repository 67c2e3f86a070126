# Updated graphs read off the weights that `test` prints, for the program and for a library without the call that prints graphs.
#
# Edges don't depend on weights. So in a graph by itself in which all hypotheses begin with the same weight, let w be the weights after the
# removals, and v those after one more hypothesis j is removed. Then the edge from j to k is (v_k - w_k) / w_j. Weights and edges lack their
# infinitely small parts, which `test` doesn't print.

# The most hypotheses whose edges are read: each edge takes a part of a call.
most_read <- 16L

# The graphs before the first removal and after each. Above the most hypotheses, the edges after removals are NA.
graphs_read <- function(graph, deleted) {
  ways <- lapply(graph$components, component_ways, graph = graph)
  c(list(graph), lapply(seq_along(deleted), function(k) read_graph(graph, ways, deleted[seq_len(k)])))
}

read_graph <- function(graph, ways, deleted) {
  left <- setdiff(seq_along(graph$names), deleted)
  labels <- graph$labels[left]
  components <- Map(function(way, component) {
    edges <- if (length(graph$names) > most_read) edges_left_out(length(left)) else edges_after(way, deleted, left)
    weights <- as.character(weights_after(way, deleted))
    list(share = component$share, weights = stats::setNames(weights, labels), edges = array(edges, dim(edges), list(labels, labels)))
  }, ways, graph$components)
  read <- list(names = graph$names[left], labels = labels, components = unname(components))
  if (has_epsilon(graph)) read$limits <- TRUE
  structure(read, class = "welungad_graph")
}

# How to read a component off `test`: functions of removed hypotheses for the weights that it prints. By `even`, all hypotheses begin with
# the same weight, and these weights are kept, since the graph after the next removal needs them again; by `own`, with their own weights,
# which are NULL if one of the removed has none; by `mean`, with the mean of both.
component_ways <- function(component, graph) {
  count <- length(graph$names)
  same <- gmp::as.bigq(rep(1, count), count)
  with <- function(weights) {
    component$share <- "1"
    component$weights <- weights
    alone <- structure(list(names = graph$names, labels = graph$labels, components = list(component)), class = "welungad_graph")
    function(deleted) kept_weights(alone, deleted)
  }
  even <- with(as.character(same))
  known <- new.env(parent = emptyenv())
  list(
    own = with(unname(component$weights)),
    mean = function(deleted) read_all(with(as.character((fraction(unname(component$weights)) + same) / 2)), deleted),
    even = function(deleted) {
      key <- paste(c("removed", sort(deleted)), collapse = " ")
      if (is.null(known[[key]])) known[[key]] <- read_all(even, deleted)
      known[[key]]
    }
  )
}

# The weights of a call by which all hypotheses begin with a weight, so that all that are to be removed are.
read_all <- function(way, deleted) {
  kept <- way(deleted)
  if (is.null(kept)) stop("what answered does not reject exactly the hypotheses whose p-values are 0", call. = FALSE)
  fraction(kept)
}

# The weights of a component after removals. A removed hypothesis may have had no weight. Then what the same weights give is taken off twice
# the mean: weights after removals are sums over the weights before.
weights_after <- function(way, deleted) {
  own <- way$own(deleted)
  if (is.null(own)) 2 * way$mean(deleted) - way$even(deleted) else fraction(own)
}

# The edges of a component after removals.
edges_after <- function(way, deleted, left) {
  edges <- matrix("0", length(left), length(left))
  if (length(left) < 2) return(edges)
  now <- way$even(deleted)
  for (j in seq_along(left)) edges[j, -j] <- as.character((way$even(c(deleted, left[j])) - now[-j]) / now[j])
  edges
}

edges_left_out <- function(n) {
  edges <- matrix(NA_character_, n, n)
  diag(edges) <- "0"
  edges
}

# Stops at an updated graph that lacks what a call would need.
check_read <- function(graph) {
  lacks <- if (isTRUE(unclass(graph)$limits)) "the infinitely small parts" else if (anyNA(unlist(lapply(graph$components, `[[`, "edges")))) "its edges"
  if (!is.null(lacks)) {
    stop_at("graph", "an updated graph that was read without the C library lacks ", lacks, ": give all removals to one call of graph_update, ",
      "or install the package with the library")
  }
}
