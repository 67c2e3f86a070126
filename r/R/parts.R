# Parts of results and of graphs. R takes a part by the beginning of its name, and answers NULL for one that is not there, so a name that
# another package has would pass for an empty part. Here a name that is not that of a part is an error.

# What other packages call parts of their results, and where they are here.
parts_elsewhere <- c(
  outputs = "the parts of a result are in the result itself, such as x$rejected and x$adjusted",
  inputs = "x$graph, x$p and x$alpha have them",
  adjusted_p = "it is x$adjusted",
  adjPValues = "it is x$adjusted",
  test_values = "as.data.frame(x) has them",
  details = "graph_steps(x) and as.data.frame(graph_test_closure(graph, p)) have them",
  graphs = "graph_steps(x)$graphs has them",
  valid_orderings = "graph_rejection_orderings(x) has them",
  m = "it is x$transitions",
  nodeAttr = "as_graphMCP(x) has it"
)

# The part of this name; an error if there is none. `empty` has the names of parts that may be absent.
part_of <- function(x, name, empty = character()) {
  parts <- parts_in(x)
  at <- match(name, names(parts))
  if (!is.na(at)) return(.subset2(parts, at))
  if (name %in% empty) return(NULL)
  elsewhere <- if (name %in% names(parts_elsewhere)) paste0(": ", parts_elsewhere[[name]])
  stop("a ", class(x)[1], " has no part ", quoted(name), if (is.null(elsewhere)) c(", but ", listed(names(parts), 20L)) else elsewhere,
    call. = FALSE)
}

`$.welungad_test` <- function(x, name) part_of(x, name)

`$.welungad_closure` <- function(x, name) part_of(x, name)

`$.welungad_bounds` <- function(x, name) part_of(x, name)

`$.welungad_stages` <- function(x, name) part_of(x, name)

`$.welungad_study` <- function(x, name) part_of(x, name)

`$.welungad_evidence` <- function(x, name) part_of(x, name)

`$.welungad_check` <- function(x, name) part_of(x, name)

`$.welungad_update` <- function(x, name) part_of(x, name)

`$.welungad_summary` <- function(x, name) part_of(x, name)

`$.welungad_exact` <- function(x, name) part_of(x, name)

parts_in <- function(x) if (isS4(x)) x@parts else unclass(x)

# A result's part by a text in two brackets; by a number, as a list has it.
element_of <- function(x, i) if (is.character(i) && length(i) == 1 && !is.na(i)) part_of(x, i) else .subset2(unclass(x), i)

`[[.welungad_test` <- function(x, i, ...) element_of(x, i)

`[[.welungad_closure` <- function(x, i, ...) element_of(x, i)

`[[.welungad_bounds` <- function(x, i, ...) element_of(x, i)

`[[.welungad_stages` <- function(x, i, ...) element_of(x, i)

`[[.welungad_study` <- function(x, i, ...) element_of(x, i)

`[[.welungad_check` <- function(x, i, ...) element_of(x, i)

`[[.welungad_evidence` <- function(x, i, ...) element_of(x, i)

`[[.welungad_update` <- function(x, i, ...) element_of(x, i)

# ---- matrices

# A matrix of a class of its own has no parts; R's error would not say where they are.
refuse_part <- function(x, name, instead) {
  stop("a ", class(x)[1], " is a matrix, so it has no part ", quoted(name), ": ", instead, call. = FALSE)
}

`$.welungad_orderings` <- function(x, name) refuse_part(x, name, "each of its rows is an order")

`$.welungad_weights` <- function(x, name) refuse_part(x, name, "as.data.frame(x) is a table, and attr(x, \"exact\") has the exact weights")

`$.welungad_many` <- function(x, name) refuse_part(x, name, "as.matrix(x) has the decision of each trial, and summary(x) estimates power")

# ---- graphs

# A part of a graph, or its weights or edges as numbers.
part_of_graph <- function(x, name) {
  switch(name,
    hypotheses = weights_in(x),
    transitions = edges_in_numbers(x),
    part_of(x, name, c("read", "written"))
  )
}

`$.welungad_graph` <- function(x, name) part_of_graph(x, name)

`[[.welungad_graph` <- function(x, i, ...) if (is.character(i) && length(i) == 1) part_of_graph(x, i) else .subset2(unclass(x), i)

# The hypotheses, by label.
names.welungad_graph <- function(x) part_of(x, "labels")

# A row and a column for each hypothesis.
dim.welungad_graph <- function(x) rep(length(part_of(x, "names")), 2L)

# The edges: numbers, or exact texts.
as.matrix.welungad_graph <- function(x, exact = FALSE, ...) if (exact) edges_of_one(x) else edges_in_numbers(x)

str.welungad_graph <- function(object, ...) utils::str(unclass(object), ...)

.DollarNames.welungad_graph <- function(x, pattern = "") grep(pattern, c("hypotheses", "transitions", names(unclass(x))), value = TRUE)

# The weights over all components, as doubles; of one with epsilon the limit, with which the hypothesis is tested.
weights_in <- function(graph) stats::setNames(double_of(total_weights(graph)), graph$labels)

# The edges of a graph of one component: doubles, or texts if there is an epsilon.
edges_in_numbers <- function(graph) {
  edges <- edges_of_one(graph)
  if (any(grepl(epsilon, edges, fixed = TRUE))) edges else matrix(double_of(as.vector(edges)), nrow(edges), dimnames = dimnames(edges))
}

edges_of_one <- function(graph) {
  if (length(graph$components) != 1) {
    stop("a graph of ", whole_text(length(graph$components)), " components has a matrix for each: graph$components[[1]]$edges is the first",
      call. = FALSE)
  }
  graph$components[[1]]$edges
}

# ---- assignments

# The parts of a graph that a user may assign: calls read them, and stop at what does not fit.
assigned_parts <- c("names", "labels", "components")

# What to write in place of an assignment that no call would read.
new_weights <- "graph_create(new, graph$transitions) makes a graph with the new weights"
new_edges <- "graph_create(graph$hypotheses, new) makes a graph with the new edges"
written_instead <- c(
  hypotheses = new_weights,
  weights = new_weights,
  transitions = new_edges,
  edges = new_edges,
  m = new_edges,
  hyp_names = "graph$labels <- new gives new labels"
)

# Stops at an assignment to a graph that no call would read.
refuse_assignment <- function(what, instead) stop("no call would read ", what, " of a graph: ", instead, call. = FALSE)

# Stops unless these parts of a graph may be assigned.
check_assigned <- function(names) {
  other <- names[!names %in% assigned_parts]
  if (length(other) == 0) return(invisible())
  known <- other[1] %in% names(written_instead)
  refuse_assignment(if (is.na(other[1])) "this element" else paste("a new part", quoted(other[1])),
    if (known) written_instead[[other[1]]] else paste0(new_weights, ", and ", new_edges))
}

# A graph or a result with other parts. The package alone changes results so.
with_parts <- function(x, parts) structure(replace(unclass(x), names(parts), parts), class = class(x))

# The names of the parts at the places of an assignment.
part_names_at <- function(x, i) if (is.character(i)) i else names(unclass(x))[i]

`$<-.welungad_graph` <- function(x, name, value) {
  check_assigned(name)
  with_parts(x, stats::setNames(list(value), name))
}

`[[<-.welungad_graph` <- function(x, ..., value) {
  at <- list(...)
  if (length(at) != 1 || length(at[[1]]) != 1) check_assigned(NA_character_)
  name <- part_names_at(x, at[[1]])
  check_assigned(name)
  with_parts(x, stats::setNames(list(value), name))
}

`[<-.welungad_graph` <- function(x, ..., value) {
  at <- list(...)
  if (length(at) != 1 || !is.list(value)) check_assigned(NA_character_)
  names <- part_names_at(x, at[[1]])
  check_assigned(names)
  if (length(names) != length(value)) refuse_assignment("such parts", "give one value for each part")
  with_parts(x, stats::setNames(value, names))
}

`names<-.welungad_graph` <- function(x, value) refuse_assignment("new names", written_instead[["hyp_names"]])

`dimnames<-.welungad_graph` <- function(x, value) refuse_assignment("new names of rows", written_instead[["hyp_names"]])

`dim<-.welungad_graph` <- function(x, value) refuse_assignment("a new size", "graph_create makes a graph of other hypotheses")

`length<-.welungad_graph` <- `dim<-.welungad_graph`

# A result is what was decided, so no part of it is assigned.
refuse_change <- function(x) {
  stop("no part of a ", class(x)[1], " is assigned, since it would no longer be what was decided: decide again, or change a copy of the part, ",
    "as part <- x$part makes it", call. = FALSE)
}

`$<-.welungad_test` <- function(x, name, value) refuse_change(x)

`$<-.welungad_closure` <- function(x, name, value) refuse_change(x)

`$<-.welungad_bounds` <- function(x, name, value) refuse_change(x)

`$<-.welungad_stages` <- function(x, name, value) refuse_change(x)

`$<-.welungad_study` <- function(x, name, value) refuse_change(x)

`$<-.welungad_evidence` <- function(x, name, value) refuse_change(x)

`$<-.welungad_check` <- function(x, name, value) refuse_change(x)

`$<-.welungad_update` <- function(x, name, value) refuse_change(x)

`$<-.welungad_summary` <- function(x, name, value) refuse_change(x)

`$<-.welungad_many_summary` <- function(x, name, value) refuse_change(x)

`[[<-.welungad_test` <- function(x, ..., value) refuse_change(x)

`[[<-.welungad_closure` <- function(x, ..., value) refuse_change(x)

`[[<-.welungad_bounds` <- function(x, ..., value) refuse_change(x)

`[[<-.welungad_stages` <- function(x, ..., value) refuse_change(x)

`[[<-.welungad_study` <- function(x, ..., value) refuse_change(x)

`[[<-.welungad_evidence` <- function(x, ..., value) refuse_change(x)

`[[<-.welungad_check` <- function(x, ..., value) refuse_change(x)

`[[<-.welungad_update` <- function(x, ..., value) refuse_change(x)

`[[<-.welungad_summary` <- function(x, ..., value) refuse_change(x)

`[[<-.welungad_many_summary` <- function(x, ..., value) refuse_change(x)

`[<-.welungad_test` <- function(x, ..., value) refuse_change(x)

`[<-.welungad_closure` <- function(x, ..., value) refuse_change(x)

`[<-.welungad_bounds` <- function(x, ..., value) refuse_change(x)

`[<-.welungad_stages` <- function(x, ..., value) refuse_change(x)

`[<-.welungad_study` <- function(x, ..., value) refuse_change(x)

`[<-.welungad_evidence` <- function(x, ..., value) refuse_change(x)

`[<-.welungad_check` <- function(x, ..., value) refuse_change(x)

`[<-.welungad_update` <- function(x, ..., value) refuse_change(x)

`[<-.welungad_summary` <- function(x, ..., value) refuse_change(x)

`[<-.welungad_many_summary` <- function(x, ..., value) refuse_change(x)

`names<-.welungad_test` <- function(x, value) refuse_change(x)

`names<-.welungad_closure` <- function(x, value) refuse_change(x)

`names<-.welungad_bounds` <- function(x, value) refuse_change(x)

`names<-.welungad_stages` <- function(x, value) refuse_change(x)

`names<-.welungad_study` <- function(x, value) refuse_change(x)

`names<-.welungad_evidence` <- function(x, value) refuse_change(x)

`names<-.welungad_check` <- function(x, value) refuse_change(x)

`names<-.welungad_update` <- function(x, value) refuse_change(x)

`names<-.welungad_summary` <- function(x, value) refuse_change(x)

`names<-.welungad_many_summary` <- function(x, value) refuse_change(x)
