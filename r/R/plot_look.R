# How a picture looks, where the user says so: places, labels and colours.

# What the user gives for a picture of a graph, in the order of its hypotheses: `layout` is a matrix of places, or NULL.
look_of <- function(graph, layout = NULL, labels = NULL, v_palette = NULL, nrow = NULL, ncol = NULL) {
  list(
    layout = places_given(layout, graph, nrow, ncol),
    labels = if (is.null(labels)) graph$labels else labels_given(labels, graph),
    palette = palette_given(v_palette)
  )
}

# Places: a matrix as it is, "grid" by rows, "circle", or a function that makes a matrix of a graph of igraph, as those of igraph do.
places_given <- function(layout, graph, nrow, ncol) {
  n <- length(graph$names)
  if (is.null(layout) && is.null(nrow) && is.null(ncol)) return(NULL)
  if (is.function(layout)) return(layout(as_igraph(graph, epsilon = "1/10000")))
  if (!is.null(layout) && !is.character(layout)) return(layout)
  layout <- if (is.null(layout)) "grid" else chosen(layout, c("grid", "circle"), "layout")
  if (layout == "circle") return(circle_places(n))
  columns <- if (!is.null(ncol)) count_given(ncol, "ncol")
  rows <- if (!is.null(nrow)) count_given(nrow, "nrow") else ceiling(if (is.null(columns)) sqrt(n) else n / columns)
  if (is.null(columns)) columns <- ceiling(n / rows)
  if (rows * columns < n) stop_at("nrow", whole_text(rows), " rows of ", whole_text(columns), " have no room for ", count_of_hypotheses(n))
  at <- seq_len(n) - 1
  cbind(at %% columns, -(at %/% columns))
}

labels_given <- function(labels, graph) {
  own <- arranged(labels, hypothesis_keys(graph), "labels", length(graph$names))
  texts <- texts_in(own, "labels")
  check_distinct(texts, "labels")
  for (key in hypothesis_keys(graph)) {
    other <- which(match(texts, key) != seq_along(texts))
    if (length(other)) stop_at("labels", quoted(texts[other[1]]), " is another hypothesis")
  }
  texts
}

# The colours of circles: of plain ones, and of those that are rejected or removed. One colour is that of the plain ones.
palette_given <- function(v_palette) {
  if (is.null(v_palette)) return(NULL)
  if (!length(v_palette) %in% 1:2) stop_at("v_palette", "one or two colours are needed")
  tryCatch(grDevices::col2rgb(v_palette), error = function(e) stop_at("v_palette", conditionMessage(e)))
  v_palette
}

# ---- default places

circle_places <- function(n) {
  if (n == 1) return(cbind(0, 0))
  angle <- pi / 2 - 2 * pi * (seq_len(n) - 1) / n
  cbind(cos(angle), sin(angle)) * 1.3
}

# The most hypotheses in one of two rows.
most_in_row <- 6L

# How many hypotheses are in the first of two rows; 0 if the graph is drawn otherwise. Those with weight are there if they come first, and each
# other one gets an edge from one of them, as in gatekeeping.
first_row <- function(graph) {
  n <- length(graph$names)
  weights <- Reduce(`|`, lapply(graph$components, function(it) it$weights != "0"))
  first <- sum(weights)
  if (first < 2 || n - first < 2 || max(first, n - first) > most_in_row || !all(weights[seq_len(first)])) return(0L)
  from_first <- Reduce(`|`, lapply(graph$components, function(it) colSums(it$edges[seq_len(first), , drop = FALSE] != "0") > 0))
  if (all(from_first[-seq_len(first)])) first else 0L
}

row_places <- function(first, n) {
  across <- function(count) 2 * (seq_len(count) - (count + 1) / 2)
  cbind(c(across(first), across(n - first)), rep(c(1, -1), c(first, n - first)))
}
