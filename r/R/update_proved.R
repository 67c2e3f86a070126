# Updated graphs by the call welungad_update of the C library, if it has this call. It prints the weights and the edges of each component, and
# the weights over all components, after removals in an order.

has_update <- function() .Call(C_welungad_has_update)

# The graphs before the first removal and after each. A graph of fractions is the one before without one hypothesis, which takes less time than
# all removals anew. The library reads no quotients in epsilon, and no fractions with parts above 10^18: then all are made anew.
graphs_of_library <- function(graph, deleted) {
  is_plain <- !has_epsilon(graph)
  graphs <- list(graph)
  for (k in seq_along(deleted)) {
    before <- graphs[[k]]
    one <- function() updated_by_library(before, match(graph$names[deleted[k]], before$names))
    updated <- if (is_plain) tryCatch(one(), welungad_refusal = function(refusal) NULL)
    graphs[[k + 1L]] <- if (is.null(updated)) updated_by_library(graph, deleted[seq_len(k)]) else updated
  }
  graphs
}

# A graph after removals in this order. A refusal if a number of it is too wide.
updated_by_library <- function(graph, deleted) {
  text <- case_text(graph)
  answer <- .Call(C_welungad_update, charToRaw(text), as.integer(deleted))
  line <- if (answer$status != 0L) whole_lines(answer$text)
  if (is_refusal(answer$status, line)) refuse_case(answer$status, line, handed(text, graph))
  left <- seq_along(graph$names)[-deleted]
  read <- if (answer$status == 0L) read_update(answer$text, graph, left)
  if (is.null(read)) stop("the C library gives no whole graph after removals", call. = FALSE)
  read
}

# The graph of a text for the hypotheses that are left; NULL if it isn't a whole one.
read_update <- function(text, graph, left) {
  names <- graph$names[left]
  labels <- graph$labels[left]
  parts <- .Call(C_welungad_read_update, text, names, length(graph$components))
  if (is.null(parts)) return(NULL)
  components <- Map(function(part, component) {
    edges <- array(number_of_update(part$edges), rep(length(names), 2L), list(labels, labels))
    list(share = component$share, weights = stats::setNames(number_of_update(part$weights), labels), edges = edges)
  }, parts, unname(graph$components))
  updated <- list(names = names, labels = labels, components = components)
  if (length(names) && !grepl("[", text, fixed = TRUE)) updated$written <- written_by_library(updated, parts)
  structure(updated, class = "welungad_graph")
}

# What is handed in for a graph of fractions: the lines of its edges are those of a case.
written_by_library <- function(graph, parts) {
  one <- length(parts) == 1 && graph$components[[1]]$share == "1"
  lines <- unlist(Map(function(component, part) {
    c(if (!one) paste("component", component$share), paste(c("weights", component$weights), collapse = " "), if (nzchar(part$lines)) part$lines)
  }, graph$components, parts), use.names = FALSE)
  written_graph(graph, lines)
}

# The numbers of such a text as the package writes them: a fraction, or a quotient in epsilon in place of its coefficients by rising powers,
# such as [1,-1]/[2].
number_of_update <- function(texts) {
  quotients <- startsWith(texts, "[")
  for (text in unique(texts[quotients])) {
    parts <- lapply(strsplit(gsub("[][]", "", text), "/", fixed = TRUE)[[1]], function(part) {
      trimmed(gmp::as.bigq(strsplit(part, ",", fixed = TRUE)[[1]]))
    })
    texts[texts == text] <- quotient_text(quotient(parts[[1]], if (length(parts) > 1) parts[[2]] else gmp::as.bigq(1)))
  }
  texts
}
