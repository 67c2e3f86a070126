# Graphs.

graph_create <- function(hypotheses, transitions, hyp_names = NULL, labels = NULL, ...) {
  check_dots(..., instead = create_arguments)
  if (is_square(hypotheses) && !is_square(transitions)) {
    stop_at("hypotheses", "a square table is of edges, and the weights come first: graph_create(weights, edges)")
  }
  weights <- exact_vector(hypotheses, "hypotheses")
  n <- length(weights)
  edges <- exact_square(transitions, "transitions", n)
  given <- given_names(weights, edges, hyp_names)
  labels <- given_labels(labels, given)
  names <- names_for(given, labels)
  check_labels(names, labels)
  keys <- unique(list(given, labels, names))
  check_counted_rows(hypotheses, keys, "hypotheses")
  check_counted_rows(transitions, keys, "transitions")
  weights <- arranged(weights, keys, "hypotheses")
  edges <- arranged_square(edges, keys, "transitions")
  component <- list(share = "1", weights = number_texts(weights, "hypotheses"),
    edges = matrix(edge_texts(edges, "transitions"), n, n))
  new_graph(names, labels, list(component), unique(rbind(as_read(weights), as_read(edges))))
}

# Whether an argument is a table of two or more rows and as many columns.
is_square <- function(x) length(dim(x)) == 2 && dim(x)[1] == dim(x)[2] && dim(x)[1] > 1

# The names that the user gives: `hyp_names`, else those of the weights, of the rows or of the columns, else H1, H2 and so on.
given_names <- function(weights, edges, hyp_names) {
  n <- length(weights)
  sources <- list(hyp_names = hyp_names, hypotheses = weights$names, transitions = edges$dimnames[[1]], transitions = edges$dimnames[[2]])
  sources <- sources[!vapply(sources, is.null, NA)]
  if (length(sources) == 0) return(if (n) paste0("H", whole_text(seq_len(n))) else character())
  given <- texts_in(sources[[1]], names(sources)[1])
  if (length(given) != n) stop_at(names(sources)[1], "one name is needed for each hypothesis")
  check_distinct(given, names(sources)[1])
  given
}

# The labels; those with names are put in order by them.
given_labels <- function(labels, given) {
  if (is.null(labels)) return(given)
  own <- names(labels)
  labels <- texts_in(labels, "labels")
  if (length(labels) != length(given)) stop_at("labels", "one label is needed for each hypothesis")
  check_distinct(labels, "labels")
  names(labels) <- own
  unname(arranged(labels, list(given), "labels"))
}

# A missing number is handed in as NA, which the proved call refuses.
as_text <- function(read) {
  if (anyNA(read)) read[is.na(read)] <- "NA"
  read
}

# The texts of numbers as they are handed in: each element is one word. Only what was given as a text can be another one.
number_texts <- function(x, what) {
  texts <- as_text(x$read)
  if (!"text" %in% x$rule) return(texts)
  wrong <- which(!nzchar(texts) | grepl("[[:space:][:cntrl:]]", texts))
  if (length(wrong)) stop_at(what, place_text(wrong[1], x$names), " is ", quoted(texts[wrong[1]]), ", which is not one number")
  texts
}

# The same of edges, which may be expressions with blanks; zeros are written as 0.
edge_texts <- function(x, what) {
  texts <- as_text(x$read)
  wrong <- which(!nzchar(texts) | grepl("[\r\n\v\f]", texts))
  if (length(wrong)) {
    place <- element_texts(x)[wrong[1]]
    stop_at(what, "the edge at ", place, " is ", quoted(texts[wrong[1]]), ", which is neither a number nor an expression")
  }
  other <- which(grepl("\\\\(?!epsilon)", texts, perl = TRUE))
  if (length(other)) {
    stop_at(what, "the edge at ", element_texts(x)[other[1]], " is ", quoted(texts[other[1]]), ", and epsilon is the one variable: ",
      "replaceVariables() of gMCP gives values to others")
  }
  texts[grepl("^[-+]?(0+[.]?0*|[.]0+)(/0*[1-9][0-9]*)?\\z", texts, perl = TRUE)] <- "0"
  texts
}

as_read <- function(x) unique(data.frame(given = x$given, read = x$read, rule = x$rule, stringsAsFactors = FALSE))

# Lets the proved call read a graph, and keeps the canonical spelling, and the text that is handed in for it.
new_graph <- function(names, labels, components, read = NULL) {
  given <- structure(list(names = names, labels = labels, components = components, read = read), class = "welungad_graph")
  canon <- ask("canon", handed(case_text(given), given))
  graph <- list(names = names, labels = labels, components = labelled(canon$components, labels), read = read)
  graph$written <- write_graph(graph)
  structure(graph, class = "welungad_graph")
}

graph_entangle <- function(..., shares) {
  graphs <- list(...)
  other <- intersect(names(graphs)[!vapply(graphs, is_any_graph, NA)], names(entangled_arguments))
  if (length(other)) refuse_argument(other[1], entangled_arguments)
  if (missing(shares)) stop_at("shares", "one share is needed for each graph")
  if (length(graphs) == 1 && is.list(graphs[[1]]) && !is_any_graph(graphs[[1]])) graphs <- graphs[[1]]
  if (!length(graphs) || !all(vapply(graphs, is_any_graph, NA))) stop_at("...", "graphs are needed, as graph_create makes them")
  graphs <- lapply(graphs, check_graph)
  first <- graphs[[1]]
  for (graph in graphs) {
    # which warns of what was changed by hand
    graph_text(graph)
    if (!identical(graph[c("names", "labels")], first[c("names", "labels")])) {
      stop_at("...", "the graphs have the same hypotheses in the same order")
    }
    if (length(graph$components) != 1) stop_at("...", "a graph that is entangled already can't be entangled again")
  }
  shares <- arranged_shares(shares, graphs)
  components <- Map(function(graph, share) {
    component <- graph$components[[1]]
    component$share <- share
    component
  }, graphs, number_texts(shares, "shares"))
  read <- do.call(rbind, c(list(as_read(shares)), lapply(graphs, `[[`, "read")))
  new_graph(first$names, first$labels, unname(components), read)
}

# The shares in the order of the graphs, by the names of both if the shares have names.
arranged_shares <- function(shares, graphs) {
  check_counted_rows(shares, list(names(graphs)), "shares")
  shares <- exact_vector(shares, "shares")
  if (length(shares) != length(graphs)) stop_at("shares", "one share is needed for each graph")
  if (is.null(shares$names)) return(shares)
  if (is.null(names(graphs))) stop_at("shares", "the shares have names, and the graphs have none")
  check_distinct(names(graphs), "...")
  arranged(shares, list(names(graphs)), "shares")
}

catalogue_names <- c("holm", "fixed-sequence", "fallback", "parallel", "improved-parallel")

graph_catalogue <- function(name, size, second = NULL) {
  name <- chosen(name, catalogue_names, "name")
  if ((name %in% c("parallel", "improved-parallel")) == is.null(second)) {
    stop_at("second", "the number of secondary hypotheses is ", if (is.null(second)) "needed" else "not used", " for ", name)
  }
  numbers <- list(size = size, second = second)
  sizes <- lapply(names(numbers), function(what) {
    if (what == "second" && is.null(second)) return(NULL)
    if (length(numbers[[what]]) != 1) stop_at(what, "one number is needed")
    number <- whole_numbers(numbers[[what]], what)
    if (number < 0) stop_at(what, whole_text(number), " is below 0")
    c(paste0("--", what), whole_text(number))
  })
  case <- ask(c("catalogue", name, unlist(sizes)), handed("", list()))
  new_graph(case$names, case$names, case$components)
}

graph_read <- function(file, form = c("text", "csv", "json"), alpha = NULL) {
  form <- chosen(form, c("text", "csv", "json"), "form")
  if (!is.character(file) || length(file) != 1 || !file.exists(file) || dir.exists(file)) {
    stop_at("file", "there is no file ", if (is.character(file)) quoted(file[1]) else "of this name")
  }
  if (form == "csv" && is.null(alpha)) stop_at("alpha", "a case of the form csv has no level of its own, so one is needed")
  if (form != "csv" && !is.null(alpha)) stop_at("alpha", "a case of the form ", form, " has a level of its own")
  bytes <- readBin(file, "raw", file.size(file))
  words <- c("canon", if (form != "text") c("--form", form), if (!is.null(alpha)) c("--alpha", level_of(alpha)))
  case <- ask(words, handed(bytes, source = paste("file:", quoted(file)), level = alpha))
  graph <- new_graph(case$names, case$names, case$components)
  list(graph = graph, alpha = case$alpha, p = case$p, stages = case$stages)
}

graph_canon <- function(graph, p = NULL, alpha = 0.025) ask("canon", case_of(graph, p, alpha))$lines

# The level if none is given, as exact_of reads it.
level_at_first <- new_exact("0.025", "1/40", "least denominator")

# A case of a graph, its p-values and its level, as it is handed in, with the numbers as they were read.
case_of <- function(graph, p, alpha) {
  deleted <- deleted_of(graph)
  graph <- check_graph(graph)
  level <- if (identical(alpha, 0.025)) level_at_first else exact_of(alpha, "alpha")
  case <- list(alpha = level, deleted = deleted)
  if (!is.null(p)) {
    check_counted_rows(p, hypothesis_keys(graph), "p")
    p <- exact_vector(p, "p")
    check_deleted(p$names, deleted, graph, "p")
    case$p <- read_p(arranged(p, hypothesis_keys(graph), "p"), graph)
    if (length(case$p) == 0) refuse(3L, "malformed: case: p count 0", where = "p: no p-values are given")
    p <- number_texts(case$p, "p")
  }
  case$text <- case_text(graph, level_text_of(level), p)
  case$graph <- graph
  case
}

# A level as it is handed in.
level_of <- function(alpha) level_text_of(exact_vector(alpha, "alpha"))

level_text_of <- function(level) {
  if (identical(level, level_at_first)) return(level_at_first$read)
  if (length(level$read) != 1) stop_at("alpha", "one level is needed")
  number_texts(level, "alpha")
}

# P-values in the order of the graph as they are handed in. None is missing. One that was rounded up is reported.
read_p <- function(p, graph) {
  if (anyNA(p$read) && length(p$read) == length(graph$names)) {
    missing <- which(is.na(p$read))
    where <- sprintf("p: the p-value of %s is missing", graph$labels[missing[1]])
    refuse(3L, paste("malformed: case: p missing", graph$names[missing[1]]), where = where)
  }
  report_rounded(p, graph$labels)
  p
}

# Reports the p-values that were rounded up.
report_rounded <- function(p, labels) {
  if (rounded_up %in% p$rule) for (i in which(p$rule == rounded_up)) {
    say_rounded(sprintf("The p-value %s of %s was rounded up to %s, a multiple of 10^-30.", p$given[i], labels[i], p$read[i]))
  }
}

say_rounded <- function(text) say("welungad_rounded", text)

# A message of a class of its own.
say <- function(class, text) {
  message(structure(class = c(class, "message", "condition"), list(message = paste0(text, "\n"), call = NULL)))
}

# A graph, also of another package. Stops if one of this package was changed to what no call would read.
check_graph <- function(graph) {
  if (!inherits(graph, "welungad_graph")) return(graph_from(graph, "graph"))
  check_read(graph)
  check_parts(graph, c("names", "labels", "components", "read", "written"), "a graph")
  for (component in graph$components) check_parts(component, c("share", "weights", "edges"), "a component of a graph")
  if (!identical(graph$labels, graph$names)) {
    if (length(graph$labels) != length(graph$names)) stop_at("graph", "one label is needed for each hypothesis")
    check_labels(graph$names, graph$labels)
  }
  check_moved(graph)
  graph
}

# Stops at a part that was added by hand, such as the `transitions` of other packages, since no call reads it.
check_parts <- function(x, known, what, argument = "graph") {
  other <- setdiff(names(unclass(x)), known)
  if (length(other)) stop_at(argument, what, " has the parts ", listed(known), ", and nothing reads a part ", quoted(other[1]))
}

has_epsilon <- function(graph) any(grepl(epsilon, unlist(graph$components), fixed = TRUE))

# ---- printing

as.data.frame.welungad_graph <- function(x, ..., exact = FALSE) {
  check_dots(..., allowed = frame_arguments)
  check_order(x)
  parts <- lapply(seq_along(x$components), function(c) {
    component <- x$components[[c]]
    edges <- component$edges
    weights <- component$weights
    if (!exact && !has_epsilon(x)) {
      weights <- double_of(weights)
      edges <- matrix(double_of(as.vector(edges)), nrow(edges), dimnames = dimnames(edges))
    }
    columns <- data.frame(unname(edges), row.names = NULL, stringsAsFactors = FALSE)
    names(columns) <- x$labels
    cbind(data.frame(component = rep(c, length(weights)), share = rep(component$share, length(weights)), hypothesis = x$labels,
      weight = unname(weights), stringsAsFactors = FALSE), columns)
  })
  do.call(rbind, parts)
}

format.welungad_graph <- function(x, ...) {
  components <- length(x$components)
  paste0("Graph of ", count_of_hypotheses(length(x$names)), if (components > 1) paste(" with", components, "components"))
}

# A row for each hypothesis: its weight over all graphs, and how many edges leave it and lead to it.
summary.welungad_graph <- function(object, ...) {
  check_order(object)
  edges <- lapply(object$components, function(it) it$edges != "0")
  any_edge <- Reduce(`|`, edges)
  data.frame(hypothesis = object$labels, weight = double_of(total_weights(object)), edges_from = unname(rowSums(any_edge)),
    edges_to = unname(colSums(any_edge)), stringsAsFactors = FALSE)
}

print.welungad_graph <- function(x, ...) {
  check_dots(...)
  check_order(x)
  cat(format(x), "\n", sep = "")
  for (component in x$components) {
    if (length(x$components) > 1) cat("Share ", component$share, "\n", sep = "")
    write_labelled(x$labels, function(labels) graph_table(component, labels))
  }
  print_names(x)
  print_read(x$read, "shortest decimal")
  invisible(x)
}

# The weights and the edges from row to column, zeros as points, and edges that were left out as question marks.
graph_table <- function(component, labels) {
  edges <- unname(component$edges)
  edges[is.na(edges)] <- "?"
  edges[edges == "0"] <- "."
  table <- cbind(labels, unname(component$weights), edges)
  colnames(table) <- c("from", "weight", labels)
  table
}

print_names <- function(x) {
  other <- x$labels != x$names
  if (!any(other)) return(invisible())
  cat("Names for the program: ", paste0(x$names[other], " for ", one_line(x$labels[other]), collapse = ", "), "\n", sep = "")
}

# The numbers that were read as another number than the decimal that R shows, and those of the rules in `rule`.
print_read <- function(read, rule = character(), most = 10L) {
  if (is.null(read)) return(invisible())
  read <- unique(read[!is.na(read$read) & read$rule != "text", , drop = FALSE])
  if (nrow(read) == 0) return(invisible())
  other <- as.logical(fraction(read$given) != fraction(read$read))
  decimal <- read$rule %in% rule & !other
  texts <- c(
    if (any(other)) paste(read$given[other], "as", shortened(read$read[other])),
    if (any(decimal)) paste(read$given[decimal], "as this decimal")
  )
  if (length(texts) == 0) return(invisible())
  cat(strwrap(paste0("Read: ", listed(texts, most)), width = 100, exdent = 2), sep = "\n")
}
