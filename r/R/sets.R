# All intersections: weights, verdicts and bounds of true discoveries.

set_text <- function(sets, labels, gap = ", ") vapply(sets, function(set) paste(labels[set], collapse = gap), "")

graph_test_closure <- function(graph, p, alpha = 0.025, test = c("bonferroni", "simes"), ...) {
  check_dots(..., instead = closure_arguments)
  test <- if (missing(test)) "bonferroni" else chosen_test(test)
  case <- case_of(graph, p, alpha)
  proved <- ask(if (test == "simes") "simes" else "bounds", case)
  weights <- from_whole_set(ask("weights", case))
  read <- ask("canon", case)
  found <- closed_levels(weights, read$p, read$alpha, test)
  bound <- proved$bound[match(weights$codes, proved$codes)]
  hold_verdicts(weights$sets, found$local, bound >= 1L, length(case$graph$names), weights$codes)
  new_closure(case, test, weights, bound, found, read)
}

# The sets of a closed test, in the order of graph_weights, with their verdicts and the least levels at which they are rejected.
new_closure <- function(case, test, weights, bound, found, read) {
  labels <- case$graph$labels
  single <- match(2^(seq_along(labels) - 1), weights$codes)
  adjusted <- found$p_closed[single]
  is_compared <- test == "bonferroni" && hold_adjusted(case, adjusted, found$reached[single])
  named <- function(values) stats::setNames(values, labels)
  structure(list(
    graph = case$graph,
    test = test,
    alpha = read$alpha,
    p = named(unname(read$p)),
    sets = weights$sets,
    weights = matrix(weights$texts[weights$weights], nrow(weights$weights), dimnames = list(NULL, labels)),
    local = found$local,
    closed = bound >= 1L,
    bound = bound,
    p_local = found$p_local,
    p_closed = found$p_closed,
    rejected = named(bound[single] >= 1L),
    adjusted = named(adjusted_doubles(adjusted, bound[single] >= 1L, read$alpha)),
    reached = named(found$reached[single]),
    exact = table_of(hypothesis = labels, p = unname(read$p), adjusted = adjusted),
    compared = is_compared,
    read = case$p,
    case = case$text
  ), class = "welungad_closure")
}

# Stops if an adjusted p-value is not the one that the proved call prints; returns whether it prints them.
hold_adjusted <- function(case, adjusted, reached) {
  report <- tryCatch(ask("test", case), welungad_refusal = function(refusal) NULL)
  if (is.null(report)) return(FALSE)
  if (!identical(report$reached, reached) || !all(fraction(report$adjusted) == fraction(adjusted))) stop_unlike("adjusted p-values")
  TRUE
}

stop_unlike <- function(what) {
  stop("the ", what, " here are not those of the proved call: don't use this package, and report the graph", call. = FALSE)
}

# Stops if the verdicts here differ from those of the proved call: it rejects exactly the sets all of whose supersets are
# locally rejected.
hold_verdicts <- function(sets, local, closed, n, codes = codes_of(sets)) {
  lost <- over_supersets(as.integer(!local), codes, n)
  if (!identical(lost == 0L, closed)) stop_unlike("verdicts")
}

as.data.frame.welungad_closure <- function(x, ..., exact = FALSE) {
  check_dots(..., allowed = frame_arguments)
  check_result(x)
  weights <- x$weights
  filled <- !is.na(weights)
  # pairs of a hypothesis and a weight, each once
  pairs <- paste(col(weights)[filled], weights[filled])
  first <- which(!duplicated(pairs))
  at <- match(pairs, pairs[first])
  once <- weights[filled][first]
  level <- as.character(fraction(once) * fraction(rep(x$alpha, length(once))))
  member <- col(weights)[filled][first]
  shown <- if (exact) list(weight = once, level = level) else list(weight = double_of(once),
    level = passing_doubles(unname(x$read)[member], unname(x$p)[member], level)$level)
  matrix_of <- function(what) {
    values <- shown[[what]]
    out <- matrix(values[NA_integer_], nrow(weights), ncol(weights), dimnames = list(NULL, paste(what, x$graph$labels)))
    out[filled] <- values[at]
    out
  }
  data.frame(intersection = set_text(x$sets, x$graph$labels), matrix_of("weight"), matrix_of("level"), local = x$local, closed = x$closed,
    bound = x$bound, p_local = if (exact) x$p_local else adjusted_doubles(x$p_local, x$local, x$alpha),
    p_closed = if (exact) x$p_closed else adjusted_doubles(x$p_closed, x$closed, x$alpha), check.names = FALSE,
    stringsAsFactors = FALSE)
}

# Some of the sets.
`[.welungad_closure` <- function(x, i, ...) {
  at <- places_of_sets(x, i)
  by_set <- c("sets", "local", "closed", "bound", "p_local", "p_closed")
  with_parts(x, c(lapply(unclass(x)[by_set], `[`, at), list(weights = x$weights[at, , drop = FALSE])))
}

# The places of some of the sets of a result, all of which are there.
places_of_sets <- function(x, i) {
  at <- seq_along(x$sets)[i]
  if (anyNA(at)) stop_at("i", "sets are taken by their places from 1 to ", whole_text(length(x$sets)))
  at
}

# The first and the last sets, since R takes the number of a result's parts for that of its sets.
head.welungad_closure <- function(x, n = 6L, ...) x[utils::head(seq_along(x$sets), n)]

tail.welungad_closure <- function(x, n = 6L, ...) x[utils::tail(seq_along(x$sets), n)]

head.welungad_bounds <- head.welungad_closure

tail.welungad_bounds <- tail.welungad_closure

format.welungad_closure <- function(x, ...) {
  paste0("Closed test of ", count_of(length(x$sets), "intersection"), " at level ", level_text(x$alpha))
}

summary.welungad_closure <- function(object, ...) {
  data.frame(size = sort(unique(lengths(object$sets))), intersections = as.vector(table(lengths(object$sets))),
    local = as.vector(tapply(object$local, lengths(object$sets), sum)),
    closed = as.vector(tapply(object$closed, lengths(object$sets), sum)))
}

print.welungad_closure <- function(x, exact = FALSE, digits = 4, most = 64, ...) {
  check_dots(...)
  rest <- length(x$sets) - most
  sets <- if (rest > 0) x$sets[seq_len(most)] else x$sets
  table <- as.data.frame(if (rest > 0) x[seq_len(most)] else x, exact = exact)
  cat(format(x), "\n", sep = "")
  levels <- vapply(table[startsWith(names(table), "level ")], shown, character(nrow(table)), digits = digits)
  verdict <- function(rejects) ifelse(rejects, "rejected", "retained")
  write_labelled(x$graph$labels, function(labels) {
    texts <- cbind(set_text(sets, labels), matrix(levels, nrow(table)), verdict(table$local), verdict(table$closed))
    colnames(texts) <- c("intersection", paste("level", labels), "local", "closed")
    texts
  })
  if (rest > 0) cat("  and ", count_of(rest, "more intersection"), ", which as.data.frame has\n", sep = "")
  print_rejected(x)
  print_notes(adjusted_text(x, exact, digits))
  print_notes(c(bound_notes(x), zero_notes(x$read, x$graph$labels)))
  invisible(x)
}

# A sentence with the adjusted p-value of each hypothesis.
adjusted_text <- function(x, exact, digits) {
  values <- if (exact) x$exact$adjusted else shown(unname(x$adjusted), digits)
  paste0("Adjusted p-values: ", paste0(one_line(x$graph$labels), " ", values, ifelse(x$reached, "", " not reached"), collapse = ", "))
}

# ---- bounds of true discoveries

graph_bounds <- function(graph, p, alpha = 0.025, ...) {
  check_dots(..., instead = bounds_arguments)
  case <- case_of(graph, p, alpha)
  new_bounds(ask("bounds", case), case, "Bonferroni")
}

graph_simes <- function(graph, p, alpha = 0.025, ...) {
  check_dots(..., instead = bounds_arguments)
  case <- case_of(graph, p, alpha)
  graph <- case$graph
  report <- ask("simes", case)
  weights <- ask("weights", case)
  found <- closed_levels(weights, case$p$read, case$alpha$read, "simes")
  hold_verdicts(weights$sets, found$local, report$bound[match(weights$codes, report$codes)] >= 1L, length(graph$names), weights$codes)
  single <- match(2^(seq_along(graph$names) - 1), weights$codes)
  out <- unclass(new_bounds(report, case, "Simes"))
  out$top <- report$top
  out$rejected <- stats::setNames(report$rejected, graph$labels)
  out$adjusted <- stats::setNames(adjusted_doubles(found$p_closed[single], report$rejected, case$alpha$read), graph$labels)
  out$reached <- stats::setNames(found$reached[single], graph$labels)
  out$exact <- table_of(hypothesis = graph$labels, p = case$p$read, adjusted = found$p_closed[single])
  structure(out, class = c("welungad_simes", "welungad_bounds"))
}

new_bounds <- function(report, case, test) {
  structure(list(
    graph = case$graph,
    alpha = case$alpha$read,
    test = test,
    sets = report$sets,
    bound = report$bound,
    read = case$p,
    case = case$text
  ), class = "welungad_bounds")
}

bound_of <- function(x, hypotheses) {
  if (!inherits(x, "welungad_bounds")) stop_at("x", "a result of graph_bounds or graph_simes is needed")
  set <- unique(positions_of(x$graph, hypotheses, "hypotheses"))
  if (length(set) == 0) return(0L)
  at <- match(codes_of(list(set)), codes_of(x$sets))
  if (is.na(at)) stop_at("hypotheses", "this set is not among the ", count_of(length(x$sets), "set"), " of x")
  x$bound[at]
}

as.data.frame.welungad_bounds <- function(x, ...) {
  check_dots(..., allowed = c(frame_arguments, "exact"))
  check_result(x)
  data.frame(set = set_text(x$sets, x$graph$labels), size = lengths(x$sets), bound = x$bound, stringsAsFactors = FALSE)
}

# Some of the sets.
`[.welungad_bounds` <- function(x, i, ...) {
  at <- places_of_sets(x, i)
  with_parts(x, list(sets = x$sets[at], bound = x$bound[at]))
}

format.welungad_bounds <- function(x, ...) {
  paste0("Lower bounds of true discoveries by the closed test of weighted ", x$test, " tests at level ", level_text(x$alpha))
}

# How many sets of each size have each bound.
summary.welungad_bounds <- function(object, ...) {
  table(size = lengths(object$sets), bound = object$bound)
}

# The rejected hypotheses of Simes' closed test, with their adjusted p-values.
summary.welungad_simes <- function(object, ...) {
  at <- which(object$rejected)
  check_result(object)
  rejections <- data.frame(hypothesis = object$graph$labels[at], p = given_doubles(object$read)[at], adjusted = unname(object$adjusted[at]),
    stringsAsFactors = FALSE)
  structure(list(head = paste("Closed test of weighted Simes tests at level", level_text(object$alpha)), rejections = rejections,
    hypotheses = length(object$rejected)), class = "welungad_summary")
}

print.welungad_bounds <- function(x, most = 64, ...) {
  check_dots(...)
  rest <- length(x$sets) - most
  table <- as.data.frame(if (rest > 0) x[seq_len(most)] else x)
  cat(format(x), "\n", sep = "")
  sets <- if (rest > 0) x$sets[seq_len(most)] else x$sets
  write_labelled(x$graph$labels, function(labels) cbind(set = set_text(sets, labels), size = table$size, bound = table$bound))
  if (rest > 0) cat("  and ", count_of(rest, "more set"), ", which as.data.frame has\n", sep = "")
  if (inherits(x, "welungad_simes")) {
    bounds <- paste(x$top, collapse = " ")
    cat("Bounds of the hypotheses with the least p-values, 1 to ", length(x$top), ": ", bounds, "\n", sep = "")
    print_rejected(x)
  }
  print_notes(c(bound_notes(x), zero_notes(x$read, x$graph$labels)))
  invisible(x)
}

# Notes on p-values beside fractions, with which there would be other bounds.
bound_notes <- function(x) {
  command <- if (tolower(x$test) == "simes") "simes" else "bounds"
  other_decisions(x$read, x$graph$labels, function(read) {
    ask(command, handed(case_text(x$graph, x$alpha, number_texts(read, "p")), x$graph))$bound
  })
}
