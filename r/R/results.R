# Results: whether their parts still belong together, and the notes below what is printed of them.

# ---- whether a result was changed

# Stops if parts of a result were changed since it was made, so that what is shown would be nobody's decision.
check_result <- function(x) {
  check_graph(x$graph)
  if (!is_case_of(x) || !is_whole_result(x)) stop_at("x", "the result was changed after it was made: decide again what is meant")
}

# Whether the text of the case of a result has its level and its graph.
is_case_of <- function(x) {
  alpha <- sub("^alpha (\\S*)\n.*", "\\1", x$case)
  own <- graph_text(x$graph)
  rest <- substring(x$case, nchar(alpha) + 8L)
  isTRUE(as.logical(fraction(alpha) == fraction(as.character(x$alpha)))) && startsWith(rest, own$head) &&
    (startsWith(rest, paste0(own$head, own$body)) || endsWith(rest, own$body))
}

# Whether the parts of a result are those of its report, by the labels of its graph.
is_whole_result <- function(x) {
  labels <- x$graph$labels
  by_label <- function(part) identical(names(part), labels)
  if (!is.null(unclass(x)$rejected) && !by_label(x$rejected)) return(FALSE)
  if (inherits(x, "welungad_closure")) return(identical(colnames(x$weights), labels) && by_label(x$p))
  if (inherits(x, "welungad_simes")) return(by_label(x$adjusted) && identical(x$exact$hypothesis, labels))
  if (inherits(x, "welungad_test")) {
    report <- read_test(x$report, x$graph$names)
    if (is.null(report)) return(FALSE)
    parts <- report_parts(report, labels)
    return(identical(parts, unclass(x)[names(parts)]))
  }
  if (!inherits(x, "welungad_stages")) return(TRUE)
  report <- read_stages(x$report, x$graph$names, list(name = x$graph$names[match(x$looks$hypothesis, labels)], stage = x$looks$stage))
  !is.null(report) && identical(unname(x$rejected), report$rejected) && identical(x$looks$p, report$p) &&
    identical(x$rejections$hypothesis, label_of(report$rejects[2, ], x$graph)) && identical(x$rejections$weight, report$rejects[6, ])
}

# ---- notes

# A p-value that was rounded to 0 would be rejected at any level.
zero_notes <- function(read, labels) {
  zero <- unique(labels[which(double_of(read$read) == 0)])
  if (length(zero) == 0) return(character())
  paste0("The p-value of ", listed(zero), " is 0, which is at most every level above 0: give a value that was rounded to 0 as a bound above it.")
}

# Which numbers are doubles beside fractions: their places `at`, the fractions, and how many units in the last place they are above these.
beside_doubles <- function(read) {
  doubles <- which(read$rule == "shortest decimal")
  found <- beside(read$read[doubles])
  has <- !is.na(found$fraction)
  list(at = doubles[has], fraction = found$fraction[has], units = found$units[has])
}

# Sentences for the p-values that are doubles beside fractions, with which the decision would be another one. `decide` answers what is decided
# with numbers such as `read`.
other_decisions <- function(read, labels, decide) {
  near <- beside_doubles(read)
  if (length(near$at) == 0) return(character())
  own <- decide(read)
  differs <- vapply(seq_along(near$at), function(i) {
    other <- tryCatch(decide(replace(read, near$at[i], near$fraction[i])), welungad_refusal = function(refusal) NULL)
    !identical(other, own)
  }, NA)
  sprintf("The p-value %s of %s is %s %s, with which the decision would be another one.", read$given[near$at], labels[near$at],
    units_text_of(near$units), near$fraction)[differs]
}

print_notes <- function(notes) for (note in notes) cat(strwrap(note, width = 100, exdent = 2), sep = "\n")
