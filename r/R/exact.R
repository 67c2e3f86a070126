# The class of numbers as they are read: vectors, or matrices by columns. It is one of S4, since R's own loops, `match` and `unlist` walk through
# the parts of a list, whatever its class. Such an object they refuse, and R compares it with fractions of gmp by the method below.
methods::setClass("welungad_exact", slots = c(parts = "list"))

blank_exact <- methods::new("welungad_exact")

# Sets the slot of a copy, since methods::new takes a hundred times longer.
new_exact <- function(given, read, rule, names = NULL, dim = NULL, dimnames = NULL) {
  attr(blank_exact, "parts") <- list(given = given, read = read, rule = rule, names = names, dim = dim, dimnames = dimnames)
  blank_exact
}

length.welungad_exact <- function(x) length(x$read)

dim.welungad_exact <- function(x) x$dim

dimnames.welungad_exact <- function(x) x$dimnames

names.welungad_exact <- function(x) x$names

`names<-.welungad_exact` <- function(x, value) new_exact(x$given, x$read, x$rule, names_given(value, length(x)), x$dim, x$dimnames)

# Names as R takes them: texts, of which the last may lack.
names_given <- function(value, count) {
  if (is.null(value)) return(NULL)
  if (length(value) > count) stop_at("names", whole_text(length(value)), " given for ", count_of(count, "number"))
  as.character(value)[seq_len(count)]
}

# Rows and columns, and their names, as R takes them for a vector of places.
`dim<-.welungad_exact` <- function(x, value) {
  places <- seq_along(x$read)
  dim(places) <- value
  new_exact(x$given, x$read, x$rule, NULL, dim(places))
}

`dimnames<-.welungad_exact` <- function(x, value) {
  places <- seq_along(x$read)
  dim(places) <- x$dim
  dimnames(places) <- value
  new_exact(x$given, x$read, x$rule, x$names, x$dim, dimnames(places))
}

`length<-.welungad_exact` <- function(x, value) x[seq_len(value)]

t.welungad_exact <- function(x) numbers_at(x, t(places_of(x)))

is.na.welungad_exact <- function(x) shaped(is.na(x$read), x)

# Values with the names of numbers, or in their rows and columns.
shaped <- function(values, x) if (length(x$dim) > 1) array(values, x$dim, x$dimnames) else stats::setNames(values, x$names)

anyNA.welungad_exact <- function(x, recursive = FALSE) anyNA(x$read)

# ---- parts

# The places of the numbers, with their names, or in rows and columns.
places_of <- function(x) shaped(seq_along(x$read), x)

# The places in rows and columns.
table_places <- function(x) {
  if (length(x$dim) != 2) stop("these numbers have no rows and columns", call. = FALSE)
  places_of(x)
}

# Places as a vector. Stops at one where there is no number.
known_places <- function(places) {
  if (anyNA(places)) stop("no number has this name or place", call. = FALSE)
  as.vector(places)
}

# Numbers at places, with the names, or the rows and columns, that the places have.
numbers_at <- function(x, places) {
  at <- known_places(places)
  new_exact(x$given[at], x$read[at], x$rule[at], if (is.null(dim(places))) names(places), dim(places), dimnames(places))
}

`[.welungad_exact` <- function(x, i, j, drop = TRUE) {
  if (nargs() - (!missing(drop)) > 2) return(numbers_at(x, table_places(x)[i, j, drop = drop]))
  if (missing(i)) x else numbers_at(x, places_of(x)[i])
}

# One number.
`[[.welungad_exact` <- function(x, ...) {
  found <- x[...]
  check_single(found)
  unname(found)
}

as.list.welungad_exact <- function(x, ...) lapply(stats::setNames(seq_along(x), x$names), function(i) x[[i]])

check_single <- function(x) if (length(x) != 1) stop("[[ takes one number, and not ", whole_text(length(x)), call. = FALSE)

# Numbers are changed at their places, where nothing is recycled but a single number. What is assigned is read as any other number.
`[<-.welungad_exact` <- function(x, i, j, value) {
  at <- known_places(if (nargs() > 3) table_places(x)[i, j] else if (missing(i)) places_of(x) else places_of(x)[i])
  value <- exact_of(value, "value")
  if (!length(value) %in% c(1L, length(at))) stop_at("value", whole_text(length(value)), " given for ", count_of(length(at), "number"))
  from <- rep_len(seq_along(value$read), length(at))
  new_exact(replace(x$given, at, value$given[from]), replace(x$read, at, value$read[from]), replace(x$rule, at, value$rule[from]),
    x$names, x$dim, x$dimnames)
}

`[[<-.welungad_exact` <- function(x, ..., value) {
  check_single(x[...])
  x[...] <- value
  x
}

# What is shown and what is read belong together, so no part is changed alone.
`$<-.welungad_exact` <- function(x, name, value) {
  stop("numbers that were read are changed by their names or places: x[\"H1\"] <- value", call. = FALSE)
}

rep.welungad_exact <- function(x, ...) x[rep(seq_along(x), ...)]

c.welungad_exact <- function(...) {
  parts <- lapply(Filter(Negate(is.null), list(...)), exact_of, what = "c")
  # names as R makes them, also of the arguments
  places <- unlist(lapply(parts, function(it) stats::setNames(seq_along(it$read), it$names)))
  new_exact(joined(parts, "given"), joined(parts, "read"), joined(parts, "rule"), names(places))
}

# A part of several numbers that were read, one after the other.
joined <- function(numbers, part) unlist(lapply(numbers, function(it) it@parts[[part]]), use.names = FALSE)

# ---- comparisons

# Comparisons are exact; NA for texts that are no numerals. What is computed would be other numbers than those that were read.
compared <- function(generic, one, other) {
  if (!generic %in% c("==", "!=", "<", "<=", ">", ">=")) {
    stop("numbers that were read are compared, and not computed with: gmp::as.bigq(as.character(x)) has their fractions", call. = FALSE)
  }
  sides <- lapply(list(one, other), exact_of, what = generic)
  counts <- vapply(sides, length, 1L)
  if (counts[1] != counts[2] && !1L %in% counts) stop_at(generic, whole_text(counts[2]), " given for ", count_of(counts[1], "number"))
  if (0L %in% counts) return(logical())
  values <- lapply(sides, function(it) fraction(it$read))
  shaped(as.logical(do.call(generic, values)), sides[[which.max(counts)]])
}

# R takes this one where the other side has no method of its own.
Ops.welungad_exact <- function(e1, e2) compared(.Generic, e1, e2)

# And these where it has, as fractions of gmp do.
methods::setMethod("Ops", methods::signature("welungad_exact", "ANY"), function(e1, e2) compared(.Generic, e1, e2))
methods::setMethod("Ops", methods::signature("ANY", "welungad_exact"), function(e1, e2) compared(.Generic, e1, e2))
methods::setMethod("Ops", methods::signature("welungad_exact", "welungad_exact"), function(e1, e2) compared(.Generic, e1, e2))

# `match` and `%in%` would compare the texts of these numbers with those that R writes for others.
mtfrm.welungad_exact <- function(x) stop("numbers that were read are compared by ==, as in any(x == 0.5)", call. = FALSE)

# Numbers are the same if they have the same value, or the same text with epsilon.
duplicated.welungad_exact <- function(x, incomparables = FALSE, ...) {
  values <- fraction(x$read)
  duplicated(ifelse(is.na(values), x$read, as.character(values)), incomparables, ...)
}

unique.welungad_exact <- function(x, incomparables = FALSE, ...) x[!duplicated(x, incomparables, ...)]

# ---- texts and tables

as.character.welungad_exact <- function(x, ...) stats::setNames(x$read, x$names)

# A row for each number, called as it is if that is distinct. As a column of another data frame, numbers stay what they are.
as.data.frame.welungad_exact <- function(x, row.names = NULL, optional = FALSE, ...) {
  rows <- if (!is.null(x$names) || length(x$dim) == 2) element_texts(x)
  if (anyNA(rows) || anyDuplicated(rows)) rows <- NULL
  if (optional && length(x$dim) < 2) {
    if (is.null(rows)) rows <- .set_row_names(length(x))
    return(structure(list(unname(x)), row.names = rows, class = "data.frame"))
  }
  data.frame(given = x$given, read = x$read, value = double_of(x$read), rule = x$rule, row.names = rows, stringsAsFactors = FALSE)
}

format.welungad_exact <- function(x, ...) as.character(x)

# How many numbers were read by each rule.
summary.welungad_exact <- function(object, ...) {
  counts <- table(factor(object$rule, unique(object$rule)))
  data.frame(rule = names(counts), numbers = as.vector(counts), stringsAsFactors = FALSE)
}

# R shows an object of S4 by this method.
methods::setMethod("show", "welungad_exact", function(object) print(object))

print.welungad_exact <- function(x, ...) {
  if (length(x) == 0) cat("No numbers\n")
  if (length(x) == 0) return(invisible(x))
  write_table(cbind(
    element = element_texts(x),
    given = shortened(x$given),
    read = shortened(x$read),
    value = decimal_text(double_of(x$read), 7),
    rule = x$rule
  ))
  invisible(x)
}

# What each number is called: its name, its row and column, or its place.
element_texts <- function(x) {
  if (!is.null(x$names)) return(x$names)
  if (length(x$dim) != 2) return(whole_text(seq_along(x$read)))
  own <- lapply(1:2, function(k) if (is.null(x$dimnames[[k]])) whole_text(seq_len(x$dim[k])) else x$dimnames[[k]])
  as.vector(outer(own[[1]], own[[2]], paste, sep = ", "))
}
