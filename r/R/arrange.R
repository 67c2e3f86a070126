# Order: whatever is given by hypothesis is put here into the order of the graph, by the names that come with it. Each
# hypothesis has to be given exactly once, and nothing else; without names the order is that of the graph.

# The places of the hypotheses among the given names. `keys` are the ways to call the hypotheses: all are called by one of them.
places_among <- function(given, keys, what) {
  found <- unique(lapply(keys, function(key) {
    at <- match(key, given)
    if (anyNA(at) || length(given) != length(key) || anyDuplicated(given)) NULL else at
  }))
  found <- found[!vapply(found, is.null, NA)]
  if (length(found) == 1) return(found[[1]])
  own <- paste0(": the hypotheses are ", listed(keys[[1]], 16L))
  stop_at(what, if (length(found)) paste0("the names fit the hypotheses in more than one way", own) else fault_of_names(given, keys, own))
}

# Why names are not those of the hypotheses.
fault_of_names <- function(given, keys, own) {
  empty <- which(is.na(given) | !nzchar(given))
  if (length(empty)) return(paste0(place_text(empty[1]), " has no name, and others have one"))
  if (anyDuplicated(given)) return(paste("the name", quoted(given[duplicated(given)][1]), "occurs twice"))
  unknown <- setdiff(given, unlist(keys))
  if (length(unknown)) return(paste0(unknown_name(unknown[1], unlist(keys)), own, sentence_of_rows(given, unknown),
    cure_of_made_names(given)))
  missing <- keys[[1]][vapply(seq_along(keys[[1]]), function(i) !any(vapply(keys, `[`, "", i) %in% given), NA)]
  if (length(missing)) return(paste("nothing is given for", quoted(missing[1])))
  paste0("some names are labels and others are the program's names, so they fit in no way: give all labels", own)
}

# What to do about rows that were put in another order, of which their numbers are left.
sentence_of_rows <- function(given, unknown) {
  counts <- whole_text(seq_along(given))
  if (length(unknown) < length(given) || !setequal(given, counts) || identical(given, counts)) return("")
  paste0(". The numbers ", listed(given, 4L), " are names, such as those of rows in another order: give rows the names of the hypotheses, ",
    "or a column hypothesis")
}

# What to do about the names that R gives to the columns of a matrix without any.
cure_of_made_names <- function(given) {
  if (!any(vapply(c("V", "X"), function(stem) identical(given, paste0(stem, whole_text(seq_along(given)))), NA))) return("")
  paste0(". Columns without names got ", listed(given, 2L), " from R: unname(as.matrix(x)) has none, so they have the order of the hypotheses")
}

# A vector, a list, or numbers that were read, in the order of the hypotheses. `count` is how many are needed, if it is known.
arranged <- function(x, keys, what, count = NULL) {
  given <- if (inherits(x, "welungad_exact")) x$names else names_in(x)
  if (!is.null(given)) {
    if (length(keys) == 1 && identical(given, keys[[1]])) return(x)
    # (an error within the brackets would be told as one of finding a method, once a package has methods for them)
    places <- places_among(given, keys, what)
    return(x[places])
  }
  if (!is.null(count) && length(x) != count) {
    stop_at(what, whole_text(length(x)), " given for ", count_of_hypotheses(count))
  }
  x
}

# The numbers of a vector, whatever its class. One row or column of a matrix or of a data frame is a vector, with the names of
# its other side, else those of its elements; so are the columns `hypothesis` and `p` of a data frame, or `weight`, as column_names has it.
exact_vector <- function(x, what) {
  if (is.double(x) && is.null(attributes(x))) return(exact_of(x, what))
  if (is.data.frame(x)) return(vector_of_frame(x, what))
  x <- exact_of(x, what)
  size <- x$dim
  if (is.null(size)) return(x)
  if (length(size) > 2 || length(size) == 2 && !any(size == 1)) {
    stop_at(what, "a vector is needed, and not a table of ", paste(size, collapse = " by "))
  }
  side <- if (length(size) == 2 && size[1] == 1 && (size[2] > 1 || is.null(rownames(x)))) 2L else 1L
  if (length(size) == 2) check_quantity(x$dimnames[[3L - side]], what)
  new_exact(x$given, x$read, x$rule, if (is.null(x$dimnames[[side]])) x$names else x$dimnames[[side]])
}

# What the column of the numbers of an argument is called beside the column hypothesis.
column_names <- c(p = "p", hypotheses = "weight", at = "at")

vector_of_frame <- function(x, what) {
  column <- if (what %in% names(column_names)) column_names[[what]] else "another one"
  if ("hypothesis" %in% names(x) && length(x) == 2) {
    values <- setdiff(seq_along(x), match("hypothesis", names(x)))
    if (what %in% names(column_names) && !identical(names(x)[values], column)) {
      stop_at(what, "beside the column hypothesis a column ", column, " is needed, and not ", quoted(names(x)[values]))
    }
    read <- column_of(x, values, what)
    names(read) <- texts_in(x$hypothesis, paste0(what, ": hypothesis"))
    check_aligned(x, values, read$names, what)
    return(read)
  }
  if (nrow(x) == 1 || length(x) == 1) return(exact_vector(exact_frame(x, what), what))
  if (all(c("hypothesis", column) %in% names(x))) {
    stop_at(what, "beside the columns hypothesis and ", column, " there is ", listed(quoted(setdiff(names(x), c("hypothesis", column))), 4L),
      ": x[c(\"hypothesis\", ", quoted(column), ")] leaves it out")
  }
  stop_at(what, "a data frame has one row with a column for each hypothesis, or the columns hypothesis and ", column)
}

# What a single row or column is called in the tables of this package, each with the argument that takes it.
quantities <- c(p = "p", weight = "hypotheses", weights = "hypotheses", at = "at", share = "shares", shares = "shares", alpha = "alpha",
  level = "levels", levels = "levels", adjusted = "", adjusted_p = "", step = "", stage = "", hypothesis = "", bound = "")

# Stops if the row or column of the numbers is called as those of another argument.
check_quantity <- function(name, what) {
  known <- if (length(name) == 1) match(tolower(name), names(quantities)) else NA
  if (!is.na(known) && quantities[[known]] != sub(":.*", "", what)) stop_at(what, "these numbers are called ", quoted(name))
}

# Stops if the numbers of a column, or their rows, have the names of the hypotheses beside them in another order: R leaves a named vector in
# its order when it becomes a column. Rows that are only counted, in whatever order, have none.
check_aligned <- function(x, j, hypotheses, what) {
  rows <- own_row_names(x)
  if (setequal(rows, seq_len(nrow(x)))) rows <- NULL
  for (own in list(names_in(x[[j]]), rows)) {
    if (!is.null(own) && all(own %in% hypotheses) && !identical(as.character(own), hypotheses)) {
      stop_at(what, "the numbers have the names ", listed(own, 4L), ", and the column hypothesis has ", listed(hypotheses, 4L))
    }
  }
}

# The numbers of a data frame, column by column, since R turns a whole one with a column of texts into texts of 7 digits.
exact_frame <- function(x, what, rows = row_names_of(x, what)) {
  columns <- lapply(seq_along(x), column_of, x = x, what = what)
  new_exact(joined(columns, "given"), joined(columns, "read"), joined(columns, "rule"), NULL, dim(x), list(rows, names(x)))
}

# The names of the rows of a data frame, else those that the numbers of its columns have. A single row has none of these, and its number
# is no name, since its columns are what has names.
row_names_of <- function(x, what) {
  own <- own_row_names(x)
  if (nrow(x) == 1) return(if (is.character(attr(x, "row.names"))) own)
  if (!is.null(own)) return(own)
  inner <- unique(Filter(Negate(is.null), lapply(x, names_in)))
  if (length(inner) > 1) stop_at(what, "the columns have different names for their rows")
  if (length(inner)) as.character(inner[[1]])
}

# The names of the rows of a data frame; NULL if they are 1, 2 and so on in this order. Other numbers are names, as
# read.csv(row.names = 1) makes them.
own_row_names <- function(x) {
  rows <- attr(x, "row.names")
  if (is.character(rows)) return(rows)
  if (!identical(as.integer(rows), seq_len(nrow(x)))) whole_text(rows)
}

# Stops at a data frame whose rows are numbered 1, 2 and so on, for hypotheses that are called so in another order. The numbers could be the
# names of the rows, as read.csv(row.names = 1) makes them, and R does not tell these from counts. A column hypothesis says what is meant.
check_counted_rows <- function(x, keys, what) {
  if (!is.data.frame(x) || "hypothesis" %in% names(x) || nrow(x) < 2 || !is.null(row_names_of(x, what))) return(invisible())
  counts <- whole_text(seq_len(nrow(x)))
  for (key in keys) {
    if (setequal(key, counts) && !identical(key, counts)) {
      stop_at(what, "the rows are numbered 1, 2 and so on, and the hypotheses are called ", listed(key, 4L), ": give a ",
        if (length(x) == 1) "vector with these names, or a column hypothesis" else "matrix whose rows have these names")
    }
  }
}

column_of <- function(x, j, what) {
  read <- exact_of(x[[j]], paste0(what, ": column ", quoted(names(x)[j])))
  if (length(read) != nrow(x)) stop_at(what, "column ", quoted(names(x)[j]), " is a table of its own")
  names(read) <- NULL
  read
}

# The numbers of a square matrix or data frame.
exact_square <- function(x, what, n) {
  read <- if (is.data.frame(x)) exact_frame(x, what) else exact_of(x, what)
  if (!identical(as.integer(read$dim), rep(n, 2L))) {
    stop_at(what, "a square matrix is needed, with a row and a column for each of ", whole_text(n), " hypotheses")
  }
  check_elements(read, what)
  read
}

# Stops at a matrix whose elements have names, as names(x) <- .. gives them, which say nothing of its rows and columns.
check_elements <- function(x, what) {
  if (!is.null(names(x))) stop_at(what, "name rows and columns, since names of single elements say nothing of them")
}

# A square matrix with rows and columns in the order of the hypotheses. If one of both sides has no names, it has the order of
# the hypotheses, and so must the other.
arranged_square <- function(x, keys, what) {
  sides <- lapply(1:2, function(side) {
    given <- x$dimnames[[side]]
    if (is.null(given)) NULL else places_among(given, keys, paste0(what, ": ", c("rows", "columns")[side]))
  })
  lacks <- vapply(sides, is.null, NA)
  plain <- seq_len(x$dim[1])
  if (sum(lacks) == 1 && !identical(sides[[which(!lacks)]], plain)) {
    stop_at(what, "name rows and columns, since the ", c("rows", "columns")[!lacks], " are in another order than the hypotheses")
  }
  sides[lacks] <- list(plain)
  x[sides[[1]], sides[[2]]]
}
