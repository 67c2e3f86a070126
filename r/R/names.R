# Names and labels. The program's names are 1 to 32 ASCII letters, digits, underscores, points and hyphens. Any text can be a
# label; the name of such a label is made from it. Users see labels, and may give hypotheses by either.

longest_name <- 32L

is_name <- function(text) grepl("^[A-Za-z0-9_.-]{1,32}\\z", text, perl = TRUE)

# The texts of a vector, a factor, or a list of one text each.
texts_in <- function(x, what) {
  is_row <- is.list(x) && !is.data.frame(x) && all(lengths(x) == 1) && all(vapply(x, is.atomic, NA))
  if (!is.atomic(x) && !is_row) stop_at(what, "texts are needed, and not an object of class ", class(x)[1])
  # of a list R gives the number of a factor, and not its text
  texts <- if (is_row) vapply(x, as.character, "", USE.NAMES = FALSE) else as.character(x)
  check_encoding(texts, what)
  texts
}

# Stops unless the texts are different, also without their blanks, and none is missing or empty.
check_distinct <- function(texts, what) {
  empty <- which(is.na(texts) | !nzchar(texts))
  if (length(empty)) stop_at(what, place_text(empty[1]), " has no name")
  twice <- which(duplicated(texts))
  if (length(twice)) stop_at(what, "the name ", quoted(texts[twice[1]]), " occurs twice")
  plain <- without_blanks(texts)
  alike <- which(duplicated(plain))
  if (length(alike)) {
    first <- match(plain[alike[1]], plain)
    stop_at(what, "the names ", quoted(texts[first]), " and ", quoted(texts[alike[1]]), " are alike but for blanks: ",
      first_difference(texts[alike[1]], texts[first]))
  }
}

# Texts in which each blank is one space, none of them at the ends, and without characters that are not seen.
without_blanks <- function(texts) {
  if (all(is_name(texts))) return(texts)
  seen <- gsub("[\u00ad\u200b-\u200f\u2060\ufeff]", "", enc2utf8(texts), perl = TRUE)
  gsub("^ +| +$", "", gsub("[\\s\\p{Z}]+", " ", seen, perl = TRUE))
}

# That no hypothesis has a name, and how it differs from a label that looks the same.
unknown_name <- function(name, labels) {
  alike <- labels[match(shape_of(name), shape_of(labels))]
  paste0("no hypothesis has the name ", quoted(name),
    if (!is.na(alike)) paste0(", which looks like ", quoted(alike), ": ", first_difference(name, alike)))
}

# Texts without blanks, and with one sign in place of each letter beyond ASCII, written as one character or with its accents as others.
shape_of <- function(texts) gsub("[^\\x01-\\x7f]", "?", gsub("\\p{L}\\p{M}+", "?", gsub(" ", "", without_blanks(texts)), perl = TRUE), perl = TRUE)

# The first character in which two texts differ.
first_difference <- function(one, other) {
  codes <- lapply(enc2utf8(c(one, other)), utf8ToInt)
  most <- max(lengths(codes))
  at <- which(!mapply(identical, codes[[1]][seq_len(most)], codes[[2]][seq_len(most)]))[1]
  shown <- vapply(codes, function(it) if (at > length(it)) "nothing" else sprintf("U+%04X", it[at]), "")
  paste0("character ", whole_text(at), " is ", shown[1], ", and not ", shown[2])
}

# Names for labels: each label that is a name stays. Names that were made differ from all others, and from the labels.
names_for <- function(given, labels = given) {
  names <- given
  for (i in which(!is_name(given))) names[i] <- made_name(given[i], c(names[-i], labels[-i]), i)
  names
}

made_name <- function(label, taken, i) {
  stem <- gsub("[^A-Za-z0-9.-]+", "_", label, perl = TRUE)
  stem <- substr(gsub("^_+|_+$", "", stem), 1, longest_name)
  if (!nzchar(stem)) stem <- paste0("H", whole_text(i))
  name <- stem
  number <- 1L
  while (name %in% taken) {
    number <- number + 1L
    name <- paste0(substr(stem, 1, longest_name - nchar(number) - 1L), "_", number)
  }
  name
}

# Stops if a label is the name of another hypothesis, since what is given by this label could be meant for either.
check_labels <- function(names, labels) {
  check_distinct(labels, "labels")
  at <- match(labels, names)
  other <- which(!is.na(at) & at != seq_along(labels))
  if (length(other)) stop_at("labels", quoted(labels[other[1]]), " is the name of another hypothesis")
}

# The labels of hypotheses that an answer names.
label_of <- function(names, graph) graph$labels[match(names, graph$names)]

# The positions of hypotheses that are given by name, by label, by position, or by a logical vector.
positions_of <- function(graph, given, what) {
  n <- length(graph$names)
  if (is.logical(given) && !anyNA(given)) return(which(arranged(given, hypothesis_keys(graph), what, n)))
  if (is_number(given) && is.null(names(given)) && all(given %in% seq_len(n))) return(known_positions(graph, given, what))
  if (is.factor(given)) given <- as.character(given)
  if (!is.character(given)) stop_at(what, "hypotheses are given by their names, labels or positions")
  at <- match(given, graph$labels)
  at[is.na(at)] <- match(given[is.na(at)], graph$names)
  if (anyNA(at)) stop_at(what, unknown_name(given[is.na(at)][1], unlist(hypothesis_keys(graph))))
  at
}

# Positions as integers. Stops at a number that is the label or the name of a hypothesis at another position, since either could be meant.
known_positions <- function(graph, given, what) {
  for (key in hypothesis_keys(graph)) {
    named <- match(whole_text(given), key)
    other <- which(!is.na(named) & named != given)
    if (length(other)) stop_at(what, whole_text(given[other[1]]), " is the name of another hypothesis: give names as texts")
  }
  as.integer(given)
}

# How many hypotheses a graph has and which, for messages.
hypotheses_text <- function(graph, deleted = character()) {
  paste0(count_of_hypotheses(length(graph$labels)), ": ", listed(graph$labels, 16L),
    if (length(deleted)) paste0(", without the deleted ", listed(deleted, 16L)))
}

# What hypotheses may be called.
hypothesis_keys <- function(graph) if (identical(graph$names, graph$labels)) list(graph$labels) else list(graph$labels, graph$names)
