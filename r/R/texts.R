# Texts of numbers. Each number that the package writes is written here, so that R's options (scipen, OutDec, digits) and a locale with
# a decimal comma change none.

# Whole numbers.
whole_text <- function(x) sprintf("%.0f", x)

# Doubles with at most so many digits, for display.
decimal_text <- function(x, digits) with_point(sprintf("%.*g", as.integer(digits), x))

# A double for a message: with 15 digits, or with 17 if those are of another double.
double_text <- function(x) {
  text <- decimal_text(x, 15)
  if (is.finite(x) && as.numeric(text) != x) decimal_text(x, 17) else text
}

# Texts with a point in place of what the user's locale has, as a comma.
with_point <- function(texts) {
  own <- Sys.localeconv()[["decimal_point"]]
  if (own == ".") texts else sub(own, ".", texts, fixed = TRUE)
}

# Fractions of doubles; a whole one has no denominator.
quotient_of <- function(n, d) {
  texts <- sprintf("%.0f/%.0f", n, d)
  whole <- which(d == 1)
  if (length(whole)) texts[whole] <- sprintf("%.0f", n[whole])
  texts
}

# The place of an element, for messages: the name that it has, else its number.
place_text <- function(i, names = NULL) {
  if (length(names) >= i && !is.na(names[i]) && nzchar(names[i])) return(quoted(names[i]))
  ordinals <- c("first", "second", "third", "fourth", "fifth", "sixth", "seventh", "eighth", "ninth", "tenth")
  paste("the", if (i <= 10) ordinals[i] else paste0("element ", i))
}

quoted <- function(text) encodeString(text, quote = "\"")

# A few of many texts, for messages.
listed <- function(texts, most = 10L) {
  more <- length(texts) - most
  if (more > 0) texts <- c(texts[seq_len(most)], paste("and", more, "more"))
  paste(texts, collapse = ", ")
}

# Texts cut for display, unless two of them would then be alike.
shortened <- function(text) {
  short <- ifelse(is.na(text) | nchar(text) <= 60, text, paste0(substr(text, 1, 40), ".."))
  if (anyDuplicated(unique(text)) == 0 && length(unique(short)) == length(unique(text))) short else text
}

# Stops with an error that names the argument.
stop_at <- function(what, ...) stop(what, ": ", ..., call. = FALSE)

# One of the choices of an argument, which is given in full or by its beginning. R hands in all of them if the argument is absent; then
# it is the first.
chosen <- function(given, choices, what) {
  if (identical(given, choices)) return(choices[1])
  at <- if (is.character(given) && length(given) == 1) pmatch(given, choices) else NA
  if (is.na(at)) {
    stop_at(what, "one of ", listed(quoted(choices)), " is needed", if (is.character(given)) c(", and not ", listed(quoted(given), 3L)))
  }
  choices[at]
}

# A number of things, with their word.
count_of <- function(n, one, many = paste0(one, "s")) paste(whole_text(n), if (n == 1) one else many)

count_of_hypotheses <- function(n) count_of(n, "hypothesis", "hypotheses")

# The whole numbers that an argument has, as integers: numbers without a fraction, or texts of digits.
whole_numbers <- function(x, what, names = NULL) {
  if (!is.atomic(x) && !is.list(x)) stop_at(what, "a whole number is needed, and not an object of class ", class(x)[1])
  wrong <- which(!is_whole(x))
  if (length(wrong)) {
    given <- if (is_number(x)) double_text(x[wrong[1]]) else quoted(as.character(x[wrong[1]]))
    stop_at(what, place_text(wrong[1], names), " is ", given, if (is.factor(x)) " of a factor", ", which is not a whole number")
  }
  as.integer(x)
}

is_whole <- function(x) {
  if (is.character(x)) return(grepl("^[0-9]{1,9}\\z", x, perl = TRUE))
  if (!is_number(x)) return(rep(FALSE, length(x)))
  is.finite(x) & x == round(x) & abs(x) < 1e9
}

# Whether an object is a vector of plain numbers: no factor, date, or integer64 of the package bit64.
is_number <- function(x) is.numeric(x) && !inherits(x, "integer64")

# Writes a matrix of texts in columns, the first flush left and the others flush right.
write_table <- function(texts) cat(table_lines(texts), sep = "\n")

table_lines <- function(texts) {
  all <- rbind(colnames(texts), unname(texts))
  all[is.na(all)] <- ""
  all[] <- one_line(all)
  columns <- lapply(seq_len(ncol(all)), function(j) {
    formatC(all[, j], width = max(nchar(all[, j])), flag = if (j == 1) "-" else "")
  })
  sub(" +$", "", paste0("  ", do.call(paste, c(columns, sep = "  "))))
}

# Texts of which each is one line: a line break is shown as \\n.
one_line <- function(texts) gsub("\t", "\\t", gsub("\r", "\\r", gsub("\n", "\\n", texts, fixed = TRUE), fixed = TRUE), fixed = TRUE)

# Writes a table that `make` makes of labels. If it is wider than a line, it has short tags in their place, with one list of them below.
write_labelled <- function(labels, make) {
  lines <- table_lines(make(labels))
  tags <- tags_for(labels)
  if (max(nchar(lines)) > getOption("width") && max(nchar(labels)) > max(nchar(tags))) {
    lines <- c(table_lines(make(tags)), strwrap(paste0(tags, ": ", one_line(labels)), getOption("width"), indent = 2, exdent = 6))
  }
  cat(lines, sep = "\n")
}

# Tags for hypotheses, none of which is the label of another one.
tags_for <- function(labels) {
  for (stem in c("H", "h", "#", "hypothesis ")) {
    tags <- paste0(stem, whole_text(seq_along(labels)))
    at <- match(labels, tags)
    if (all(is.na(at) | at == seq_along(labels))) return(tags)
  }
  paste0("#", whole_text(seq_along(labels)), "#")
}
