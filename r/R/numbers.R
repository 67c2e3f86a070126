# Numbers: how a number of R becomes an exact fraction.
#
# The rule. A text is taken as it is. A double from 0 to 1 is read as the fraction with the least denominator up to 10,000 that rounds
# to it. If there is none, it is read as the decimal with the fewest places, up to 30, that rounds to it; else it is rounded up to a
# multiple of 10^-30. So 1/3 typed in R is 1/3, 0.025 is 1/40, and 0.3333 is 3333/10000.

# How many units in the last place a double may be away from a fraction to be called beside it.
beside_units <- 4L

as_exact <- function(x, total = NULL) {
  if (is.data.frame(x)) x <- exact_frame(x, "x")
  if (is.null(total)) exact_of(x, "x") else exact_to_total(x, total)
}

# The numbers of an argument, whatever their class.
exact_of <- function(x, what) {
  if (is.double(x) && is.null(attributes(x))) {
    read <- read_doubles(x, what)
    return(new_exact(read$given, read$read, read$rule))
  }
  if (inherits(x, "welungad_exact")) return(x)
  if (is.character(x)) {
    check_encoding(x, what)
    read <- trimws(as.vector(x))
    warn_written(read, what)
    read <- list(given = as.vector(x), read = read, rule = ifelse(is.na(read), "missing", "text"))
  } else if (inherits(x, c("bigq", "bigz"))) {
    read <- read_fractions(gmp::as.bigq(x))
  } else if (inherits(x, "integer64")) {
    read <- read_integer64(x)
  } else if (has_doubles(x) || (is.logical(x) && all(is.na(x)))) {
    read <- read_doubles(as.double(x), what, names_of_places(x))
  } else {
    kind <- if (is.array(x) && !is.object(x)) typeof(x) else class(x)[1]
    stop_at(what, "numbers are doubles, integers, texts or fractions of gmp, and not of class ", kind)
  }
  new_exact(read$given, read$read, read$rule, names_in(x), dim(x), if (!is.null(dim(x))) dimnames(x))
}

# Whether numbers are doubles or integers of R, and no dates, factors, numbers with units, or what a package holds otherwise.
has_doubles <- function(x) is.numeric(x) && (is.double(x) || is.integer(x)) && !inherits(x, "units")

# Stops at a text whose bytes are none in its encoding, as one of a file in Latin-1 that was read as UTF-8.
check_encoding <- function(x, what) {
  wrong <- which(!is.na(x) & (Encoding(x) == "bytes" | !validEnc(x)))
  if (length(wrong)) {
    stop_at(what, place_text(wrong[1], names_of_places(x)), " is ", quoted(x[wrong[1]]), ", whose bytes are not a text in its encoding")
  }
}

# What the elements of an argument are called in messages: their names, or their rows and columns.
names_of_places <- function(x) if (length(dim(x)) == 2) element_texts(list(dim = dim(x), dimnames = dimnames(x))) else names(x)

# The names of the elements of an argument; NULL if none has one. gmp keeps more of them than there are elements.
names_in <- function(x) {
  own <- names(x)
  if (length(own) > length(x)) own <- own[seq_along(x)]
  if (all(is.na(own) | !nzchar(own))) NULL else own
}

# The numerators `n` and denominators `d` of the fractions with d up to 10,000 at the doubles, or at most `room` beside them.
small_fractions <- function(x, room = 0) .Call(C_welungad_fractions, x, room)

# The distance of a double to the next one.
last_place <- function(x) 2^(floor(log2(abs(x))) - 52)

# By which part of the rule a double was read.
rounded_up <- "rounded up to a multiple of 10^-30"
double_rules <- c("least denominator", "shortest decimal", rounded_up, "missing")

# Doubles by the rule: by the library if it is there, else by the package's own code, which is also asked for by `own`. `given` is what R
# shows.
read_doubles <- function(x, what, names = NULL, own = FALSE) {
  read <- .Call(C_welungad_readings, x, own)
  if (4L %in% read$rule) refuse_valueless(x, what, names)
  read$rule <- double_rules[read$rule]
  read
}

refuse_valueless <- function(x, what, names) {
  wrong <- which(is.nan(x) | is.infinite(x))
  if (length(wrong)) {
    refuse(3L, "malformed: number", where = sprintf("%s: %s is %s", what, place_text(wrong[1], names), x[wrong[1]]))
  }
}

# The fractions of gmp, which writes a missing one as NA.
read_fractions <- function(x) {
  texts <- as.vector(as.character(x))
  missing <- as.vector(is.na(x))
  list(given = texts, read = ifelse(missing, NA_character_, texts), rule = ifelse(missing, "missing", "fraction of gmp"))
}

# The whole numbers of the package bit64, which keeps their 64 bits in a double. NA is the least of them.
read_integer64 <- function(x) {
  halves <- readBin(writeBin(as.vector(unclass(x)), raw()), "integer", 2L * length(x), size = 4L)
  halves <- matrix(halves, nrow = 2L)
  if (.Platform$endian == "big") halves <- halves[2:1, , drop = FALSE]
  # R reads the bits of the least integer as NA
  high <- ifelse(is.na(halves[2, ]), -2^31, halves[2, ])
  low <- ifelse(is.na(halves[1, ]), 2^31, halves[1, ] %% 2^32)
  texts <- as.character(gmp::as.bigz(high) * gmp::as.bigz(2)^32 + gmp::as.bigz(low))
  missing <- high == -2^31 & low == 0
  list(
    given = ifelse(missing, "NA", texts),
    read = ifelse(missing, NA_character_, texts),
    rule = ifelse(missing, "missing", "whole number of bit64")
  )
}

# ---- numerals

numeral_shape <- "^[-+]?([0-9]+/[0-9]+|([0-9]+[.]?[0-9]*|[.][0-9]+)([eE][-+]?[0-9]+)?)\\z"

is_numeral <- function(text) !is.na(text) & grepl(numeral_shape, text, perl = TRUE)

# The value of a numeral, or NA if the text is none: 0.025, 1/40, 2.5e-2. Exponents beyond 10,000 have no value here.
numeral_value <- function(text) {
  text <- sub("^\\+", "", trimws(text))
  if (!is_numeral(text)) return(gmp::NA_bigq_)
  if (grepl("/", text, fixed = TRUE)) {
    parts <- gmp::as.bigz(without_zeros(strsplit(text, "/", fixed = TRUE)[[1]]))
    return(if (parts[2] == 0) gmp::NA_bigq_ else gmp::as.bigq(parts[1], parts[2]))
  }
  parts <- strsplit(tolower(text), "e", fixed = TRUE)[[1]]
  digits <- strsplit(parts[1], ".", fixed = TRUE)[[1]]
  whole <- gmp::as.bigz(without_zeros(paste(digits, collapse = "")))
  if (whole == 0) return(gmp::as.bigq(0))
  exponent <- if (length(parts) == 2) as.numeric(parts[2]) else 0
  if (abs(exponent) > 10000) return(gmp::NA_bigq_)
  shift <- exponent - if (length(digits) == 2) nchar(digits[2]) else 0
  if (shift >= 0) gmp::as.bigq(whole * ten_to(shift)) else gmp::as.bigq(whole, ten_to(-shift))
}

# Whole numbers without zeros at their beginning, since gmp reads digits after a zero as octal ones.
without_zeros <- function(digits) sub("^(-?)0+([0-9])", "\\1\\2", digits)

ten_to <- function(n) gmp::as.bigz(10)^n

# ---- numbers that R had turned into texts, and doubles beside fractions

# Warns of texts that R writes for a fraction: with 7 digits, as format() and as.matrix() of a data frame do, with 15, as paste() does, or
# with up to 17, from which the same double is read. R drops zeros at the end.
warn_written <- function(texts, what) {
  long <- which(nchar(texts) >= 7 & grepl("^-?[0-9]*[.][0-9]+(e[-+]?[0-9]+)?\\z", texts, perl = TRUE))
  if (length(long) == 0) return(invisible())
  meant <- written_fractions(texts[long])
  at <- which(!is.na(meant))
  if (length(at) == 0) return(invisible())
  texts <- unique(sprintf("\"%s\" is what R writes for %s", texts[long][at], meant[at]))
  warn("welungad_written", what, listed(texts), ". Texts are read as they are written: give the fraction, as a text or as a number")
}

warn <- function(class, what, ...) {
  text <- paste0(what, ": ", ...)
  warning(structure(class = c(class, "warning", "condition"), list(message = text, call = NULL)))
}

# The most denominator of a fraction for which R writes a text of so many digits. Nearly each text of 7 digits is beside a fraction with a
# denominator of 10,000, so for them it is less; and still less for 6 digits, as people write them.
most_written <- c(rep(0, 5), 100, 1000, rep(10000, 10))

# The fraction for which R writes each decimal, NA if it writes it for none, or if the decimal is the fraction.
written_fractions <- function(texts) {
  x <- as.numeric(texts)
  digits <- nchar(gsub("[^0-9]", "", sub("^-?0*[.]?0*", "", sub("e.*", "", texts))))
  wanted <- ifelse(digits <= 7, 7, ifelse(digits <= 15, 15, 17))
  near <- small_fractions(x, ifelse(digits > 15, 0, 10^(floor(log10(abs(x))) + 1 - wanted)))
  at <- which(digits >= 1 & near$d <= most_written[pmax(digits, 1)] & near$n != 0)
  written <- as.numeric(decimal_text(near$n[at] / near$d[at], wanted[at])) == x[at]
  meant <- quotient_of(near$n[at], near$d[at])
  found <- rep(NA_character_, length(texts))
  found[at] <- ifelse(written & as.logical(fraction(meant) != fraction(texts[at])), meant, NA)
  found
}

# For each text of a double: the fraction with a denominator up to 10,000 beside it, and how many units in the last place the
# double is above it. NA where there is none or it is the number itself.
beside <- function(texts) {
  x <- double_of(texts)
  x[!grepl("[0-9.]{15}", texts)] <- NA
  near <- small_fractions(x, beside_units * last_place(x))
  units <- round((x - near$n / near$d) / last_place(x))
  there <- !is.na(near$d) & units != 0
  list(fraction = ifelse(there, quotient_of(near$n, near$d), NA), units = ifelse(there, units, NA))
}

# Sentences of what the doubles beside fractions are.
beside_sentences <- function(texts) {
  texts <- unique(texts)
  found <- beside(texts)
  at <- which(!is.na(found$fraction))
  vapply(at, function(i) paste0(texts[i], " is ", units_text(found$units[i]), " ", found$fraction[i]), "")
}

units_text <- function(units) {
  count <- c("one unit", "two units", "three units", "four units")[abs(units)]
  paste(count, "in the last place", if (units > 0) "above" else "below")
}

# Reads a row of numbers as the fractions beside them, if these sum to the total; a matrix row by row, in which a row of zeros
# may stay. The others are refused.
exact_to_total <- function(x, total) {
  bound <- fraction(exact_of(total, "total")$read)
  if (length(bound) != 1 || is.na(bound)) stop_at("total", "one number is needed")
  read <- exact_of(x, "x")
  found <- beside(read$read)
  moved <- which(!is.na(found$fraction) & read$rule == "shortest decimal")
  read <- new_exact(read$given, replace(read$read, moved, found$fraction[moved]), replace(read$rule, moved, "beside a small fraction"),
    read$names, read$dim, read$dimnames)
  rows <- if (length(read$dim) == 2) split(seq_along(read$read), rep(seq_len(read$dim[1]), read$dim[2])) else list(seq_along(read$read))
  for (i in seq_along(rows)) {
    values <- fraction(read$read[rows[[i]]])
    sum <- sum_of(values)
    if (is.na(sum)) stop_at("x", "a sum needs numbers without epsilon, and none missing")
    if (sum != bound && !(length(rows) > 1 && all(values == 0))) {
      row <- if (length(read$dim) == 2) paste("row", if (is.null(rownames(read))) i else quoted(rownames(read)[i])) else "the row"
      stop_at("x", row, " reads as ", as.character(sum), ", and not as ", as.character(bound), ": ",
        "the fractions that are beside its numbers do not sum to it")
    }
  }
  read
}
