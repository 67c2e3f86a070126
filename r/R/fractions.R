# Fractions: texts, exact fractions of gmp, and decimals for display.

# The exact fractions of numerals, NA for other texts. Fractions as the program prints them take the short way.
fraction <- function(text) {
  if (length(text) == 0) return(gmp::as.bigq(character()))
  plain <- !is.na(text) & grepl("^-?(0|[1-9][0-9]*)(/[1-9][0-9]*)?\\z", text, perl = TRUE)
  if (all(plain)) return(gmp::as.bigq(unname(text)))
  parts <- lapply(text, function(t) if (is.na(t)) gmp::NA_bigq_ else numeral_value(t))
  do.call(c, parts)
}

# The double nearest to each fraction, of two the even one: the quotient that R computes if both parts are doubles.
as_double <- function(x) {
  n <- gmp::numerator(x)
  d <- gmp::denominator(x)
  small <- !is.na(x) & abs(n) <= gmp::as.bigz(2)^53 & d <= gmp::as.bigz(2)^53
  out <- rep(NA_real_, length(x))
  out[small] <- as.numeric(gmp::asNumeric(n[small])) / as.numeric(gmp::asNumeric(d[small]))
  for (i in which(!is.na(x) & !small)) out[i] <- nearest_double(n[i], d[i])
  out
}

# The double nearest to the quotient of two whole numbers. Of the 56 or 57 digits that are added, the last one is 1 if any after it is, so
# that the sum is rounded once. gmp cuts what it makes a double.
nearest_double <- function(n, d) {
  shift <- 55 - (gmp::sizeinbase(n, 2) - gmp::sizeinbase(d, 2))
  over <- abs(n) * two_to(max(shift, 0))
  under <- d * two_to(max(-shift, 0))
  digits <- 2 * (over %/% under) + (if (over %% under == 0) 0 else 1)
  value <- as.numeric(gmp::asNumeric(digits %/% two_to(30))) * 2^30 + as.numeric(gmp::asNumeric(digits %% two_to(30)))
  half <- (shift + 1) %/% 2
  (if (n < 0) -value else value) * 2^-half * 2^-(shift + 1 - half)
}

two_to <- function(n) gmp::as.bigz(2)^n

# The doubles of numerals in texts, NA for other texts.
double_of <- function(text) {
  out <- .Call(C_welungad_doubles, text)
  if (anyNA(out)) {
    other <- which(is.na(out))
    out[other] <- double_of_any(text[other])
  }
  out
}

# The same of fractions with longer parts, of those below 0, and of decimals. R alone reads decimals with exponents beyond 10,000.
double_of_any <- function(text) {
  out <- rep(NA_real_, length(text))
  numeral <- which(is_numeral(text))
  if (length(numeral)) out[numeral] <- as_double(fraction(text[numeral]))
  far <- numeral[is.na(out[numeral]) & !grepl("/", text[numeral], fixed = TRUE)]
  out[far] <- as.numeric(text[far])
  out
}

# The whole decimal of a fraction if it ends within 60 places; else the fraction.
exact_decimal <- function(x) {
  places <- 0L
  while (places <= 60 && gmp::denominator(x * gmp::as.bigq(ten_to(places))) != 1) places <- places + 1L
  if (places > 60) return(as.character(x))
  digits <- as.character(gmp::numerator(abs(x) * gmp::as.bigq(ten_to(places))))
  digits <- paste0(strrep("0", max(0L, places + 1L - nchar(digits))), digits)
  cut <- nchar(digits) - places
  text <- substr(digits, 1, cut)
  if (places > 0) text <- paste0(text, ".", substr(digits, cut + 1L, nchar(digits)))
  if (x < 0) paste0("-", text) else text
}

# The sum of fractions; NA if one is.
sum_of <- function(x) if (length(x) == 0) gmp::as.bigq(0) else if (anyNA(x)) gmp::NA_bigq_ else sum(x)
