# Numbers with an infinitesimal epsilon: quotients of polynomials with exact coefficients, as texts are read and written. The package computes
# with none: it puts the quotients of updated graphs in lowest terms, shows the sum of a row, and gives limits and values at a number.

epsilon <- "\\epsilon"

# A polynomial is a vector of fractions by ascending power, without zeros at its end.
trimmed <- function(p) {
  last <- max(c(1L, which(p != 0)))
  p[seq_len(last)]
}

padded <- function(p, n) if (length(p) < n) c(p, gmp::as.bigq(rep(0, n - length(p)))) else p

poly_add <- function(a, b) {
  n <- max(length(a), length(b))
  trimmed(padded(a, n) + padded(b, n))
}

is_zero_poly <- function(p) length(p) == 1 && p[1] == 0

# The quotient and the remainder.
poly_divide <- function(a, b) {
  quotient <- gmp::as.bigq(rep(0, max(1L, length(a) - length(b) + 1L)))
  while (length(a) >= length(b) && !is_zero_poly(a)) {
    shift <- length(a) - length(b)
    factor <- a[length(a)] / b[length(b)]
    quotient[shift + 1L] <- factor
    at <- shift + seq_along(b)
    a[at] <- a[at] - factor * b
    if (length(a) == 1) break
    a <- trimmed(a[seq_len(length(a) - 1L)])
  }
  list(quotient = trimmed(quotient), remainder = trimmed(a))
}

poly_gcd <- function(a, b) {
  while (!is_zero_poly(b)) {
    rest <- poly_divide(a, b)$remainder
    a <- b
    b <- rest
  }
  a
}

# One quotient in lowest terms; the lowest coefficient of its denominator that is not 0 is 1.
quotient <- function(n, d = gmp::as.bigq(1)) {
  if (is_zero_poly(n)) return(list(n = n, d = gmp::as.bigq(1)))
  if (length(d) > 1) {
    common <- poly_gcd(n, d)
    n <- poly_divide(n, common)$quotient
    d <- poly_divide(d, common)$quotient
  }
  lowest <- d[which(d != 0)[1]]
  list(n = n / lowest, d = d / lowest)
}

# The limits of numbers as epsilon goes to 0 from above.
limits_of <- function(texts) {
  if (!any(grepl(epsilon, texts, fixed = TRUE))) return(fraction(texts))
  do.call(c, lapply(quotients_of(texts), function(q) q$n[1] / q$d[1]))
}

# The values of numbers with epsilon, if it is this number.
values_of <- function(texts, value) {
  do.call(c, lapply(quotients_of(texts), function(q) polynomial_at(q$n, value) / polynomial_at(q$d, value)))
}

polynomial_at <- function(p, value) {
  out <- gmp::as.bigq(0)
  for (i in rev(seq_along(p))) out <- out * value + p[i]
  out
}

# ---- texts

# The polynomial that the program printed: its terms by ascending power, as 1-\epsilon or 1/2*\epsilon^2.
entry_polynomial <- function(text) {
  terms <- regmatches(text, gregexpr("[-+]?[^-+]+", text))[[1]]
  out <- gmp::as.bigq(rep(0, 5))
  for (term in terms) {
    negative <- startsWith(term, "-")
    term <- sub("^[-+]", "", term)
    parts <- strsplit(term, epsilon, fixed = TRUE)[[1]]
    has <- grepl(epsilon, term, fixed = TRUE)
    power <- if (!has) 0L else if (length(parts) == 2) as.integer(sub("^\\^", "", parts[2])) else 1L
    number <- sub("\\*$", "", if (length(parts)) parts[1] else "")
    value <- if (nzchar(number)) gmp::as.bigq(number) else gmp::as.bigq(1)
    if (power + 1L > length(out)) out <- padded(out, power + 1L)
    out[power + 1L] <- if (negative) value * gmp::as.bigq(-1) else value
  }
  trimmed(out)
}

# The quotients of texts.
quotients_of <- function(texts) {
  lapply(texts, function(text) {
    parts <- regmatches(text, regexec("^[(]?([^()]*)[)]?/[(]([^()]*)[)]$", text))[[1]]
    if (length(parts)) quotient(entry_polynomial(parts[2]), entry_polynomial(parts[3])) else quotient(entry_polynomial(text))
  })
}

polynomial_text <- function(p) {
  texts <- vapply(seq_along(p), function(i) {
    value <- p[i]
    if (value == 0) return("")
    size <- as.character(abs(value))
    factor <- if (i == 1) "" else if (i == 2) epsilon else paste0(epsilon, "^", i - 1L)
    paste0(if (value < 0) "-" else "+", if (i == 1) size else if (size == "1") factor else paste0(size, "*", factor))
  }, "")
  text <- sub("^\\+", "", paste(texts, collapse = ""))
  if (nzchar(text)) text else "0"
}

quotient_text <- function(q) {
  if (length(q$d) == 1) return(polynomial_text(q$n))
  parts <- c(q$n, q$d)
  scale <- gmp::as.bigq(1)
  for (i in seq_along(parts)) scale <- scale * gmp::as.bigq(gmp::denominator(parts[i] * scale))
  above <- polynomial_text(q$n * scale)
  paste0(if (length(q$n) == 1) above else paste0("(", above, ")"), "/(", polynomial_text(q$d * scale), ")")
}
