# Updated graphs by the formula of Bretz, Maurer, Brannath and Posch (2009), with which the tests compare those of the proved call. The
# package computed them so before the C library printed them.

# ---- quotients in epsilon

quotients <- function(parts) structure(parts, class = "welungad_quotients")

`[.welungad_quotients` <- function(x, i) quotients(unclass(x)[i])

`[<-.welungad_quotients` <- function(x, i, value) quotients(replace(unclass(x), i, unclass(as_quotients(value))))

as_quotients <- function(x) {
  if (inherits(x, "welungad_quotients")) return(x)
  x <- gmp::as.bigq(x)
  quotients(lapply(seq_along(x), function(i) welungad:::quotient(x[i])))
}

poly_multiply <- function(a, b) {
  out <- gmp::as.bigq(rep(0, length(a) + length(b) - 1L))
  for (i in seq_along(a)) {
    at <- i - 1L + seq_along(b)
    out[at] <- out[at] + a[i] * b
  }
  welungad:::trimmed(out)
}

add_quotients <- function(a, b) {
  welungad:::quotient(welungad:::poly_add(poly_multiply(a$n, b$d), poly_multiply(b$n, a$d)), poly_multiply(a$d, b$d))
}

Ops.welungad_quotients <- function(e1, e2) {
  minus <- function(x) list(n = x$n * gmp::as.bigq(-1), d = x$d)
  one <- switch(.Generic,
    "+" = add_quotients,
    "-" = function(x, y) add_quotients(x, minus(y)),
    "*" = function(x, y) welungad:::quotient(poly_multiply(x$n, y$n), poly_multiply(x$d, y$d)),
    "/" = function(x, y) welungad:::quotient(poly_multiply(x$n, y$d), poly_multiply(x$d, y$n)),
    stop("not defined for quotients in epsilon: ", .Generic, call. = FALSE)
  )
  a <- unclass(as_quotients(e1))
  b <- unclass(as_quotients(e2))
  quotients(if (length(a) && length(b)) unname(mapply(one, a, b, SIMPLIFY = FALSE)) else list())
}

# Numbers from texts: fractions if no text has an epsilon, else quotients.
numbers_of_texts <- function(texts) {
  has <- any(grepl("\\epsilon", texts, fixed = TRUE))
  if (has) quotients(welungad:::quotients_of(texts)) else welungad:::fraction(texts)
}

# The texts of numbers of either kind.
texts_of_numbers <- function(x) {
  if (inherits(x, "welungad_quotients")) vapply(unclass(x), welungad:::quotient_text, "") else as.character(x)
}

# ---- the formula

# The graphs before the first removal and after each, as lists of names, labels and components.
graphs_by_formula <- function(graph, deleted) {
  graphs <- list(unclass(graph)[c("names", "labels", "components")])
  for (k in seq_along(deleted)) {
    before <- graphs[[k]]
    at <- match(graph$names[deleted[k]], before$names)
    graphs[[k + 1L]] <- list(names = before$names[-at], labels = before$labels[-at],
      components = lapply(before$components, component_by_formula, at = at, labels = before$labels[-at]))
  }
  graphs
}

# What the removed hypothesis has goes along its edges, and edges through it are joined. A hypothesis all of whose weight would come back to
# it gets no edges.
component_by_formula <- function(component, at, labels) {
  m <- length(labels)
  numbers <- numbers_of_texts(c(unname(component$weights), as.vector(component$edges)))
  weights <- numbers[seq_len(m + 1L)]
  edge <- function(from, to) numbers[m + 1L + from + (m + 1L) * (to - 1L)]
  rest <- seq_len(m + 1L)[-at]
  edges <- matrix("0", m, m, dimnames = list(labels, labels))
  if (m > 1) {
    from <- rep(rest, m)
    to <- rep(rest, each = m)
    loops <- texts_of_numbers(edge(from, rep(at, m * m)) * edge(rep(at, m * m), from))
    open <- which(from != to & loops != "1")
    n <- length(open)
    from <- from[open]
    to <- to[open]
    if (n) {
      removed <- rep(at, n)
      loop <- edge(from, removed) * edge(removed, from)
      edges[open] <- texts_of_numbers((edge(from, to) + edge(from, removed) * edge(removed, to)) / (1 - loop))
    }
  }
  after <- if (m) texts_of_numbers(weights[rest] + weights[rep(at, m)] * edge(rep(at, m), rest)) else character()
  list(share = component$share, weights = stats::setNames(after, labels), edges = edges)
}

# The limits of texts.
limits_of_texts <- function(texts) if (length(texts)) as.character(welungad:::limits_of(as.vector(texts))) else character()

# The same components without infinitely small parts.
limits_of_components <- function(components) {
  lapply(components, function(it) {
    it$weights[] <- limits_of_texts(it$weights)
    it$edges[] <- limits_of_texts(it$edges)
    it
  })
}
