# Named graphs. Each function builds the graph of a known procedure and nothing else: its weights, and its edges as exact texts.

# ---- one family

graph_bonferroni <- function(size = NULL, weights = NULL, names = NULL, ...) {
  check_dots(..., instead = named_arguments)
  family <- family_of(size, weights, names)
  named_graph(family, no_edges(family$size))
}

graph_holm <- function(size = NULL, weights = NULL, names = NULL, ...) {
  check_dots(..., instead = named_arguments)
  family <- family_of(size, weights, names)
  named_graph(family, holm_edges(family))
}

graph_fixed_sequence <- function(size = NULL, names = NULL, ...) {
  check_dots(..., instead = named_arguments)
  family <- family_of(size, NULL, names)
  family$weights <- c("1", rep("0", family$size - 1L))
  named_graph(family, next_edges(family$size))
}

graph_fallback <- function(size = NULL, weights = NULL, names = NULL, ...) {
  check_dots(..., instead = named_arguments)
  family <- family_of(size, weights, names)
  named_graph(family, next_edges(family$size))
}

# The last hypothesis passes its weight back to the others, in proportion to their weights.
graph_fallback_improved_1 <- function(size = NULL, weights = NULL, names = NULL, ...) {
  check_dots(..., instead = named_arguments)
  family <- family_of(size, weights, names)
  n <- family$size
  edges <- next_edges(n)
  if (n > 1) {
    others <- fraction(family$weights)[-n]
    if (sum_of(others) == 0) stop_at("weights", "a hypothesis before the last one needs a weight above 0")
    edges[n, -n] <- as.character(others / sum_of(others))
  }
  named_graph(family, edges)
}

# Each hypothesis passes its weight back to the first one, but an infinitesimal part to the next one.
graph_fallback_improved_2 <- function(size = NULL, weights = NULL, names = NULL, ...) {
  check_dots(..., instead = named_arguments)
  family <- family_of(size, weights, names)
  n <- family$size
  edges <- next_edges(n)
  middle <- seq_len(n)[-c(1, n)]
  edges[cbind(middle, middle + 1L)] <- epsilon
  edges[middle, 1] <- paste0("1-", epsilon)
  if (n > 1) edges[n, 1] <- "1"
  named_graph(family, edges)
}

# ---- two families

graph_gatekeeping_serial <- function(primary, secondary, weights = NULL, names = NULL, ...) {
  check_dots(..., instead = named_arguments)
  families <- two_families(primary, secondary, weights, names)
  edges <- gate_edges(families)
  own <- holm_edges(families$first)
  if (families$first$size > 1) {
    edges[families$one, families$one] <- ifelse(own == "0", "0", paste0("(1-", epsilon, ")*", own))
    edges[families$one, families$two] <- paste0(epsilon, "*", part_text(length(families$two)))
  }
  named_graph(families, edges)
}

graph_gatekeeping_parallel <- function(primary, secondary, weights = NULL, names = NULL, ...) {
  check_dots(..., instead = named_arguments)
  families <- two_families(primary, secondary, weights, names)
  named_graph(families, gate_edges(families))
}

# Each secondary hypothesis passes an infinitesimal part back to a primary one, by turns.
graph_gatekeeping_improved <- function(primary, secondary, weights = NULL, names = NULL, ...) {
  check_dots(..., instead = named_arguments)
  families <- two_families(primary, secondary, weights, names)
  edges <- gate_edges(families)
  one <- families$one
  two <- families$two
  others <- edges[two, two]
  edges[two, two] <- ifelse(others == "0", "0", paste0("(1-", epsilon, ")*", others))
  edges[cbind(two, one[(seq_along(two) - 1L) %% length(one) + 1L])] <- if (length(two) > 1) epsilon else "1"
  named_graph(families, edges)
}

# Two primary hypotheses. A rejected one passes the part gamma of its weight to the other one, as in Holm's procedure.
graph_truncated_holm <- function(gamma, secondary = 2, names = NULL, ...) {
  check_dots(..., instead = named_arguments)
  gamma <- part_given(gamma, "gamma")
  families <- two_families(2L, secondary, NULL, names)
  edges <- gate_edges(families)
  edges[families$one, families$two] <- paste0("(1-(", gamma, "))*", part_text(length(families$two)))
  edges[1, 2] <- edges[2, 1] <- gamma
  named_graph(families, edges)
}

# ---- two doses or endpoints, each with a primary and a secondary hypothesis

graph_simple_successive_1 <- function(weights = NULL, names = NULL, ...) {
  check_dots(..., instead = named_arguments)
  named_graph(two_families(2L, 2L, weights, names), rbind(
    c("0", "0", "1", "0"),
    c("0", "0", "0", "1"),
    c("0", "1", "0", "0"),
    c("1", "0", "0", "0")
  ))
}

graph_simple_successive_2 <- function(weights = NULL, names = NULL, ...) {
  check_dots(..., instead = named_arguments)
  graph_general_successive("1/2", "1/2", weights, names)
}

graph_general_successive <- function(gamma, delta, weights = NULL, names = NULL, ...) {
  check_dots(..., instead = named_arguments)
  gamma <- part_given(gamma, "gamma")
  delta <- part_given(delta, "delta")
  named_graph(two_families(2L, 2L, weights, names), rbind(
    c("0", gamma, rest_of(gamma), "0"),
    c(delta, "0", "0", rest_of(delta)),
    c("0", "1", "0", "0"),
    c("1", "0", "0", "0")
  ))
}

# ---- graphs of publications

graph_huque_2011 <- function(names = NULL, ...) {
  check_dots(..., instead = named_arguments)
  fixed_graph(c("1", "0", "0", "0"), names, rbind(
    c("0", "1/2", "1/2", "0"),
    c("0", "0", "0", "1"),
    c("0", "1/2", "0", "1/2"),
    c("0", "1", "0", "0")
  ))
}

graph_bretz_2011 <- function(names = NULL, ...) {
  check_dots(..., instead = named_arguments)
  if (is.null(names)) names <- c("H11", "H21", "H31", "H12", "H22", "H32")
  fixed_graph(c("1/3", "1/3", "1/3", "0", "0", "0"), names, rbind(
    c("0", "1/2", "0", "1/2", "0", "0"),
    c("1/3", "0", "1/3", "0", "1/3", "0"),
    c("0", "1/2", "0", "0", "0", "1/2"),
    c("0", "1", "0", "0", "0", "0"),
    c("1/2", "0", "1/2", "0", "0", "0"),
    c("0", "1", "0", "0", "0", "0")
  ))
}

graph_hung_wang_2010 <- function(nu, tau, omega, names = NULL, ...) {
  check_dots(..., instead = named_arguments)
  nu <- part_given(nu, "nu")
  tau <- part_given(tau, "tau")
  omega <- part_given(omega, "omega")
  if (is.null(names)) names <- c("NI1", "S1", "NI2", "S2")
  fixed_graph(c("1", "0", "0", "0"), names, rbind(
    c("0", nu, rest_of(nu), "0"),
    c("0", "0", tau, rest_of(tau)),
    c("0", omega, "0", rest_of(omega)),
    "0"
  ))
}

# ---- what they have in common

# A family of hypotheses: their number, their weights and their names, of which one is enough. Without weights they are equal.
family_of <- function(size, weights, names) {
  # R takes an argument n, of other packages, for the beginning of names
  if (is_number(names) && length(names) == 1) stop_at("names", double_text(names), " is a number: write size = .. for that of the hypotheses")
  weights <- weights_read(weights, names)
  if (is.null(names) && !is.null(weights)) names <- weights$names
  n <- size_of(list(size = if (!is.null(size)) count_given(size, "size"), weights = if (!is.null(weights)) length(weights),
    names = if (!is.null(names)) length(names)))
  list(size = n, weights = weights_given(weights, names, n), names = names)
}

# The number of hypotheses that all that is given agrees on.
size_of <- function(sizes) {
  sizes <- Filter(Negate(is.null), sizes)
  if (length(sizes) == 0) stop_at("size", "the number of hypotheses is needed, or their weights or names")
  other <- which(sizes != sizes[[1]])
  if (length(other)) {
    stop_at(names(sizes)[other[1]], count_of_hypotheses(sizes[[other[1]]]), " given, and by ", names(sizes)[1], " ", whole_text(sizes[[1]]))
  }
  sizes[[1]]
}

# The weights as they were read, for hypotheses with these names; NULL if none are given.
weights_read <- function(weights, names) {
  if (is.null(weights)) return(NULL)
  if (!is.null(names)) check_counted_rows(weights, list(texts_in(names, "names")), "weights")
  exact_vector(weights, "weights")
}

# The weights in the order of the names, as texts; equal ones if none are given.
weights_given <- function(weights, names, n) {
  if (is.null(weights)) return(rep(part_text(n), n))
  if (!is.null(names)) weights <- arranged(weights, list(texts_in(names, "names")), "weights")
  number_texts(weights, "weights")
}

# A family of primary hypotheses, which have the weights, and one of secondary ones. `one` and `two` have their places.
two_families <- function(primary, secondary, weights, names) {
  primary <- count_given(primary, "primary")
  secondary <- count_given(secondary, "secondary")
  weights <- weights_read(weights, names[seq_len(primary)])
  one <- seq_len(primary)
  two <- primary + seq_len(secondary)
  size_of(list(primary = primary, weights = if (!is.null(weights)) length(weights)))
  size_of(list("primary and secondary" = primary + secondary, names = if (!is.null(names)) length(names)))
  first <- list(size = primary, weights = weights_given(weights, if (!is.null(names)) names[one], primary))
  list(size = primary + secondary, weights = c(first$weights, rep("0", secondary)), names = names, first = first, one = one, two = two)
}

count_given <- function(x, what) {
  if (missing(x)) stop_at(what, "the number of hypotheses is needed, such as 2")
  if (length(x) > 1) {
    stop_at(what, "one number is needed, and not ", whole_text(length(x)), ": write weights = .. for weights, and names = .. for names")
  }
  number <- if (length(x) == 1) whole_numbers(x, what)
  if (length(number) != 1 || number < 1) stop_at(what, "a whole number from 1 on is needed")
  number
}

named_graph <- function(family, edges) graph_create(family$weights, edges, hyp_names = family$names)

fixed_graph <- function(weights, names, edges) {
  size_of(list(graph = length(weights), names = if (!is.null(names)) length(names)))
  graph_create(weights, edges, hyp_names = names)
}

# 1/n as a text.
part_text <- function(n) if (n == 1) "1" else paste0("1/", whole_text(n))

# A part from 0 to 1 that a user gives for an edge, as a text; one with epsilon stays as it is.
part_given <- function(x, what) {
  if (missing(x)) stop_at(what, "a part from 0 to 1 is needed, such as 1/2")
  read <- exact_of(x, what)
  text <- as_text(read$read)
  if (length(text) != 1) stop_at(what, "one number is needed")
  value <- fraction(text)
  if (is.na(value) && !grepl(epsilon, text, fixed = TRUE)) stop_at(what, quoted(text), " is neither a number nor an expression")
  if (!is.na(value) && (value < 0 || value > 1)) stop_at(what, text, " is not from 0 to 1")
  if (is.na(value)) text else as.character(value)
}

# What is left of a whole.
rest_of <- function(part) paste0("1-(", part, ")")

no_edges <- function(n) matrix("0", n, n)

# From each hypothesis to the next one.
next_edges <- function(n) {
  edges <- no_edges(n)
  edges[cbind(seq_len(n - 1L), seq_len(n - 1L) + 1L)] <- "1"
  edges
}

# Between all hypotheses of a family, in proportion to the weights of those that get them.
holm_edges <- function(family) {
  n <- family$size
  edges <- no_edges(n)
  if (n == 1) return(edges)
  if (length(unique(family$weights)) == 1) edges[] <- part_text(n - 1)
  else {
    weights <- fraction(family$weights)
    if (anyNA(weights) || any(weights <= 0)) stop_at("weights", "Holm's procedure needs weights above 0")
    for (i in seq_len(n)) edges[i, -i] <- as.character(weights[-i] / sum_of(weights[-i]))
  }
  diag(edges) <- "0"
  edges
}

# From each primary hypothesis to all secondary ones in equal parts, and between the secondary ones as in Holm's procedure.
gate_edges <- function(families) {
  edges <- no_edges(families$size)
  second <- length(families$two)
  edges[families$one, families$two] <- part_text(second)
  edges[families$two, families$two] <- holm_edges(list(size = second, weights = rep("1", second)))
  edges
}
