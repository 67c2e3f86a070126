# calls.R PROGRAM: microseconds a decision takes from R, on Holm's graph of 3, 16 and 64 hypotheses, side by side:
# - in process, the proved call alone (welungad_run on a text that is there);
# - in process, graph_test, which also reads R's numbers and makes a table of the answer;
# - in process, a row of graph_test_many, which makes no table;
# - by the program, started for each call;
# - by the algorithm in plain R with doubles, decision and adjusted p-values, which proves and refuses nothing: by loops, and
#   by whole matrices.
# Each number is the least of five rounds, elapsed. A second table has the seconds of 100,000 trials of three and of sixteen hypotheses:
# by graph_test_many, and by graph_test and plain R a trial, which are measured on 5,000 of the trials and multiplied by 20. The
# package `welungad` has to be installed with the C library; without it the numbers that need it are NA. The gate requires none
# of these figures. A third table has the seconds of all intersections of sixteen hypotheses (graph_test_closure, graph_simes and
# graph_weights), and of the graphs of a decision of 64 (graph_steps): on Holm's graph, and on one whose weights are all different.
library(welungad)

program <- commandArgs(TRUE)
if (length(program)) Sys.setenv(WELUNGAD = program[1])
ways <- welungad:::welungad_ways()

# The graphical procedure of Bretz, Maurer, Brannath and Posch (2009) in doubles, with loops as the definition reads: the
# hypothesis with the least ratio of p-value to weight goes first, and the greatest ratio so far is its adjusted p-value.
plain <- function(weights, edges, p, alpha) {
  m <- length(weights)
  left <- rep(TRUE, m)
  adjusted <- rep(1, m)
  so_far <- 0
  for (step in seq_len(m)) {
    ratio <- ifelse(left & weights > 0, p / weights, Inf)
    j <- which.min(ratio)
    if (ratio[j] > 1) break
    so_far <- max(so_far, ratio[j])
    adjusted[j] <- so_far
    left[j] <- FALSE
    weights <- weights + weights[j] * edges[j, ]
    weights[j] <- 0
    updated <- matrix(0, m, m)
    for (l in which(left)) {
      loss <- 1 - edges[l, j] * edges[j, l]
      if (loss <= 0) next
      for (k in which(left)) if (k != l) updated[l, k] <- (edges[l, k] + edges[l, j] * edges[j, k]) / loss
    }
    edges <- updated
  }
  list(rejected = which(adjusted <= alpha), adjusted = adjusted)
}

# The same by whole matrices.
plain_by_matrices <- function(weights, edges, p, alpha) {
  left <- rep(TRUE, length(weights))
  adjusted <- rep(1, length(weights))
  so_far <- 0
  for (step in seq_along(weights)) {
    ratio <- ifelse(left & weights > 0, p / weights, Inf)
    j <- which.min(ratio)
    if (ratio[j] > 1) break
    so_far <- max(so_far, ratio[j])
    adjusted[j] <- so_far
    left[j] <- FALSE
    weights <- weights + weights[j] * edges[j, ]
    weights[j] <- 0
    loss <- 1 - edges[, j] * edges[j, ]
    edges <- (edges + outer(edges[, j], edges[j, ])) * ifelse(loss > 0, 1 / loss, 0)
    diag(edges) <- 0
    edges[j, ] <- 0
    edges[, j] <- 0
  }
  list(rejected = which(adjusted <= alpha), adjusted = adjusted)
}

# Microseconds a call, the least of five rounds of about a fifth of a second each.
least <- function(call) {
  call()
  once <- max(system.time(call())[["elapsed"]], 1e-4)
  count <- max(1, min(5000, round(0.2 / once)))
  rounds <- replicate(5, system.time(for (i in seq_len(count)) call())[["elapsed"]])
  min(rounds) / count * 1e6
}

by <- function(way, call) {
  if (!way %in% ways) return(NA)
  old <- options(welungad.way = way)
  on.exit(options(old))
  least(call)
}

row <- function(n) {
  weights <- rep(1 / n, n)
  edges <- matrix(1 / (n - 1), n, n)
  diag(edges) <- 0
  p <- round(seq(0.0001, 0.0003, length.out = n), 6)
  rows <- matrix(p, if (n < 64) 200 else 20, n, byrow = TRUE)
  graph <- graph_create(weights, edges)
  case <- charToRaw(welungad:::case_of(graph, p, 0.025)$text)
  decided <- graph_test(graph, p)
  for (own in list(plain(weights, edges, p, 0.025), plain_by_matrices(weights, edges, p, 0.025))) {
    stopifnot(all(decided$rejected), length(own$rejected) == n, isTRUE(all.equal(own$adjusted, unname(decided$adjusted))))
  }
  data.frame(
    hypotheses = n,
    call = by("library", function() welungad_run("test", case)),
    graph_test = by("library", function() graph_test(graph, p)),
    many = by("library", function() graph_test_many(graph, rows)) / nrow(rows),
    program = by("program", function() welungad_run("test", case)),
    plain = least(function() plain(weights, edges, p, 0.025)),
    matrices = least(function() plain_by_matrices(weights, edges, p, 0.025))
  )
}

table <- do.call(rbind, lapply(c(3, 16, 64), row))
names(table) <- c("hypotheses", "in process", "graph_test", "a row of many", "program started", "plain R, loops", "plain R, matrices")
cat("microseconds a decision\n")
print(format(table, digits = 3), row.names = FALSE)

# ---- 100,000 trials

trials <- 1e5
tried <- 5000

seconds <- function(call) system.time(call())[["elapsed"]]

# Seconds of all trials by a function of one, from some of them.
each <- function(P, decide) seconds(function() for (i in seq_len(tried)) decide(P[i, ])) * trials / tried

many_row <- function(n) {
  set.seed(n)
  weights <- rep(1 / n, n)
  edges <- matrix(1 / (n - 1), n, n)
  diag(edges) <- 0
  P <- matrix(pmax(runif(trials * n)^3, 1e-12), trials, n)
  graph <- graph_create(weights, edges)
  options(welungad.way = "library")
  time <- seconds(function() found <<- graph_test_many(graph, P))
  for (i in 1:200) stopifnot(identical(which(unname(found[i, ])), plain(weights, edges, P[i, ], 0.025)$rejected))
  data.frame(
    hypotheses = n,
    many = time,
    graph_test = each(P, function(p) graph_test(graph, p)),
    plain = each(P, function(p) plain(weights, edges, p, 0.025)),
    matrices = each(P, function(p) plain_by_matrices(weights, edges, p, 0.025))
  )
}

if ("library" %in% ways) {
  found <- NULL
  table <- do.call(rbind, lapply(c(3, 16), many_row))
  names(table) <- c("hypotheses", "graph_test_many", "graph_test", "plain R, loops", "plain R, matrices")
  cat("seconds for 100,000 trials\n")
  print(format(table, digits = 3), row.names = FALSE)
}

# ---- all intersections, and graphs after rejections

# A graph whose weights are different fractions. With different edges too, 16 hypotheses are too wide.
different <- function(n) {
  set.seed(n)
  weights <- sample(1:99, n)
  edges <- matrix(paste0("1/", n - 1), n, n)
  diag(edges) <- "0"
  graph_create(as_exact(gmp::as.bigq(weights, sum(weights))), edges)
}

# The least of three rounds, in seconds.
quickest <- function(call) min(replicate(3, seconds(call)))

set_row <- function(name, make) {
  graph <- make(16)
  p <- round(seq(0.0001, 0.0003, length.out = 16), 6)
  wide <- tryCatch(graph_test(make(64), round(seq(0.0001, 0.0003, length.out = 64), 6)), welungad_refusal = function(refusal) NULL)
  data.frame(
    graph = name,
    closure = quickest(function() graph_test_closure(graph, p)),
    simes = quickest(function() graph_simes(graph, p)),
    weights = quickest(function() graph_weights(graph)),
    steps = if (is.null(wide)) NA else quickest(function() graph_steps(wide))
  )
}

for (way in ways) {
  options(welungad.way = way)
  table <- rbind(set_row("Holm", graph_holm), set_row("different weights", different))
  names(table) <- c("graph", "graph_test_closure", "graph_simes", "graph_weights", "graph_steps of 64")
  cat("seconds for all intersections of 16, and for graphs of 64, by the ", way, "\n", sep = "")
  print(format(table, digits = 2), row.names = FALSE)
}
