# Makes COUNT random graphs of 2 to 6 hypotheses through the R package `welungad`. A third have epsilon, a fifth are two graphs with
# shares.
#
#     Rscript bench/random.R PROGRAM SEED COUNT
#
# On each graph it checks:
# - the weights of the graphs after each rejection, and after random removals, are those that the program prints;
# - the closed test, the bounds and the decision agree;
# - the evidence for the decision holds.
# Stops at the first difference. Prints how many graphs agree, and how many are too wide.
library(welungad)

arguments <- commandArgs(TRUE)
Sys.setenv(WELUNGAD = arguments[1])
set.seed(as.integer(arguments[2]))

# A row of edges with a small common denominator; with epsilon a part of one edge goes to a hypothesis that had none.
random_row <- function(n, i, with_epsilon) {
  parts <- sample(0:3, n, replace = TRUE)
  parts[i] <- 0
  texts <- ifelse(parts == 0, "0", paste0(parts, "/", max(1, sum(parts) + sample(0:1, 1))))
  free <- setdiff(which(parts == 0), i)
  some <- which(parts > 0)
  if (with_epsilon && length(free) && length(some)) {
    small <- sample(c("\\epsilon", "\\epsilon^2"), 1)
    texts[free[1]] <- small
    texts[some[1]] <- paste0(texts[some[1]], "-", small)
  }
  texts
}

random_graph <- function(n, with_epsilon) {
  parts <- sample(0:4, n, replace = TRUE)
  weights <- paste0(parts, "/", max(1, sum(parts) + sample(0:1, 1)))
  graph_create(weights, t(vapply(seq_len(n), random_row, character(n), n = n, with_epsilon = with_epsilon)))
}

# Whether all agrees; the status of a refusal.
agrees <- function(graph, p) {
  n <- length(graph$names)
  decision <- graph_test(graph, p)
  closed <- graph_test_closure(graph, p)
  stopifnot(
    graph_steps(decision)$compared,
    graph_update(graph, sample(n, sample(n, 1)))$compared,
    identical(closed$rejected, decision$rejected),
    identical(closed$bound, graph_bounds(graph, p)$bound),
    graph_check(graph, p, evidence = graph_evidence(graph, p))$yes
  )
  TRUE
}

done <- 0
wide <- 0
for (k in seq_len(as.integer(arguments[3]))) {
  n <- sample(2:6, 1)
  graph <- random_graph(n, k %% 3 == 0)
  if (k %% 5 == 0) graph <- graph_entangle(graph, random_graph(n, FALSE), shares = c("1/3", "2/3"))
  p <- sample(c(0, 0.001, 0.005, 0.01, 0.0125, 0.025, 0.03, 0.5), n, replace = TRUE)
  answer <- tryCatch(agrees(graph, p), welungad_refusal = function(refusal) refusal$status)
  stopifnot(isTRUE(answer) || answer == 5L)
  if (isTRUE(answer)) done <- done + 1 else wide <- wide + 1
}
cat(done, "graphs agree,", wide, "are too wide\n")
