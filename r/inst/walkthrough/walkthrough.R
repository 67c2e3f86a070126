# Five cases, from graph to answer. walkthrough.txt beside this script has its output.
library(welungad)

## ---- diabetes ----
# 1. The diabetes trial.
# Two doses, each with a primary endpoint (H1, H2) and a secondary one (H3, H4). The published graph and p-values
# (Bretz and others, 2011), at the one-sided level 0.025.
transitions <- rbind(
  H1 = c(0, 1 / 2, 1 / 2, 0),
  H2 = c(1 / 2, 0, 0, 1 / 2),
  H3 = c(0, 1, 0, 0),
  H4 = c(1, 0, 0, 0)
)
diabetes <- graph_create(c(H1 = 1 / 2, H2 = 1 / 2, H3 = 0, H4 = 0), transitions)
diabetes

p <- c(H1 = 0.018, H2 = 0.01, H3 = 0.105, H4 = 0.006)
decision <- graph_test(diabetes, p, alpha = 0.025)
decision

# The same as exact fractions.
print(decision, exact = TRUE)

# The graph after each rejection, and the closed test that the decision is of.
print(graph_steps(decision), all = TRUE)
graph_test_closure(diabetes, p, alpha = 0.025)

# A lower bound on how many of H1 and H2 are false.
bound_of(graph_bounds(diabetes, p), c("H1", "H2"))

## ---- holm ----
# 2. Holm's procedure with seven hypotheses, from doubles.
# R's 1/7 and 1/6 are rounded; they are read as the fractions that they stand for.
n <- 7
transitions <- matrix(1 / (n - 1), n, n)
diag(transitions) <- 0
holm <- graph_create(rep(1 / n, n), transitions)
holm

p <- c(0.0004, 0.05, 1 / 240, 0.0031, 0.2, 0.0062, 0.02)
decision <- graph_test(holm, p, alpha = 0.025)
decision

# The same adjusted p-values as p.adjust finds with doubles.
all.equal(unname(decision$adjusted), p.adjust(p, "holm"))

# A sum above 1 is refused, with its amount.
refusal <- tryCatch(graph_create(c(0.3333334, 0.3333333, 0.3333334), matrix(0, 3, 3)), welungad_refusal = identity)
cat(conditionMessage(refusal), "\n")

## ---- gatekeeping ----
# 3. Improved parallel gatekeeping, with epsilon.
# The secondary hypotheses pass an infinitesimal part back to the primary ones.
improved <- graph_create(c(A = 1 / 2, B = 1 / 2, C = 0, D = 0), rbind(
  c("0", "0", "1/2", "1/2"),
  c("0", "0", "1/2", "1/2"),
  c("\\epsilon", "0", "0", "1-\\epsilon"),
  c("0", "\\epsilon", "1-\\epsilon", "0")
))
improved

decision <- graph_test(improved, c(0.02, 0.04, 0.01, 0.02), alpha = 0.05)
decision

# Without C the edges from D are quotients in epsilon.
graph_update(improved, "C")

## ---- staged ----
# 4. A staged trial, by levels.
# Overall survival spends 0.003 and 0.022 while it has the whole level, and in proportion at other weights. Progression-free
# survival has a table: the levels of a row count from its weight on. OS begins with the weight 1/2, so at = 1 says that its levels
# are those of the whole level.
trial <- graph_create(c(OS = 1 / 2, PFS = 1 / 2), rbind(c(0, 1), c(1, 0)), labels = c("overall survival", "progression-free"))
levels <- list(OS = c(0.003, 0.022), PFS = rbind("1/2" = c(0.005, 0.0075), "1" = c(0.01, 0.015)))
looks <- data.frame(
  hypothesis = c("PFS", "OS", "OS"),
  stage = c(1, 1, 2),
  p = c(0.004, 0.01, 0.02)
)
graph_stages(trial, levels, looks, alpha = 0.025, at = 1)

## ---- evidence ----
# 5. Evidence for a reviewer.
# The sponsor archives the case in its one spelling and the evidence.
p <- c(H1 = 0.018, H2 = 0.01, H3 = 0.105, H4 = 0.006)
proof <- graph_evidence(diabetes, p)
case_file <- tempfile(fileext = ".txt")
proof_file <- tempfile(fileext = ".txt")
writeLines(proof$case, case_file)
writeLines(proof$evidence, proof_file)
proof

# The reviewer reads both files and has the evidence checked: no decision is made again.
case <- graph_read(case_file)
check <- graph_check(case$graph, case$p, case$alpha, evidence = readLines(proof_file))
check

# The same evidence doesn't hold for a p-value that is too large.
graph_check(case$graph, replace(case$p, "H1", "0.02"), case$alpha, evidence = readLines(proof_file))
unlink(c(case_file, proof_file))
