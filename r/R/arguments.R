# Arguments that a call does not have. One that another package has is an error that says what to write here.

# What R's own functions hand to as.data.frame.
frame_arguments <- c("row.names", "optional", "stringsAsFactors", "make.names", "nm", "check.names", "cut.names", "col.names", "fix.empty.names")

# Stops at an argument that nothing reads, such as a misspelt one. `instead` has what to write in place of arguments of other packages.
check_dots <- function(..., allowed = character(), instead = character()) {
  if (...length() == 0) return(invisible())
  given <- as.list(substitute(list(...)))[-1]
  known <- if (is.null(names(given))) rep(FALSE, length(given)) else names(given) %in% allowed
  if (all(known)) return(invisible())
  wrong <- names(given)[!known][1]
  if (is.null(wrong) || !nzchar(wrong)) stop("there are more arguments than this call has", call. = FALSE)
  refuse_argument(wrong, instead)
}

refuse_argument <- function(name, instead) {
  stop_at(name, "this call has no such argument", if (name %in% names(instead)) c(": ", instead[[name]]))
}

# ---- what graphicalMCP and gMCP call arguments, and what to write here

# Of calls that decide with p-values.
p_arguments <- c(
  pvalues = "write p = ..",
  test_groups = "all hypotheses have one kind of test",
  test_corr = "there are no parametric tests, which use the correlation of the test statistics",
  correlation = "there are no parametric tests, which use the correlation of the test statistics",
  test_values = "as.data.frame(x), for a result x, has the values",
  upscale = "weights that sum to less than 1 stay as they are"
)

kind_of_test <- "graph_test_closure(graph, p, test = \"simes\") and graph_simes(graph, p) test by Simes"

decision_arguments <- c(
  p_arguments,
  test = kind_of_test,
  test_types = kind_of_test,
  verbose = "graph_steps(x) and graph_rejections(x), for a result x, have the graphs and the steps"
)

closure_arguments <- c(
  p_arguments,
  test_types = "write test = \"bonferroni\" or test = \"simes\", for all hypotheses",
  verbose = "print(x) and as.data.frame(x), for a result x, have each intersection"
)

bounds_arguments <- c(p_arguments, test = kind_of_test, test_types = kind_of_test)

rows_of_pvalues <- "write P = .., with a row for each trial"

many_arguments <- c(p_arguments[names(p_arguments) != "pvalues"], pvalues = rows_of_pvalues, p = rows_of_pvalues, test = "all tests are Bonferroni's",
  test_types = "all tests are Bonferroni's")

order_arguments <- c(p_arguments, shortcut_test_result = "write x = ..")

create_arguments <- c(
  weights = "write hypotheses = ..",
  m = "write transitions = ..",
  names = "write hyp_names = .."
)

update_arguments <- c(
  node = "write delete = ..",
  nodes = "write delete = ..",
  verbose = "print(x, all = TRUE), for the result x, shows all graphs"
)

weights_arguments <- c(w = "a graph has its weights: graph_create(weights, edges) makes one")

# Of the functions that make the graph of a known procedure.
named_arguments <- c(
  hypotheses = "write weights = ..",
  hyp_names = "write names = ..",
  num_hyps = "write size = ..",
  epsilon = "epsilon stays a symbol"
)

entangled_arguments <- c(
  weights = "write shares = .., one for each graph",
  subgraphs = "give the graphs themselves, or one list of them"
)
