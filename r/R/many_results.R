# Results of many trials: a logical matrix with a row for each trial, which knows its graph and its level.

new_many <- function(rejected, graph, level) {
  structure(rejected, graph = graph, alpha = level, class = c("welungad_many", "matrix", "array"))
}

as.matrix.welungad_many <- function(x, ...) {
  attr(x, "graph") <- NULL
  attr(x, "alpha") <- NULL
  unclass(x)
}

format.welungad_many <- function(x, ...) {
  paste0(count_of(nrow(x), "trial"), " of ", count_of_hypotheses(ncol(x)), " at level ", level_text(attr(x, "alpha")))
}

# The shares of trials, with their standard errors: of those that reject each hypothesis, any and all of them, and the mean number of
# rejections. Trials without a decision are left out.
summary.welungad_many <- function(object, ...) {
  rejected <- as.matrix(object)
  decided <- !is.na(rejected[, 1])
  rejected <- rejected[decided, , drop = FALSE]
  count <- rowSums(rejected)
  values <- cbind(rejected, count > 0, count == ncol(rejected), count)
  trials <- nrow(rejected)
  mean <- colMeans(values)
  # of shares this is the root of share * (1 - share) / trials
  spread <- sqrt(pmax(colMeans(values^2) - mean^2, 0))
  shares <- seq_len(ncol(rejected) + 2L)
  spread[-shares] <- if (trials > 1) spread[-shares] * sqrt(trials / (trials - 1)) else NA
  table <- data.frame(rejected = c(colnames(rejected), "any", "all", "number"), mean = unname(mean), error = unname(spread) / sqrt(trials),
    stringsAsFactors = FALSE)
  structure(list(head = format(object), table = table, trials = trials, undecided = sum(!decided)), class = "welungad_many_summary")
}

as.data.frame.welungad_many_summary <- function(x, ...) {
  check_dots(..., allowed = frame_arguments)
  x$table
}

print.welungad_many_summary <- function(x, digits = 4, ...) {
  check_dots(...)
  cat(x$head, "\n", sep = "")
  if (x$undecided) cat(count_of(x$undecided, "trial"), " without a decision, left out\n", sep = "")
  table <- x$table
  write_table(cbind(rejected = table$rejected, mean = shown(table$mean, digits), "standard error" = shown(table$error, 2)))
  invisible(x)
}

`$.welungad_many_summary` <- function(x, name) part_of(x, name)

# The shares, since there can be many rows; as.matrix(x) has them.
print.welungad_many <- function(x, ...) {
  print(summary(x), ...)
  cat("as.matrix(x) has the decision of each trial\n")
  invisible(x)
}

head.welungad_many <- function(x, n = 6L, ...) utils::head(as.matrix(x), n, ...)

tail.welungad_many <- function(x, n = 6L, ...) utils::tail(as.matrix(x), n, ...)

t.welungad_many <- function(x) t(as.matrix(x))

# What is computed from decisions is a plain matrix.
Ops.welungad_many <- function(e1, e2) {
  plain <- function(x) if (inherits(x, "welungad_many")) as.matrix(x) else x
  if (missing(e2)) do.call(.Generic, list(plain(e1))) else do.call(.Generic, list(plain(e1), plain(e2)))
}
