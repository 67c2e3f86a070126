# The law of the package: what the user gave and what was decided are the same case, or the user is told. Random graphs are given
# in random classes of input, some of them damaged; the numbers of each label are read back from the text that was decided.

# A random number from 0 to 1 with a double that is read as it: the text of the fraction, and the double.
random_number <- function() {
  if (runif(1) < 0.2) return(list(text = "0", double = 0))
  if (runif(1) < 0.2) {
    decimal <- sprintf("%.*f", sample(5:12, 1), runif(1))
    return(list(text = decimal, double = as.numeric(decimal)))
  }
  d <- sample(c(1:12, 40, 97, 360, 10000), 1)
  n <- sample(0:d, 1)
  list(text = sprintf("%d/%d", n, d), double = n / d)
}

# Numbers of which n sum to at most 1: parts with one denominator.
random_row <- function(n) {
  parts <- sample(0:3, n, replace = TRUE)
  d <- max(1, sum(parts) + sample(0:1, 1))
  list(text = sprintf("%d/%d", parts, d), double = parts / d)
}

random_labels <- function(n) {
  if (runif(1) < 0.2) return(as.character(sample(n)))
  if (runif(1) < 0.2) return(as.character(sample(1:40, n)))
  all <- c("H1", "H2", "low dose", "low_dose", "dose \u00fc", "dose_", "1", "10", "a\"b", "x y z", "H10", "A.B", "OS", "PFS", "10 mg", "H-1")
  sample(all, n)
}

random_case <- function() {
  n <- sample(2:6, 1)
  labels <- random_labels(n)
  rows <- lapply(seq_len(n), function(i) {
    row <- random_row(n)
    row$text[i] <- "0"
    row$double[i] <- 0
    row
  })
  p <- lapply(seq_len(n), function(i) random_number())
  list(
    labels = labels,
    weights = random_row(n),
    edges = list(text = t(vapply(rows, `[[`, labels, "text")), double = t(vapply(rows, `[[`, numeric(n), "double"))),
    p = list(text = vapply(p, `[[`, "", "text"), double = vapply(p, `[[`, 0, "double")),
    alpha = list(text = "1/40", double = 0.025)
  )
}

# The fractions of texts "N/D", "N" and "0.DIGITS", without the package.
exact_fractions <- function(texts) {
  decimal <- startsWith(texts, "0.")
  digits <- substring(texts[decimal], 3)
  texts[decimal] <- paste0(sub("^0+([0-9])", "\\1", digits), "/1", strrep("0", nchar(digits)))
  gmp::as.bigq(texts)
}

tibble_of <- function(frame) structure(frame, class = c("tbl_df", "tbl", "data.frame"), row.names = .set_row_names(nrow(frame)))

frame_of <- function(columns, names) {
  frame <- as.data.frame(as.list(columns), stringsAsFactors = FALSE)
  names(frame) <- names
  frame
}

# A data frame of which the column value has another name.
column_of_name <- function(frame, name) {
  names(frame)[names(frame) == "value"] <- name
  frame
}

# A data frame whose rows have names: whole numbers if they are, as read.csv(row.names = 1) makes them.
numbered <- function(frame, labels) {
  is_counted <- all(grepl("^[0-9]+$", labels))
  attr(frame, "row.names") <- if (is_counted) as.integer(labels) else labels
  frame
}

# A data frame as it is read from a sheet, whose first column has the names of its rows. Only letters that each locale has are written.
sheet_of <- function(frame) {
  if (any(grepl("[^ -~]", c(names(frame), row.names(frame), unlist(lapply(frame, as.character)))))) return(frame)
  file <- tempfile(fileext = ".csv")
  on.exit(unlink(file))
  utils::write.csv(frame, file)
  utils::read.csv(file, row.names = 1, check.names = FALSE, stringsAsFactors = FALSE)
}

whole_bits <- function(x) {
  bytes <- as.vector(vapply(x, function(k) as.raw(c(k, rep(0, 7))), raw(8)))
  structure(readBin(bytes, "double", length(x), endian = "little"), class = "integer64")
}

# The classes in which numbers by hypothesis are given. Each takes texts, doubles, labels, an order, and the name of a column.
vector_forms <- list(
  numeric = function(text, double, labels, order, name) double,
  named = function(text, double, labels, order, name) stats::setNames(double, labels),
  shuffled = function(text, double, labels, order, name) stats::setNames(double, labels)[order],
  exact = function(text, double, labels, order, name) as_exact(stats::setNames(double, labels)[order]),
  exact_text = function(text, double, labels, order, name) as_exact(stats::setNames(text, labels)[order]),
  joined = function(text, double, labels, order, name) do.call(c, stats::setNames(lapply(double, as_exact), labels)[order]),
  assigned = function(text, double, labels, order, name) {
    x <- as_exact(stats::setNames(rep(1, length(double)), labels)[order])
    for (i in seq_along(labels)) x[labels[i]] <- double[i]
    x
  },
  exact_column = function(text, double, labels, order, name) {
    frame <- data.frame(hypothesis = labels[order], stringsAsFactors = FALSE)
    frame[[name]] <- as_exact(double[order])
    frame[rev(seq_along(labels)), ]
  },
  fractions = function(text, double, labels, order, name) exact_fractions(text),
  named_fractions = function(text, double, labels, order, name) {
    x <- exact_fractions(text[order])
    names(x) <- labels[order]
    x
  },
  text = function(text, double, labels, order, name) stats::setNames(text, labels)[order],
  frame = function(text, double, labels, order, name) frame_of(double[order], labels[order]),
  mixed_frame = function(text, double, labels, order, name) {
    columns <- as.list(double[order])
    columns[[1]] <- text[order][1]
    frame_of(columns, labels[order])
  },
  long_frame = function(text, double, labels, order, name) column_of_name(data.frame(hypothesis = labels, value = double, stringsAsFactors = FALSE), name)[order, ],
  factor_frame = function(text, double, labels, order, name) column_of_name(data.frame(value = text, hypothesis = factor(labels), stringsAsFactors = FALSE), name)[order, ],
  tibble = function(text, double, labels, order, name) tibble_of(frame_of(double[order], labels[order])),
  long_tibble = function(text, double, labels, order, name) tibble_of(column_of_name(data.frame(hypothesis = labels[order], value = text[order], stringsAsFactors = FALSE), name)),
  row = function(text, double, labels, order, name) matrix(double[order], 1, dimnames = list(NULL, labels[order])),
  column = function(text, double, labels, order, name) matrix(text[order], ncol = 1, dimnames = list(labels[order], "value")),
  plain_column = function(text, double, labels, order, name) matrix(double, ncol = 1),
  named_row = function(text, double, labels, order, name) {
    x <- matrix(double[order], 1)
    names(x) <- labels[order]
    x
  },
  named_column = function(text, double, labels, order, name) {
    structure(list(value = stats::setNames(double, labels)[order]), row.names = .set_row_names(length(labels)), class = c("tbl_df", "tbl", "data.frame"))
  },
  exact_frame = function(text, double, labels, order, name) data.frame(value = as_exact(stats::setNames(text, labels)[order])),
  rows = function(text, double, labels, order, name) numbered(data.frame(value = text[order], stringsAsFactors = FALSE), labels[order]),
  rows_of_doubles = function(text, double, labels, order, name) numbered(column_of_name(data.frame(value = double[order]), name), labels[order]),
  sorted = function(text, double, labels, order, name) {
    if (!setequal(labels, seq_along(labels))) return(stats::setNames(double, labels)[order])
    frame <- column_of_name(data.frame(value = double[match(seq_along(labels), labels)]), name)
    frame[order, , drop = FALSE]
  },
  sheet = function(text, double, labels, order, name) {
    sheet_of(column_of_name(data.frame(value = text[order], row.names = labels[order], stringsAsFactors = FALSE), name))
  },
  long_sheet = function(text, double, labels, order, name) {
    frame <- column_of_name(data.frame(value = text[order], stringsAsFactors = FALSE), name)
    frame$hypothesis <- labels[order]
    sheet_of(numbered(frame, sample(length(labels))))
  },
  zeros_before = function(text, double, labels, order, name) stats::setNames(paste0("00", text), labels)[order],
  integer64 = function(text, double, labels, order, name) {
    if (all(double %in% 0:1)) stats::setNames(whole_bits(double[order]), labels[order]) else double
  }
)

# The order of columns beside rows in an order: another one, if the rows have names. Rows that are numbered 1, 2 and so on have none, so
# columns in another order are an error.
order_across <- function(labels, order) if (identical(labels[order], as.character(seq_along(labels)))) order else rev(order)

square_forms <- list(
  plain = function(text, double, labels, order, name) double,
  text = function(text, double, labels, order, name) text,
  zeros_before = function(text, double, labels, order, name) array(paste0("00", text), dim(text)),
  named_columns = function(text, double, labels, order, name) {
    columns <- lapply(order, function(j) stats::setNames(double[order, j], labels[order]))
    structure(columns, names = labels[order], row.names = .set_row_names(length(labels)), class = c("tbl_df", "tbl", "data.frame"))
  },
  exact_dim = function(text, double, labels, order, name) {
    x <- as_exact(as.vector(double))
    dim(x) <- dim(double)
    x
  },
  named = function(text, double, labels, order, name) structure(double, dimnames = list(labels, labels)),
  shuffled = function(text, double, labels, order, name) structure(double, dimnames = list(labels, labels))[order, rev(order)],
  shuffled_text = function(text, double, labels, order, name) structure(text, dimnames = list(labels, labels))[rev(order), order],
  exact = function(text, double, labels, order, name) as_exact(structure(double, dimnames = list(labels, labels))[order, order]),
  fractions = function(text, double, labels, order, name) gmp::matrix(exact_fractions(as.vector(text)), nrow(text)),
  frame = function(text, double, labels, order, name) {
    frame <- frame_of(lapply(order, function(j) double[order, j]), labels[order])
    row.names(frame) <- labels[order]
    frame
  },
  numbered = function(text, double, labels, order, name) {
    across <- order_across(labels, order)
    numbered(frame_of(lapply(across, function(j) double[order, j]), labels[across]), labels[order])
  },
  sheet = function(text, double, labels, order, name) {
    across <- order_across(labels, order)
    frame <- frame_of(lapply(across, function(j) text[order, j]), labels[across])
    row.names(frame) <- labels[order]
    sheet_of(frame)
  },
  mixed_frame = function(text, double, labels, order, name) {
    columns <- lapply(seq_along(labels), function(j) if (j %% 2) text[, j] else double[, j])
    frame_of(columns, labels)
  },
  tibble = function(text, double, labels, order, name) tibble_of(frame_of(lapply(seq_along(labels), function(j) double[, j]), labels))
)

# Damages that leave a case that nobody gave: each has to be an error.
damages <- list(
  twice = function(x, labels) {
    names(x)[1] <- names(x)[2]
    x
  },
  unknown = function(x, labels) {
    names(x)[1] <- "somebody else"
    x
  },
  partly = function(x, labels) {
    names(x)[1] <- ""
    x
  },
  beside_others = function(x, labels) data.frame(hypothesis = rev(names(x)), value = x, stringsAsFactors = FALSE),
  as_another = function(x, labels) data.frame(level = unname(x), row.names = names(x)),
  alike = function(x, labels) {
    names(x)[1] <- paste0(names(x)[1], sample(c(" ", "\u00a0", "\t"), 1))
    x
  },
  numbers_of_rows = function(x, labels) {
    if (setequal(labels, seq_along(x))) return(x[-1])
    numbered(data.frame(value = unname(x)), c(2, 1, seq_along(x)[-(1:2)]))
  },
  too_many = function(x, labels) c(x, other = x[[1]]),
  too_few = function(x, labels) x[-1]
)

given_in <- function(forms, numbers, labels, name = "") {
  form <- sample(names(forms), 1)
  # a decimal can be one that R writes for a fraction, which is a warning
  list(form = form, value = suppressWarnings(forms[[form]](numbers$text, numbers$double, labels, sample(length(labels)), name)))
}

# What was decided, read back from the text that was handed in: level, p-values, weights and edges by label.
read_back <- function(x) {
  canon <- welungad:::parse_case(strsplit(welungad_run("canon", x$case)$text, "\n")[[1]])
  labels <- x$graph$labels[match(canon$names, x$graph$names)]
  component <- canon$components[[1]]
  list(alpha = canon$alpha, p = stats::setNames(canon$p, labels), weights = stats::setNames(component$weights, labels),
    edges = structure(component$edges, dimnames = list(labels, labels)))
}

same <- function(texts, decided) all(as.logical(exact_fractions(texts) == gmp::as.bigq(unname(decided))))

# Whether the rows of what was given are numbered 1, 2 and so on, for hypotheses that are called so in another order: as names and as counts
# the numbers mean different cases.
is_unclear <- function(x, labels) {
  counts <- as.character(seq_along(labels))
  is.data.frame(x) && !"hypothesis" %in% names(x) && identical(attr(x, "row.names"), seq_along(labels)) &&
    !any(vapply(x, function(own) length(names(own)) > 0, NA)) && setequal(labels, counts) && !identical(labels, counts)
}

# Whether a case, given in some classes, was decided as it was given, or is an error if its rows are unclear; the classes if not.
holds <- function(case) {
  labels <- case$labels
  weights <- given_in(vector_forms, case$weights, labels, "weight")
  edges <- given_in(square_forms, case$edges, labels)
  p <- given_in(vector_forms, case$p, labels, "p")
  x <- tryCatch(suppressWarnings(graph_test(graph_create(weights$value, edges$value, hyp_names = labels), p$value, case$alpha$double)), error = identity)
  forms <- paste(weights$form, edges$form, p$form)
  if (any(vapply(list(weights, edges, p), function(given) is_unclear(given$value, labels), NA))) {
    fault <- "^(hypotheses|transitions|p): the rows are numbered 1, 2 and so on, and the hypotheses are called "
    return(if (inherits(x, "error") && grepl(fault, conditionMessage(x))) "" else paste("not told:", forms))
  }
  if (inherits(x, "error")) return(paste(forms, conditionMessage(x)))
  own <- read_back(x)
  shown <- as.data.frame(x, exact = TRUE)
  fits <- own$alpha == "1/40" && same(case$weights$text, own$weights[labels]) && same(as.vector(case$edges$text), own$edges[labels, labels]) &&
    same(case$p$text, own$p[labels]) && same(case$p$text, shown$p[match(labels, shown$hypothesis)])
  if (fits) "" else forms
}

told <- function(code) inherits(tryCatch(code, error = identity), "error")

# Whether a damaged case is an error.
is_told <- function(case) {
  named <- function(numbers) stats::setNames(numbers$double, case$labels)
  graph <- graph_create(named(case$weights), case$edges$double)
  damage <- sample(damages, 1)[[1]]
  p <- damage(named(case$p), case$labels)
  if (runif(1) < 0.5) p <- as_exact(p)
  twice <- replace(case$labels, 2, case$labels[1])
  alike <- replace(case$labels, 2, paste0(case$labels[1], sample(c(" ", "\u00a0"), 1)))
  told(graph_test(graph, p)) &&
    told(graph_create(damage(named(case$weights), case$labels), case$edges$double, hyp_names = case$labels)) &&
    told(graph_create(0 * case$weights$double, case$edges$double, hyp_names = twice)) &&
    told(graph_create(named(case$weights), case$edges$double, labels = twice)) &&
    told(graph_create(case$weights$double, case$edges$double, labels = alike)) &&
    told(graph_create(named(case$weights), one_sided(case))) &&
    told(graph_test(turned(graph), case$p$double))
}

# The edges in another order, of which the rows or the columns alone say it.
one_sided <- function(case) {
  order <- rev(seq_along(case$labels))
  names <- list(case$labels[order], NULL)
  structure(case$edges$double[order, order], dimnames = if (runif(1) < 0.5) names else rev(names))
}

# The graph with its labels in another order, by hand.
turned <- function(graph) {
  graph$labels <- rev(graph$labels)
  graph
}

# Whether an answer that lacks a line, has another end, or is another case's, is an error.
is_whole <- function(case) {
  graph <- graph_create(stats::setNames(case$weights$double, case$labels), case$edges$double)
  x <- graph_test(graph, case$p$double)
  answers <- function(lines) with_program(stand_in(lines), tryCatch(graph_test(graph, case$p$double), error = function(e) NULL))
  other <- gsub(graph$names[1], "other", x$report, fixed = TRUE)
  identical(answers(x$report)$rejected, x$rejected) && is.null(answers(x$report[-sample(length(x$report), 1)])) &&
    is.null(answers(x$report[-length(x$report)])) && is.null(answers(c(x$report[-length(x$report)], "more"))) && (identical(other, x$report) || is.null(answers(other)))
}

test_that("what was given is what was decided, or an error", {
  each_way(function(way) {
    set.seed(59)
    for (k in seq_len(share_of(way, 2000, 60))) {
      case <- random_case()
      expect_identical(holds(case), "", info = k)
      if (k %% 4 == 0) expect_true(is_told(case), info = k)
      if (k %% 40 == 0) expect_true(is_whole(case), info = k)
    }
  })
})

# How many inputs these laws get: few in the gate, and 2,000 if the environment variable WELUNGAD_TEST_ALL is set.
inputs_of <- function(way) if (nzchar(Sys.getenv("WELUNGAD_TEST_ALL"))) 2000 else share_of(way, 300, 40)

# ---- doubles that are handed back

# P-values of which some are beside the levels that they are compared with, or rounded up: doubles beside the weights times the level.
near_ties <- function(graph, alpha) {
  n <- length(graph$names)
  weights <- as.numeric(gmp::asNumeric(exact_fractions(unname(graph$components[[1]]$weights))))
  level <- alpha * ifelse(runif(n) < 0.5, weights, sample(c(weights, 1, 1 / 2, 1 / n), n, replace = TRUE))
  kinds <- sample(5, n, replace = TRUE)
  p <- ifelse(kinds == 1, runif(n), ifelse(kinds == 2, round(level, 6), ifelse(kinds == 3, 10^-runif(n, 1, 40), level)))
  beside <- which(kinds >= 4 & p > 0)
  p[beside] <- p[beside] + sample(c(-4:4, 0, 0, 0), length(beside), replace = TRUE) * 2^(floor(log2(p[beside])) - 52)
  pmin(pmax(p, 0), 1)
}

# Whether what is handed back are the doubles that were given, on the sides that were decided.
is_handed_back <- function(case) {
  # with larger denominators levels are no fractions that doubles are read as, so a double, also one that was rounded up, can be on either side
  weights <- if (runif(1) < 0.5) paste0(sample(99, length(case$labels)), "/", sample(c("99991", "98765432109876543"), 1)) else case$weights$text
  graph <- graph_create(stats::setNames(weights, case$labels), case$edges$text)
  alpha <- sample(c(1 / 40, 1 / 80, 1 / 20, 3 / 200, 1), 1)
  p <- near_ties(graph, alpha)
  x <- tryCatch(suppressMessages(graph_test(graph, p, alpha)), welungad_refusal = identity)
  # some of them are too wide
  if (inherits(x, "welungad_refusal")) return(x$status == 5)
  table <- as.data.frame(x)
  exact <- as.data.frame(x, exact = TRUE)
  passes <- as.logical(gmp::as.bigq(exact$p) <= gmp::as.bigq(exact$level))
  # one that was rounded up, and so above its level, is the one that was decided
  up <- !passes & x$read$rule == "rounded up to a multiple of 10^-30" & table$p > p
  # gmp cuts what it makes a double
  cut <- as.vector(gmp::asNumeric(gmp::as.bigq(exact$level)))
  beside <- all(abs(table$level - cut) <= ifelse(cut > 0, 2 * 2^(floor(log2(cut)) - 52), 0))
  beside && identical(table$p[!up], p[!up]) && identical(unname(x$adjusted <= alpha), unname(x$rejected)) && identical(table$adjusted, unname(x$adjusted)) &&
    identical(table$p <= table$level, passes) && identical(x[]$p, table$p) && identical(graph_rejections(x)$p, p[match(x$order, case$labels)])
}

# Whether the levels of a closed test are on the sides of the p-values that were decided.
is_closed_on_sides <- function(case) {
  n <- min(length(case$labels), 4)
  graph <- graph_create(paste0(sample(99, n), "/99991"), case$edges$text[seq_len(n), seq_len(n)])
  alpha <- sample(c(1 / 40, 3 / 200), 1)
  p <- near_ties(graph, alpha)
  x <- suppressMessages(graph_test_closure(graph, p, alpha, test = sample(c("bonferroni", "simes"), 1)))
  table <- as.data.frame(x)
  exact <- as.data.frame(x, exact = TRUE)
  on_sides <- vapply(seq_len(n), function(j) {
    own <- exact[[paste0("level H", j)]]
    passes <- as.logical(gmp::as.bigq(unname(x$p[j])) <= gmp::as.bigq(own[!is.na(own)]))
    identical(p[j] <= table[[paste0("level H", j)]][!is.na(own)], passes)
  }, NA)
  all(on_sides) && identical(table$p_local <= alpha, x$local) && identical(table$p_closed <= alpha, x$closed) &&
    identical(unname(x$adjusted <= alpha), unname(x$rejected))
}

test_that("doubles are handed back as they were given, on the side that was decided", {
  each_way(function(way) {
    set.seed(78)
    for (k in seq_len(inputs_of(way))) {
      expect_true(is_handed_back(random_case()), info = k)
      if (k %% 4 == 0) expect_true(is_closed_on_sides(random_case()), info = k)
    }
  })
})

# ---- stages

# Labels of so many stages, from the first to the last, the order in which `stages` may give them, and whether they count the stages.
random_stages <- function(count) {
  kind <- sample(c("counted", "stage", "words", "numbers", "dates"), 1)
  labels <- switch(kind,
    counted = as.character(seq_len(count)),
    stage = paste(sample(c("stage", "Stage"), 1), seq_len(count)),
    words = sample(c("interim", "final", "look", "week 2", "week 10", "late", "early"), count),
    numbers = sample(c("0.5", "1.0", "0.25", "12", "104", "3", "0.7"), count),
    dates = format(as.Date("2026-01-01") + sample(400, count))
  )
  stages <- switch(kind, counted = seq_len(count), stage = seq_len(count), numbers = as.numeric(labels), dates = as.Date(labels), labels)
  list(labels = labels, stages = if (runif(1) < 0.5) stages else labels, is_counted = kind %in% c("counted", "stage"))
}

level_forms <- list(
  list = function(levels, labels) apply(levels, 1, function(own) stats::setNames(own, labels), simplify = FALSE),
  weights = function(levels, labels) apply(levels, 1, function(own) matrix(own, 1, dimnames = list("1", labels)), simplify = FALSE),
  rows = function(levels, labels) structure(levels, dimnames = list(rownames(levels), labels)),
  columns = function(levels, labels) t(structure(levels, dimnames = list(rownames(levels), labels))),
  exact = function(levels, labels) as_exact(structure(levels, dimnames = list(rownames(levels), labels))),
  frame = function(levels, labels) numbered(as.data.frame(t(levels)), labels),
  sheet = function(levels, labels) sheet_of(numbered(as.data.frame(t(levels)), labels)),
  wide_sheet = function(levels, labels) sheet_of(`row.names<-`(frame_of(lapply(seq_along(labels), function(j) unname(levels[, j])), labels), rownames(levels)))
)

# Whether levels with labels of stages are taken in the order of the stages, or refused if nothing says it.
stages_hold <- function() {
  count <- sample(2:4, 1)
  n <- sample(2:3, 1)
  names <- c("A", "B", "C")[seq_len(n)]
  graph <- graph_create(stats::setNames(rep(1 / n, n), names), matrix(0, n, n))
  levels <- matrix(sample(20, n * count, replace = TRUE) / 10000, n, dimnames = list(names, NULL))
  stages <- random_stages(count)
  order <- sample(count)
  form <- sample(names(level_forms), 1)
  given <- level_forms[[form]](levels[, order, drop = FALSE], stages$labels[order])
  plain <- if (form == "weights") level_forms$weights(levels, NULL) else levels_of_rows(levels)
  case <- function(levels, ...) tryCatch(graph_stages(graph, levels, at = 1, ...)$case, error = function(e) "refused")
  own <- case(plain)
  without <- if (stages$is_counted && !is.unsorted(order)) own else "refused"
  fits <- own != "refused" && identical(case(given), without) && identical(case(given, stages = stages$stages), own)
  if (fits) "" else paste(form, paste(stages$labels[order], collapse = ", "))
}

levels_of_rows <- function(levels) apply(levels, 1, identity, simplify = FALSE)

test_that("levels are taken in the order of their stages, or refused", {
  each_way(function(way) {
    set.seed(79)
    for (k in seq_len(inputs_of(way))) expect_identical(stages_hold(), "", info = k)
  })
})
