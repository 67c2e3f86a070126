# Staged trials. A user gives levels; the case has fractions of the level in a line spend, and levels in lines table.

graph_stages <- function(graph, levels, looks = NULL, alpha = 0.025, at = NULL, stages = NULL) {
  graph <- check_graph(graph)
  alpha <- level_text_of(exact_of(alpha, "alpha"))
  # of a level that is not above 0 there are no fractions, and the proved call refuses it
  if (!isTRUE(as.logical(fraction(alpha) > 0))) ask("canon", handed(case_text(graph, alpha), graph))
  plan <- stage_plan(graph, levels, alpha, at, checked_stages(stages))
  looks <- read_looks(graph, looks, plan$stages)
  new_stages(graph, plan, looks, alpha)
}

# The case of a staged trial, as it is handed in.
staged_case <- function(graph, plan, looks, alpha) {
  lines <- c(
    paste("stages", whole_text(plan$count)),
    unlist(lapply(plan$spends, `[[`, "lines")),
    if (length(looks$read)) paste("arrive", looks$name, whole_text(looks$stage), looks$read$read)
  )
  levels <- stats::setNames(lapply(plan$spends, `[[`, "rows"), graph$names)
  handed(case_text(graph, alpha, stages = lines), graph, levels = levels, looks = looks)
}

# What each hypothesis spends, in the order of the graph.
stage_plan <- function(graph, levels, alpha, at, stages) {
  levels <- arranged(levels_by_hypothesis(levels, graph, stages), hypothesis_keys(graph), "levels", length(graph$names))
  from <- if (is.null(at)) weights_at_first(graph, levels, alpha) else weights_at(graph, at)
  spends <- Map(function(name, label, own, from) {
    what <- paste0("levels: ", quoted(label))
    if (length(dim(own)) == 2) spend_table(name, what, own, alpha, stages) else spend_list(name, what, own, alpha, from, stages)
  }, graph$names, graph$labels, unname(levels), from)
  counts <- unname(vapply(spends, `[[`, 1L, "count"))
  other <- which(counts != counts[1])
  if (length(other)) {
    stop_at("levels", quoted(graph$labels[other[1]]), " has ", count_of(counts[other[1]], "stage"), ", and ", quoted(graph$labels[1]), " ",
      whole_text(counts[1]), ": give the level 0 for a stage without a test")
  }
  if (!is.null(stages) && counts[1] != length(stages)) {
    stop_at("stages", whole_text(length(stages)), " given for ", count_of(counts[1], "stage"))
  }
  list(count = counts[1], stages = stages, spends = unname(spends))
}

# The weights at which the levels of the hypotheses count, as they are given.
weights_at <- function(graph, at) {
  check_counted_rows(at, hypothesis_keys(graph), "at")
  from <- exact_vector(at, "at")
  if (is.null(from$names) && length(from) == 1) from <- from[rep(1L, length(graph$names))]
  from <- arranged(from, hypothesis_keys(graph), "at", length(graph$names))
  check_weights(number_texts(from, "at"), graph)
  from$read
}

# The weights at which the levels count if they are not given: 1. Stops if a hypothesis begins with a part of the whole weight, since its
# levels could be meant for this part. A table has weights of its own.
weights_at_first <- function(graph, levels, alpha) {
  weights <- total_weights(graph)
  unclear <- which(!weights %in% c("0", "1") & !vapply(levels, function(it) length(dim(it)) == 2, NA))
  if (length(unclear) == 0) return(rep("1", length(weights)))
  i <- unclear[1]
  sums <- lapply(levels[unclear], function(it) sum_of(fraction(exact_vector(it, "levels")$read)))
  fits <- vapply(seq_along(sums), function(k) isTRUE(as.logical(sums[[k]] == fraction(weights[unclear[k]]) * fraction(alpha))), NA)
  own <- paste0("c(", paste(ifelse(is_syntactic(graph$labels), graph$labels, quoted(graph$labels)), "=",
    replace(weights, weights == "0", "1"), collapse = ", "), ")")
  stop_at("at", "the weight at which the levels of ", quoted(graph$labels[i]), " count is needed, since its weight is ", weights[i], ", and not 1: ",
    if (all(fits)) paste0("their sum is this weight times alpha, as for at = ", own) else "at = 1 for levels of a hypothesis that has the whole weight")
}

is_syntactic <- function(texts) make.names(texts) == texts

# Stops at a weight, in the order of the hypotheses, that is not above 0 and at most 1.
check_weights <- function(texts, graph) {
  values <- fraction(texts)
  wrong <- which(!(as.logical(values > 0) & as.logical(values <= 1)) %in% TRUE)
  if (length(wrong)) stop_at("at", "the weight of ", graph$labels[wrong[1]], " is ", texts[wrong[1]], ", and not above 0 and at most 1")
}

# The levels as a list. In a matrix or a data frame that side belongs to the hypotheses that has their names.
levels_by_hypothesis <- function(levels, graph, stages) {
  if (is.list(levels) && !is.data.frame(levels) && !inherits(levels, "welungad_exact")) return(levels)
  if (!is.data.frame(levels) && length(dim(levels)) != 2) {
    stop_at("levels", "a list is needed with a vector or a matrix for each hypothesis, or a matrix that names the hypotheses")
  }
  read <- if (is.data.frame(levels)) exact_frame(levels, "levels") else exact_of(levels, "levels")
  known <- unlist(hypothesis_keys(graph))
  named <- vapply(1:2, function(side) length(read$dimnames[[side]]) > 0 && all(read$dimnames[[side]] %in% known), NA)
  if (sum(named) != 1) {
    stop_at("levels", if (any(named)) "both rows and columns" else "neither rows nor columns", " of the table name the hypotheses",
      sentence_of_columns(read, known))
  }
  side <- which(named)
  at <- places_of_stages(read$dimnames[[3L - side]], read$dim[3L - side], stages, "levels")
  parts <- lapply(seq_len(read$dim[side]), function(k) if (side == 1L) unname(read[k, ])[at] else unname(read[, k])[at])
  stats::setNames(parts, read$dimnames[[side]])
}

# What to do about a table in which columns other than those of the hypotheses have numbers, such as that of the stage.
sentence_of_columns <- function(read, known) {
  columns <- read$dimnames[[2]]
  other <- columns[!columns %in% known]
  if (length(other) == length(columns) || length(other) == 0) return("")
  paste0(": drop the column ", listed(quoted(other), 3L), ", and name the rows by the stages if they are not in order")
}

# ---- the order of stages

# The stages in their order, as they are compared with labels. Numbers that count stages have to be in their places, since looks name stages
# by their numbers.
checked_stages <- function(stages) {
  if (is.null(stages)) return(NULL)
  labels <- if (is_date(stages)) format(stages) else if (is_number(stages)) exact_of(stages, "stages")$read else texts_in(stages, "stages")
  check_distinct(labels, "stages")
  values <- stage_values(labels)
  twice <- which(duplicated(values))
  if (length(twice)) stop_at("stages", quoted(labels[twice[1]]), " occurs twice")
  counts <- stage_values(whole_text(seq_along(labels)))
  if (setequal(values, counts) && !identical(values, counts)) stop_at("stages", "stage ", labels[1], " is given as the first one")
  labels
}

is_date <- function(x) inherits(x, c("Date", "POSIXt"))

# What labels of stages are compared by: numbers and dates by their values, others as texts.
stage_values <- function(labels) {
  labels <- trimws(labels)
  numbers <- sub("^[Ss]tage[ _.]?([0-9]{1,9})\\z", "\\1", labels, perl = TRUE)
  values <- fraction(ifelse(is_numeral(numbers), numbers, NA))
  ifelse(is.na(as.vector(is.na(values))) | as.vector(is.na(values)), paste("text", day_of(labels)), paste("number", as.character(values)))
}

# A date with the time 0 as the day alone.
day_of <- function(labels) sub("^([0-9]{4}-[0-9]{2}-[0-9]{2})[ T]00:00(:00([.]0+)?)?( ?UTC|Z)?\\z", "\\1", labels, perl = TRUE)

# The places of the stages, from the first to the last, among labels. Labels are 1, 2 and so on, stage 1, stage 2 and so on, or what R calls
# columns without names; any others need `stages`. Without labels, levels are given in the order of the stages.
places_of_stages <- function(labels, count, stages, what) {
  if (is.null(labels)) return(seq_len(count))
  if (is.null(stages)) {
    check_counted(labels, what)
    return(seq_len(count))
  }
  at <- match(stage_values(stages), stage_values(labels))
  if (anyNA(at) || length(stages) != length(labels) || anyDuplicated(stage_values(labels))) {
    stop_at(what, "the stages are ", listed(quoted(labels)), ", and the argument stages has ", listed(quoted(stages)))
  }
  at
}

# Stops at labels of stages that do not count them from the first to the last.
check_counted <- function(labels, what) {
  counts <- stage_values(whole_text(seq_along(labels)))
  values <- stage_values(sub("^[VX]([0-9]{1,9})\\z", "\\1", labels, perl = TRUE))
  if (identical(values, counts)) return(invisible())
  stop_at(what, "the stages are ", listed(quoted(labels)), ", and levels are given from the first stage to the last",
    if (!setequal(values, counts)) ": let the argument stages name them in this order")
}

# ---- what a hypothesis spends

# A vector: the levels that the hypothesis has at its stages while its weight is `from`; at other weights in proportion.
spend_list <- function(name, what, levels, alpha, from, stages) {
  levels <- exact_vector(levels, what)
  places <- places_of_stages(names(levels), length(levels), stages, what)
  levels <- unname(levels[places])
  values <- fraction(number_texts(levels, what))
  whole <- fraction(alpha) * fraction(from)
  if (anyNA(values) || length(values) == 0) stop_at(what, "a number is needed for each stage")
  parts <- as.character(values / gmp::as.bigq(rep(whole, length(values))))
  list(
    kind = "spend",
    count = length(values),
    lines = paste(c("spend", name, parts), collapse = " "),
    rows = list(list(levels = levels$read, bound = whole)),
    parts = parts
  )
}

# A matrix: a row of levels from each weight on. The weights are its row names.
spend_table <- function(name, what, levels, alpha, stages) {
  read <- if (is.data.frame(levels)) exact_frame(levels, what) else exact_of(levels, what)
  from <- read$dimnames[[1]]
  if (is.null(from)) stop_at(what, "a matrix of levels has row names: the weights from which its rows count")
  places <- places_of_stages(read$dimnames[[2]], read$dim[2], stages, what)
  read <- read[, places, drop = FALSE]
  from <- number_texts(exact_of(from, what), what)
  wrong <- which(is.na(fraction(from)))
  if (length(wrong)) stop_at(what, "the row name ", quoted(from[wrong[1]]), " is not a weight")
  texts <- matrix(number_texts(read, what), read$dim[1])
  lines <- vapply(seq_along(from), function(i) paste(c("table", name, from[i], texts[i, ]), collapse = " "), "")
  rows <- lapply(seq_along(from), function(i) list(levels = texts[i, ], bound = fraction(alpha) * fraction(from[i])))
  list(kind = "table", count = ncol(texts), lines = lines, rows = rows, from = from, texts = texts)
}

# ---- looks

# The looks in the order in which they arrive: their columns, and in `read` their p-values.
read_looks <- function(graph, looks, stages = NULL) {
  if (is.null(looks)) return(list(name = character(), label = character(), stage = integer(), read = exact_of(character(), "looks")))
  if (!is.data.frame(looks) || !all(c("hypothesis", "stage", "p") %in% names(looks))) {
    stop_at("looks", "a data frame with the columns hypothesis, stage and p is needed")
  }
  twice <- intersect(c("hypothesis", "stage", "p"), names(looks)[duplicated(names(looks))])
  if (length(twice)) stop_at("looks", "the column ", twice[1], " occurs twice")
  if (is_number(looks$hypothesis)) stop_at("looks", "the column hypothesis has numbers, and not the names of hypotheses")
  named <- texts_in(looks$hypothesis, "looks: hypothesis")
  at <- positions_of(graph, named, "looks")
  stage <- stages_of_looks(looks$stage, stages)
  read <- column_of(looks, match("p", names(looks)), "looks")
  check_aligned(looks, match("p", names(looks)), named, "looks")
  missing <- which(is.na(read$read))
  if (length(missing)) stop_at("looks", "the p-value of row ", whole_text(missing[1]), " is missing")
  number_texts(read, "looks")
  report_rounded(read, graph$labels[at])
  list(name = graph$names[at], label = graph$labels[at], stage = stage, read = read)
}

# The numbers of the stages of looks, which are given by these numbers, or as the argument stages of graph_stages has them. Stops at a number
# that is the label of another stage, since either could be meant.
stages_of_looks <- function(given, stages) {
  what <- "looks: stage"
  if (is.null(stages)) return(whole_numbers(given, what))
  texts <- if (is_date(given)) format(given) else if (is_number(given)) exact_of(given, what)$read else texts_in(given, what)
  at <- match(stage_values(texts), stage_values(stages))
  counted <- is_whole(texts)
  if (!all(counted | !is.na(at))) stop_at(what, quoted(texts[!counted & is.na(at)][1]), " is none of the stages ", listed(quoted(stages)))
  other <- which(counted & !is.na(at) & suppressWarnings(as.numeric(texts)) != at)
  if (length(other)) stop_at(what, texts[other[1]], " is the label of another stage: give the labels of stages as argument stages has them")
  ifelse(is.na(at), suppressWarnings(as.integer(texts)), at)
}

# ---- results

# The result for a plan and looks.
new_stages <- function(graph, plan, looks, alpha) {
  case <- staged_case(graph, plan, looks, alpha)
  report <- ask("stages", case)
  at <- match(report$rejects[2, ], graph$names)
  stage <- as.integer(report$rejects[4, ])
  weight <- report$rejects[6, ]
  level <- vapply(seq_along(at), function(i) level_at(plan$spends[[at[i]]], stage[i], weight[i], report$alpha), "")
  structure(list(
    graph = graph,
    alpha = report$alpha,
    plan = plan,
    looks = table_of(look = seq_along(looks$label), hypothesis = looks$label, stage = looks$stage, p = report$p),
    rejections = table_of(look = report$arrival, hypothesis = graph$labels[at], stage = stage, weight = weight, level = level),
    rejected = stats::setNames(report$rejected, graph$labels),
    read = looks$read,
    case = case$text,
    report = report$lines
  ), class = "welungad_stages")
}

# The level of a hypothesis at a stage and a weight.
level_at <- function(spend, stage, weight, alpha) {
  weight <- fraction(weight)
  if (spend$kind == "spend") return(as.character(fraction(spend$parts[stage]) * weight * fraction(alpha)))
  row <- which(as.logical(fraction(spend$from) <= weight))
  if (length(row)) as.character(fraction(spend$texts[max(row), stage])) else "0"
}

# A row for each look, and for what it rejects.
as.data.frame.welungad_stages <- function(x, ..., exact = FALSE) {
  check_dots(..., allowed = frame_arguments)
  check_result(x)
  looks <- x$looks
  if (!exact) looks$p <- given_doubles(x$read)
  rejects <- x$rejections
  looks$rejects <- vapply(looks$look, function(k) {
    own <- rejects[rejects$look == k, ]
    paste(sprintf("%s at stage %d", own$hypothesis, own$stage), collapse = ", ")
  }, "")
  looks
}

format.welungad_stages <- function(x, ...) {
  paste0("Staged test of ", count_of_hypotheses(length(x$graph$names)), " at ", count_of(x$plan$count, "stage"), ", level ",
    level_text(x$alpha))
}

# The rejections, a row each.
summary.welungad_stages <- function(object, ...) {
  table <- object$rejections
  table$weight <- double_of(table$weight)
  table$level <- double_of(table$level)
  table
}

print.welungad_stages <- function(x, exact = FALSE, digits = 6, ...) {
  check_dots(...)
  check_result(x)
  cat(format(x), "\n", sep = "")
  for (i in seq_along(x$plan$spends)) print_spend(x$graph$labels[i], x$plan$spends[[i]], x$alpha, digits)
  if (nrow(x$looks)) {
    table <- as.data.frame(x, exact = exact)
    write_table(cbind(look = table$look, hypothesis = table$hypothesis, stage = table$stage, p = shown(table$p, digits),
      rejects = table$rejects))
  }
  if (nrow(x$rejections)) {
    cat("Rejections:\n")
    table <- x$rejections
    number <- if (exact) identity else double_of
    write_table(cbind(look = table$look, hypothesis = table$hypothesis, stage = table$stage,
      weight = shown(number(table$weight), digits), level = shown(number(table$level), digits)))
  }
  print_rejected(x)
  print_notes(c(stage_notes(x), zero_notes(x$read, x$looks$hypothesis)))
  print_read(as_read(x$read))
  invisible(x)
}

# Notes on p-values beside fractions, with which other hypotheses or stages would be rejected.
stage_notes <- function(x) {
  looks <- list(name = x$graph$names[match(x$looks$hypothesis, x$graph$labels)], label = x$looks$hypothesis, stage = x$looks$stage)
  alpha <- words_after(strsplit(x$case, "\n", fixed = TRUE)[[1]], "alpha")
  other_decisions(x$read, x$looks$hypothesis, function(read) new_stages(x$graph, x$plan, c(looks, list(read = read)), alpha)$rejections)
}

print_spend <- function(label, spend, alpha, digits) {
  if (spend$kind == "spend") {
    levels <- as_double(fraction(spend$parts) * fraction(rep(alpha, length(spend$parts))))
    cat(label, ": levels ", paste(shown(levels, digits), collapse = " "), " at weight 1, in proportion at others\n", sep = "")
    return(invisible())
  }
  for (i in seq_along(spend$from)) {
    levels <- paste(shown(double_of(spend$texts[i, ]), digits), collapse = " ")
    cat(label, ": levels ", levels, " from weight ", spend$from[i], " on\n", sep = "")
  }
}
