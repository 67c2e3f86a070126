test_that("levels become fractions of the level, or tables", {
  each_way(function(way) {
    looks <- data.frame(hypothesis = c("H1", "H2"), stage = 1, p = c(0.02, 0.012))
    levels <- list(H1 = rbind("1/2" = c(0.01, 0.015), "1" = c(0.02, 0.03)), H2 = c(0.025, 0.025))
    x <- graph_stages(pair(), levels, looks, alpha = 0.05, at = 1)
    expect_match(x$case, "table H1 1/2 1/100 3/200\ntable H1 1 1/50 3/100\nspend H2 1/2 1/2\n", fixed = TRUE)
    expect_equal(x$report, c("alpha 1/20", "arrive H1 1 1/50", "arrive H2 1 3/250", "reject H2 stage 1 weight 1/2",
      "reject H1 stage 1 weight 1", "rejected H1 H2", "end"))
    expect_equal(x$rejections$level, c("1/80", "1/50"))
    expect_true(all(x$rejected))
    expect_output(print(x), "H2 at stage 1, H1 at stage 1")
    expect_equal(as.data.frame(x)$rejects, c("", "H2 at stage 1, H1 at stage 1"))
  })
})

test_that("levels at another weight are levels in proportion", {
  each_way(function(way) {
    at_one <- graph_stages(pair(), rbind(H1 = c(0.003, 0.022), H2 = c(0.003, 0.022)), at = 1)
    at_half <- graph_stages(pair(), rbind(H1 = c(0.0015, 0.011), H2 = c(0.0015, 0.011)), at = 1 / 2)
    expect_equal(at_one$case, at_half$case)
    expect_match(at_one$case, "spend H1 3/25 22/25", fixed = TRUE)
    expect_equal(nrow(at_one$looks), 0)
  })
})

test_that("zeros before the digits of levels, weights and alpha change nothing", {
  each_way(function(way) {
    x <- graph_stages(pair(), list(H1 = c("002/1000", "010/1000"), H2 = c("2/1000", "10/1000")), alpha = "025/1000", at = "05/010")
    expect_match(x$case, "spend H1 4/25 4/5\nspend H2 4/25 4/5\n", fixed = TRUE)
    expect_equal(x$alpha, "1/40")
  })
})

test_that("a small first level is spent as a level", {
  each_way(function(way) {
    graph <- graph_create(c(OS = 1), matrix(0, 1, 1))
    x <- graph_stages(graph, list(OS = c(0.0015, 0.0235)), data.frame(hypothesis = "OS", stage = 1, p = 0.001), at = 1)
    expect_true(x$rejected[["OS"]])
    y <- graph_stages(graph, list(OS = c(0.0015, 0.0235)), data.frame(hypothesis = "OS", stage = 1, p = 0.0016), at = 1)
    expect_false(y$rejected[["OS"]])
  })
})

test_that("levels that sum to more are refused with the amount", {
  each_way(function(way) {
    graph <- graph_create(c(OS = 1), matrix(0, 1, 1))
    refusal <- refusal_of(graph_stages(graph, list(OS = c(0.0054, 0.0245)), at = 1))
    expect_equal(refusal$line, "malformed: case: spend sum of OS")
    expect_match(refusal$amount, "The levels of OS sum to 0.0299, which is 0.0049 above 0.025.", fixed = TRUE)
    table <- refusal_of(graph_stages(graph, list(OS = rbind("1" = c(0.0054, 0.0245))), at = 1))
    expect_equal(table$amount, refusal$amount)
  })
})

test_that("levels are given in the order of the stages", {
  each_way(function(way) {
    graph <- pair()
    plain <- graph_stages(graph, list(H1 = c(0.005, 0.02), H2 = c(0.005, 0.02)), at = 1)$case
    for (names in list(1:2, c("stage 1", "stage 2"), c("Stage1", "stage.2"), c("01", "2.0"), c("V1", "V2"), c("X1", "X2"))) {
      own <- stats::setNames(c(0.005, 0.02), names)
      expect_equal(graph_stages(graph, list(H1 = own, H2 = own), at = 1)$case, plain)
      expect_equal(graph_stages(graph, rbind(H1 = own, H2 = own), at = 1)$case, plain)
    }
    fault <- "the stages are \"(stage )?2\", \"(stage )?1\", and levels are given from the first stage to the last"
    for (names in list(2:1, c("stage 2", "stage 1"))) {
      own <- stats::setNames(c(0.02, 0.005), names)
      expect_error(graph_stages(graph, list(H1 = own, H2 = c(0.005, 0.02)), at = 1), paste0("levels: \"H1\": ", fault))
      expect_error(graph_stages(graph, rbind(H1 = own, H2 = own), at = 1), paste0("levels: ", fault))
      expect_error(graph_stages(graph, cbind(H1 = own, H2 = own), at = 1), paste0("levels: ", fault))
      expect_error(graph_stages(graph, list(H1 = own, H2 = rbind("1" = own)), at = 1), fault)
    }
    for (names in list(c("stage 1", "stage 3"), c("Stage2", "final"))) {
      own <- stats::setNames(c(0.005, 0.02), names)
      expect_error(graph_stages(graph, rbind(H1 = own, H2 = own), at = 1), "^levels: the stages are .*, and levels are given from the first stage")
    }
  })
})

# The forms in which a table of levels has labels of stages. `own` has them as its names.
labelled_forms <- list(
  list = function(own) list(H1 = own, H2 = own),
  rows = function(own) rbind(H1 = own, H2 = own),
  columns = function(own) cbind(H1 = own, H2 = own),
  frame = function(own) as.data.frame(cbind(H1 = own, H2 = own)),
  weights = function(own) list(H1 = rbind("1" = own), H2 = rbind("1" = own)),
  exact = function(own) as_exact(rbind(H2 = own, H1 = own))
)

test_that("other labels than 1, 2 and so on need the argument stages, by which levels are put in order", {
  each_way(function(way) {
    graph <- pair()
    of <- function(form, names, values, ...) graph_stages(graph, labelled_forms[[form]](stats::setNames(values, names)), at = 1, ...)$case
    early <- c(0.005, 0.02)
    dates <- as.Date(c("2026-06-01", "2026-12-01"))
    orders <- list(list(c("interim", "final"), c("interim", "final")), list(c("0.5", "1.0"), c(1 / 2, 1)), list(c("week 12", "week 104"), c("week 12", "week 104")),
      list(format(dates), dates), list(format(dates), paste(dates, "00:00:00")), list(c("2", "4"), c(2, 4)), list(c("Stage2", "final"), factor(c("stage 2", "final"))))
    for (form in names(labelled_forms)) for (order in orders) {
      labels <- order[[1]]
      plain <- of(form, NULL, early)
      for (turned in list(1:2, 2:1)) {
        expect_error(of(form, labels[turned], early[turned]), "levels.*: the stages are .*: let the argument stages name them in this order$", info = form)
        expect_equal(of(form, labels[turned], early[turned], stages = order[[2]]), plain, info = paste(form, labels[1]))
      }
      expect_equal(of(form, NULL, early, stages = order[[2]]), plain, info = form)
    }
    for (form in names(labelled_forms)) {
      # numbers of stages in another order are put in order by them
      expect_equal(of(form, 2:1, rev(early), stages = 1:2), of(form, NULL, early))
      for (wrong in list(c("final", "interim", "later"), "interim", c("first", "final"))) {
        expect_error(of(form, c("interim", "final"), early, stages = wrong), "levels.*: the stages are .*, and the argument stages has ", info = form)
      }
    }
    expect_error(of("list", NULL, early, stages = "interim"), "^stages: 1 given for 2 stages$")
    expect_error(of("list", NULL, early, stages = c("a", "a")), "^stages: the name \"a\" occurs twice$")
    expect_error(of("list", NULL, early, stages = c(1 / 2, "1/2")), "^stages: \"1/2\" occurs twice$")
    expect_error(of("list", NULL, early, stages = 2:1), "^stages: stage 2 is given as the first one$")
    expect_error(of("list", NULL, early, stages = list(1, c("a", "b"))), "^stages: texts are needed")
  })
})

test_that("labels of stages are taken as the table of both languages says", {
  table <- file.path(dirname(Sys.getenv("WELUNGAD_EXAMPLES", "/nowhere/examples")), "python", "tests", "stage_labels.txt")
  skip_if_not(file.exists(table), "the table of labels is not found")
  rows <- read.table(table, sep = "|", colClasses = "character", col.names = c("labels", "stages", "order"), strip.white = TRUE)
  words <- function(text) trimws(strsplit(text, ",", fixed = TRUE)[[1]])
  expect_gt(nrow(rows), 20)
  for (i in seq_len(nrow(rows))) {
    labels <- words(rows$labels[i])
    stages <- if (nzchar(rows$stages[i])) words(rows$stages[i])
    found <- tryCatch(welungad:::places_of_stages(labels, length(labels), welungad:::checked_stages(stages), "levels"), error = function(e) "refused")
    expect_equal(paste(labels[if (is.numeric(found)) found else 0], collapse = ", "), if (rows$order[i] == "refused") "" else rows$order[i], info = i)
  }
})

test_that("looks name stages by their numbers, or as the argument stages has them", {
  each_way(function(way) {
    levels <- list(H1 = c(0.005, 0.02), H2 = c(0.005, 0.02))
    taken <- function(stage, stages) {
      looks <- data.frame(hypothesis = c("H1", "H2"), p = c(0.5, 0.6))
      looks$stage <- stage
      graph_stages(pair(), levels, looks, at = 1, stages = stages)$looks$stage
    }
    expect_equal(taken(c("final", "interim"), c("interim", "final")), 2:1)
    expect_equal(taken(factor(c("final", "interim")), c("interim", "final")), 2:1)
    expect_equal(taken(2:1, c("interim", "final")), 2:1)
    expect_equal(taken(c("2", "interim"), c("interim", "final")), 2:1)
    expect_equal(taken(c("1/2", "3/4"), c(0.5, 0.75)), 1:2)
    expect_equal(taken(as.Date(c("2026-12-01", "2026-06-01")), c("2026-06-01", "2026-12-01")), 2:1)
    expect_error(taken(c("final", "later"), c("interim", "final")), "^looks: stage: \"later\" is none of the stages \"interim\", \"final\"$")
    # the second stage is that of week 4, and 2 is the label of the first one
    expect_error(taken(c(2, 4), c(2, 4)), "^looks: stage: 2 is the label of another stage")
    expect_equal(taken(c("week 4", "week 2"), c("week 2", "week 4")), 2:1)
  })
})

test_that("the weight at which levels count is needed unless each hypothesis begins with the whole weight or none", {
  each_way(function(way) {
    levels <- list(H1 = c(0.0025, 0.01), H2 = c(0.0025, 0.01))
    fault <- "^at: the weight at which the levels of \"H1\" count is needed, since its weight is 1/2, and not 1: "
    expect_error(graph_stages(pair(), levels), paste0(fault, "their sum is this weight times alpha, as for at = c[(]H1 = 1/2, H2 = 1/2[)]$"))
    expect_error(graph_stages(pair(c("low dose", "B")), stats::setNames(levels, c("low dose", "B"))), "at = c[(]\"low dose\" = 1/2, B = 1/2[)]$")
    expect_error(graph_stages(pair(), list(H1 = c(0.0025, 0.01), H2 = 0.01)), paste0(fault, "at = 1 for levels of a hypothesis that has the whole weight$"))
    expect_error(graph_stages(pair(), list(H1 = c(0.005, 0.02), H2 = c(0.005, 0.02))), fault)
    expect_error(graph_stages(entangled(), rep(list(0.01), 4)), "^at: the weight at which the levels of \"A\" count is needed, since its weight is 1/2")
    chain <- graph_create(c(H1 = 1, H2 = 0), rbind(0:1, 0))
    expect_equal(graph_stages(chain, levels)$case, graph_stages(chain, levels, at = 1)$case)
    tables <- lapply(levels, function(it) rbind("1/2" = it, "1" = 2 * it))
    expect_equal(graph_stages(pair(), tables)$case, graph_stages(pair(), tables, at = 1)$case)
    expect_error(graph_stages(pair(), list(H1 = tables$H1, H2 = levels$H2)), "^at: the weight at which the levels of \"H2\" count")
    expect_match(graph_stages(pair(), levels, at = 1 / 2)$case, "spend H1 1/5 4/5\n", fixed = TRUE)
    expect_match(graph_stages(pair(), levels, at = 1)$case, "spend H1 1/10 2/5\n", fixed = TRUE)
  })
})

test_that("different numbers of stages, and a column of stages, say what to do", {
  each_way(function(way) {
    expect_error(graph_stages(pair(), list(H1 = c(0.001, 0.002), H2 = 0.001), at = 1),
      "^levels: \"H2\" has 1 stage, and \"H1\" 2: give the level 0 for a stage without a test$")
    frame <- data.frame(stage = 1:2, H1 = c(0.001, 0.002), H2 = c(0.001, 0.002))
    expect_error(graph_stages(pair(), frame, at = 1), "^levels: neither rows nor columns of the table name the hypotheses: drop the column \"stage\"")
    expect_equal(graph_stages(pair(), frame[-1], at = 1)$plan$count, 2)
  })
})

test_that("the p-values of looks are those that were given, and notes are printed", {
  each_way(function(way) {
    graph <- graph_create(c(OS = 1), matrix(0, 1, 1))
    looks <- data.frame(hypothesis = "OS", stage = 1:2, p = c(0.5, 0.0125 + 2^-59))
    x <- graph_stages(graph, list(OS = c(0.001, 0.0125)), looks)
    expect_identical(as.data.frame(x)$p, looks$p)
    expect_false(x$rejected[["OS"]])
    expect_output(print(x), "is one unit in the last place above 1/80, with which the\n  decision would be another one")
    y <- graph_stages(graph, list(OS = c(0.001, 0.0125)), data.frame(hypothesis = "OS", stage = 1, p = 0))
    expect_output(print(y), "The p-value of OS is 0, which is at most every level above 0")
    expect_message(z <- graph_stages(graph, list(OS = c(0.001, 0.0125)), data.frame(hypothesis = "OS", stage = 1, p = 1e-300)), class = "welungad_rounded")
    expect_identical(as.data.frame(z)$p, 1e-300)
  })
})
