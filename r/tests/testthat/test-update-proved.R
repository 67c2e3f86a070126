# The texts are by hand, in the form of c/welungad.h.
read_lines <- function(lines, graph, left) welungad:::read_update(paste0(lines, "\n", collapse = ""), graph, left)

after_H2_H1 <- c("component 1", "weight H3 1/2", "edge H3 H4 1", "weight H4 1/2", "edge H4 H3 1", "level H3 1/2", "level H4 1/2", "end")

test_that("the text of a graph after removals is read", {
  each_way(function(way) {
    graph <- graph_create(c(1 / 2, 1 / 2, 0, 0), rbind(c(0, 1 / 2, 1 / 2, 0), c(1 / 2, 0, 0, 1 / 2), c(0, 1, 0, 0), c(1, 0, 0, 0)),
      labels = c("low", "high", "low, second", "high, second"))
    read <- read_lines(after_H2_H1, graph, 3:4)
    expect_identical(read$labels, c("low, second", "high, second"))
    expect_identical(read$components[[1]]$weights, c("low, second" = "1/2", "high, second" = "1/2"))
    expect_identical(read$components[[1]]$edges, matrix(c("0", "1", "1", "0"), 2, dimnames = list(read$labels, read$labels)))
    expect_identical(read$components, graphs_by_formula(graph, c(2, 1))[[3]]$components)
    # the text that is handed in is the one that the package writes
    expect_identical(unclass(read)$written, welungad:::write_graph(read))
    expect_identical(unname(graph_test(read, c(0.0125, 0.025))$rejected), c(TRUE, TRUE))
    for (k in seq_along(after_H2_H1)) expect_null(if (k %in% c(3, 5)) NULL else read_lines(after_H2_H1[-k], graph, 3:4), info = k)
    for (wrong in list(c(1, "component 2"), c(2, "weight H1 1/2"), c(3, "edge H3 H3 1"), c(3, "edge H3 H1 1"), c(4, "weight H4"), c(6, "level H4 1/2"), c(8, "ends"),
      c(2, "x H3 1/2"))) {
      expect_null(read_lines(replace(after_H2_H1, as.integer(wrong[1]), wrong[2]), graph, 3:4), info = wrong)
    }
    expect_null(read_lines(c(after_H2_H1[1:3], after_H2_H1[3:8]), graph, 3:4))
    expect_null(read_lines(c("more", after_H2_H1), graph, 3:4))
    expect_null(read_lines(c(after_H2_H1, "more"), graph, 3:4))
    expect_null(welungad:::read_update(paste(after_H2_H1, collapse = "\n"), graph, 3:4))
    expect_null(read_lines(sub(" 1$", " 1 more", after_H2_H1), graph, 3:4))
    expect_null(read_lines(append(after_H2_H1, "edge H3 H4 1", 3), graph, 3:4))
    expect_null(read_lines("", graph, 3:4))
    none <- read_lines(c("component 1", "end"), graph, integer())
    expect_identical(none$components[[1]]$edges, matrix(character(), 0, 0, dimnames = list(character(), character())))
    both <- c("component 1", "weight B 0", "component 2", "weight B 1", "level B 1/2", "end")
    half <- read_lines(both, entangled(), 2L)
    expect_identical(vapply(half$components, `[[`, "", "share"), c("1/2", "1/2"))
    expect_identical(unclass(half)$written, welungad:::write_graph(half))
    expect_null(read_lines(both[-(3:4)], entangled(), 2L))
  })
})

test_that("numbers in epsilon are written as the package writes them", {
  read <- welungad:::number_of_update
  expect_identical(read(c("1/3", "0", "[1,-1]/[2]", "[1,-1]/[2,-1]", "[0,1]/[1]", "[1]/[2,-1]", "[0,0,1]/[2]")),
    c("1/3", "0", "1/2-1/2*\\epsilon", "(1-\\epsilon)/(2-\\epsilon)", "\\epsilon", "1/(2-\\epsilon)", "1/2*\\epsilon^2"))
})

test_that("a library without the call is asked as the program is", {
  skip_if_not("library" %in% welungad:::welungad_ways(), "the library is not found")
  skip_if(welungad:::has_update(), "the library has the call")
  expect_identical(graph_update(diabetes(), "H2")$held, "read")
})

test_that("graphs of the library are those that it prints", {
  skip_if_not(welungad:::has_update(), "the library with the call on updated graphs is not found")
  old <- options(welungad.way = "library")
  on.exit(options(old))
  x <- graph_test(diabetes(), c(0.018, 0.01, 0.105, 0.006))
  expect_identical(graph_steps(x)$held, "library")
  expect_identical(graph_steps(x)$deleted, c("H2", "H1", "H4"))
  expect_output(print(graph_steps(x)), "Each weight and each edge is the one that the proved call prints.", fixed = TRUE)
  # a removal that is too wide is refused
  wide <- graph_create(c(1, 0, 0, 0), rbind(
    c("0", "1/1000000000000000000", "0", "0"), c("0", "0", "1/999999999999999999", "0"), c("0", "0", "0", "1/999999999999999997"), "0"
  ))
  expect_match(refusal_of(graph_update(wide, 1:3))$line, "^too wide: ")
})
