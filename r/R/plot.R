# Pictures by base graphics: a circle for each hypothesis with its label and weight, an arrow for each edge. Sizes of texts are in
# inches of the device, so a picture is planned in inches; its window has the user's coordinates.

component_colours <- c("#1b4f8a", "#b3541e", "#2f7d4f", "#7b3f8c", "#8a6d1b", "#a3324b", "#3c7f8c", "#555555")
fill_plain <- "#f4f6f8"
fill_rejected <- "#cfe8cf"
fill_removed <- "#ececec"

plot.welungad_graph <- function(x, layout = NULL, main = NULL, cex = 1, labels = NULL, v_palette = NULL, nrow = NULL, ncol = NULL, ...) {
  check_dots(...)
  draw_graph(x, x, look_of(x, layout, labels, v_palette, nrow, ncol), main, cex)
  invisible(x)
}

plot.welungad_test <- function(x, layout = NULL, main = NULL, cex = 1, labels = NULL, v_palette = NULL, nrow = NULL, ncol = NULL, ...) {
  check_dots(...)
  check_result(x)
  if (is.null(main)) main <- paste("level", level_text(x$alpha))
  draw_graph(x$graph, x$graph, look_of(x$graph, layout, labels, v_palette, nrow, ncol), main, cex, marked = x$rejected)
  invisible(x)
}

plot.welungad_closure <- plot.welungad_test

plot.welungad_stages <- plot.welungad_test

plot.welungad_study <- function(x, ...) {
  stop_at("x", "a study has no picture: plot(graph_stages(..)) draws the graph, and as.data.frame(x) has the looks")
}

plot.welungad_bounds <- function(x, ...) {
  stop_at("x", "bounds have no picture: plot(x$graph) draws the graph, and as.data.frame(x) has the sets and their bounds")
}

# The graphs before the first removal and after each, side by side, each hypothesis at its place.
plot.welungad_update <- function(x, layout = NULL, cex = 0.8, labels = NULL, v_palette = NULL, nrow = NULL, ncol = NULL, ...) {
  check_dots(...)
  n <- length(x$graphs)
  look <- look_of(x$initial_graph, layout, labels, v_palette, nrow, ncol)
  columns <- columns_for(n, graphics::par("din"))
  old <- graphics::par(mfrow = c(ceiling(n / columns), columns))
  on.exit(graphics::par(old))
  deleted <- look$labels[match(x$deleted, x$initial_graph$labels)]
  for (k in seq_len(n)) {
    titles <- titles_without(deleted[seq_len(k - 1)])
    if (k > 1 && x$held == "weights") titles <- paste0(titles, ", edges left out")
    draw_graph(x$graphs[[k]], x$initial_graph, look, titles, cex)
  }
  invisible(x)
}

# The number of columns with which n squares on a page are largest; of several the greatest one.
columns_for <- function(n, page) {
  sides <- pmin(page[1] / seq_len(n), page[2] / ceiling(n / seq_len(n)))
  max(which(sides > 0.99 * max(sides)))
}

# Titles of a graph without some hypotheses, of which the first that fits is taken.
titles_without <- function(deleted) {
  n <- length(deleted)
  if (n == 0) return("at the start")
  c(paste("without", paste(deleted, collapse = ", ")), paste("without", count_of_hypotheses(n)))
}

# Draws a graph; `all` has the hypotheses that have a place, and those that the graph lacks are drawn as removed. `main` has titles, of
# which the first that fits is taken.
draw_graph <- function(graph, all, look, main, cex, marked = NULL) {
  check_order(graph)
  nodes <- nodes_of(graph, all, look$layout, marked, look$labels, look$palette)
  old <- graphics::par(mar = c(0.5, 0.5, if (is.null(main)) 0.5 else 2, 0.5))
  on.exit(graphics::par(old))
  graphics::plot.new()
  picture <- picture_of(graph, all, nodes, cex)
  open_window(picture$points, picture$unit, picture$key$height)
  write_title(main, cex)
  for (it in picture$arrows) draw_arrow(it, cex * if (picture$is_crowded) 0.5 else 1)
  draw_circles(nodes)
  write_labels(nodes, picture$plan, picture$unit)
  if (!picture$is_crowded) write_arrow_texts(picture$arrows, picture$boxes, picture$unit)
  draw_key(picture$key, picture$unit)
}

# What a picture has: texts at its arrows, unless there are too many of them or they would hide each other.
picture_of <- function(graph, all, nodes, cex) {
  picture <- planned(graph, all, nodes, cex, edges_in(graph) > most_arrow_texts)
  if (picture$is_crowded && !is.null(picture$boxes)) planned(graph, all, nodes, cex, TRUE) else picture
}

# What a picture has and where: its arrows, how its labels are written, the inches of a unit, and the key below it. A crowded picture has
# no texts at its arrows.
planned <- function(graph, all, nodes, cex, is_crowded) {
  arrows <- arrows_of(graph, all, nodes, is_crowded)
  key <- key_of(graph, arrows, is_crowded, cex)
  if (is_crowded) arrows <- coloured_by(arrows, key)
  room <- graphics::par("pin") - c(0, key$height)
  plan <- plan_labels(nodes, hull_of(nodes, arrows), room, cex)
  boxes <- if (!is_crowded) arrow_boxes(arrows, nodes, plan, cex)
  list(arrows = arrows, key = key, plan = plan, points = plan$points, unit = plan$unit, boxes = boxes,
    is_crowded = is_crowded || are_crowded(arrows, boxes, nodes$at, plan$unit, cex))
}

edges_in <- function(graph) sum(vapply(graph$components, function(it) sum(it$edges != "0", na.rm = TRUE), 1L))

# ---- places

# Places in the order of reading for four, in two rows for gatekeeping, and on a circle for others.
default_layout <- function(n, graph = NULL) {
  if (n == 2) return(cbind(c(-1, 1), 0))
  if (n == 4) return(cbind(c(-1, 1, -1, 1), c(1, 1, -1, -1)))
  first <- if (is.null(graph)) 0L else first_row(graph)
  if (first) row_places(first, n) else circle_places(n)
}

# The places of the hypotheses; rows with names are put in order by them.
checked_layout <- function(layout, graph) {
  n <- length(graph$names)
  if (is.null(layout)) return(default_layout(n, graph))
  check_counted_rows(layout, hypothesis_keys(graph), "layout")
  rows <- if (is.data.frame(layout)) own_row_names(layout) else rownames(layout)
  layout <- as.matrix(layout)
  rownames(layout) <- rows
  if (!is.numeric(layout) || !identical(dim(layout), c(n, 2L)) || !all(is.finite(layout))) {
    stop_at("layout", "a matrix of numbers is needed with a row of two coordinates for each hypothesis")
  }
  same <- which(duplicated(unname(layout)))
  if (length(same)) stop_at("layout", place_text(same[1], rownames(layout)), " has the place of another hypothesis")
  if (!is.null(rownames(layout))) {
    places <- places_among(rownames(layout), hypothesis_keys(graph), "layout")
    layout <- layout[places, , drop = FALSE]
  }
  unname(layout)
}

# A radius at which circles neither touch nor get lost.
node_radius <- function(at) if (nrow(at) == 1) 0.5 else min(0.5, min(stats::dist(at)) * 0.23)

# What is drawn of each hypothesis: its place, its label, its weights and its colours.
nodes_of <- function(graph, all, layout, marked, labels = all$labels, palette = NULL) {
  at <- checked_layout(layout, all)
  here <- match(all$names, graph$names)
  fill <- rep(if (is.null(palette)) fill_plain else palette[1], length(here))
  fill[is.na(here)] <- if (length(palette) > 1) palette[2] else fill_removed
  if (!is.null(marked)) fill[marked] <- if (length(palette) > 1) palette[2] else fill_rejected
  weights <- lapply(here, function(i) if (is.na(i)) character() else vapply(graph$components, function(it) it$weights[[i]], ""))
  side <- if (is.null(layout) && nrow(at) > 4 && first_row(all)) "rows" else label_side(nrow(at), layout)
  list(at = at, radius = node_radius(at), side = side, labels = labels, weights = weights, here = !is.na(here), fill = fill)
}

# Points of a picture with the inches that have to be left free around them.
free_points <- function(at, left = 0, right = 0, down = 0, up = 0) {
  data.frame(x = at[, 1], y = at[, 2], left = left, right = right, down = down, up = up)
}

# The corners of the rectangle around all circles and arrows.
hull_of <- function(nodes, arrows) {
  paths <- do.call(rbind, lapply(arrows, function(it) apply(it$path, 2, range)))
  free_points(apply(rbind(nodes$at - 1.05 * nodes$radius, nodes$at + 1.05 * nodes$radius, paths), 2, range))
}

# The most inches of a unit for which points with what is free around them have room. On a page that is too small for the texts it is tiny.
unit_for <- function(points, room) {
  x <- unit_along(points$x, points$left, points$right, room[1])
  y <- unit_along(points$y, points$down, points$up, room[2])
  max(min(x, y), 0.01)
}

unit_along <- function(x, before, after, room) {
  gap <- outer(x, x, "-")
  free <- room - outer(after, before, "+")
  min((free / gap)[gap > 1e-9])
}

# Opens the window in which a unit has so many inches, with room for a key at the bottom.
open_window <- function(points, unit, below) {
  x <- c(min(points$x - points$left / unit), max(points$x + points$right / unit))
  y <- c(min(points$y - points$down / unit) - below / unit, max(points$y + points$up / unit))
  spare <- graphics::par("pin") / unit - c(diff(x), diff(y))
  graphics::plot.window(x + c(-1, 1) * spare[1] / 2, y + c(-1, 1) * spare[2] / 2, xaxs = "i", yaxs = "i")
}

write_title <- function(main, cex) {
  if (is.null(main)) return(invisible())
  width <- graphics::strwidth(main, units = "inches", cex = cex)
  fits <- which(width <= graphics::par("pin")[1])
  k <- if (length(fits)) fits[1] else length(main)
  graphics::title(main = main[k], line = 0.5, font.main = 1, cex.main = cex * min(1, graphics::par("pin")[1] / width[k]))
}

draw_circles <- function(nodes) {
  graphics::symbols(nodes$at[, 1], nodes$at[, 2], circles = rep(nodes$radius, nrow(nodes$at)), inches = FALSE, add = TRUE,
    bg = nodes$fill, fg = ifelse(nodes$here, "black", "grey60"))
}

colours_of <- function(count) if (count > 1) component_colours[seq_len(count)] else rep("black", count)

# ---- texts of numbers

# What is written at an edge or a weight: an expression with a Greek epsilon, a short fraction or decimal, or a rounded decimal.
short_text <- function(text) {
  if (grepl(epsilon, text, fixed = TRUE)) {
    factors <- gsub("([0-9]+/[0-9]+)[*]", "(\\1)*", text)
    return(parse(text = gsub(epsilon, "epsilon", factors, fixed = TRUE), keep.source = FALSE))
  }
  if (nchar(text) <= 7) return(text)
  decimal <- exact_decimal(fraction(text))
  if (nchar(decimal) <= 7) decimal else as.expression(bquote("" %~~% .(decimal_text(double_of(text), 4))))
}

# The same without an expression, for a text of several lines.
plain_text <- function(text) {
  short <- short_text(text)
  if (is.character(short)) return(short)
  if (grepl(epsilon, text, fixed = TRUE)) gsub(epsilon, "eps", text, fixed = TRUE) else paste("about", decimal_text(double_of(text), 4))
}

# Several texts as one vector: of expressions if one is an expression.
joined_texts <- function(texts) {
  if (all(vapply(texts, is.character, NA))) return(unlist(texts))
  as.expression(lapply(texts, function(it) if (is.expression(it)) it[[1]] else it))
}

width_of <- function(text, cex = 1, font = 1) graphics::strwidth(text, units = "inches", cex = cex, font = font)

# ---- the key

# The line below a picture. In one of several graphs it has the share of each colour; in a crowded one the number of each colour, if
# there are not too many, else where the numbers are.
key_of <- function(graph, arrows, is_crowded, cex) {
  shares <- vapply(graph$components, `[[`, "", "share")
  values <- unique(lapply(arrows, `[[`, "text"))
  note <- NULL
  texts <- NULL
  if (length(shares) > 1) {
    texts <- paste("share", vapply(shares, plain_text, ""))
  } else if (is_crowded && length(values) <= length(component_colours)) {
    texts <- joined_texts(values)
  }
  if (is_crowded && (length(shares) > 1 || is.null(texts))) note <- "print() shows the numbers of the arrows"
  size <- 0.8 * cex
  columns <- if (length(texts)) key_columns(texts, size) else 1
  lines <- ceiling(length(texts) / columns) + length(note)
  list(texts = texts, values = if (length(shares) == 1) values, note = note, size = size, columns = columns,
    height = if (lines) (lines + 0.5) * key_height(size) else 0)
}

# The inches of the coloured line before a text of the key, and those between two texts.
key_line <- 0.25
key_gap <- 0.3

key_height <- function(size) 1.8 * graphics::strheight("Mg", units = "inches", cex = size)

key_widths <- function(texts, size) vapply(seq_along(texts), function(i) width_of(texts[i], size), 0)

# How many texts of a key there are side by side.
key_columns <- function(texts, size) {
  widest <- max(key_widths(texts, size)) + key_line + key_gap
  min(length(texts), max(1, floor(graphics::par("pin")[1] / widest)))
}

# In a picture of one graph, the colour of an arrow is that of its number in the key.
coloured_by <- function(arrows, key) {
  if (is.null(key$values) || is.null(key$texts)) return(arrows)
  lapply(arrows, function(it) {
    it$colour <- component_colours[match(list(it$text), key$values)]
    it
  })
}

# Draws the key from the bottom up: the note, and above it the texts with their colours, row by row.
draw_key <- function(key, unit) {
  middle <- mean(graphics::par("usr")[1:2])
  bottom <- graphics::par("usr")[3]
  line <- key_height(key$size) / unit
  if (!is.null(key$note)) graphics::text(middle, bottom + line / 2, key$note, cex = key$size)
  count <- length(key$texts)
  if (count == 0) return(invisible())
  rows <- ceiling(count / key$columns)
  step <- (max(key_widths(key$texts, key$size)) + key_line + key_gap) / unit
  left <- middle - (min(count, key$columns) * step - key_gap / unit) / 2
  x <- left + (seq_len(count) - 1) %% key$columns * step
  y <- bottom + (rows - (seq_len(count) - 1) %/% key$columns - 0.5 + length(key$note)) * line
  graphics::segments(x, y, x + 0.8 * key_line / unit, y, col = component_colours[seq_len(count)], lwd = 2)
  graphics::text(x + key_line / unit, y, key$texts, cex = key$size, adj = c(0, 0.5))
}
