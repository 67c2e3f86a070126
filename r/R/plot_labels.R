# Labels and weights of a picture: in the circles if they have room there, else labels beside them.

# Where labels beside the circles are: below them for places that the user gives, and outwards from the middle for default places, which
# of two rows is above and below them. From 13 hypotheses on a circle they run outwards like rays.
label_side <- function(n, layout) if (!is.null(layout) || n <= 2) "below" else if (n <= 12) "outwards" else "rays"

# The widths in letters to which labels are wrapped at their blanks.
label_widths <- c(1000, 32, 24, 18, 14, 10, 6)

wrapped <- function(labels, width) {
  vapply(strwrap(labels, width, simplify = FALSE), function(lines) paste(lines, collapse = "\n"), "")
}

# The most and the least size of weights, as parts of that of labels.
weight_part <- 0.9
least_weight_part <- 0.65

line_height <- function(size) 1.4 * graphics::strheight("Mg", units = "inches", cex = size)

# Whether texts of a size can be read: it is at least half of the one that the user gives, and not a tiny one on the device.
is_readable <- function(size, cex) size >= 0.5 * cex && size * graphics::par("cex") >= min(0.42, 0.95 * cex * graphics::par("cex"))

# How labels are written, and the inches of a unit. `hull` has the corners of circles and arrows.
plan_labels <- function(nodes, hull, room, cex) {
  unit <- unit_for(hull, room)
  inside <- plan_inside(nodes, unit, cex)
  if (is_readable(inside$size, cex)) return(c(inside, list(points = hull, unit = unit)))
  plan_beside(nodes, hull, room, unit, cex)
}

# Labels, wrapped to the width for which they are largest, above the weights in the circles, all of one size.
plan_inside <- function(nodes, unit, cex) {
  plans <- lapply(label_widths, function(width) {
    rows <- Map(c, strsplit(wrapped(nodes$labels, width), "\n", fixed = TRUE), lapply(nodes$weights, lapply, short_text))
    sizes <- vapply(seq_along(rows), function(i) circle_size(rows[[i]], length(nodes$weights[[i]]), nodes$radius * unit), 0)
    list(side = "inside", rows = rows, size = min(cex, sizes))
  })
  plans[[which.max(vapply(plans, `[[`, 0, "size"))]]
}

# The size at which rows of texts fit into a circle, so that the corners of each row are in it. The last rows are weights, which may be
# smaller than the labels before them.
circle_size <- function(rows, weights, radius) {
  count <- length(rows)
  if (count == 0) return(Inf)
  is_label <- seq_len(count) <= count - weights
  widths <- mapply(width_of, rows, cex = ifelse(is_label, 1, least_weight_part), font = ifelse(is_label, 2, 1))
  0.96 * radius / max(sqrt((widths / 2)^2 + (far_of(count) * line_height(1))^2))
}

# How many lines the far edge of each row is away from the middle of all rows.
far_of <- function(count) abs(seq_len(count) - (count + 1) / 2) + 0.5

# The sizes of rows in a circle: weights are as large as they fit.
row_sizes <- function(rows, weights, size, radius) {
  count <- length(rows)
  chord <- 2 * sqrt(pmax(0, (0.96 * radius)^2 - (far_of(count) * line_height(size))^2))
  fitting <- pmin(weight_part * size, chord / pmax(vapply(rows, width_of, 0), 1e-9))
  ifelse(seq_len(count) <= count - weights, size, fitting)
}

# Labels beside the circles. `alone` has the inches of a unit without them.
plan_beside <- function(nodes, hull, room, alone, cex) {
  weight_size <- weight_size_in(nodes, least_part * alone, cex)
  with_weights <- is_readable(weight_size, cex)
  labels <- if (with_weights) nodes$labels else paste(nodes$labels, vapply(nodes$weights, weights_text, ""))
  plan <- first_clear(nodes, labels, hull, room, alone, cex)
  plan$weight_size <- if (with_weights) weight_size_in(nodes, plan$unit, cex)
  plan
}

# The part of their size that circles keep if there are labels beside them.
least_part <- 0.6

# The first plan at which the circles keep this part, and no label hides another one or a circle: from large texts to small ones, and
# from long lines to short ones. If there is none, the last one.
first_clear <- function(nodes, labels, hull, room, alone, cex) {
  for (size in cex * c(0.9, 0.8, 0.7, 0.6, 0.5, 0.4, 0.3)) for (width in label_widths) {
    texts <- wrapped(labels, width)
    points <- label_points(nodes, texts, size)
    plan <- list(side = nodes$side, texts = texts, size = size, labels = points, points = rbind(hull, points))
    plan$unit <- unit_for(plan$points, room)
    if (plan$unit >= least_part * alone && are_clear(points, nodes, texts, size, plan$unit)) return(plan)
  }
  plan
}

# The size at which the weights alone fit into the circles.
weight_size_in <- function(nodes, unit, cex) {
  min(cex, vapply(nodes$weights, function(it) circle_size(lapply(it, short_text), length(it), nodes$radius * unit), 0))
}

weights_text <- function(weights) paste(vapply(weights, plain_text, ""), collapse = "+")

# The direction from the middle of the default places to each hypothesis.
angles_of <- function(at) atan2(at[, 2], at[, 1])

# Whether a label that is outwards is above or below its circle, and not at its left or right.
is_upright <- function(at) nrow(at) <= 4 | abs(cos(angles_of(at))) < 0.3

# Where labels beside the circles begin, with the inches that they take to each side.
label_points <- function(nodes, texts, size) {
  width <- width_of(texts, size)
  height <- label_height(texts, size)
  at <- nodes$at
  away <- nodes$radius * if (nodes$side == "rays") 1.4 else 1.2
  angle <- angles_of(at)
  if (nodes$side == "below") return(free_points(cbind(at[, 1], at[, 2] - away), width / 2, width / 2, height, 0))
  if (nodes$side == "rays") return(ray_points(at + away * cbind(cos(angle), sin(angle)), angle, width, height))
  upright <- if (nodes$side == "rows") rep(TRUE, nrow(at)) else is_upright(at)
  above <- upright & at[, 2] > 0
  below <- upright & !above
  left <- !above & !below & at[, 1] < 0
  right <- !above & !below & !left
  place <- at + away * cbind(right - left, above - below)
  free_points(place, width * ifelse(left, 1, ifelse(right, 0, 0.5)), width * ifelse(right, 1, ifelse(left, 0, 0.5)),
    height * ifelse(below, 1, ifelse(above, 0, 0.5)), height * ifelse(above, 1, ifelse(below, 0, 0.5)))
}

label_height <- function(texts, size) {
  graphics::strheight(texts, units = "inches", cex = size) + 0.5 * graphics::strheight("Mg", units = "inches", cex = size)
}

# Labels like rays: the corners of each are at its thickness to both sides of the ray.
ray_points <- function(place, angle, width, height) {
  ends <- function(cosine, sine) {
    across <- abs(height / 2 * sine)
    list(before = pmax(0, -width * cosine) + across, after = pmax(0, width * cosine) + across)
  }
  x <- ends(cos(angle), sin(angle))
  y <- ends(sin(angle), cos(angle))
  free_points(place, x$before, x$after, y$before, y$after)
}

# Whether no label hides another one or a circle, if a unit has so many inches.
are_clear <- function(points, nodes, texts, size, unit) {
  if (nodes$side == "rays") return(max(label_height(texts, size)) <= unit * min(stats::dist(points[c("x", "y")])))
  labels <- boxes_of(points, unit)
  circles <- boxes_of(free_points(nodes$at, nodes$radius * unit, nodes$radius * unit, nodes$radius * unit, nodes$radius * unit), unit)
  boxes <- rbind(labels, circles)
  all(vapply(seq_len(nrow(labels)), function(i) sum(hidden_area(labels[i, ], boxes[-i, , drop = FALSE])) == 0, NA))
}

# The rectangles of points and what is around them, in inches.
boxes_of <- function(points, unit) {
  cbind(points$x * unit - points$left, points$y * unit - points$down, points$x * unit + points$right, points$y * unit + points$up)
}

# How much of a rectangle each of some others hides.
hidden_area <- function(box, others) {
  width <- pmin(others[, 3], box[3]) - pmax(others[, 1], box[1])
  height <- pmin(others[, 4], box[4]) - pmax(others[, 2], box[2])
  pmax(width, 0) * pmax(height, 0)
}

# ---- drawing

label_colours <- function(nodes) ifelse(nodes$here, "black", "grey60")

write_labels <- function(nodes, plan, unit) {
  if (plan$side == "inside") return(write_rows(nodes, plan$rows, plan$size, unit))
  if (!is.null(plan$weight_size)) write_rows(nodes, lapply(nodes$weights, lapply, short_text), plan$weight_size, unit)
  points <- plan$labels
  colour <- label_colours(nodes)
  if (plan$side == "rays") return(write_rays(nodes, plan, colour))
  box <- boxes_of(points, unit) / unit
  graphics::rect(box[, 1], box[, 2], box[, 3], box[, 4], col = "white", border = NA)
  for (i in seq_along(plan$texts)) {
    wide <- points$left[i] + points$right[i]
    high <- points$down[i] + points$up[i]
    graphics::text(points$x[i], points$y[i], plan$texts[i], cex = plan$size, col = colour[i],
      adj = c(points$left[i] / wide, points$down[i] / high))
  }
}

write_rays <- function(nodes, plan, colour) {
  angle <- angles_of(nodes$at)
  left <- cos(angle) < -1e-9
  for (i in seq_along(plan$texts)) {
    graphics::text(plan$labels$x[i], plan$labels$y[i], plan$texts[i], cex = plan$size, col = colour[i],
      srt = angle[i] * 180 / pi + if (left[i]) 180 else 0, adj = c(if (left[i]) 1 else 0, 0.5))
  }
}

# Rows of texts in the circles. The last ones are weights, each in the colour of its graph.
write_rows <- function(nodes, rows, size, unit) {
  line <- line_height(size) / unit
  for (i in seq_along(rows)) {
    count <- length(rows[[i]])
    weights <- length(nodes$weights[[i]])
    sizes <- row_sizes(rows[[i]], weights, size, nodes$radius * unit)
    colours <- c(rep(label_colours(nodes)[i], count - weights), colours_of(weights))
    for (k in seq_len(count)) {
      graphics::text(nodes$at[i, 1], nodes$at[i, 2] + ((count + 1) / 2 - k) * line, rows[[i]][[k]], cex = sizes[k], col = colours[k],
        font = if (k <= count - weights) 2 else 1)
    }
  }
}
