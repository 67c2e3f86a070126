# Arrows of a picture, and the texts at them.

# The arrows of all graphs, each with its path between two circles, its text and its colour. If `is_joined`, the arrows there and back
# of a picture of one graph are one with two heads, if they have the same number.
arrows_of <- function(graph, all, nodes, is_joined) {
  place <- match(graph$names, all$names)
  edges <- lapply(graph$components, `[[`, "edges")
  texts <- texts_of_edges(edges)
  found <- list()
  for (c in seq_along(edges)) for (e in which(edges[[c]] != "0")) {
    i <- row(edges[[c]])[e]
    j <- col(edges[[c]])[e]
    is_double <- is_joined && length(edges) == 1 && edges[[c]][j, i] == edges[[c]][i, j]
    if (is_double && i > j) next
    both <- !is_double && (c > 1 || any(vapply(edges, function(other) other[j, i] != "0", NA)))
    bend <- bend_of(nodes$at, place[i], place[j], nodes$radius, both) * (1 + 0.8 * (c - 1))
    path <- path_between(nodes$at[place[i], ], nodes$at[place[j], ], nodes$radius, bend)
    if (is.null(path)) next
    found[[length(found) + 1L]] <- list(path = path, text = texts[[edges[[c]][e]]], is_double = is_double,
      colour = if (length(edges) > 1) component_colours[c] else if (is_joined) component_colours[1] else "grey25")
  }
  found
}

# What is written for each number that an edge has.
texts_of_edges <- function(edges) {
  values <- setdiff(unique(unlist(edges)), c("0", NA))
  stats::setNames(lapply(values, short_text), values)
}

# How far an arrow bends: not at all if it is alone, and around another circle in its way, towards the middle of the picture. The
# two arrows of a pair bend by different amounts.
bend_of <- function(at, i, j, radius, both) {
  along <- at[j, ] - at[i, ]
  if (!is_blocked(at, i, j, radius)) return(if (both) 0.1 else 0)
  inwards <- sum(c(-along[2], along[1]) * (colMeans(at) - (at[i, ] + at[j, ]) / 2))
  bend <- min(0.35, 1.2 * sqrt(radius / sqrt(sum(along^2)))) * if (i < j) 1 else 0.75
  if (inwards < 0) -bend else bend
}

# Whether the straight line between two circles meets another one.
is_blocked <- function(at, i, j, radius) {
  others <- at[-c(i, j), , drop = FALSE]
  along <- at[j, ] - at[i, ]
  part <- ((others[, 1] - at[i, 1]) * along[1] + (others[, 2] - at[i, 2]) * along[2]) / sum(along^2)
  away <- sqrt((at[i, 1] + part * along[1] - others[, 1])^2 + (at[i, 2] + part * along[2] - others[, 2])^2)
  any(part > 0 & part < 1 & away < radius * 1.2)
}

# The points of a curve between two circles, or NULL if they touch.
path_between <- function(from, to, radius, bend) {
  along <- to - from
  control <- (from + to) / 2 + 2 * bend * c(-along[2], along[1])
  t <- seq(0, 1, length.out = 201)
  x <- (1 - t)^2 * from[1] + 2 * t * (1 - t) * control[1] + t^2 * to[1]
  y <- (1 - t)^2 * from[2] + 2 * t * (1 - t) * control[2] + t^2 * to[2]
  out <- (x - from[1])^2 + (y - from[2])^2 >= radius^2 & (x - to[1])^2 + (y - to[2])^2 >= radius^2
  if (sum(out) < 8) NULL else cbind(x[out], y[out])
}

draw_arrow <- function(arrow, cex) {
  colour <- if (cex < 1) grDevices::adjustcolor(arrow$colour, 0.6) else arrow$colour
  path <- arrow$path
  graphics::lines(path, col = colour)
  draw_head(path, colour, cex)
  if (arrow$is_double) draw_head(path[rev(seq_len(nrow(path))), ], colour, cex)
}

draw_head <- function(path, colour, cex) {
  last <- nrow(path)
  begin <- path[last - 3L, ]
  end <- path[last, ]
  # on a tiny page it would have no direction
  if (sqrt(sum((end - begin)^2)) < graphics::xinch(0.002)) return(invisible())
  graphics::arrows(begin[1], begin[2], end[1], end[2], length = head_length * cex, angle = head_angle, col = colour)
}

# ---- texts

# The most arrows of a picture that have texts.
most_arrow_texts <- 48L

# The parts of the way at which the text of an arrow can be.
parts_of_way <- c(0.32, 0.38, 0.26, 0.44, 0.5, 0.2, 0.56, 0.62)

# The rectangles of the texts at arrows, in inches, how much of each is hidden, and their size: one after the other, each where it
# hides circles, labels and the texts before it least.
arrow_boxes <- function(arrows, nodes, plan, cex) {
  size <- cex * if (nrow(nodes$at) > 8) 0.65 else 0.8
  unit <- plan$unit
  around <- rep(0.85 * nodes$radius * unit, 4)
  taken <- boxes_of(free_points(nodes$at, around[1], around[2], around[3], around[4]), unit)
  if (!plan$side %in% c("inside", "rays")) taken <- rbind(taken, boxes_of(plan$labels, unit))
  taken <- rbind(taken, head_boxes(arrows, unit, cex))
  hidden <- numeric(length(arrows))
  first <- nrow(taken)
  for (i in seq_along(arrows)) {
    boxes <- boxes_along(arrows[[i]], unit, size)
    area <- vapply(boxes, function(box) sum(hidden_area(box, taken)), 0)
    box <- boxes[[which.min(area)]]
    hidden[i] <- min(area) / prod(box[3:4] - box[1:2])
    taken <- rbind(taken, box)
  }
  list(boxes = taken[first + seq_along(arrows), , drop = FALSE], hidden = hidden, size = size)
}

# The rectangles of the heads of arrows, in inches.
head_boxes <- function(arrows, unit, cex) {
  boxes <- lapply(arrows, function(it) {
    rbind(head_box(it$path, unit, cex), if (it$is_double) head_box(it$path[rev(seq_len(nrow(it$path))), ], unit, cex))
  })
  do.call(rbind, boxes)
}

# The corners of a head are at its length from its point, to both sides of the last piece of the path.
head_box <- function(path, unit, cex) {
  end <- path[nrow(path), ] * unit
  back <- path[nrow(path) - 3L, ] * unit - end
  angle <- atan2(back[2], back[1]) + head_angle * pi / 180 * c(-1, 1)
  x <- c(end[1], end[1] + head_length * cex * cos(angle))
  y <- c(end[2], end[2] + head_length * cex * sin(angle))
  matrix(c(min(x), min(y), max(x), max(y)), 1)
}

# The inches of the sides of a head, and their angle to the arrow.
head_length <- 0.1
head_angle <- 22

# The rectangles at which the text of an arrow can be.
boxes_along <- function(arrow, unit, size) {
  half <- c(0.56 * width_of(arrow$text, size), 0.75 * graphics::strheight(arrow$text, units = "inches", cex = size))
  lapply(parts_of_way, function(part) {
    centre <- arrow$path[ceiling(nrow(arrow$path) * part), ] * unit
    c(centre - half, centre + half)
  })
}

# Whether the texts at arrows are too small, or too many of them: they hide each other, their arrows, or much of the picture, whose circles
# are at these places.
are_crowded <- function(arrows, texts, at, unit, cex) {
  if (length(arrows) <= 6) return(FALSE)
  if (!is_readable(texts$size, cex)) return(TRUE)
  sides <- texts$boxes[, 3:4] - texts$boxes[, 1:2]
  area <- prod(pmax(apply(at, 2, function(x) diff(range(x))) * unit, 0.5))
  hides_arrow <- sides[, 1] > 0.6 * unit * vapply(arrows, function(it) length_of(it$path), 0)
  mean(texts$hidden) > 0.03 || mean(hides_arrow) > 0.1 || sum(sides[, 1] * sides[, 2]) > 0.08 * area
}

length_of <- function(path) sqrt(sum((path[nrow(path), ] - path[1, ])^2))

write_arrow_texts <- function(arrows, texts, unit) {
  boxes <- texts$boxes / unit
  for (i in seq_along(arrows)) {
    box <- boxes[i, ]
    graphics::rect(box[1], box[2], box[3], box[4], col = "white", border = NA)
    graphics::text((box[1] + box[3]) / 2, (box[2] + box[4]) / 2, arrows[[i]]$text, cex = texts$size, col = arrows[[i]]$colour)
  }
}
