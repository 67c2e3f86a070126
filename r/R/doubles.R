# Doubles that are handed back. A p-value is the double that was given. An adjusted value or a level is rounded to the nearest double, or one
# further where that would be on the other side: so `adjusted <= alpha` is what is rejected, and `p <= level` what passes.

# The doubles of numbers that were read: those that were given, and of texts and fractions the nearest ones.
given_doubles <- function(x) {
  out <- double_of(x$read)
  up <- which(x$rule == rounded_up)
  out[up] <- double_of(x$given[up])
  out
}

next_double <- function(x, above) .Call(C_welungad_next, x, above)

# The doubles of adjusted values, each at most alpha exactly if it is rejected.
adjusted_doubles <- function(adjusted, rejected, alpha) {
  out <- double_of(adjusted)
  level <- double_of(alpha)
  out[!rejected & out <= level] <- next_double(level, TRUE)
  out
}

# The doubles of p-values and of their levels, so that a p-value is at most its level exactly if it passes. `read` has the p-values as they
# were read, and `exact` as they were decided. One that was rounded up, and so above its level, is handed back as it was decided.
passing_doubles <- function(read, exact, level) {
  passes <- as.logical(fraction(exact) <= fraction(level))
  out <- list(p = given_doubles(read), level = double_of(level))
  up <- which(!passes & read$rule == rounded_up & out$p <= out$level)
  out$p[up] <- double_of(exact[up])
  beyond <- which(!passes & out$p <= out$level)
  out$level[beyond] <- next_double(out$p[beyond], FALSE)
  out
}
