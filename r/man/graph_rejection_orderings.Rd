\name{graph_rejection_orderings}
\alias{graph_rejection_orderings}
\title{All orders of rejection}
\description{
Lists each order in which the rejected hypotheses (at most 8) can be rejected one after the other.
}
\usage{
graph_rejection_orderings(x, p = NULL, alpha = 0.025, ...)
}
\arguments{
  \item{x}{a result of \code{\link{graph_test}}, or a graph.}
  \item{p, alpha}{the p-values and the level, for a graph alone.}
  \item{...}{nothing else: another argument is an error, which says what to write in place of one of graphicalMCP or gMCP.}
}
\details{
A hypothesis can be rejected next if its weight in the graph without those before it is above 0, and its p-value is at most this weight
times the level. The weights are what the program prints; the comparisons with the p-values are made in R, with exact fractions. All
orders reject the same hypotheses. \code{\link{graph_test}} finds one of three of them, by its argument \code{priority}.
}
\value{
A matrix of labels, of class \code{welungad_orderings}, with a row for each order and a column for each step. If nothing is rejected, it has one
row and no column. \code{as.matrix} and \code{[} give plain matrices. The list \code{valid_orderings} of graphicalMCP is not there, and
\code{x$valid_orderings} is an error: each row is an order.
}
\seealso{
\code{\link{graph_test}}, \code{\link{graph_steps}} for the graphs of one order.
}
\concept{valid_orderings}
\concept{graph_rejection_orderings of graphicalMCP}
\examples{
\dontshow{if (welungad_found()) withAutoprint(\{ # examples need the program or its library}
graph_rejection_orderings(graph_simple_successive_2(), c(0.018, 0.01, 0.105, 0.006))
graph_rejection_orderings(graph_test(graph_holm(3), c(0.01, 0.005, 0.02)))
\dontshow{\})}
}
