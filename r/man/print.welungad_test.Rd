\name{print.welungad_test}
\alias{print.welungad_test}
\alias{print.welungad_closure}
\alias{print.welungad_bounds}
\alias{print.welungad_stages}
\alias{print.welungad_update}
\alias{as.data.frame.welungad_test}
\alias{as.data.frame.welungad_closure}
\alias{as.data.frame.welungad_bounds}
\alias{as.data.frame.welungad_stages}
\alias{as.data.frame.welungad_update}
\alias{as.data.frame.welungad_graph}
\alias{summary.welungad_graph}
\alias{summary.welungad_test}
\alias{summary.welungad_closure}
\alias{summary.welungad_bounds}
\alias{summary.welungad_stages}
\alias{[.welungad_test}
\alias{[.welungad_closure}
\alias{[.welungad_bounds}
\title{Printed results, tables and parts}
\description{
Prints results, and gives them as data frames, as summaries, and in parts.
}
\usage{
\method{print}{welungad_test}(x, exact = FALSE, digits = 6, ...)
\method{print}{welungad_closure}(x, exact = FALSE, digits = 4, most = 64, ...)
\method{print}{welungad_bounds}(x, most = 64, ...)
\method{print}{welungad_stages}(x, exact = FALSE, digits = 6, ...)
\method{print}{welungad_update}(x, all = FALSE, ...)
\method{as.data.frame}{welungad_graph}(x, ..., exact = FALSE)
\method{as.data.frame}{welungad_test}(x, ..., exact = FALSE)
\method{as.data.frame}{welungad_closure}(x, ..., exact = FALSE)
\method{as.data.frame}{welungad_bounds}(x, ...)
\method{as.data.frame}{welungad_stages}(x, ..., exact = FALSE)
\method{as.data.frame}{welungad_update}(x, ..., exact = FALSE)
\method{summary}{welungad_graph}(object, ...)
\method{summary}{welungad_test}(object, ...)
\method{summary}{welungad_closure}(object, ...)
\method{summary}{welungad_bounds}(object, ...)
\method{summary}{welungad_stages}(object, ...)
\method{[}{welungad_test}(x, i, j, ...)
\method{[}{welungad_closure}(x, i, ...)
\method{[}{welungad_bounds}(x, i, ...)
}
\arguments{
  \item{x, object}{a result of \code{\link{graph_test}}, \code{\link{graph_test_closure}}, \code{\link{graph_bounds}}, \code{\link{graph_simes}}, \code{\link{graph_stages}}, \code{\link{graph_update}} or \code{\link{graph_steps}}, or a graph.}
  \item{exact}{whether numbers are exact texts and not doubles.}
  \item{digits}{how many digits of a decimal are shown.}
  \item{most}{how many sets are shown.}
  \item{all}{whether all graphs are shown and not the last one alone.}
  \item{i}{hypotheses, by label, name or position, for a decision; sets, by their place, for the others.}
  \item{j}{columns of the table of a decision; all if absent.}
  \item{...}{nothing else: another argument, such as a misspelt one, is an error.}
}
\details{
The table of a decision has a row for each hypothesis. Its weight and its local level are those at its rejection, or in the end if it is
not rejected; \code{step} is its place among the rejections. Below the table, \code{print} names a p-value that agrees with its level in
the digits shown, one that is 0, and one that is at most four units in the last place from a fraction on the other side of
the level. Below closed tests, bounds and staged tests it names those with which the decision would be another one. Below a closed test
it also lists the adjusted p-values, and below updated graphs it says how all of them are shown.

In a table that would be wider than a line, short tags stand for labels, and a list below has them.

The data frame of a closed test has a row for each intersection, with a weight and a local level for each hypothesis in it. It also has the least levels at which the local and the closed test reject the intersection. That of
updated graphs has a row for each hypothesis that is left after each removal. That of a staged test has a row for each look.
}
\value{
\code{print} returns its argument, invisibly. \code{as.data.frame} returns a data frame.

\code{summary} returns, for a graph, a data frame with the weight of each hypothesis and the numbers of its edges; for a decision, an
object of class \code{welungad_summary}, which prints the rejections in their order; for a closed test, a data frame that counts the
rejected intersections of each size; for bounds, a table that counts the sets by size and bound, and for those of Simes' tests an object that prints the rejections; for a staged test, a data frame of the
rejections.

\code{[} returns, for a decision, the rows of some hypotheses in a data frame; for a closed test and for bounds, an object of the same
class with some of the sets. \code{head} and \code{tail} return the first and the last of them.
}
\seealso{
\code{\link{plot.welungad_graph}} for pictures.
}
\examples{
\dontshow{if (welungad_found()) withAutoprint(\{ # examples need the program or its library}
edges <- rbind(c(0, 1 / 2, 1 / 2), c(1 / 2, 0, 1 / 2), 0)
graph <- graph_create(c(H1 = 1 / 2, H2 = 1 / 2, H3 = 0), edges)
x <- graph_test(graph, c(H1 = 0.018, H2 = 0.01, H3 = 0.02))
print(x, digits = 3)
as.data.frame(x, exact = TRUE)
summary(x)
x["H3"]
print(graph_test_closure(graph, c(0.018, 0.01, 0.02)), most = 3)
summary(graph_bounds(graph, c(0.018, 0.01, 0.02)))
\dontshow{\})}
}
