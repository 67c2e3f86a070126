\name{graph_weights}
\alias{graph_weights}
\alias{as.data.frame.welungad_weights}
\alias{print.welungad_weights}
\title{Weights of all intersections}
\description{
Gives the weights with which the closed test of a graph (at most 16 hypotheses) tests each intersection. No p-values are needed.
}
\usage{
graph_weights(graph, ...)
\method{print}{welungad_weights}(x, exact = FALSE, digits = 6, most = 64, ...)
\method{as.data.frame}{welungad_weights}(x, row.names = NULL, optional = FALSE, ..., exact = FALSE)
}
\arguments{
  \item{graph}{a graph, as \code{\link{graph_create}} makes it, or one of graphicalMCP or gMCP (\code{\link{as_graph}}).}
  \item{x}{a result of \code{graph_weights}.}
  \item{exact}{whether weights are exact texts and not doubles.}
  \item{digits}{how many digits of a decimal are shown.}
  \item{most}{how many intersections are shown.}
  \item{row.names, optional}{unused.}
  \item{...}{nothing else: another argument is an error.}
}
\details{
The weights are what the program prints for the command \code{weights}. If the graph has an epsilon they are the limits as epsilon goes to
0, and for several graphs the sums over all of them.
}
\value{
A matrix of class \code{welungad_weights}, laid out as by \code{graph_generate_weights} of graphicalMCP, with a row for each
intersection. There is first a column for each hypothesis, which is 1 if the hypothesis is a member and else 0, and then a column for each
with its weight as a double. The first row is the intersection of all hypotheses, and the last one that of the last hypothesis alone. The
attribute \code{exact} has the weights as exact texts. \code{x$name} is an error, since a matrix has no parts. \code{as.matrix} and \code{[} give plain matrices. \code{as.data.frame} has the
members of each intersection as a text, and \code{NA} for the weights of the others.
}
\references{
Bretz, F., Maurer, W., Brannath, W. and Posch, M. (2009) A graphical approach to sequentially rejective multiple test procedures.
\emph{Statistics in Medicine} \bold{28}, 586--604. \doi{10.1002/sim.3495}
}
\seealso{
\code{\link{graph_test_closure}}, with p-values.
}
\concept{generateWeights}
\concept{graph_generate_weights}
\examples{
\dontshow{if (welungad_found()) withAutoprint(\{ # examples need the program or its library}
graph <- graph_simple_successive_2()
weights <- graph_weights(graph)
weights
weights[1:3, ]
attr(weights, "exact")[1:3, ]
\dontshow{\})}
}
