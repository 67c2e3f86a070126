\name{as_graph}
\alias{as_graph}
\title{Graphs of other packages}
\description{
Makes a graph of this package from a graph of graphicalMCP or gMCP. Neither package has to be installed, since only the fields of
the object are read. Each call of this package that takes a graph also takes such an object.
}
\usage{
as_graph(x)
}
\arguments{
  \item{x}{an object of class \code{initial_graph} or \code{updated_graph} (graphicalMCP), or of class \code{graphMCP} or \code{entangledMCP} (gMCP).}
}
\details{
Weights and edges are read as \code{\link{as_exact}} says. Edges of gMCP that are texts with epsilon stay as they are. A graph
whose weights or rows sum to more than 1, as R's doubles are read, is refused: see \code{total} of \code{\link{as_exact}}.

The deleted hypotheses of an \code{updated_graph} are left out. They need no p-values: a call that gets some for them stops, and names the
hypotheses that are left.

A graph of gMCP in which a hypothesis is marked as rejected is an error, since here it would be a hypothesis that is not rejected and has
the weight 0.
}
\value{
A graph of class \code{welungad_graph}.
}
\seealso{
\code{\link{as_initial_graph}}, \code{\link{as_graphMCP}} and \code{\link{as_igraph}} for the way back.

\code{vignette("coming-from", package = "welungad")} has a table of calls.
}
\concept{gMCP}
\concept{graphicalMCP}
\concept{graphMCP}
\concept{initial_graph}
\concept{updated_graph}
\concept{entangledMCP}
\examples{
\dontshow{if (welungad_found()) withAutoprint(\{ # examples need the program or its library}
theirs <- structure(
  list(
    hypotheses = c(H1 = 0.5, H2 = 0.5),
    transitions = rbind(H1 = c(H1 = 0, H2 = 1), H2 = c(1, 0))
  ),
  class = "initial_graph"
)
as_graph(theirs)
graph_test(theirs, c(H1 = 0.01, H2 = 0.02))
\dontshow{\})}
}
