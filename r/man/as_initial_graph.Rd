\name{as_initial_graph}
\alias{as_initial_graph}
\alias{as_graphMCP}
\alias{as_igraph}
\title{Graphs for other packages}
\description{
Makes an object of graphicalMCP, gMCP or igraph from a graph, so that power, parametric tests and pictures can continue there.
}
\usage{
as_initial_graph(x, epsilon = NULL)
as_graphMCP(x)
as_igraph(x, epsilon = NULL)
}
\arguments{
  \item{x}{a graph of this package, or one of graphicalMCP or gMCP, as \code{\link{as_graph}} takes it.}
  \item{epsilon}{a number between 0 and 1 in place of epsilon, such as 0.0001. It is needed if the graph has an epsilon, since graphicalMCP and igraph have numbers alone. gMCP puts such a number in by \code{substituteEps}.}
}
\details{
The numbers of these objects are doubles, so they are no longer exact. \code{\link{as_graph}} reads them as \code{\link{as_exact}} says,
which gives the same fractions if their denominators are at most 10,000.

graphicalMCP has functions of the same names as the three here. If both packages are attached, each takes the objects of the other.
}
\value{
\code{as_initial_graph}: an object of class \code{initial_graph} of graphicalMCP, for a graph of one component. The package need not be
installed.

\code{as_graphMCP}: an object of class \code{graphMCP} of gMCP, or of class \code{entangledMCP} for several components. The package gMCP or
gMCPLite has to be installed. Edges with epsilon are texts, as gMCP has them.

\code{as_igraph}: a directed graph of the package igraph, which has to be installed. Vertices have the attributes \code{name}, \code{weight}
and \code{exact}, edges \code{weight}, \code{exact} and \code{component}.
}
\seealso{
\code{\link{as_graph}} for the way back, \code{vignette("coming-from", package = "welungad")}
}
\concept{substituteEps}
\concept{graphMCP}
\concept{initial_graph}
\concept{graphGUI}
\examples{
\dontshow{if (welungad_found()) withAutoprint(\{ # examples need the program or its library}
theirs <- as_initial_graph(graph_simple_successive_2())
theirs$hypotheses
as_initial_graph(graph_gatekeeping_improved(2, 2), epsilon = 0.0001)$transitions
if (requireNamespace("igraph", quietly = TRUE)) as_igraph(graph_holm(3))
\dontshow{\})}
}
