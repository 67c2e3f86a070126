\name{graph_update}
\alias{graph_update}
\alias{graph_steps}
\title{Updated graphs}
\description{
Removes hypotheses from a graph. \code{graph_steps} removes those that a decision rejected, in their order.
}
\usage{
graph_update(graph, delete, ...)
graph_steps(x)
}
\arguments{
  \item{graph}{a graph, as \code{\link{graph_create}}, \code{\link{graph_entangle}}, \code{\link{graph_catalogue}} or \code{\link{graph_read}} makes it.}
  \item{delete}{the hypotheses that are removed, in this order: by name, label or position, or a logical vector. A number that is the name of a hypothesis at another position is an error.}
  \item{...}{nothing else: another argument is an error, which says what to write in place of one of graphicalMCP or gMCP.}
  \item{x}{a result of \code{\link{graph_test}}.}
}
\details{
The package computes no updated graph: the C library prints the weights and the edges of up to 64 hypotheses. A library of an
earlier release and the program print weights alone, so weights and edges are read off the weights that they print after further
removals. Then they lack their infinitely small parts, and the edges of more than 16 hypotheses are left out: they are \code{NA}. Such a
graph is printed and drawn, and no call takes it. \code{print} of an update says which way it was made.

\code{graph_steps} compares the weight of each hypothesis at its rejection, and the weights in the end, with those of the decision,
and stops if one differs. A number that is too wide is a refusal.

With epsilon an updated graph can have edges that are quotients. The program does not read such a graph, so give all removals
to one call.
}
\value{
An object of class \code{welungad_update} with the parts \code{initial_graph}, \code{updated_graph}, \code{deleted}, \code{graphs} (the
graphs before the first removal and after each) and \code{compared}, which is \code{TRUE} since all weights are those of the proved
call. \code{plot} draws all graphs. \code{print} shows the last one, and \code{print(x, all = TRUE)} all of them, as a line below it says;
\code{as.data.frame} has their weights.
}
\references{
Bretz, F., Maurer, W., Brannath, W. and Posch, M. (2009) A graphical approach to sequentially rejective multiple test procedures.
\emph{Statistics in Medicine} \bold{28}, 586--604. \doi{10.1002/sim.3495}
}
\seealso{
\code{\link{graph_test}}
}
\concept{rejectNode}
\concept{graph_update of graphicalMCP}
\examples{
\dontshow{if (welungad_found()) withAutoprint(\{ # examples need the program or its library}
graph <- graph_create(c(1 / 2, 1 / 2, 0, 0), rbind(
  c(0, 1 / 2, 1 / 2, 0), c(1 / 2, 0, 0, 1 / 2), c(0, 1, 0, 0), c(1, 0, 0, 0)
))
graph_update(graph, "H2")
print(graph_steps(graph_test(graph, c(0.018, 0.01, 0.105, 0.006))), all = TRUE)
\dontshow{\})}
}
