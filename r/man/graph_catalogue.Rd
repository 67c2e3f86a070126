\name{graph_catalogue}
\alias{graph_catalogue}
\title{Named graphs}
\description{
Makes a graph that the program knows by name.
}
\usage{
graph_catalogue(name, size, second = NULL)
}
\arguments{
  \item{name}{\code{holm}, \code{fixed-sequence}, \code{fallback}, \code{parallel} or \code{improved-parallel}.}
  \item{size}{the number of hypotheses; for the last two names that of the primary ones.}
  \item{second}{the number of secondary hypotheses, for the last two names alone.}
}
\details{
The graph of \code{n} hypotheses, or of \code{n} primary and \code{m} secondary ones:
\itemize{
  \item \code{holm}: equal weights, and equal edges between all hypotheses.
  \item \code{fixed-sequence}: the first hypothesis has the whole weight, and each passes all to the next one.
  \item \code{fallback}: equal weights, and each hypothesis passes all to the next one.
  \item \code{parallel}: equal weights of the primary hypotheses, each of which passes \code{1/m} to each secondary one. The secondary
    ones pass \code{1/(m-1)} to each other.
  \item \code{improved-parallel}: the same, but each secondary hypothesis passes an infinitesimal \code{\\epsilon} to a primary one, and
    \code{(1-\\epsilon)/(m-1)} to each other secondary one.
}
}
\value{
A graph of class \code{welungad_graph}.
}
\references{
Bretz, F., Maurer, W., Brannath, W. and Posch, M. (2009) A graphical approach to sequentially rejective multiple test procedures.
\emph{Statistics in Medicine} \bold{28}, 586--604. \doi{10.1002/sim.3495}

Bretz, F., Posch, M., Glimm, E., Klinglmueller, F., Maurer, W. and Rohmeyer, K. (2011) Graphical approaches for multiple comparison
procedures using weighted Bonferroni, Simes, or parametric tests. \emph{Biometrical Journal} \bold{53}, 894--913.
\doi{10.1002/bimj.201000239}
}
\seealso{
\code{\link{named_graphs}}, for these and further graphs with weights and names of your own; \code{\link{graph_create}}, for other graphs.
}
\examples{
\dontshow{if (welungad_found()) withAutoprint(\{ # examples need the program or its library}
graph_catalogue("holm", 4)
graph_catalogue("improved-parallel", 2, 2)
\dontshow{\})}
}
