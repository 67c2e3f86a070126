\name{graph_test_closure}
\alias{graph_test_closure}
\title{Each intersection}
\description{
Shows each intersection of the hypotheses (at most 16 in the graph): the weights and local levels of its members, whether the local test rejects it, whether the closed test does, and from which level on.
}
\usage{
graph_test_closure(graph, p, alpha = 0.025, test = c("bonferroni", "simes"), ...)
}
\arguments{
  \item{graph}{a graph, as \code{\link{graph_create}}, \code{\link{graph_entangle}}, \code{\link{graph_catalogue}} or \code{\link{graph_read}} makes it.}
  \item{p}{the p-values: doubles, texts, or fractions of gmp, read as \code{\link{as_exact}} says. They are put in the order of the hypotheses by their names, if they have names: a vector, one row or column of a matrix or a data frame, or the columns \code{hypothesis} and \code{p} of a data frame. Rows of a data frame that are not numbered 1, 2 and so on in this order have names. Numbers that are called as those of another argument, such as \code{weight}, are an error. A double that no decimal of up to 30 places rounds to is rounded up to a multiple of 10^-30, with a message of class \code{welungad_rounded}.}
  \item{alpha}{the level: above 0, at most 1, a fraction of whole numbers up to 10,000, such as 0.025 or 0.00625.}
  \item{test}{the local test of each intersection: weighted Bonferroni or weighted Simes tests, in small or capital letters.}
  \item{...}{nothing else: another argument is an error, which says what to write in place of one of graphicalMCP or gMCP.}
}
\details{
The weights are what the program prints for the command \code{weights}. A set is rejected by the closed test if its bound in
the command \code{bounds}, or \code{simes}, is above 0. The local verdicts are computed here by exact comparisons, and the call stops if
they do not give the verdicts of the program.

\code{p_local} is the least level at which the local test rejects an intersection, and \code{p_closed} the least one at which the closed
test does: the greatest \code{p_local} of all intersections that contain it. For a single hypothesis this is its adjusted p-value. If no
level up to 1 rejects, the value is 1, and \code{reached} is \code{FALSE} for a hypothesis. These levels are computed in R, from the
weights of the program, with exact fractions. Of Bonferroni tests the adjusted p-values are compared with those that the program prints for
\code{test}, and the call stops if one differs. \code{compared} is \code{FALSE} if the program refuses that command, since its numbers become
too wide. The program prints no adjusted p-values of Simes tests.

A local Simes test rejects if, for some member, its p-value is at most the level times the sum of the weights of all members whose p-values
are at most as large. Nothing is claimed of when Simes' test is valid under dependence.
}
\value{
An object of class \code{welungad_closure} with the parts \code{sets}, \code{weights}, \code{local}, \code{closed}, \code{bound},
\code{p_local} and \code{p_closed} by intersection, and \code{rejected}, \code{adjusted} and \code{reached} by hypothesis. It has methods
for \code{print} and \code{as.data.frame}, both with \code{exact = TRUE} for fractions. The sets are in the order of
\code{\link{graph_weights}}, from the set of all hypotheses on. Below them \code{print} shows the rejected hypotheses and the adjusted p-values.
}
\references{
Marcus, R., Peritz, E. and Gabriel, K. R. (1976) On closed testing procedures with special reference to ordered analysis of variance.
\emph{Biometrika} \bold{63}, 655--660. \doi{10.1093/biomet/63.3.655}

Bretz, F., Posch, M., Glimm, E., Klinglmueller, F., Maurer, W. and Rohmeyer, K. (2011) Graphical approaches for multiple comparison
procedures using weighted Bonferroni, Simes, or parametric tests. \emph{Biometrical Journal} \bold{53}, 894--913.
\doi{10.1002/bimj.201000239}
}
\seealso{
\code{\link{graph_bounds}}, \code{\link{graph_weights}} without p-values
}
\concept{graph_test_closure of graphicalMCP}
\concept{closed test}
\concept{adjusted p-values}
\concept{gMCP with Simes tests}
\examples{
\dontshow{if (welungad_found()) withAutoprint(\{ # examples need the program or its library}
edges <- matrix(1 / 2, 3, 3)
diag(edges) <- 0
graph <- graph_create(rep(1 / 3, 3), edges)
graph_test_closure(graph, c(0.01, 0.005, 0.03))
x <- graph_test_closure(graph, c(0.02, 0.015, 0.03), test = "simes")
as.data.frame(x)[c("intersection", "local", "closed", "p_local", "p_closed")]
x$adjusted
\dontshow{\})}
}
