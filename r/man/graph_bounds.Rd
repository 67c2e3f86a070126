\name{graph_bounds}
\alias{graph_bounds}
\alias{graph_simes}
\alias{summary.welungad_simes}
\alias{bound_of}
\title{Bounds of true discoveries}
\description{
For each set of hypotheses (at most 16 in the graph), a lower bound on the number of false hypotheses in it: its size minus the size of its largest subset that the closed test does not reject. \code{graph_bounds} uses weighted Bonferroni tests, \code{graph_simes} weighted Simes tests. With confidence 1 - alpha no bound of any set is too great, for \code{graph_simes} if Simes' test is valid.
}
\usage{
graph_bounds(graph, p, alpha = 0.025, ...)
graph_simes(graph, p, alpha = 0.025, ...)
bound_of(x, hypotheses)
}
\arguments{
  \item{graph}{a graph, as \code{\link{graph_create}}, \code{\link{graph_entangle}}, \code{\link{graph_catalogue}} or \code{\link{graph_read}} makes it.}
  \item{p}{the p-values: doubles, texts, or fractions of gmp, read as \code{\link{as_exact}} says. They are put in the order of the hypotheses by their names, if they have names: a vector, one row or column of a matrix or a data frame, or the columns \code{hypothesis} and \code{p} of a data frame. Rows of a data frame that are not numbered 1, 2 and so on in this order have names. Numbers that are called as those of another argument, such as \code{weight}, are an error. A double that no decimal of up to 30 places rounds to is rounded up to a multiple of 10^-30, with a message of class \code{welungad_rounded}.}
  \item{alpha}{the level: above 0, at most 1, a fraction of whole numbers up to 10,000, such as 0.025 or 0.00625.}
  \item{...}{nothing else: another argument is an error, which says what to write in place of one of graphicalMCP or gMCP.}
  \item{x}{a result of \code{graph_bounds} or \code{graph_simes}.}
  \item{hypotheses}{a set of hypotheses, as for \code{delete} of \code{\link{graph_update}}.}
}
\details{
The adjusted p-value of Simes' closed test is the least level at which it rejects a hypothesis. It is computed in R with exact fractions, from the weights that the program prints, since the program prints no adjusted p-values of this test. The verdicts of all sets at \code{alpha} are compared with those of the program. \code{\link{graph_test_closure}} shows the verdicts by intersection.

Nothing is claimed of when Simes' test is valid under dependence. It rejects at least what \code{\link{graph_test}} rejects, and may reject more.
}
\value{
An object of class \code{welungad_bounds} with the parts \code{sets} and \code{bound}. A result of \code{graph_simes} also has
\code{top}, the bounds of the hypotheses with the least p-values, \code{rejected}, and the adjusted p-values \code{adjusted} with \code{reached}. Its \code{summary} lists the rejected hypotheses. \code{bound_of} gives the bound of one set, which has to be among those of \code{x}; \code{x[i]} has some of the sets, and \code{summary} of \code{graph_bounds} counts sets by size and bound.
}
\references{
Goeman, J. J. and Solari, A. (2011) Multiple testing for exploratory research. \emph{Statistical Science} \bold{26}, 584--597.
\doi{10.1214/11-STS356}

Simes, R. J. (1986) An improved Bonferroni procedure for multiple tests of significance. \emph{Biometrika} \bold{73}, 751--754.
\doi{10.1093/biomet/73.3.751}

Bretz, F., Posch, M., Glimm, E., Klinglmueller, F., Maurer, W. and Rohmeyer, K. (2011) Graphical approaches for multiple comparison
procedures using weighted Bonferroni, Simes, or parametric tests. \emph{Biometrical Journal} \bold{53}, 894--913.
\doi{10.1002/bimj.201000239}
}
\seealso{
\code{\link{graph_test_closure}}
}
\concept{Simes test}
\concept{gMCP with Simes tests}
\concept{true discovery guarantee}
\examples{
\dontshow{if (welungad_found()) withAutoprint(\{ # examples need the program or its library}
pair <- graph_create(c(1 / 2, 1 / 2), rbind(0:1, 1:0))
graph_bounds(pair, c(0.04, 0.05), alpha = 0.05)
x <- graph_simes(pair, c(0.04, 0.05), alpha = 0.05)
x
bound_of(x, "H1")
x$adjusted
summary(x)
\dontshow{\})}
}
