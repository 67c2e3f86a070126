\name{graph_test}
\alias{graph_test}
\alias{graph_rejections}
\title{Decisions}
\description{
Decides which hypotheses are rejected. The decision, the weights and the adjusted p-values are what the proved program prints.
}
\usage{
graph_test(graph, p, alpha = 0.025, priority = c("first", "last", "ratio"), ...)
graph_rejections(x, exact = FALSE)
}
\arguments{
  \item{graph}{a graph, as \code{\link{graph_create}}, \code{\link{graph_entangle}}, \code{\link{graph_catalogue}} or \code{\link{graph_read}} makes it.}
  \item{p}{the p-values: doubles, texts, or fractions of gmp, read as \code{\link{as_exact}} says. They are put in the order of the hypotheses by their names, if they have names: a vector, one row or column of a matrix or a data frame, or the columns \code{hypothesis} and \code{p} of a data frame. Rows of a data frame that are not numbered 1, 2 and so on in this order have names. Numbers that are called as those of another argument, such as \code{weight}, are an error. A double that no decimal of up to 30 places rounds to is rounded up to a multiple of 10^-30, with a message of class \code{welungad_rounded}.}
  \item{alpha}{the level: above 0, at most 1, a fraction of whole numbers up to 10,000, such as 0.025 or 0.00625.}
  \item{priority}{which hypothesis is rejected first if several may be: the \code{first} or the \code{last} by position, or that with the least \code{ratio} of p-value to weight. What is rejected in the end is the same for each, unless a run is too wide.}
  \item{...}{nothing else: another argument is an error, which says what to write in place of one of graphicalMCP or gMCP.}
  \item{x}{a result of \code{graph_test}.}
  \item{exact}{whether numbers are exact texts and not doubles.}
}
\details{
A row of the table has the p-value, the weight and the local level (weight times level) at which the hypothesis was rejected;
for a hypothesis that is not rejected, those in the end. The adjusted p-value is the least level at which the hypothesis is
rejected.

There are no parametric tests, which use the correlation of the test statistics.

A refusal of the program is a condition of class \code{welungad_refusal}; see \code{\link{welungad_run}}.
}
\value{
An object of class \code{welungad_test} with the parts \code{rejected} (a logical vector, named by labels), \code{adjusted} (the
adjusted p-values as doubles, each at most \code{alpha} exactly if its hypothesis is rejected), \code{reached} (whether the closed test rejects the hypothesis at any level up to 1),
\code{order} (the labels of the rejected in their order), \code{exact} (the exact numbers), \code{case} (the text that was handed
in) and \code{report} (the lines of the answer).

\code{print(x, exact = TRUE)} and \code{as.data.frame(x, exact = TRUE)} show fractions in place of decimals. \code{plot} marks the
rejected hypotheses. \code{graph_rejections} and \code{summary} give the rejections in their order, and \code{x[i]} the rows of some
hypotheses. \code{print} names a p-value that is 0, and one that is at most four
units in the last place from a fraction on the other side of the level.

P-values in tables are the doubles that were given. Adjusted p-values and levels are rounded to the nearest double, or to the one after it
or before it, so that for each hypothesis \code{adjusted <= alpha} is what is rejected, and \code{p <= level} is what the exact numbers say.
So a value that is not reached is the double after 1 if the level is 1, and a p-value that was rounded up, and so above its level, is the one
that was decided.

A result whose parts were changed is an error in \code{print}, \code{plot} and the other calls that take one.
}
\references{
Bretz, F., Maurer, W., Brannath, W. and Posch, M. (2009) A graphical approach to sequentially rejective multiple test procedures.
\emph{Statistics in Medicine} \bold{28}, 586--604. \doi{10.1002/sim.3495}
}
\seealso{
\code{\link{graph_test_many}},
\code{\link{graph_steps}}, \code{\link{graph_rejection_orderings}}, \code{\link{graph_test_closure}}, \code{\link{graph_evidence}}
}
\concept{gMCP}
\concept{graph_test_shortcut}
\concept{adjPValues}
\concept{adjusted p-values}
\concept{sequentially rejective test}
\examples{
\dontshow{if (welungad_found()) withAutoprint(\{ # examples need the program or its library}
graph <- graph_create(c(1 / 2, 1 / 2, 0, 0), rbind(
  c(0, 1 / 2, 1 / 2, 0), c(1 / 2, 0, 0, 1 / 2), c(0, 1, 0, 0), c(1, 0, 0, 0)
))
x <- graph_test(graph, c(0.018, 0.01, 0.105, 0.006))
x
print(x, exact = TRUE)
graph_rejections(x)
\dontshow{\})}
}
