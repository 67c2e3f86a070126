\name{graph_create}
\alias{graph_create}
\title{Graphs of hypotheses}
\description{
Makes a graph of hypotheses with weights, and edges that say where the weight of a rejected hypothesis goes.
}
\usage{
graph_create(hypotheses, transitions, hyp_names = NULL, labels = NULL, ...)
}
\arguments{
  \item{hypotheses}{the weights, which come before the edges and sum to at most 1: a vector, one row or column of a matrix or a data frame, or the columns \code{hypothesis} and \code{weight} of a data frame. Rows of a data frame that are not numbered 1, 2 and so on in this order have names. Their names, if there are any, name the hypotheses.}
  \item{transitions}{a square matrix or data frame: the edge from the hypothesis of the row to that of the column. Rows and columns with names are put in the order of the hypotheses. Each row sums to at most 1. An edge may hold an infinitesimal epsilon, as the text \code{1-\\epsilon} does.}
  \item{hyp_names}{the names of the hypotheses; if absent, those of \code{hypotheses}, else those of the rows, of the columns, else H1, H2 and so on. Names are distinct, also without their blanks.}
  \item{labels}{what is shown for each hypothesis; if absent, the names. Labels are distinct, also without their blanks, and none is the name of another hypothesis.}
  \item{...}{nothing else: another argument is an error, which says what to write in place of one of graphicalMCP or gMCP.}
}
\details{
Numbers are read as \code{\link{as_exact}} says. \code{print} shows the exact numbers, and which doubles were read as another
number than their decimal.

The program's names are 1 to 32 ASCII letters, digits, underscores, points and hyphens. Any other text can be a label: the
package makes a name of it, and shows the label. Results are named by labels, and hypotheses can be given by either.

There is no test that uses the correlation of the test statistics (parametric tests), and no computation of power; see
\code{\link{graph_test_many}} for the latter.

A refusal of the program is a condition of class \code{welungad_refusal}; see \code{\link{welungad_run}}.
}
\value{
An object of class \code{welungad_graph}: \code{names}, \code{labels}, and \code{components}, each with its \code{share}, its \code{weights} and its \code{edges} as exact texts. A graph whose \code{components} are changed is decided as it then is, and its weights and edges have to stay in the order of its hypotheses. A part that is added by hand is an error, since no call would read it. New \code{labels} or \code{names} are allowed, but not one that another hypothesis had. It has methods for \code{print}, \code{plot}, \code{format}, \code{summary} and \code{as.data.frame}.

\code{graph$hypotheses} has the weights as doubles, over all components. \code{graph$transitions} and \code{as.matrix(graph)} have the edges of a graph of one component, as doubles, or as exact texts if there is an epsilon. \code{names(graph)} are the labels, and \code{dim(graph)} is twice their number. In a graph and in each result, a name after \code{$} that is not that of a part, or only its beginning, is an error.
}
\references{
Bretz, F., Maurer, W., Brannath, W. and Posch, M. (2009) A graphical approach to sequentially rejective multiple test procedures.
\emph{Statistics in Medicine} \bold{28}, 586--604. \doi{10.1002/sim.3495}
}
\seealso{
\code{\link{graph_test}}, \code{\link{graph_entangle}}, \code{\link{named_graphs}}
}
\concept{graph_create of graphicalMCP}
\concept{setWeights}
\concept{setEdge}
\concept{getWeights}
\concept{getMatrix}
\concept{getNodes}
\concept{matrix2graph}
\concept{new graphMCP}
\examples{
\dontshow{if (welungad_found()) withAutoprint(\{ # examples need the program or its library}
edges <- matrix(1 / 2, 3, 3)
diag(edges) <- 0
holm <- graph_create(c("HbA1c low" = 1 / 3, "HbA1c high" = 1 / 3, weight = 1 / 3), edges)
holm
as.data.frame(holm)
holm$hypotheses
holm$transitions
\dontshow{\})}
}
