\name{welungad-package}
\alias{welungad-package}
\alias{welungad}
\docType{package}
\title{Graphical multiple tests by the proved program Welungad}
\description{
Reads R's numbers exactly, hands graphical multiple tests to the proved program Welungad or to its C library, and turns the
answers into tables, updated graphs and pictures. The package decides nothing itself.
}
\details{
Begin with \code{\link{graph_create}} and \code{\link{graph_test}}. \code{\link{as_exact}} says how numbers are read, and
\code{\link{welungad_run}} how the program is found.

\code{vignette("welungad")} is a walkthrough of five worked cases. \code{vignette("coming-from", package = "welungad")} is for users of
gMCP and graphicalMCP. \code{system.file("walkthrough", "walkthrough.R", package = "welungad")} is the script of the walkthrough, and
\code{walkthrough.txt} beside it is its output.
}
\references{
Bretz, F., Maurer, W., Brannath, W. and Posch, M. (2009) A graphical approach to sequentially rejective multiple test procedures.
\emph{Statistics in Medicine} \bold{28}, 586--604. \doi{10.1002/sim.3495}
}
\seealso{
\code{\link{graph_create}}, \code{\link{graph_test}}, \code{\link{print.welungad_test}} for printed results and tables.
}
\concept{gMCP}
\concept{graphicalMCP}
\concept{gMCPLite}
\concept{graphical multiple comparison procedures}
\concept{multiple testing}
\examples{
welungad_way()
as_exact(1 / 3)
\dontshow{if (welungad_found()) withAutoprint(\{ # examples need the program or its library}
holm <- graph_catalogue("holm", 3)
graph_test(holm, c(0.01, 0.005, 0.02), alpha = 0.025)
\dontshow{\})}
}
\keyword{package}
