\name{graph_report}
\alias{graph_report}
\title{A page about a decision}
\description{
Writes a decision as one page of HTML for readers.
}
\usage{
graph_report(x, file, p = NULL, alpha = 0.025, title = NULL, protocol = NULL,
  data_cut = NULL, author = NULL)
}
\arguments{
  \item{x}{a result of \code{\link{graph_test}} or \code{\link{graph_stages}}; or a graph, which is then tested with \code{p} at \code{alpha}.}
  \item{file}{where the page is written. The file has the whole page, or stays as it was.}
  \item{p}{the p-values if \code{x} is a graph, as for \code{\link{graph_test}}.}
  \item{alpha}{the level if \code{x} is a graph.}
  \item{title}{the title of the page; by default the first line of the printed result.}
  \item{protocol, data_cut, author}{texts for the lines of the page that name them; each one that is left out is a line to fill in by hand.}
}
\details{
The page has the method, the decision on each hypothesis with its levels and adjusted p-value, the graph as a table and (of at most 30 edges) in
pictures before the first rejection and after each one, all intersections (if there are at most 6 hypotheses), bounds on the number of false
hypotheses, the digest of the evidence with what two checkers answered when the page was made, the case, and how to repeat and to check the
decision. The hypotheses have their labels; if one of them has more than 10 characters, tables and pictures have the tags H1, H2 and so on, which
the table of the decision explains. The names that the program has for them are beside the case. The page has no scripts and needs no other file.
The script \code{check_page.py} checks it against its own case, without the program.

The page says of the decision only what the program prints. Its reports are read strictly, and if the report of the decision is not
the one that \code{x} has, there is no page.

The page is made by the script \code{report.py} of Welungad's installation or checkout, so this call needs more than the others:
\itemize{
  \item the program, as \code{\link{welungad_run}} says, also if the package has the C library;
  \item the script, in the folder \code{share/welungad/tools} of the installation in whose \code{bin} the program is, or in the folder
    \code{tools} of the checkout;
  \item \code{python3}, 3.9 or later, which the environment variable \code{WELUNGAD_PYTHON} names, or which is on the path.
}
If one of them is missing, the call stops with a line that names it.
}
\value{
The path of the file, invisibly.
}
\seealso{
\code{\link{graph_evidence}} for what a reviewer can check, \code{\link{plot.welungad_graph}} for pictures.
}
\concept{gMCPReport}
\examples{
\dontshow{if ("program" \%in\% welungad_ways()) withAutoprint(\{ # the example needs the program}
graph <- graph_create(c("low dose" = 1 / 2, "high dose" = 1 / 2), rbind(0:1, 1:0))
x <- graph_test(graph, p = c("low dose" = 0.01, "high dose" = 0.02))
page <- tempfile(fileext = ".html")
try(graph_report(x, page, title = "Two doses"))
file.exists(page)
unlink(page)
\dontshow{\})}
}
