\name{graph_read}
\alias{graph_read}
\title{Cases in files}
\description{
Reads a case in one of the program's forms.
}
\usage{
graph_read(file, form = c("text", "csv", "json"), alpha = NULL)
}
\arguments{
  \item{file}{the file of a case.}
  \item{form}{its form: \code{text}, which has a line for each part of the case; \code{csv}, a sheet with a row for each hypothesis; or \code{json}.}
  \item{alpha}{the level, for the form \code{csv} alone: the other forms have a level of their own.}
}
\value{
A list with \code{graph}, \code{alpha}, \code{p} (exact texts, or \code{NULL}) and \code{stages} (the lines of the stages).
}
\seealso{
\code{\link{graph_canon}}
}
\examples{
\dontshow{if (welungad_found()) withAutoprint(\{ # examples need the program or its library}
file <- tempfile()
lines <- c(
  "alpha 0.05", "hypotheses A B", "p 0.02 0.04",
  "weights 1/2 1/2", "edge A B 1", "edge B A 1"
)
writeLines(lines, file)
case <- graph_read(file)
graph_test(case$graph, case$p, case$alpha)
unlink(file)
\dontshow{\})}
}
