\name{graph_evidence}
\alias{graph_evidence}
\alias{graph_check}
\alias{graph_canon}
\title{Evidence for a decision}
\description{
Makes a document from which a reviewer can check a decision, and checks such a document, whoever wrote it.
}
\usage{
graph_evidence(graph, p, alpha = 0.025, priority = c("first", "last", "ratio"))
graph_check(graph, p, alpha = 0.025, evidence)
graph_canon(graph, p = NULL, alpha = 0.025)
}
\arguments{
  \item{graph}{a graph, as \code{\link{graph_create}}, \code{\link{graph_entangle}}, \code{\link{graph_catalogue}} or \code{\link{graph_read}} makes it.}
  \item{p}{the p-values: doubles, texts, or fractions of gmp, read as \code{\link{as_exact}} says. They are put in the order of the hypotheses by their names, if they have names: a vector, one row or column of a matrix or a data frame, or the columns \code{hypothesis} and \code{p} of a data frame. Rows of a data frame that are not numbered 1, 2 and so on in this order have names. Numbers that are called as those of another argument, such as \code{weight}, are an error. A double that no decimal of up to 30 places rounds to is rounded up to a multiple of 10^-30, with a message of class \code{welungad_rounded}.}
  \item{alpha}{the level: above 0, at most 1, a fraction of whole numbers up to 10,000, such as 0.025 or 0.00625.}
  \item{priority}{which hypothesis is rejected first if several may be: the \code{first} or the \code{last} by position, or that with the least \code{ratio} of p-value to weight. What is rejected in the end is the same for each, unless a run is too wide.}
  \item{evidence}{a result of \code{graph_evidence}, or the lines of a document of evidence.}
}
\value{
\code{graph_evidence}: an object of class \code{welungad_evidence} with the lines \code{evidence} and the canonical text \code{case}.

\code{graph_check}: an object of class \code{welungad_check} with the parts \code{yes}, \code{listed} (the closed test rejects each),
\code{kept} (it rejects none of them) and \code{reason} (the first condition that is broken). A document that is not evidence
is refused.

\code{graph_canon}: the lines of the case in its one spelling, which can be archived.
}
\seealso{
\code{\link{graph_test}}
}
\examples{
\dontshow{if (welungad_found()) withAutoprint(\{ # examples need the program or its library}
pair <- graph_create(c(1 / 2, 1 / 2), rbind(0:1, 1:0))
proof <- graph_evidence(pair, c(0.01, 0.02))
proof
graph_check(pair, c(0.01, 0.02), evidence = proof)
graph_check(pair, c(0.01, 0.03), evidence = proof)
writeLines(graph_canon(pair, c(0.01, 0.02)))
\dontshow{\})}
}
