\name{welungad_run}
\alias{welungad_run}
\alias{welungad_way}
\alias{welungad_found}
\alias{welungad_ways}
\title{The proved call}
\description{
Calls the proved program, in process by its C library or as a process of its own.
}
\usage{
welungad_run(words, case = "", proof = "")
welungad_way()
welungad_found()
welungad_ways()
}
\arguments{
  \item{words}{the words of a command, as \code{c("test", "--priority", "ratio")}.}
  \item{case}{what the program reads from standard input: a raw vector, one text, or lines.}
  \item{proof}{what it reads from the file of \code{check FILE}. FILE is any word.}
}
\details{
The library is part of the package if \code{WELUNGAD_PREFIX}, or \code{WELUNGAD_INCLUDE} and \code{WELUNGAD_LIB}, named its folders when
the package was installed. Else the program runs: the one that the environment variable \code{WELUNGAD} names, else the one on
the path. The option \code{welungad.way} chooses one of both, \code{"library"} or \code{"program"}. \code{\link{graph_study}} and
\code{\link{graph_report}} need the program in any case.

The calls of this package turn a refusal into a condition of the classes \code{welungad_refusal} and \code{error}. It has the parts
\code{status} and \code{line} of the program, \code{where} (the argument and the place), \code{amount} (for a sum above 1, how much it
is) and \code{advice} (a sentence that says what to do). An answer that is not whole, or not for the
hypotheses of the case, is an error, as when \code{WELUNGAD} names another program.
}
\value{
\code{welungad_run}: a list with \code{status} and \code{text}, as the program ends and prints. It signals no refusal.

\code{welungad_way}: \code{"library"}, \code{"program"}, or \code{""} if neither is found. \code{welungad_found}: whether one is. \code{welungad_ways}: those that are found.
}
\examples{
welungad_way()
welungad_found()
\dontshow{if (welungad_found()) withAutoprint(\{ # examples need the program or its library}
welungad_run("test", c("alpha 0.05", "hypotheses A", "p 0.01", "weights 1"))
refusal <- tryCatch(graph_create(c(0.6, 0.6), matrix(0, 2, 2)), welungad_refusal = identity)
refusal$line
refusal$amount
refusal$advice
\dontshow{\})}
}
