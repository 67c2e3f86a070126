\name{graph_test_many}
\alias{graph_test_many}
\alias{summary.welungad_many}
\alias{print.welungad_many}
\title{Many trials with one graph}
\description{
Decides many trials with one graph and one level, for example to estimate power.
}
\usage{
graph_test_many(graph, P, alpha = 0.025, ...)
\method{summary}{welungad_many}(object, ...)
\method{print}{welungad_many}(x, ...)
}
\arguments{
  \item{graph}{a graph, as \code{\link{graph_create}}, \code{\link{graph_entangle}}, \code{\link{graph_catalogue}} or \code{\link{graph_read}} makes it.}
  \item{P}{a matrix or a data frame with a row of p-values for each trial. Columns with names are put in the order of the hypotheses. Rows that have the names of all hypotheses are an error, and so are the names such as \code{V1} that \code{as.data.frame} gives to columns without any: \code{unname(as.matrix(P))} has none.}
  \item{alpha}{the level: above 0, at most 1, a fraction of whole numbers up to 10,000, such as 0.025 or 0.00625.}
  \item{object, x}{a result of \code{graph_test_many}.}
  \item{...}{for \code{print}, \code{digits}: how many digits of a decimal are shown. Else nothing: another argument is an error, which says what to write in place of one of graphicalMCP or gMCP.}
}
\details{
P-values are read as \code{\link{as_exact}} says. A p-value that is missing or not from 0 to 1 is an error with its row and column,
before the first trial is decided. P-values that are rounded up to multiples of 10^-30 are reported by one message of class
\code{welungad_rounded}, which has their rows. A message of class \code{welungad_tie} names the rows that would be decided otherwise with
the fractions beside doubles, as \code{\link{graph_test}} notes them.

A matrix of doubles is decided in blocks of 512 rows, with one call of the C library each. Without the library, with one of an earlier
release, and for texts and fractions, each row is a call of \code{test}. That call also computes the adjusted p-values, so a row can
be too wide for it and not for the call of a block.

The call can be interrupted between blocks. If it takes more than two seconds in an interactive session, it shows a bar.

Power is not computed here, and p-values are not simulated: the example simulates correlated normal statistics, and estimates
the power of each hypothesis, of rejecting at least one and all of them, and the expected number of rejections.

A normal statistic has the power \code{power} at the one-sided level \code{alpha} if its mean is
\code{qnorm(1 - alpha) + qnorm(power)}. So this is the mean for an element of the \code{power_marginal} of graphicalMCP. The \code{mean} and
the \code{corr.sim} of gMCP's \code{calcPower} are the means and the correlation of the statistics.
}
\value{
A logical matrix of class \code{welungad_many} with a row for each trial and a column for each hypothesis, named by its label: whether it
is rejected. A trial whose numbers become too wide is a row of \code{NA}, with a warning of class \code{welungad_wide} that names the rows.
\code{as.matrix} and \code{[} give plain matrices.

\code{summary} gives the share of trials that reject each hypothesis, any of them and all of them, and the mean number of rejections,
each with its standard error. Trials without a decision are left out, and counted. \code{as.data.frame} makes a table of it, with the columns
\code{rejected}, \code{mean} and \code{error}. \code{print} shows the summary.
}
\seealso{
\code{\link{graph_test}} for one trial.
}
\concept{power}
\concept{graph_calculate_power}
\concept{calcPower}
\concept{graphTest}
\concept{simulation}
\examples{
\dontshow{if (welungad_found()) withAutoprint(\{ # examples need the program or its library}
graph <- graph_create(c(low = 1 / 2, high = 1 / 2), rbind(0:1, 1:0))
set.seed(1)
trials <- 100
shift <- qnorm(1 - 0.025) + qnorm(c(low = 0.5, high = 0.85))
common <- rnorm(trials)
statistics <- t(shift + t((matrix(rnorm(2 * trials), trials) + common) / sqrt(2)))
rejected <- graph_test_many(graph, pnorm(statistics, lower.tail = FALSE), alpha = 0.025)
summary(rejected)
mean(rejected[, "low"] & rejected[, "high"])
\dontshow{\})}
}
