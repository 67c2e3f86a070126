\name{as_exact}
\alias{as_exact}
\alias{welungad_exact-class}
\alias{Ops,welungad_exact,ANY-method}
\alias{Ops,ANY,welungad_exact-method}
\alias{Ops,welungad_exact,welungad_exact-method}
\alias{show,welungad_exact-method}
\title{Numbers as they are read}
\description{
Shows the exact number that the package reads for each number that it is given.
}
\usage{
as_exact(x, total = NULL)
}
\arguments{
  \item{x}{doubles, integers, texts, fractions of gmp, or whole numbers of bit64: a vector, a matrix or a data frame.}
  \item{total}{what the numbers have to sum to, or each row of a matrix; \code{NULL} if no sum is required.}
}
\details{
A text is taken as it is written. A double from 0 to 1 is read by the first of these rules that applies:
\enumerate{
  \item the fraction with the least denominator up to 10,000 for which R computes \code{n / d == x};
  \item the decimal with the fewest places, up to 30, that is read back as \code{x}, and of several the nearest to it;
  \item \code{x} rounded up to a multiple of 10^-30.
}
If the package has the C library, the library reads the doubles, by a function that is proved. Otherwise, or if the library is of
an earlier release, the package reads them by the same rule; a test compares the two on 100,000 doubles. No case
has numbers below 0 or above 1, so these are read only to name them when they are refused: below 0 as the opposite is, above 1 by
rule 1 or as the shortest decimal.

So 1/3 typed in R is 1/3, 0.025 is 1/40, and 0.3333 is 3333/10000. The sum 0.1 + 0.2 is 0.30000000000000004, since R's sum
is not the double of 3/10.

With \code{total}, a double that is at most four units in the last place beside a fraction with a denominator up to 10,000 is
read as this fraction. If the numbers then do not sum to the total exactly, that is an error. In a matrix each row has to, but
a row of zeros may stay.

A data frame is read column by column. Its rows have names unless they are numbered 1, 2 and so on in this order. A text that R writes for a fraction, as \code{"0.3333333"} for 1/3, is read as it is
written, with a warning of class \code{welungad_written}. Such texts have 6 digits and denominators up to 100, 7 digits and denominators
up to 1,000, or 8 to 17 digits and denominators up to 10,000. R drops zeros at the end, so it writes \code{"0.952381"} for 20/21.

\code{c}, \code{rev} and \code{cbind} of gmp drop names, so give names to its fractions afterwards, or join what \code{as_exact} makes of them.

\code{NaN} and infinite numbers are refused. A missing number stays missing; what needs it refuses it.
}
\value{
An object of class \code{welungad_exact} with the parts \code{given}, \code{read} (the text that is handed to the program) and
\code{rule}. It keeps names, and the rows and columns of a matrix. \code{[}, \code{[[}, \code{c}, \code{rep}, \code{names},
\code{unname}, \code{dim}, \code{t}, \code{is.na}, \code{sort} and \code{unique} work as for other vectors. So do assignments such as
\code{x["H1"] <- 1 / 3}, by which the new number is read as any other; its number of elements has to be 1, or that of the places.
Comparisons are exact, with numbers of each class that \code{as_exact} takes, on either side; arithmetic is an error. So are
\code{\%in\%} and \code{match}, for which \code{any(x == value)} is exact, and \code{for (v in x)}: write
\code{for (v in as.list(x))}, or use \code{lapply}. \code{as.character} and \code{format} give the texts, \code{summary} gives how many
numbers were read by each rule, and \code{as.data.frame} a table.
}
\seealso{
\code{\link{graph_create}}, which takes such numbers.
}
\examples{
as_exact(c(1 / 3, 0.025, 0.3333, 0.1 + 0.2))
as_exact(c("1/3", "1-\\\\epsilon"))
as_exact(seq(0.1, 0.4, 0.1), total = 1)
p <- c(H1 = as_exact("1/240"), H2 = 0.02)
p["H2"] <- 1 / 120
p
}
