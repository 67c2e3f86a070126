\name{welungad_qualify}
\alias{welungad_qualify}
\title{Tests of an installation}
\description{
Tests whether what is installed is what was proved, and whether it works on this machine: for the installation and operational
qualification of a trial site.
}
\usage{
welungad_qualify(folder = ".")
}
\arguments{
  \item{folder}{where the report is written; it is made if it is not there.}
}
\details{
The call compares

\itemize{
  \item each installed file with its SHA-256, and the program and the C library with those that were proved;
  \item what each example prints with the page of the examples: by the program, by the C library, and by this package in each way
    that it has (\code{\link{welungad_ways}});
  \item the decision on each example with checks by definition, which share no code with the program: rejections, adjusted
    p-values, bounds, decisions after each look, and evidence.
}

It writes \code{qualification.txt} and \code{qualification.html} into the folder, with the machine, the versions of R, of Python and
of packages, the digests, each comparison with its result, the date, and lines to sign. What was skipped is named, with the cause. The files
of the R package itself have no digests, since R keeps none of what it installs.

The work is done by the script \code{qualify.py} beside the program, by \code{python3}, as for \code{\link{graph_report}}. Outside of R the
command \code{welungad-qualify} does the same without the comparisons of this package.
}
\value{
The paths of the two files, invisibly. If a comparison failed, or the report cannot be made, the call is an error; the lines of the comparisons
that failed or were skipped are printed before.
}
\seealso{
\code{\link{welungad_run}} for the ways to the proved call, \code{\link{graph_report}} for the page of a decision.
}
\examples{
\dontshow{if ("program" \%in\% welungad_ways()) withAutoprint(\{ # the example needs the program}
folder <- tempfile("qualification")
try(welungad_qualify(folder))
list.files(folder)
unlink(folder, recursive = TRUE)
\dontshow{\})}
}
