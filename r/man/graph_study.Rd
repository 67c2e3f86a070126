\name{graph_study}
\alias{graph_study}
\title{Staged trials whose looks are kept in a file}
\description{
Takes looks one after the other, in one session or in many, and keeps them in a file. The case is kept beside the file, and
another case is refused.
}
\usage{
graph_study(case, store, looks = NULL, refused = c("stop", "keep"))
}
\arguments{
  \item{case}{a result of \code{\link{graph_stages}} without looks, or the lines of a staged case.}
  \item{store}{the name of the file of the looks. It is made if it is missing.}
  \item{looks}{new looks, as for \code{\link{graph_stages}}: a data frame with the columns \code{hypothesis}, \code{stage} and \code{p}.}
  \item{refused}{what is done if a look would not be taken: \code{"stop"} is an error, and then no look of this call is taken; with \code{"keep"} the others are, and the result lists it.}
}
\details{
The file has positions of hypotheses, and neither names nor levels. So the first call writes the canonical text of the case into
the file \code{STORE.case}, and a later call with another text is an error. A file of looks that has no such file beside it is
refused. Labels that are not the program's names are kept in the file \code{STORE.labels}, and a later call with other labels is an
error, since the names that the package makes of them can be the same.

How many looks were kept stands in the file \code{STORE.kept}. If the file of looks is lost, or has fewer looks, the call is an error. To
begin anew, remove the files beside it.

A look is kept once all rejections that it allows are made. A look of which a p-value is kept already, whose stage does not exist, or whose
p-value is not from 0 to 1 is not taken. Looks are tried on a copy of the file first, so an error of class \code{welungad_looks_refused},
whose part \code{refused} lists such looks, leaves the file as it was.

A study needs the program: its C library opens no files.
}
\value{
An object of class \code{welungad_study} with the parts \code{records} (how many looks were kept before this call), \code{taken} (how
many are now), \code{looks}, \code{rejections} and \code{refused} (those of this call), and \code{rejected} (by all looks).
}
\references{
Maurer, W. and Bretz, F. (2013) Multiple testing in group sequential trials using graphical approaches. \emph{Statistics in
Biopharmaceutical Research} \bold{5}, 311--320. \doi{10.1080/19466315.2013.807748}
}
\seealso{
\code{\link{graph_stages}} decides all looks at once, without a file.
}
\examples{
\dontshow{if ("program" \%in\% welungad_ways()) withAutoprint(\{ # the example needs the program}
graph <- graph_create(c(PFS = 1 / 2, OS = 1 / 2), rbind(0:1, 1:0))
case <- graph_stages(graph, list(PFS = c(0.005, 0.02), OS = c(0.005, 0.02)), at = 1)
store <- tempfile(fileext = ".db")
graph_study(case, store)
graph_study(case, store, data.frame(hypothesis = "PFS", stage = 1, p = 0.002))
graph_study(case, store, data.frame(hypothesis = "OS", stage = 1, p = 0.004))
unlink(paste0(store, c("", "-wal", "-shm", ".case", ".kept")))
\dontshow{\})}
}
