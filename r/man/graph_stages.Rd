\name{graph_stages}
\alias{graph_stages}
\title{Staged trials}
\description{
Decides as p-values arrive at the stages of a trial. \code{levels} takes numbers to compare p-values with, such as 0.0015, not fractions of the level of a hypothesis.
}
\usage{
graph_stages(graph, levels, looks = NULL, alpha = 0.025, at = NULL, stages = NULL)
}
\arguments{
  \item{graph}{a graph, as \code{\link{graph_create}}, \code{\link{graph_entangle}}, \code{\link{graph_catalogue}} or \code{\link{graph_read}} makes it.}
  \item{levels}{a list with the levels of each hypothesis at the stages, or a matrix or a data frame whose rows or whose columns, but not both, are named by the hypotheses. Levels are given from the first stage to the last. A hypothesis without a test at a stage has the level 0 there. A vector has the levels that hold while the weight of the hypothesis is \code{at}; at another weight they are in proportion. A matrix is a table: each row has levels, and its row name is the weight from which it counts.}
  \item{looks}{a data frame with a row for each p-value in the order in which they arrive, with the columns \code{hypothesis} (a name or a label), \code{stage} (its number from 1, or its label in \code{stages}) and \code{p}. If \code{p} or the rows have the names of hypotheses, they have to be those beside them.}
  \item{alpha}{the level: above 0, at most 1, a fraction of whole numbers up to 10,000, such as 0.025 or 0.00625.}
  \item{at}{the weight at which the vectors of levels hold, above 0 and at most 1: one number, or one for each hypothesis. It may be absent, and is then 1, if each hypothesis that has a vector begins with the weight 1 or 0.}
  \item{stages}{the labels of the stages from the first to the last, by which labels in \code{levels} are put in order; numbers and dates are compared by their values. It is needed for labels other than 1, 2 and so on, or \code{stage 1}, \code{stage 2} and so on, in this order.}
}
\details{
The program's lines \code{spend} take fractions of the level of a hypothesis, and its lines \code{table} take levels. This call
takes levels for both, and hands in the tables, or the fractions \code{levels / (at * alpha)}, which have to be of whole numbers up to 10,000.

Levels that sum to the weight of their hypothesis times \code{alpha}, as a protocol has them, hold at this weight: give the weights to
\code{at}. Levels of a spending function are seldom such fractions: give them as tables.

Below the table, \code{print} names a p-value that is 0, and one that is at most four units in the last place from a fraction with which
the decision would be another one.

The stages of a hypothesis are combined as Bonferroni does: its levels sum to at most its own level. Nominal levels by O'Brien
and Fleming or by Pocock sum to more, and are refused.

A refusal of the program is a condition of class \code{welungad_refusal}; see \code{\link{welungad_run}}.
}
\value{
An object of class \code{welungad_stages} with the parts \code{looks}, \code{rejections} (with stage, weight and level), \code{rejected},
\code{read} (the p-values as they were read), \code{case} and \code{report}. Its data frame has the p-values as they were given.
}
\references{
Maurer, W. and Bretz, F. (2013) Multiple testing in group sequential trials using graphical approaches. \emph{Statistics in
Biopharmaceutical Research} \bold{5}, 311--320. \doi{10.1080/19466315.2013.807748}
}
\seealso{
\code{\link{graph_test}}; \code{\link{graph_study}}, which keeps looks in a file
}
\examples{
\dontshow{if (welungad_found()) withAutoprint(\{ # examples need the program or its library}
graph <- graph_create(c(OS = 1 / 2, PFS = 1 / 2), rbind(0:1, 1:0))
levels <- list(OS = c(0.003, 0.022), PFS = rbind("1/2" = c(0.005, 0.0075), "1" = c(0.01, 0.015)))
looks <- data.frame(hypothesis = c("PFS", "OS", "OS"), stage = c(1, 1, 2), p = c(0.004, 0.01, 0.02))
graph_stages(graph, levels, looks, at = 1)
\dontshow{\})}
}
