\name{named_graphs}
\alias{named_graphs}
\alias{graph_bonferroni}
\alias{graph_holm}
\alias{graph_fixed_sequence}
\alias{graph_fallback}
\alias{graph_fallback_improved_1}
\alias{graph_fallback_improved_2}
\alias{graph_gatekeeping_serial}
\alias{graph_gatekeeping_parallel}
\alias{graph_gatekeeping_improved}
\alias{graph_truncated_holm}
\alias{graph_simple_successive_1}
\alias{graph_simple_successive_2}
\alias{graph_general_successive}
\alias{graph_huque_2011}
\alias{graph_bretz_2011}
\alias{graph_hung_wang_2010}
\title{Graphs of known procedures}
\description{
Builds the graph of a known procedure, with weights and names of your own. These functions decide nothing.
}
\usage{
graph_bonferroni(size = NULL, weights = NULL, names = NULL, ...)
graph_holm(size = NULL, weights = NULL, names = NULL, ...)
graph_fixed_sequence(size = NULL, names = NULL, ...)
graph_fallback(size = NULL, weights = NULL, names = NULL, ...)
graph_fallback_improved_1(size = NULL, weights = NULL, names = NULL, ...)
graph_fallback_improved_2(size = NULL, weights = NULL, names = NULL, ...)
graph_gatekeeping_serial(primary, secondary, weights = NULL, names = NULL, ...)
graph_gatekeeping_parallel(primary, secondary, weights = NULL, names = NULL, ...)
graph_gatekeeping_improved(primary, secondary, weights = NULL, names = NULL, ...)
graph_truncated_holm(gamma, secondary = 2, names = NULL, ...)
graph_simple_successive_1(weights = NULL, names = NULL, ...)
graph_simple_successive_2(weights = NULL, names = NULL, ...)
graph_general_successive(gamma, delta, weights = NULL, names = NULL, ...)
graph_huque_2011(names = NULL, ...)
graph_bretz_2011(names = NULL, ...)
graph_hung_wang_2010(nu, tau, omega, names = NULL, ...)
}
\arguments{
  \item{size}{the number of hypotheses. The weights or the names can give it as well. Several numbers are an error: weights are given as \code{weights}.}
  \item{weights}{the weights, read as \code{\link{as_exact}} says; equal ones if absent. Those of two families are of the primary hypotheses, and the secondary ones have the weight 0. Weights with names are put in the order of \code{names}.}
  \item{names}{the names of the hypotheses; if absent, the names of the weights, else H1, H2 and so on. Any distinct texts can be names.}
  \item{primary, secondary}{the numbers of primary and of secondary hypotheses.}
  \item{gamma, delta}{the part of its weight that the first and the second primary hypothesis pass to the other one: from 0 to 1, or a text with epsilon. gMCP may leave it open; here it is needed.}
  \item{nu, tau, omega}{the parts that are passed along, from 0 to 1, or texts with epsilon.}
  \item{...}{nothing else: another argument is an error, which says what to write in place of one of graphicalMCP or gMCP, such as \code{hypotheses} for weights, \code{hyp_names} and \code{n}.}
}
\details{
One family of hypotheses:
\describe{
  \item{\code{graph_bonferroni}}{has no edges.}
  \item{\code{graph_holm}}{passes the weight of a rejected hypothesis to the others in proportion to their weights (Holm 1979). The weights are above 0.}
  \item{\code{graph_fixed_sequence}}{has all weight at the first hypothesis, and each passes it to the next one (Maurer and others 1995).}
  \item{\code{graph_fallback}}{passes all weight to the next hypothesis (Wiens 2003).}
  \item{\code{graph_fallback_improved_1}}{does the same, and the last hypothesis passes its weight back to the others in proportion to their weights (Wiens and Dmitrienko 2005).}
  \item{\code{graph_fallback_improved_2}}{passes all weight back to the first hypothesis, but an infinitesimal part to the next one (Bretz and others 2009, for three hypotheses; for more the functions of graphicalMCP have this form).}
}
Primary and secondary hypotheses; within the secondary family weight is passed in equal parts:
\describe{
  \item{\code{graph_gatekeeping_serial}}{tests the primary family by Holm's procedure, and the secondary one by Holm's procedure once all primary hypotheses are rejected (Westfall and Krishen 2001). An infinitesimal part of each primary weight goes to the secondary ones.}
  \item{\code{graph_gatekeeping_parallel}}{passes the weight of each primary hypothesis to the secondary ones in equal parts (Dmitrienko and others 2003).}
  \item{\code{graph_gatekeeping_improved}}{does the same, and each secondary hypothesis passes an infinitesimal part back to a primary one, by turns (Bretz and others 2009). A single secondary hypothesis passes all back.}
  \item{\code{graph_truncated_holm}}{has two primary hypotheses of weight 1/2. Each passes the part \code{gamma} to the other one, and the rest to the secondary ones in equal parts (Dmitrienko and others 2008). For more than two primary hypotheses no graph of this form is the truncated Holm procedure.}
}
Two primary hypotheses H1 and H2, each with a secondary one, H3 and H4:
\describe{
  \item{\code{graph_simple_successive_1}}{passes the weight of a primary hypothesis to its own secondary one, and from there to the other primary one (Maurer and others 2011).}
  \item{\code{graph_simple_successive_2}}{passes half to the other primary hypothesis and half to its own secondary one. This is the graph of the diabetes trial of the walkthrough.}
  \item{\code{graph_general_successive}}{passes the parts \code{gamma} of H1 and \code{delta} of H2 to the other primary hypothesis, and the rest to its own secondary one.}
}
Graphs of publications:
\describe{
  \item{\code{graph_huque_2011}}{is of a trial with a composite endpoint and its components (Huque and others 2011). All weight is at the first hypothesis.}
  \item{\code{graph_bretz_2011}}{has three doses with a primary and a secondary hypothesis each (Bretz and others 2011): \code{H21} is the primary one of the second dose, and \code{H22} its secondary one.}
  \item{\code{graph_hung_wang_2010}}{has the hypotheses of noninferiority and of superiority for two endpoints, \code{NI1}, \code{S1}, \code{NI2} and \code{S2} (Hung and Wang 2010). \code{NI1} passes \code{nu} to \code{S1}, and the rest to \code{NI2}. \code{S1} passes \code{tau} to \code{NI2}, \code{NI2} passes \code{omega} to \code{S1}, and both pass the rest to \code{S2}.}
}
The last three, and both improved fallback procedures, are in the form in which the functions \code{HuqueAloshEtBhore2011}, \code{BretzEtAl2011},
\code{HungEtWang2010}, \code{improvedFallbackI} and \code{improvedFallbackII} of gMCP have them.

Three kinds of graphs are left out, since their weights and edges could not be compared with what was published: the designs for two and three
doses of graphicalMCP, the example of Maurer and others (1995), and the entangled graphs of Maurer and Bretz (2013). Where graphicalMCP or gMCP
has such a graph, \code{\link{as_graph}} takes it, and \code{\link{graph_entangle}} makes an entangled one of its parts.
}
\value{
A graph of class \code{welungad_graph}; see \code{\link{graph_create}}.
}
\references{
Bretz, F., Maurer, W., Brannath, W. and Posch, M. (2009) A graphical approach to sequentially rejective multiple test procedures.
\emph{Statistics in Medicine} \bold{28}, 586--604. \doi{10.1002/sim.3495}

Bretz, F., Posch, M., Glimm, E., Klinglmueller, F., Maurer, W. and Rohmeyer, K. (2011) Graphical approaches for multiple comparison
procedures using weighted Bonferroni, Simes, or parametric tests. \emph{Biometrical Journal} \bold{53}, 894--913.
\doi{10.1002/bimj.201000239}

Dmitrienko, A., Offen, W. W. and Westfall, P. H. (2003) Gatekeeping strategies for clinical trials that do not require all primary
effects to be significant. \emph{Statistics in Medicine} \bold{22}, 2387--2400.

Dmitrienko, A., Tamhane, A. C. and Wiens, B. L. (2008) General multistage gatekeeping procedures. \emph{Biometrical Journal} \bold{50},
667--677.

Holm, S. (1979) A simple sequentially rejective multiple test procedure. \emph{Scandinavian Journal of Statistics} \bold{6}, 65--70.

Hung, H. M. J. and Wang, S.-J. (2010) Challenges to multiple testing in clinical trials. \emph{Biometrical Journal} \bold{52}, 747--756.

Huque, M. F., Alosh, M. and Bhore, R. (2011) Addressing multiplicity issues of a composite endpoint and its components in clinical
trials. \emph{Journal of Biopharmaceutical Statistics} \bold{21}, 610--634.

Maurer, W. and Bretz, F. (2013) Memory and other properties of multiple test procedures generated by entangled graphs.
\emph{Statistics in Medicine} \bold{32}, 1739--1753.

Maurer, W., Glimm, E. and Bretz, F. (2011) Multiple and repeated testing of primary, coprimary, and secondary hypotheses.
\emph{Statistics in Biopharmaceutical Research} \bold{3}, 336--352.

Maurer, W., Hothorn, L. A. and Lehmacher, W. (1995) Multiple comparisons in drug clinical trials and preclinical assays: a-priori ordered
hypotheses. In: Vollmar, J. (ed.) \emph{Biometrie in der chemisch-pharmazeutischen Industrie} \bold{6}, 3--18. Fischer, Stuttgart.

Westfall, P. H. and Krishen, A. (2001) Optimally weighted, fixed sequence and gatekeeper multiple testing procedures.
\emph{Journal of Statistical Planning and Inference} \bold{99}, 25--40.

Wiens, B. L. (2003) A fixed sequence Bonferroni procedure for testing multiple endpoints. \emph{Pharmaceutical Statistics} \bold{2},
211--215.

Wiens, B. L. and Dmitrienko, A. (2005) The fallback procedure for evaluating a single family of hypotheses. \emph{Journal of
Biopharmaceutical Statistics} \bold{15}, 929--942.
}
\seealso{
\code{\link{graph_catalogue}} for the graphs that the program knows by name, \code{\link{graph_create}} for others,
\code{\link{graph_entangle}} for several graphs.
}
\concept{BonferroniHolm}
\concept{bonferroni_holm}
\concept{bonferroni_weighted}
\concept{fixedSequence}
\concept{fixed_sequence}
\concept{fallback}
\concept{improvedFallbackI}
\concept{improvedFallbackII}
\concept{simpleSuccessiveI}
\concept{simpleSuccessiveII}
\concept{simple_successive_1}
\concept{generalSuccessive}
\concept{truncatedHolm}
\concept{parallelGatekeeping}
\concept{improvedParallelGatekeeping}
\concept{HuqueAloshEtBhore2011}
\concept{huque_etal}
\concept{BretzEtAl2011}
\concept{HungEtWang2010}
\examples{
\dontshow{if (welungad_found()) withAutoprint(\{ # examples need the program or its library}
graph_holm(weights = c("low dose" = 1 / 2, "middle dose" = 1 / 4, "high dose" = 1 / 4))
graph_test(graph_fallback(weights = c(1 / 2, 1 / 4, 1 / 4)), c(0.01, 0.02, 0.02))
graph_gatekeeping_improved(2, 2, names = c("OS", "PFS", "ORR", "QoL"))
plot(graph_bretz_2011())
\dontshow{\})}
}
