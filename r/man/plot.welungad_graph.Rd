\name{plot.welungad_graph}
\alias{plot.welungad_graph}
\alias{plot.welungad_test}
\alias{plot.welungad_update}
\alias{plot.welungad_closure}
\alias{plot.welungad_stages}
\title{Pictures of graphs}
\description{
Draws a circle with label and weight for each hypothesis, and an arrow for each edge. Base graphics alone are used.
}
\usage{
\method{plot}{welungad_graph}(x, layout = NULL, main = NULL, cex = 1, labels = NULL, v_palette = NULL,
  nrow = NULL, ncol = NULL, ...)
\method{plot}{welungad_test}(x, layout = NULL, main = NULL, cex = 1, labels = NULL, v_palette = NULL,
  nrow = NULL, ncol = NULL, ...)
\method{plot}{welungad_closure}(x, layout = NULL, main = NULL, cex = 1, labels = NULL, v_palette = NULL,
  nrow = NULL, ncol = NULL, ...)
\method{plot}{welungad_stages}(x, layout = NULL, main = NULL, cex = 1, labels = NULL, v_palette = NULL,
  nrow = NULL, ncol = NULL, ...)
\method{plot}{welungad_update}(x, layout = NULL, cex = 0.8, labels = NULL, v_palette = NULL,
  nrow = NULL, ncol = NULL, ...)
}
\arguments{
  \item{x}{a graph, a decision, a closed test, a staged test, or updated graphs.}
  \item{layout}{a matrix with two columns, the coordinates of each hypothesis, whose rows are put in the order of the hypotheses if they have names; \code{"grid"} or \code{"circle"}; or a layout function of igraph. If absent, the hypotheses are in two rows for a gatekeeping graph, in a square if they are four, and else on a circle.}
  \item{labels}{what is written for the hypotheses in place of their labels, in their order or with their names. The texts are distinct.}
  \item{v_palette}{one or two colours: of the circles, and of those of rejected or removed hypotheses.}
  \item{nrow, ncol}{the numbers of rows and columns of a grid, which is filled row by row.}
  \item{main}{a title.}
  \item{cex}{the size of texts.}
  \item{...}{nothing else: another argument, such as a misspelt one, is an error.}
}
\details{
A gatekeeping graph is here one with at least two hypotheses with weight, which come first, and at least two without. Each of the latter gets
an edge from one of the former, and neither row has more than six.

Labels are wrapped at their blanks. If they do not fit into the circles, they are written beside them: below the circles for a
\code{layout} of your own, above and below two rows, else outwards from the middle.

The numbers of the edges are written at the arrows, unless there are more than 48, or they would hide each other. Then each number has
a colour, and a line below the picture says which. If there are more than eight numbers, or several graphs, \code{print} shows the
numbers. In such a picture an arrow with two heads is two edges with the same number. A number with more than seven letters is shown as
a decimal of four digits, after a sign for \sQuote{about}.

In a picture of several graphs each has a colour, and the line below has their shares. In one of a decision the rejected hypotheses are green; in one of updated graphs the removed ones are grey.
}
\value{
The object, invisibly.
}
\examples{
\dontshow{if (welungad_found()) withAutoprint(\{ # examples need the program or its library}
graph <- graph_catalogue("improved-parallel", 2, 2)
plot(graph)
plot(graph, layout = cbind(c(1, 2, 1, 2), c(2, 2, 1, 1)), main = "two by two")
plot(graph_holm(6), nrow = 2, v_palette = c("#6baed6", "#cccccc"))
x <- graph_test(graph, c(0.02, 0.04, 0.01, 0.02), alpha = 0.05)
plot(x)
plot(graph_steps(x))
\dontshow{\})}
}
