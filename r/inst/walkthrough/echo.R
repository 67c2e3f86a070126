# Writes the walkthrough with its output to standard output: Rscript echo.R > walkthrough.txt
options(width = 110, digits = 7)
here <- sub("^--file=", "", grep("^--file=", commandArgs(), value = TRUE))
source(file.path(dirname(here), "walkthrough.R"), echo = TRUE, spaced = TRUE, max.deparse.length = Inf, keep.source = TRUE)
