library(testthat)
library(welungad)

test_check("welungad")
