library(testthat)
library(votingboard)
test_check("votingboard")
