\name{exact-package}
\alias{exact-package}
\alias{exact}
\docType{package}
\title{Exact p-Values of Nonparametric Tests}
\description{
  Computes exact p-values of nonparametric tests, for data that are too few, too tied or too unbalanced for an
  approximation. Each p-value is a fraction, counted over all rearrangements of the data.
}
\details{
  \tabular{ll}{
    \code{\link{exact_test}} \tab the tests: \code{exact_test("ranksum", x, y)}, \code{exact_test("ranksum", value ~ group,
      data = d)} \cr
    \code{\link{exact_shift}} \tab how far the second of two samples is shifted, with exact confidence limits \cr
    \code{\link{exact_library}} \tab the same within this process, for many small runs
  }
  Choose the test and the side before you see the data.
}
\examples{
exact_test("ranksum", c(1, 2, 3), c(4, 5, 6))
}
