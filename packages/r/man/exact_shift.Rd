\name{exact_shift}
\alias{exact_shift}
\alias{print.exact_shift}
\alias{as.data.frame.exact_shift}
\title{Hodges-Lehmann Estimate of Shift with Exact Confidence Limits}
\description{
  Estimates the shift of the second sample relative to the first by the method of Hodges and Lehmann, with exact
  confidence limits.
}
\usage{
exact_shift(x, y = NULL, data = NULL, ..., program = exact_program())

\method{print}{exact_shift}(x, digits = getOption("digits"), ...)

\method{as.data.frame}{exact_shift}(x, row.names = NULL, optional = FALSE, ...)
}
\arguments{
  \item{x}{the first sample; a formula \code{value ~ group}; or a data frame of labels and values. For the methods, a
    result of \code{exact_shift}}
  \item{y}{the second sample}
  \item{data}{a data frame for the formula; it may also stand in the second place}
  \item{...}{options: \code{miss}, 1 minus the confidence level, as \code{0.1} or \code{"1/10"} (1/20 if it is not given);
    \code{order}, \code{columns}, \code{missing}, as for \code{\link{exact_test}}. Any other option is an error}
  \item{program}{as for \code{\link{exact_test}}}
  \item{digits}{the number of digits to print}
  \item{row.names, optional}{as in \code{\link{as.data.frame}}}
}
\value{
  An object of classes \code{exact_shift} and \code{htest} with \code{estimate} and \code{conf.int}. The level of
  \code{conf.int} is the one attained, at least the one requested; limits that do not exist are infinite. \code{miss} is a
  numerator and a denominator as strings: the fraction of all rearrangements that the limits miss.
  \code{as.data.frame} gives one row, with the column names of \pkg{broom}.
}
\examples{
found <- exact_shift(c(1, 2, 3), c(4, 5, 6), miss = 0.2)
found
as.data.frame(found)
}
