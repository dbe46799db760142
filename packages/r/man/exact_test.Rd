\name{exact_test}
\alias{exact_test}
\alias{print.exact_test}
\alias{as.data.frame.exact_test}
\title{Exact Nonparametric Tests}
\description{
  Computes the exact conditional p-values of a nonparametric test. The data are compared with all their rearrangements, so
  each p-value is a fraction of two counts. The counting is done by the machine-checked program
  \command{exact}, which must be installed.
}
\usage{
exact_test(test, x, y = NULL, data = NULL, paired = FALSE, ...,
           alternative = NULL, program = exact_program())

\method{print}{exact_test}(x, digits = getOption("digits"), ...)

\method{as.data.frame}{exact_test}(x, row.names = NULL, optional = FALSE, ...)
}
\arguments{
  \item{test}{the name of the test, see below}
  \item{x}{a sample; a formula, see below; a table of counts or a matrix; or a data frame whose columns are the fields that
    the test reads. For the methods, a result of \code{exact_test}}
  \item{y}{the second sample, or the second value of each pair}
  \item{data}{a data frame for the formula; it may also stand in the third place}
  \item{paired}{whether \code{x} and \code{y} are pairs}
  \item{...}{options of the program, with \code{_} for the dash: \code{tail}, \code{order}, \code{missing = "drop"},
    \code{odds = 1.5} or \code{"3/2"}, \code{scores}, \code{peak}, \code{row_scores}, \code{column_scores}, \code{columns},
    \code{distribution = TRUE}, \code{nodes = TRUE}, \code{plain = TRUE}. Any other option is an error}
  \item{alternative}{\code{"two.sided"}, \code{"less"} or \code{"greater"}, as in \code{\link{wilcox.test}}: whether the
    \emph{first} sample has smaller or greater values than the second. Alternatively, \code{tail} selects a line of the
    report, which refers to the statistic of the \emph{second} sample. Without either, all tails are computed}
  \item{program}{the path of the program. Without it these are tried: the path in the environment variable \env{EXACT},
    and the program on the path}
  \item{digits}{the number of digits to print}
  \item{row.names, optional}{as in \code{\link{as.data.frame}}}
}
\details{
  \tabular{ll}{
    \code{signedrank}, \code{sign}, \code{rawsigned} \tab pairs or differences: the Wilcoxon signed rank test, the sign
      test, the randomization test of the differences \cr
    \code{mcnemar} \tab paired answers: a 2 by 2 table of counts \cr
    \code{ranksum}, \code{raw}, \code{median}, \code{savage} \tab two samples: the Wilcoxon rank sum (Mann-Whitney) test,
      the permutation test of the values, the median test, exponential scores \cr
    \code{ansari}, \code{mood} \tab two samples: their spread about a common median \cr
    \code{kw} \tab several samples: Kruskal-Wallis \cr
    \code{jt}, \code{umbrella} \tab several samples in a given order: Jonckheere-Terpstra, Mack-Wolfe \cr
    \code{friedman}, \code{page}, \code{cochran} \tab blocks, one per row \cr
    \code{fisher}, \code{linear} \tab a table of counts \cr
    \code{strata}, \code{zelen} \tab 2 by 2 tables in strata: a name and four counts in each row \cr
    \code{stratranksum} \tab two samples within strata: a stratum, a label and a value in each row \cr
    \code{kendall} \tab two measurements per subject \cr
    \code{runs} \tab labels in the order of observation
  }
  Formulas are \code{value ~ group} for tests of two or several samples, \code{value ~ group | stratum} for
  \code{stratranksum}, \code{score ~ treatment | block} for \code{friedman}, \code{page} and \code{cochran}, and
  \code{~ x + y} for \code{kendall}. Any other term is an error. Groups and treatments are taken in the order of the factor
  levels. In a data frame, too, groups are taken in the order of the levels if they are a factor; otherwise in the order in
  which they appear.

  \code{kw}, \code{friedman}, \code{cochran} and \code{zelen} have a single p-value, without sides; so do tables larger than
  2 by 2. With \code{odds} there is no two-sided p-value: give \code{tail} or \code{alternative}.

  Nothing is approximated. Problems beyond 128 bits are refused; the same distribution can then be simulated, with package
  \pkg{coin} or, for a table larger than 2 by 2, with \code{fisher.test(simulate.p.value = TRUE)}. The pages of the program
  are in \code{system.file("doc", "docs", package = "exact")}: \file{TESTS.md} describes each test, \file{WHICH.md} helps to
  choose one, and \file{REFUSALS.md} explains each refusal.
}
\value{
  An object of classes \code{exact_test} and \code{htest}. \code{statistic} is named by the letter of Hollander and Wolfe,
  if they give one. \code{numerator}, \code{denominator} and \code{total} are strings, because a double cannot hold them.
  \code{p.value} is that of the requested tail, two-sided if more than one was requested; \code{tails} has all of them.
  \code{alternative} is R's word, for the first sample. \code{sizes} has the sizes of the groups, \code{distribution} the
  whole distribution if requested, \code{dropped} the number of rows that \code{missing = "drop"} left out, and
  \code{report} the lines that the program printed.

  \code{letters} is the same statistic by its letter in other books and in R, as far as the report gives it. \code{U} is the
  Mann-Whitney statistic of the second sample; the \code{W} and the \code{V} are those of \code{\link{wilcox.test}}, for the
  first. \code{H} (\code{\link{kruskal.test}}) and \code{S} (\code{\link{friedman.test}}) are without R's correction for
  ties. \code{tau} is Kendall's tau-a, which \code{\link{cor.test}} has if there are no ties.

  \code{as.data.frame} gives one row per tail, with the column names of \pkg{broom}; its \code{alternative} is in words.

  A refusal is an error of class \code{exact_refused}. Its message is the program's and what helps; \code{line} is the
  program's message alone, and \code{status} its exit status.
}
\seealso{\code{\link{exact_shift}} for the size of a shift; \code{\link{exact_library}} for simulations.}
\examples{
# Twelve rats received a muscle relaxant (t) and twelve served as controls (c). Each was timed on a rotating cylinder, for
# up to 300 seconds. Did the treated rats fall off sooner? The groups are in the order of the levels: c is first.
rats <- data.frame(
  group = rep(c("c", "t"), each = 12),
  time = c(rep(300, 12), 22, 300, 75, 271, 300, 18, 300, 300, 163, 300, 300, 300)
)
answer <- exact_test("ranksum", time ~ group, data = rats, tail = "less")
answer
# of the 2704156 ways to choose which 12 rats were treated, 50388 give them a rank sum as small as this
c(answer$numerator, answer$denominator)

# the same in R's terms, for the first group: do the controls stay longer?
exact_test("ranksum", time ~ group, data = rats, alternative = "greater")$p.value

# all tails in a data frame
as.data.frame(exact_test("ranksum", time ~ group, data = rats))

# pairs, as in wilcox.test(before, after, paired = TRUE, alternative = "less")
before <- c(0.7, -1.6, -0.2, -1.2, -0.1, 3.4, 3.7, 0.8, 0.0, 2.0)
after <- c(1.9, 0.8, 1.1, 0.1, -0.1, 4.4, 5.5, 1.6, 4.6, 3.4)
exact_test("signedrank", before, after, paired = TRUE, alternative = "less")

# blocks in long form, as in friedman.test
lines <- data.frame(
  score = c(5.4, 5.5, 5.55, 5.85, 5.7, 5.75, 5.2, 5.6, 5.5),
  line = c("round", "narrow", "wide"), runner = rep(1:3, each = 3)
)
exact_test("friedman", score ~ line | runner, data = lines)

# a lady tasting tea: a 2 by 2 table, and the same against an odds ratio of 2
tea <- matrix(c(3, 1, 1, 3), 2)
exact_test("fisher", tea, alternative = "greater")
exact_test("fisher", tea, odds = 2, alternative = "greater")

# several groups, and the whole distribution
weights <- data.frame(dose = rep(1:3, each = 3), gain = c(1, 2, 4, 3, 5, 7, 6, 8, 9))
exact_test("jt", gain ~ dose, data = weights, tail = "greater")
head(exact_test("kw", gain ~ dose, data = weights, distribution = TRUE)$distribution)

# a missing value is refused, or its row is left out and counted
try(exact_test("ranksum", c(1, NA, 3), c(4, 5, 6)))
exact_test("ranksum", c(1, NA, 3), c(4, 5, 6), missing = "drop")
}
