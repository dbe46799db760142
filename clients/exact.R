# Exact nonparametric tests in R, computed by the program `exact`. One file, base R alone: source("exact.R").
#
#   exact_test("ranksum", x, y)                         two samples (the statistic is that of the second)
#   exact_test("ranksum", x, y, alternative = "less")   x less than y, as in wilcox.test
#   exact_test("ranksum", value ~ group, data = d)      groups in the order of the factor levels
#   exact_test("signedrank", before, after, paired = TRUE)
#   exact_test("sign", after - before)                  differences
#   exact_test("friedman", score ~ treatment | block, data = d)   also page and cochran
#   exact_test("stratranksum", value ~ group | stratum, data = d)
#   exact_test("friedman", d)                           a data frame: its columns are the fields
#   exact_test("fisher", table(d$sex, d$answer))        a table of counts, or a matrix
#   exact_test("fisher", m, odds = 1.5, alternative = "greater")   a 2 by 2 table against an odds ratio of 3/2
#   exact_test("kendall", x, y, paired = TRUE)          two measurements per subject
#   exact_test("runs", d$sex)                           labels in the order of observation
#   exact_shift(x, y, miss = 0.05)                      the shift of y relative to x, with exact limits
#
# In a data frame, too, a factor of groups puts them in the order of its levels; other groups stand in the order in
# which they appear.
#
# Further arguments are the options of the program, with _ for the dash: tail = "less", order = c("b", "a"),
# row_scores = 1:4, nodes = TRUE. `tail` is a line of the report and refers to the statistic of the second sample.
# `alternative` means what it means in R: whether the first sample is less or greater. Give one of them at most.
#
# The result is an htest. `statistic` is named by its letter in the textbooks, `letters` has the same statistic by the
# letters of other books and of R, as far as the report gives them. `numerator`, `denominator` and `total` are strings,
# because a double cannot hold them. `p.value` is that of the requested tail, two-sided if more than one was requested;
# `tails` has them all. `sizes` has the lines about groups or rows, `distribution` the whole distribution if requested,
# and `dropped` the number of rows that missing = "drop" left out. as.data.frame gives one row per tail. The result of
# exact_shift has `estimate` and `conf.int` as in wilcox.test, but of the second sample minus the first. The level of
# `conf.int` is the one attained, and limits that do not exist are infinite. `miss` is a numerator and a denominator as
# strings.
#
# A refusal is an error of class exact_refused. Its message is the program's and what helps; `line` is the program's
# message alone, and `status` its exit status. `program` is the path of the program. Without it that in the environment
# variable EXACT is taken, then that of the installed package exact, then the one on the path.
#
# Each run is a process of its own, so it can be interrupted, and a crash does not end your session. For many small
# runs, exact_library() computes the same answers within this process, through rexact.so.
#
# Numbers are passed on with 15 digits, as R shows them. Numbers with more than 18 decimals are rounded, with a warning.
# If that would make two different values equal, or one of them zero, the run is refused as out of range.

exact_test <- function(test, x, y = NULL, data = NULL, paired = FALSE, ..., alternative = NULL,
                       program = exact_program()) {
  if (inherits(x, "formula") && is.null(data) && !is.null(y)) {
    data <- y
    y <- NULL
  }
  name <- exact_name(substitute(x), if (!is.null(y)) substitute(y))
  call <- sys.call()
  options <- list(...)
  exact_check(options, exact_options)
  if (identical(test, "shift")) stop("shift is an estimate, not a test: call exact_shift()", call. = FALSE)
  options$odds <- exact_ratio(options$odds)
  rows <- exact_rows(x, y, data, paired, test, options$columns)
  about <- exact_about(test, rows, options)
  options$tail <- exact_tail(test, options, alternative, about$is_turned)
  exact_report(exact_lines(test, rows, options, program, call), name, options, about)
}

exact_shift <- function(x, y = NULL, data = NULL, ..., program = exact_program()) {
  if (inherits(x, "formula") && is.null(data) && !is.null(y)) {
    data <- y
    y <- NULL
  }
  name <- exact_name(substitute(x), if (!is.null(y)) substitute(y))
  call <- sys.call()
  options <- list(...)
  exact_check(options, exact_shift_options)
  options$miss <- exact_ratio(options$miss)
  rows <- exact_rows(x, y, data, FALSE, "shift", options$columns)
  exact_limits(exact_lines("shift", rows, options, program, call), name)
}

# Loads rexact.so. From now on, runs that name no program use it, within this process; its value can also be the
# `program` of single runs. A run then starts no process and writes no file. But it cannot be interrupted, and too small
# a stack ends the session, so leave long runs to the program. `folder` is where rexact.so is. Without it these are
# tried: the folder in the environment variable EXACT_LIBRARY, that of the installed package exact, that of this file,
# and ../lib of the program on the PATH.
exact_library <- function(folder = Sys.getenv("EXACT_LIBRARY", NA)) {
  near <- c(system.file("lib", package = "exact"), exact_state$folder, exact_beside("lib"))
  path <- file.path(if (is.na(folder)) near[nzchar(near)] else folder, "rexact.so")
  if (!any(file.exists(path))) stop("the library rexact.so was not found: give its folder, exact_library(folder)")
  library <- dyn.load(path[file.exists(path)][1])
  answer <- getNativeSymbolInfo("rexact_answer", library)
  exact_state$library <- structure(list(answer = answer), class = "exact_library")
  invisible(exact_state$library)
}

# the folder of this file, and the library if it was loaded
exact_state <- new.env()
exact_state$folder <- local({
  sourced <- Filter(Negate(is.null), lapply(sys.frames(), function(frame) frame$ofile))
  if (length(sourced) > 0) dirname(normalizePath(sourced[[length(sourced)]])) else "."
})

# what runs the program
exact_program <- function() {
  if (is.null(exact_state$library)) exact_path() else exact_state$library
}

# what the data are called; whether it is a call, deparse1 would find out by deparsing it, so it is told
exact_name <- function(x, y) {
  text <- function(part) if (is.symbol(part)) as.character(part) else deparse1(part, backtick = is.call(part))
  if (is.null(y)) text(x) else paste(text(x), "and", text(y))
}

# ---- what is known of each test

exact_shift_options <- c("miss", "order", "columns", "separator", "missing")
exact_options <- c("tail", "scores", "order", "peak", "row_scores", "column_scores", "columns", "separator", "number",
                   "odds", "missing", "distribution", "plain", "nodes")

# For each test its full name, the name of its statistic (the letter of Hollander and Wolfe, if it is theirs), the
# alternative hypothesis with a star, and the words that replace the star for `less` and for `greater`; FIRST and SECOND
# stand for the groups, ORDER for all of them. A test without one-sided alternatives has the first two alone.
exact_tests <- list(
  signedrank = c("Exact Wilcoxon signed rank test", "T+", "PAIRS", "less", "greater"),
  sign = c("Exact sign test", "B", "PAIRS", "less", "greater"),
  rawsigned = c("Exact randomization test of differences (Fisher)", "T", "PAIRS", "less", "greater"),
  mcnemar = c("Exact McNemar test", "T", "the change in row 1, column 2 is * frequent than that in row 2, column 1",
              "less", "more"),
  ranksum = c("Exact Wilcoxon rank sum test (Mann-Whitney)", "W", "values of SECOND are * than those of FIRST",
              "less", "greater"),
  ansari = c("Exact Ansari-Bradley test", "C", "values of SECOND are * spread out than those of FIRST", "more", "less"),
  mood = c("Exact Mood test of spread", "M", "values of SECOND are * spread out than those of FIRST", "less", "more"),
  savage = c("Exact Savage test (exponential scores)", "T", "values of SECOND are * than those of FIRST",
             "less", "greater"),
  median = c("Exact median test (Brown-Mood)", "T", "a * share of SECOND than of FIRST lies above the common median",
             "smaller", "larger"),
  raw = c("Exact permutation test of two samples (Fisher-Pitman)", "T", "values of SECOND are * than those of FIRST",
          "less", "greater"),
  kw = c("Exact Kruskal-Wallis test", "sum of R^2/n"),
  jt = c("Exact Jonckheere-Terpstra test", "J", "values * in the order ORDER", "fall", "rise"),
  umbrella = c("Exact Mack-Wolfe test for umbrella alternatives", "A",
               "values * up to PEAK and turn there, in the order ORDER", "fall", "rise"),
  friedman = c("Exact Friedman test", "sum of R^2"),
  page = c("Exact Page test for ordered alternatives", "L", "values * in the order of the columns", "fall", "rise"),
  cochran = c("Exact Cochran Q test", "sum of squared totals"),
  fisher = c("Fisher's exact test", "first cell", "the odds ratio is * ODDS", "below", "above"),
  linear = c("Exact linear-by-linear association test", "T", "the column score * with the row score", "falls", "rises"),
  strata = c("Exact test of conditional independence in strata (Mantel-Haenszel)", "sum of first cells",
             "the common odds ratio is * ODDS", "below", "above"),
  zelen = c("Exact Zelen test for homogeneity of odds ratios", "probability of the tables"),
  stratranksum = c("Exact stratified Wilcoxon rank sum test", "W", "values of SECOND are * than those of FIRST",
                   "less", "greater"),
  kendall = c("Exact Kendall rank correlation test", "K", "one variable * as the other rises", "falls", "rises"),
  runs = c("Exact Wald-Wolfowitz runs test", "runs", "there are * runs than expected by chance", "fewer", "more"),
  drill = c("Exact rank sum test of made data", "W", "values of SECOND are * than those of FIRST", "less", "greater")
)

# the tests of groups, whose first field is the group
exact_of_groups <- c("ranksum", "ansari", "mood", "savage", "median", "raw", "shift", "kw", "jt", "umbrella")

# the tests whose statistic falls as the first sample rises, so that R's word for the first sample is the other word of
# the report (a small statistic of `ansari` means that the second sample is more spread out, so it is none of these)
exact_of_second <- c("signedrank", "sign", "rawsigned", "ranksum", "mood", "savage", "median", "raw", "stratranksum")

# the fields that a list such as columns = c(3, 2) or "3,2" selects
exact_picked <- function(columns, count) {
  if (is.null(columns)) seq_len(count)
  else suppressWarnings(as.integer(unlist(strsplit(as.character(columns), ",", fixed = TRUE))))
}

# what the data say about a test: the names of the fields that are read, the two groups of a test within strata, which
# its report does not name, and whether R's words and those of the report are about different samples (differences in
# one column have one sign)
exact_about <- function(test, rows, options) {
  picked <- exact_picked(options$columns, length(rows))
  labels <- if (test == "stratranksum" && length(picked) == 3) unique(rows[[picked[2]]])
  if (!is.null(options$order)) labels <- trimws(unlist(strsplit(as.character(options$order), ",", fixed = TRUE)))
  list(fields = names(rows)[picked], labels = labels, is_turned = test %in% exact_of_second && length(picked) > 1)
}

# a tail of the report from an alternative, and an alternative from a tail
exact_turn <- function(word, is_turned) {
  if (is_turned) c(less = "greater", greater = "less", two = "two")[[word]] else word
}

# ---- the words

# an unknown option is an error
exact_check <- function(options, known) {
  names <- names(options)
  if (length(options) == 0 || !is.null(names) && all(names %in% known)) return(invisible())
  unknown <- c(setdiff(names, known), "")
  near <- if (nzchar(unknown[1])) agrep(unknown[1], known, max.distance = 0.35, value = TRUE)
  said <- if (nzchar(unknown[1])) paste0("'", unknown[1], "' is not an option") else "an argument has no name"
  meant <- if (length(near) > 0) paste0("; did you mean '", near[1], "'?")
  stop(said, meant, if (is.null(meant)) ".", " The options are ", paste(known, collapse = ", "), call. = FALSE)
}

# a fraction, a whole number or a decimal as P/Q; what is none of these is left to the program to refuse
exact_ratio <- function(value) {
  text <- if (is.numeric(value)) sprintf("%.15g", value) else trimws(as.character(value))
  if (length(text) != 1 || !grepl("^([0-9]+[.]?[0-9]*|[.][0-9]+)$", text)) return(value)
  terms <- c(as.numeric(sub(".", "", text, fixed = TRUE)), 10^nchar(sub("^[0-9]*[.]?", "", text)))
  rest <- terms
  while (rest[2] > 0) rest <- c(rest[2], rest[1] %% rest[2])
  paste(sprintf("%.0f", terms / rest[1]), collapse = "/")
}

# the tail that `tail` or `alternative` asks for
exact_tail <- function(test, options, alternative, is_turned) {
  if (is.null(alternative)) {
    if (!is.null(options$odds) && is.null(options$tail)) {
      stop("with odds there is no two-sided p-value: say tail = \"less\", \"greater\" or \"all\", or alternative = ",
           "\"less\" or \"greater\"", call. = FALSE)
    }
    return(options$tail)
  }
  if (!is.null(options$tail)) stop("give `alternative` or `tail`, not both", call. = FALSE)
  alternative <- match.arg(alternative, c("two.sided", "less", "greater"))
  if (test %in% c("kw", "friedman", "cochran", "zelen")) {
    stop(test, " has a single p-value without sides: leave `alternative` out", call. = FALSE)
  }
  if (!is.null(options$odds) && alternative == "two.sided") {
    stop("with odds there is no two-sided p-value: say alternative = \"less\" or \"greater\"", call. = FALSE)
  }
  exact_turn(if (alternative == "two.sided") "two" else alternative, is_turned)
}

# options as words
exact_words <- function(options) {
  words <- character()
  for (name in names(options)) {
    value <- options[[name]]
    flag <- paste0("--", chartr("_", "-", name))
    given <- if (!isTRUE(value)) paste0("=", paste(value, collapse = ","))
    if (!is.null(value) && !identical(value, FALSE)) words <- c(words, paste0(flag, given))
  }
  words
}

# ---- a run

# the lines that the program prints; a refusal is an error
exact_lines <- function(command, rows, options, program, call) {
  run <- if (inherits(program, "exact_library")) exact_here else exact_process
  answer <- run(program, command, rows, exact_words(options))
  if (answer$status != 0) {
    message <- paste0(answer$line, "\n", exact_help(answer$line, command))
    stop(structure(list(message = message, call = call, line = answer$line, status = answer$status),
                   class = c("exact_refused", "error", "condition")))
  }
  answer$report
}

# a run in a process
exact_process <- function(program, command, rows, options) {
  file <- tempfile(fileext = ".csv")
  said <- tempfile()
  on.exit(unlink(c(file, said)))
  writeBin(charToRaw(exact_text(rows)), file)
  words <- shQuote(c(command, file, options))
  report <- tryCatch(suppressWarnings(system2(program, words, stdout = TRUE, stderr = said)), error = function(e) NULL)
  status <- attr(report, "status")
  if (is.null(report) || isTRUE(status %in% c(126, 127))) {
    stop("the program exact was not found (", program, "): give its path as `program` or in the environment variable ",
         "EXACT", call. = FALSE)
  }
  if (is.null(status)) status <- 0
  list(status = status, report = report, line = paste(readLines(said, warn = FALSE), collapse = "\n"))
}

# a run in this process
exact_here <- function(program, command, rows, options, room = 0) {
  answer <- .Call(program$answer, enc2utf8(c(command, "data.csv", options)), rows, room)
  if (answer$status == 6) return(exact_here(program, command, rows, options, max(2^18, 16 * room)))
  if (answer$status == 0) answer$report <- strsplit(answer$report, "\n", fixed = TRUE)[[1]]
  else answer$line <- sub("\n", "", answer$line, fixed = TRUE)
  answer
}

# the path of the program: that in the environment, else the one on the path
exact_path <- function() Sys.getenv("EXACT", "exact")

# what helps, by what stands behind the last colon of the program's message
exact_helps <- c(
  "missing" = "fill it in, or leave such rows out with missing=\"drop\"",
  "not a number" = "write numbers with a decimal point, without units or thousands separators",
  "out of range" = "round the value to 18 decimals, or rescale the column so that all values are below 10^18",
  "not a count" = "cells must be whole numbers of at most 1000000",
  "not 0 or 1" = "code yes and no as 1 and 0",
  "a group too many" = "look for two spellings of the same label",
  "field count" = "select the fields that the test reads with columns",
  "too many columns" = "select the fields that the test reads with columns",
  "ends too early" = "there are too few groups, pairs, blocks or rows",
  "total" = "swap rows and columns of a table, or simulate: coin, beyond 2 by 2 fisher.test(simulate.p.value = TRUE)",
  "statistic" = "round or rescale the values, or simulate the same distribution",
  "command line" = "umbrella needs peak, drill needs number and no data, and plain excludes nodes",
  "value of TEST" = "there is no test of this name; ranksum, signedrank, kw and fisher are some of the names",
  "value of --tail" = "tail is \"all\", \"less\", \"greater\" or \"two\"; R's words belong to alternative",
  "value of --odds" = "give a fraction of whole numbers from 1 to 1000, such as \"3/2\"",
  "value of --miss" = "give a fraction below 1 of whole numbers from 1 to 1000, such as \"1/20\"",
  "read fault" = "check that the file exists and that you may read it",
  "no memory" = "round the values if that does no harm: fewer different values need less memory"
)

# what to take for a test that has another name elsewhere; names in small letters, without `test`, `exact` and marks
exact_elsewhere <- c(
  "Mann-Whitney is ranksum" = "mannwhitney mannwhitneyu mannwhitneywilcoxon wilcoxonmannwhitney mw mwu wmw u",
  "Wilcoxon's rank sum test is ranksum" = "wilcoxonranksum wilcoxonranksums ranksums",
  "Wilcoxon's signed rank test is signedrank" = "wilcoxonsignedrank wilcoxonsignedranks wilcoxsign signedranks",
  "Wilcoxon is ranksum for two samples, signedrank for pairs" = "wilcoxon wilcox",
  "a permutation test is raw for two samples, rawsigned for pairs" = "permutation perm randomization fisherpitman",
  "instead of a t-test, raw compares two samples and rawsigned pairs" = "t tind trel t1samp student welch",
  "the sign test is sign" = "signs binom binomial",
  "McNemar is mcnemar" = "mcnem mcnemars",
  "Ansari-Bradley is ansari" = "ansaribradley ab siegeltukey",
  "Mood's test of spread is mood" = "moods moodscale moodspread",
  "the Brown-Mood median test is median" = "moodmedian moodsmedian brownmood",
  "Savage is savage" = "savagescores exponentialscores",
  "Kruskal-Wallis is kw" = "kruskal kruskalwallis kruskalwallish",
  "Jonckheere-Terpstra is jt" = "jonckheere jonckheereterpstra terpstra",
  "Mack-Wolfe is umbrella" = "mackwolfe",
  "Friedman is friedman" = "friedmanchisquare friedmanrank friedmanranksum",
  "Page is page" = "pagetrend pagel pages",
  "Cochran's Q is cochran" = "cochranq cochransq cochrans q",
  "Fisher's exact test is fisher" = "fishers freemanhalton fisherfreemanhalton",
  "the exact counterpart of the chi-squared test is fisher" = "chisq chi2 chisquare chisquared chi2contingency",
  "linear-by-linear association is linear" = "linearbylinear lbl armitage cochranarmitage proptrend",
  "Mantel-Haenszel is strata" = "mantelhaenszel mantelhaen cochranmantelhaenszel cmh mh",
  "the homogeneity of odds ratios is tested by zelen" = "breslowday homogeneity zelens",
  "stratranksum adds up rank sums; van Elteren weights them" = "vanelteren elteren stratifiedwilcoxon",
  "Kendall's tau is kendall" = "kendalltau kendalls kendallstau tau cor",
  "there is no Spearman test; kendall tests the same null hypothesis" = "spearman spearmanr rho",
  "Wald-Wolfowitz is runs" = "waldwolfowitz waldwolfowitzruns run"
)

# what to take for a word that is no test's name
exact_named_elsewhere <- function(test) {
  word <- gsub("test|exact", "", gsub("[^a-z0-9]", "", tolower(test)))
  if (word %in% names(exact_tests)) return(paste("the name is", word))
  names(exact_elsewhere)[vapply(strsplit(exact_elsewhere, " ", fixed = TRUE), function(names) word %in% names, NA)]
}

# what helps after a refusal, and the place of the page about it
exact_help <- function(line, test = "") {
  cause <- sub("^--[^ ]+ with .*", "option with test", sub(".*: ", "", line))
  link <- gsub("^-|-$", "", gsub("[^a-z]+", "-", tolower(cause)))
  named <- if (cause == "value of TEST") exact_named_elsewhere(test)
  said <- c(named, if (cause %in% names(exact_helps)) exact_helps[[cause]], "see")[1]
  paste0(said, " (", exact_pages(), "/REFUSALS.md#", link, ")")
}

# the folder of the pages: that of the installed package if this is its code, else the one that was installed with the
# program, else that of the repository
exact_pages <- function() {
  if (identical(environmentName(topenv()), "exact")) return(system.file("doc", "docs", package = "exact"))
  installed <- exact_beside("share", "doc", "exact", "docs")
  if (dir.exists(installed)) installed else "docs"
}

# the path that leads this way from the folder above that of the program
exact_beside <- function(...) {
  file.path(dirname(dirname(normalizePath(Sys.which(exact_path()), mustWork = FALSE))), ...)
}

# ---- the data

# the columns of the file, of texts or of numbers; a missing value is an empty text
exact_rows <- function(x, y, data, paired, test = "", columns = NULL) {
  if (inherits(x, "formula")) {
    exact_formula_rows(test, x, data)
  } else if (is.data.frame(x)) {
    exact_ask_of_names(x, test)
    place <- exact_picked(columns, ncol(x))[if (test == "stratranksum") 2 else if (test %in% exact_of_groups) 1 else NA]
    group <- if (isTRUE(place %in% seq_along(x))) x[[place]]
    if (is.factor(group)) x <- x[order(as.integer(group)), , drop = FALSE]
    columns <- lapply(x, function(column) if (is.numeric(column)) exact_numbers(column) else exact_labels(column))
    structure(columns, names = exact_labels(names(x)))
  } else if (is.matrix(x)) {
    columns <- lapply(seq_len(ncol(x)), function(column) exact_numbers(x[, column]))
    structure(columns, names = paste0("column", seq_len(ncol(x))))
  } else if (is.null(y)) {
    if (is.character(x) && length(x) == 1 && file.exists(x)) {
      stop("read the file first: exact_test(\"", test, "\", read.csv(\"", x, "\"))", call. = FALSE)
    }
    list(value = if (is.character(x) || is.factor(x)) exact_labels(x) else exact_numbers(x))
  } else if (paired) {
    list(x = exact_numbers(x), y = exact_numbers(y))
  } else {
    list(label = rep(c("x", "y"), c(length(x), length(y))), value = exact_numbers(c(exact_plain(x), exact_plain(y))))
  }
}

# warns about a data frame whose names are numbers above numbers (`X300` from read.csv), as those of a file without a
# header; names that count the columns are none of these, and treatments and columns of tables may well be named by
# numbers
exact_ask_of_names <- function(x, test) {
  if (!test %in% c(exact_of_groups, "stratranksum", "signedrank", "sign", "rawsigned", "kendall")) return(invisible())
  number <- sub("^X[.]?", "", names(x))
  is_number <- grepl("^-?([0-9]+[.]?[0-9]*|[.][0-9]+)(e[-+]?[0-9]+)?$", number) & number != seq_along(x)
  asked <- names(x)[is_number & vapply(x, is.numeric, NA)]
  if (length(asked) > 0) {
    warning("a column of numbers is named '", asked[1], "': read a file without a header by read.csv(file, ",
            "header = FALSE)", call. = FALSE)
  }
}

# the columns that a formula selects
exact_formula_rows <- function(test, formula, data) {
  if (!is.null(data) && !is.list(data) && !is.environment(data)) {
    stop("with a formula, `data` is a data frame", call. = FALSE)
  }
  form <- exact_form(test)
  parts <- exact_parts(test, form, formula, data)
  found <- lapply(parts, eval, data, environment(formula))
  for (name in names(found)) {
    if (!is.atomic(found[[name]]) || is.matrix(found[[name]]) || length(found[[name]]) != length(found[[1]])) {
      stop("'", deparse1(parts[[name]]), "' is not a variable with a value for each row", call. = FALSE)
    }
  }
  if (test == "kendall") return(lapply(found, exact_numbers))
  group <- as.factor(found$group)
  if (!is.null(found$block) && test != "stratranksum") return(exact_blocks(found$value, group, as.factor(found$block)))
  rows <- list(label = exact_labels(group), value = exact_numbers(found$value))
  if (test == "stratranksum") rows <- c(list(stratum = exact_labels(found$block)), rows)
  lapply(rows, `[`, order(as.integer(group)))
}

# the form of the formulas that a test takes
exact_form <- function(test) {
  if (test %in% c("friedman", "page", "cochran")) return("score ~ treatment | block")
  if (test == "stratranksum") return("value ~ group | stratum")
  if (test == "kendall") return("~ x + y")
  if (test %in% c("signedrank", "sign", "rawsigned")) {
    stop(test, " takes no formula: give before, after, paired = TRUE, or the differences", call. = FALSE)
  }
  if (test %in% names(exact_tests) && !test %in% exact_of_groups) {
    stop(test, " takes no formula: give ", if (test == "runs") "the labels in their order"
         else if (test %in% c("strata", "zelen")) "a data frame with a name and four counts in each row"
         else "a table of counts", call. = FALSE)
  }
  "value ~ group"
}

# the parts of a formula of this form, unevaluated; what does not belong to it is refused by its name
exact_parts <- function(test, form, formula, data) {
  refuse <- function(part) stop(test, " takes ", form, ": there is no place for '", deparse1(part), "'", call. = FALSE)
  right <- formula[[length(formula)]]
  value <- if (length(formula) == 3) formula[[2]]
  if (identical(right, quote(.))) {
    others <- lapply(setdiff(names(data), all.vars(value)), as.name)
    right <- Reduce(function(first, second) call("+", first, second), others)
  }
  is_of <- function(part, words) is.call(part) && is.symbol(part[[1]]) && as.character(part[[1]]) %in% words
  one <- function(part) {
    if (is_of(part, c("+", "-", "*", "/", ":", "^", "%in%", "%o%", "|", "offset"))) refuse(part[[length(part)]])
    if (is.numeric(part) || is.null(part)) refuse(part)
    part
  }
  if (form == "~ x + y") {
    if (!is.null(value)) return(list(x = one(right), y = one(value)))
    if (!is_of(right, "+") || length(right) != 3) stop(test, " takes ", form, call. = FALSE)
    return(list(x = one(right[[2]]), y = one(right[[3]])))
  }
  if (is.null(value)) stop(test, " takes ", form, call. = FALSE)
  has_bar <- is_of(right, "|")
  if (has_bar && !grepl("|", form, fixed = TRUE)) refuse(right[[3]])
  if (!has_bar && grepl("|", form, fixed = TRUE)) stop(test, " takes ", form, call. = FALSE)
  if (has_bar) list(value = value, group = one(right[[2]]), block = one(right[[3]]))
  else list(value = value, group = one(right))
}

# a row for each block with a column for each treatment, in the order of the levels
exact_blocks <- function(value, treatment, block) {
  if (anyNA(treatment) || anyNA(block)) stop("a treatment or a block is missing", call. = FALSE)
  treatment <- droplevels(treatment)
  block <- droplevels(block)
  counts <- table(block, treatment)
  wrong <- which(counts != 1, arr.ind = TRUE)
  if (nrow(wrong) > 0) {
    stop("block '", levels(block)[wrong[1, 1]], "' has ", counts[wrong[1, , drop = FALSE]], " values of treatment '",
         levels(treatment)[wrong[1, 2]], "' instead of one", call. = FALSE)
  }
  sorted <- order(as.integer(block))
  columns <- lapply(split(value[sorted], treatment[sorted]), exact_numbers)
  structure(columns, names = exact_labels(names(columns)))
}

# labels as texts to stand between quotes
exact_labels <- function(x) {
  text <- gsub("\"", "\"\"", enc2utf8(as.character(x)), fixed = TRUE)
  text[is.na(text)] <- ""
  text
}

# plain numbers; the codes within a factor are not data
exact_plain <- function(x) {
  if (is.factor(x)) stop("a factor is not numeric: as.numeric(as.character(x)) gives its labels", call. = FALSE)
  as.numeric(x)
}

# numbers, if 15 digits show each of them without a negative exponent; else their texts
exact_numbers <- function(x) {
  x <- exact_plain(x)
  size <- abs(x)
  if (isTRUE(all(size == 0 | size >= 1e-4 & size < Inf))) return(x)
  text <- sprintf("%.15g", x)
  small <- grep("e-", text, fixed = TRUE)
  decimals <- function(parts) nchar(sub("^-?[0-9]*[.]?", "", parts[1])) + as.numeric(parts[2])
  long <- small[vapply(strsplit(text[small], "e-", fixed = TRUE), decimals, 0) > 18]
  rounded <- sprintf("%.18f", x[long])
  # rounding must not make different values equal, nor any of them 0
  if (length(long) > 0 && exact_is_told(replace(text, long, rounded), text)) {
    warning("rounded to 18 decimals: ", paste(text[long], collapse = ", "), call. = FALSE)
    text[long] <- rounded
  }
  text[is.na(x)] <- ""
  text
}

# whether texts of numbers tell apart what other texts do, and 0 from the rest
exact_is_told <- function(rounded, text) {
  values <- function(texts) as.numeric(c(texts[!is.na(texts)], "0"))
  length(unique(values(rounded))) == length(unique(values(text)))
}

# the text of the file: a header and rows, each field between quotes (rexact.so makes the same)
exact_text <- function(rows) {
  between <- "\",\""
  texts <- lapply(unname(rows), function(column) if (is.double(column)) sprintf("%.15g", column) else column)
  lines <- c(paste(names(rows), collapse = between), do.call(paste, c(texts, sep = between)))
  paste0("\"", lines, "\"\n", collapse = "")
}

# ---- the answer

# the report as an htest
exact_report <- function(report, name, options = list(), about = list(is_turned = FALSE)) {
  words <- strsplit(report, " ", fixed = TRUE)
  starts <- cumsum(c(1, lengths(words)))[seq_along(words)]
  words <- unlist(words)
  first <- words[starts]
  second <- words[starts + 1]
  tail <- first[first %in% c("less", "greater", "two")]
  told <- second[match(c("statistic", tail), first)]
  ratios <- vapply(strsplit(told, "/", fixed = TRUE), identity, c("", ""))
  statistic <- as.numeric(ratios[, 1])
  numerator <- ratios[1, -1]
  denominator <- ratios[2, -1]
  p.value <- as.numeric(numerator) / as.numeric(denominator)
  tails <- list(tail = tail, numerator = numerator, denominator = denominator, p.value = p.value)
  attributes(tails) <- list(names = names(tails), class = "data.frame", row.names = seq_along(tail))
  # with odds and both tails there is no one p-value
  shown <- if (length(tail) == 1) 1 else match("two", tail)
  sizes <- report[first %in% c("group", "rows", "blocks", "table", "strata")]
  test <- exact_known(second[1], sizes)
  answer <- list(statistic = structure(statistic[1] / statistic[2], names = test[2]), p.value = p.value[shown],
                 method = exact_method(test, options), data.name = name, sizes = sizes,
                 numerator = numerator[shown], denominator = denominator[shown],
                 total = second[match("total", first)], tails = tails, report = as.vector(report))
  answer$letters <- exact_letters(second[1], sizes, statistic[1] / statistic[2], second[match("scores", first)], about)
  if (length(test) > 2 && !is.na(shown)) {
    turned <- exact_turn(tail[shown], about$is_turned)
    answer$alternative <- if (turned == "two") "two.sided" else turned
  }
  answer$asked <- c(about, list(test = test, tail = tail[shown], peak = options$peak, odds = options$odds))
  dropped <- match("dropped", first)
  if (!is.na(dropped)) answer$dropped <- as.integer(second[dropped])
  at <- starts[first == "at"]
  if (length(at) > 0) {
    answer$distribution <- data.frame(value = as.numeric(words[at + 1]) / statistic[2], weight = words[at + 2])
  }
  class(answer) <- c("exact_test", "htest")
  answer
}

# the statistic in other books and in R, by its letter there, as far as the report gives it. U is the Mann-Whitney
# statistic of the second sample, and the W of wilcox.test that of the first; V is the signed rank sum of x - y. H and S
# are without the correction for ties that kruskal.test and friedman.test make. tau is Kendall's tau-a, that of cor.test
# without ties.
exact_letters <- function(test, sizes, statistic, scores, about) {
  counts <- lapply(strsplit(sizes, " ", fixed = TRUE), function(words) suppressWarnings(as.numeric(words[c(2, 4)])))
  n <- vapply(counts, `[`, 0, 1)
  m <- counts[[1]][2]
  switch(test,
    ranksum = {
      u <- statistic - n[2] * (n[2] + 1) / 2
      c(U = u, "W of wilcox.test" = n[1] * n[2] - u)
    },
    signedrank = c("V of wilcox.test" = if (about$is_turned) m * (m + 1) / 2 - statistic else statistic),
    kw = if (scores == "wilcoxon") c(H = 12 * statistic / (sum(n) * (sum(n) + 1)) - 3 * (sum(n) + 1)),
    friedman = c(S = 12 * statistic / (n * m * (m + 1)) - 3 * n * (m + 1)),
    kendall = if (m > 1) c(tau = 2 * statistic / (m * (m - 1)))
  )
}

# what the print says about a letter
exact_letter_notes <- c(H = " (Kruskal-Wallis chi-squared of kruskal.test, before its correction for ties)",
                        S = " (Friedman chi-squared of friedman.test, before its correction for ties)",
                        tau = " (tau of cor.test, if there are no ties)")

# what is known about a test; a table larger than 2 by 2 has no first cell that determines it
exact_known <- function(test, sizes) {
  if (test == "fisher" && !any(startsWith(sizes, "table 2 by 2 "))) {
    return(c("Fisher's exact test (Freeman-Halton)", "probability of the table"))
  }
  if (is.null(exact_tests[[test]])) c(test, "T") else exact_tests[[test]]
}

# the full name of a test
exact_method <- function(test, options) {
  if (!is.null(options$scores)) return(paste(test[1], "with scores of", options$scores))
  if (!is.null(options$odds)) return(paste(test[1], "against an odds ratio of", options$odds))
  test[1]
}

# the labels of the groups, as the report has them
exact_groups <- function(sizes) sub("^group [0-9]+ ", "", sizes[startsWith(sizes, "group ")])

# the alternative hypothesis of a tail in words; NA if the test has no one-sided alternatives
exact_hypothesis <- function(x, tail) {
  test <- x$asked$test
  if (length(test) == 2 || is.na(tail)) return(NA_character_)
  word <- switch(tail, less = test[4], greater = test[5], two = paste(test[4], "or", test[5]))
  groups <- c(exact_groups(x$sizes), x$asked$labels)
  text <- test[3]
  if (text == "PAIRS") {
    groups <- x$asked$fields
    text <- if (length(groups) == 2) "values of SECOND are * than those of FIRST" else "differences are * than 0"
  }
  names <- c("*" = word, ODDS = c(x$asked$odds, "1")[1], ORDER = paste(groups, collapse = " - "),
             PEAK = groups[c(x$asked$peak, 1)[1]], FIRST = groups[1], SECOND = groups[2])
  parts <- strsplit(text, " ", fixed = TRUE)[[1]]
  is_name <- parts %in% names(names)
  parts[is_name] <- names[parts[is_name]]
  paste(parts, collapse = " ")
}

# the sizes in one line: each group by its label and its size
exact_sizes <- function(sizes) {
  is_group <- startsWith(sizes, "group ")
  groups <- paste(sub("^group ([0-9]+) (.*)", "\\2 (\\1)", sizes[is_group]), collapse = ", ")
  paste(c(if (any(is_group)) paste("groups", groups), sizes[!is_group]), collapse = "; ")
}

print.exact_test <- function(x, digits = getOption("digits"), ...) {
  cat("\n", strwrap(x$method, prefix = "\t"), "\n\n", sep = "")
  cat("data:  ", x$data.name, "; ", exact_sizes(x$sizes), "\n", sep = "")
  if (!is.null(x$dropped)) cat("rows left out:", x$dropped, "\n")
  second <- c(exact_groups(x$sizes), x$asked$labels, NA, NA)[2]
  asked <- if (!is.na(second) && isTRUE(grepl("SECOND", x$asked$test[3], fixed = TRUE))) paste0(" (of ", second, ")")
  cat(names(x$statistic), " = ", format(x$statistic[[1]], digits = max(1L, digits - 2L)), asked, sep = "")
  told <- if (is.na(x$p.value)) x$tails else data.frame(tail = "p-value", x[c("numerator", "denominator", "p.value")])
  for (row in seq_len(nrow(told))) {
    cat(", ", told$tail[row], " = ", format.pval(told$p.value[row], digits = max(1L, digits - 3L)), " = ",
        told$numerator[row], "/", told$denominator[row], sep = "")
  }
  cat("\n")
  notes <- ifelse(names(x$letters) %in% names(exact_letter_notes), exact_letter_notes[names(x$letters)],
                  ifelse(names(x$letters) == "U", asked, ""))
  others <- vapply(x$letters, format, "", digits = max(1L, digits - 2L))
  if (length(others) > 0) cat(paste0(names(others), " = ", others, notes, collapse = ", "), "\n", sep = "")
  hypothesis <- exact_hypothesis(x, x$asked$tail)
  if (!is.na(hypothesis)) cat("alternative hypothesis: ", hypothesis, "\n", sep = "")
  cat("\n")
  invisible(x)
}

# one row per tail, with the column names of broom; the alternative is given in words
as.data.frame.exact_test <- function(x, row.names = NULL, optional = FALSE, ...) {
  alternative <- vapply(x$tails$tail, exact_hypothesis, "", x = x, USE.NAMES = FALSE)
  data.frame(statistic = x$statistic[[1]], p.value = x$tails$p.value, tail = x$tails$tail,
             numerator = x$tails$numerator, denominator = x$tails$denominator, method = x$method,
             alternative = alternative, row.names = row.names)
}

# the report of a shift as an htest
exact_limits <- function(report, name) {
  lines <- strsplit(report, " ")
  first <- vapply(lines, `[`, "", 1)
  told <- function(word) lines[first == word][[1]][2]
  ratio <- function(text) strsplit(text, "/")[[1]]
  quotient <- function(text) as.numeric(ratio(text)[1]) / as.numeric(ratio(text)[2])
  limit <- function(word, none) if (told(word) == "none") none else quotient(told(word))
  limits <- c(limit("lower", -Inf), limit("upper", Inf))
  attr(limits, "conf.level") <- 1 - quotient(told("miss"))
  structure(list(estimate = c("difference in location" = quotient(told("estimate"))), conf.int = limits,
                 method = "Hodges-Lehmann estimate of shift with exact limits", data.name = name,
                 sizes = report[first == "group"], differences = as.integer(told("differences")),
                 total = told("total"), miss = ratio(told("miss")),
                 dropped = if ("dropped" %in% first) as.integer(told("dropped")), report = as.vector(report)),
            class = c("exact_shift", "htest"))
}

print.exact_shift <- function(x, digits = getOption("digits"), ...) {
  shown <- x
  shown$data.name <- paste0(x$data.name, "; ", exact_sizes(x$sizes))
  names(shown$estimate) <- paste("shift of", exact_groups(x$sizes)[2], "relative to", exact_groups(x$sizes)[1])
  class(shown) <- "htest"
  print(shown, digits = digits, ...)
  invisible(x)
}

# one row, with the column names of broom
as.data.frame.exact_shift <- function(x, row.names = NULL, optional = FALSE, ...) {
  data.frame(estimate = x$estimate[[1]], conf.low = x$conf.int[1], conf.high = x$conf.int[2],
             conf.level = attr(x$conf.int, "conf.level"), method = x$method, row.names = row.names)
}
