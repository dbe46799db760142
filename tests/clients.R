# Tries the R client on examples; a line for each: 0 where it came right, else 1, and what was tried. With the word
# `library` behind the examples it goes by the library, in this process.
arguments <- commandArgs(trailingOnly = TRUE)
top <- arguments[1]
examples <- arguments[2]
source(file.path(top, "clients", "exact.R"))
if (identical(arguments[-(1:2)], "library")) exact_library()

tell <- function(right, what) cat(if (isTRUE(right)) 0 else 1, what, "\n")
data_of <- function(name) read.csv(file.path(examples, paste0(name, ".csv")))
is_example <- function(name, answer) {
  wanted <- readLines(file.path(examples, paste0(name, ".out")))
  tell(identical(answer$report, wanted[seq_len(match("-- standard error", wanted) - 1)]), paste("R:", name))
}
refused <- function(status, ..., by = exact_test) {
  tryCatch({ by(...); FALSE }, exact_refused = function(e) e$status == status && startsWith(e$line, "refused: ") &&
    startsWith(conditionMessage(e), paste0(e$line, "\n")) && grepl("[(]docs/REFUSALS[.]md#[a-z-]+[)]$", conditionMessage(e)))
}
in_file_order <- function(labels) factor(labels, levels = unique(labels))

is_example("six", exact_test("ranksum", value ~ group, data = data_of("six")))
d <- data_of("chorioamnion")
is_example("chorioamnion", exact_test("ranksum", pd ~ in_file_order(age), data = d))
d <- data_of("sleep")
is_example("sleep", exact_test("signedrank", d$drug1, d$drug2, paired = TRUE))
is_example("depression_sign", exact_test("sign", data_of("depression")))
is_example("motivation", exact_test("jt", value ~ in_file_order(group), data = data_of("motivation")))
is_example("rounding", exact_test("friedman", data_of("rounding")))
is_example("tea", exact_test("fisher", as.matrix(data_of("tea")), distribution = TRUE))
is_example("tea_odds", exact_test("fisher", as.matrix(data_of("tea")), odds = "2/1", tail = "all"))
is_example("satisfaction", exact_test("linear", as.matrix(data_of("satisfaction")), row_scores = c(3, 10, 20, 35), column_scores = c(1, 3, 4, 5)))
is_example("rabbits", exact_test("strata", data_of("rabbits")))
is_example("rabbits_zelen", exact_test("zelen", data_of("rabbits")))
is_example("teeth", exact_test("stratranksum", data_of("teeth"), order = c("VC", "OJ")))
d <- data_of("tuna")
is_example("tuna", exact_test("kendall", d$x, d$y, paired = TRUE))
is_example("queue", exact_test("runs", data_of("queue")$sex))
is_example("mucociliary", exact_test("kw", value ~ in_file_order(group), data = data_of("mucociliary")))
is_example("diphtheria", exact_test("cochran", data_of("diphtheria"), nodes = TRUE))

d <- data_of("chorioamnion")
found <- exact_shift(pd ~ in_file_order(age), data = d)
is_example("chorioamnion_shift", found)
limits <- c(unname(found$estimate), as.vector(found$conf.int), attr(found$conf.int, "conf.level"))
tell(all.equal(limits, c(-0.305, -0.76, 0.15, 1 - 120 / 3003)), "R: limits of a shift")
tell(identical(names(found$estimate), "difference in location") && identical(found$miss, c("120", "3003")), "R: names of a shift")
few <- exact_shift(1:3, 4:6)
tell(few$estimate == 3 && identical(as.vector(few$conf.int), c(-Inf, Inf)), "R: no limits of a shift")
tell(exact_shift(1:3, 4:6, miss = "1/5")$conf.int[2] == 4, "R: another miss")
for (miss in list(0.2, "0.2", ".2", "1/5", "2/10")) {
  tell(exact_shift(1:3, 4:6, miss = miss)$conf.int[2] == 4, paste("R: miss =", miss))
}
for (odds in list(2, 2L, "2", "2/1", "2.0")) {
  is_example("tea_odds", exact_test("fisher", as.matrix(data_of("tea")), odds = odds, tail = "all"))
}

for (status in if (Sys.getenv("FAKE") != "") 2:7) tell(refused(status, "ranksum", status, program = Sys.getenv("FAKE")), paste("R: status", status))
tell(refused(2, "ranksum", c(1, 2), c(3, 4), tail = "left"), "R: refused words")
tell(refused(3, "ranksum", c(1, NA), 2), "R: a missing value")
tell(refused(3, "sign", c(1, NA, 2)), "R: a missing value, alone in its row")
tell(exact_test("sign", c(1, NA, 2), missing = "drop")$dropped == 1, "R: it is dropped")
tell(refused(4, "ranksum", 1:66, 1:65), "R: too wide")
kept <- exact_test("ranksum", c(1, 2, 3, NA), c(4, NA, 5, 6), missing = "drop")
tell(kept$dropped == 2 && kept$tails$numerator[2] == "1", "R: missing values dropped")
odd <- data.frame(g = c("a, \"b\"\nc\u00e9", "y"), v = 1:2)
tell(grepl("a, \"b\"?c", exact_test("ranksum", odd)$report[2], fixed = TRUE), "R: a label with everything")
long <- tryCatch(exact_test("raw", c(1 / 3e5, 2), 1), warning = function(w) conditionMessage(w))
tell(is.character(long) && startsWith(long, "rounded to 18 decimals"), "R: more than eighteen decimals")
tell(refused(3, "raw", c(1e-19, 2), 1) && refused(3, "raw", c(1.1e-18, 1.2e-18), 1), "R: no difference is rounded away")
ordered <- exact_test("ranksum", c(1, 2, 3, 4, 5, 6) ~ factor(rep(c("x", "y"), each = 3), levels = c("y", "x")))
tell(ordered$report[2] == "group 3 y" && ordered$tails$numerator[1] == "1", "R: the order of the levels")
x <- c(1, 2, 3)
tell(exact_test("ranksum", x, c(4L, 5L, NA)[1:2])$data.name == "x and c(4L, 5L, NA)[1:2]", "R: what the data are called")

# ---- factors and formulas

# the levels stand in another order than the rows; H&W's J by hand: 12 of the 12 pairs of different groups rise
d <- data.frame(g = ordered(rep(c("hi", "lo", "mid"), each = 2), c("lo", "mid", "hi")), v = c(5, 6, 1, 2, 3, 4))
for (answer in list(exact_test("jt", d), exact_test("jt", v ~ g, d), exact_test("jt", d[2:1], columns = 2:1),
                    exact_test("jt", v ~ g, data = d), exact_test("jt", v ~ ., data = d))) {
  tell(answer$statistic == 12 && identical(answer$sizes, paste("group 2", c("lo", "mid", "hi"))) &&
         round(answer$p.value, 4) == 0.0222, "R: jt by the levels")
}
tell(exact_test("jt", transform(d, g = as.character(g)))$statistic == 4, "R: labels that are no factor, as they appear")
tell(exact_test("jt", v ~ g, d)$data.name == "v ~ g", "R: data in the third place")
d$g <- factor(c("b", "a")[c(1, 1, 1, 2, 2, 2)], c("a", "b"))
for (test in c("ranksum", "ansari", "mood", "savage", "median", "raw", "kw")) {
  framed <- exact_test(test, d)$report
  tell(identical(framed, exact_test(test, v ~ g, data = d)$report) && framed[2] == "group 3 a", paste("R: by levels,", test))
}
tell(exact_shift(d)$sizes[1] == "group 3 a" && identical(exact_shift(d)$report, exact_shift(v ~ g, d)$report),
     "R: a shift by levels")
tell(exact_test("ranksum", d, order = c("b", "a"))$sizes[1] == "group 3 b", "R: an order outdoes the levels")
d <- data_of("teeth")
by_factor <- transform(d, g = factor(g, c("OJ", "VC")))
turned <- exact_test("stratranksum", d, order = c("OJ", "VC"))$report
tell(identical(exact_test("stratranksum", by_factor)$report, turned), "R: stratranksum by levels")
tell(identical(exact_test("stratranksum", v ~ g | s, by_factor)$report, turned), "R: its formula")
is_example("teeth", exact_test("stratranksum", v ~ g | s, data = d, order = c("VC", "OJ")))

wide <- data_of("rounding")
long <- data.frame(time = unlist(wide), way = in_file_order(rep(names(wide), each = nrow(wide))),
                   runner = rep(seq_len(nrow(wide)), ncol(wide)))
set.seed(1)
long <- long[sample(nrow(long)), ]
is_example("rounding", exact_test("friedman", time ~ way | runner, data = long))
is_example("rounding_page", exact_test("page", time ~ factor(way, rev(levels(way))) | runner, data = long))
wide <- data_of("diphtheria")
answers <- data.frame(grows = unlist(wide), medium = rep(names(wide), each = nrow(wide)), case = rep(seq_len(nrow(wide)), 4))
is_example("diphtheria", exact_test("cochran", grows ~ medium | case, data = answers, nodes = TRUE))
long$time[5] <- NA
tell(refused(3, "friedman", time ~ way | runner, long), "R: a missing value in a block")
tell(exact_test("friedman", time ~ way | runner, long, missing = "drop")$dropped == 1, "R: its block is dropped")
d <- data_of("tuna")
is_example("tuna", exact_test("kendall", ~ x + y, data = d))

fails <- function(expression, words, what) {
  said <- tryCatch({ expression; "" }, error = conditionMessage)
  tell(all(vapply(words, grepl, NA, said, fixed = TRUE)) && nzchar(said), paste("R:", what))
}
d <- data.frame(v = c(3, 1, 4, 1, 5, 9), gr = rep(1:2, 3), st = rep(1:3, each = 2))
fails(exact_test("ranksum", v ~ gr + st, data = d), c("value ~ group", "'st'"), "a second term")
fails(exact_test("ranksum", v ~ gr * st, data = d), "'st'", "a product")
fails(exact_test("ranksum", v ~ ., data = d), "'st'", "all columns")
fails(exact_test("ranksum", v ~ gr | st, data = d), c("value ~ group", "'st'"), "a stratum for ranksum")
fails(exact_test("kw", v ~ gr | st, data = d), "'st'", "a stratum for kw")
fails(exact_shift(v ~ gr | st, data = d), "'st'", "a stratum for a shift")
fails(exact_test("stratranksum", v ~ gr | st + gr, data = d), "'gr'", "a second stratum")
fails(exact_test("stratranksum", v ~ gr + st, data = d), "value ~ group | stratum", "strata without a bar")
fails(exact_test("friedman", v ~ gr + st, data = d), "score ~ treatment | block", "blocks without a bar")
fails(exact_test("friedman", v ~ gr | st | st, data = d), "'st'", "two bars")
fails(exact_test("friedman", v ~ gr | st, data = d[-1, ]), c("block '1'", "0 values", "treatment '1'"), "an incomplete block")
fails(exact_test("friedman", v ~ gr | st, data = rbind(d, d[6, ])), c("block '3'", "2 values", "treatment '2'"), "a double cell")
fails(exact_test("ranksum", v ~ 1, data = d), "'1'", "no group")
fails(exact_test("ranksum", ~ gr, data = d), "value ~ group", "no value")
fails(exact_test("ranksum", cbind(v, st) ~ gr, data = d), "cbind(v, st)", "two values")
fails(exact_test("ranksum", v ~ gr, 1:3), "data frame", "numbers in place of a data frame")
fails(exact_test("ranksum", v ~ gr[1:3], data = d), "gr[1:3]", "too few labels")
fails(exact_test("kendall", ~ v + gr + st, data = d), "'gr'", "three variables")
fails(exact_test("signedrank", v ~ gr, data = d), "paired = TRUE", "a formula for pairs")
fails(exact_test("fisher", v ~ gr, data = d), "table of counts", "a formula for a table")
fails(exact_test("runs", v ~ gr, data = d), "labels", "a formula for labels")
fails(exact_test("ranksum", file.path(examples, "six.csv")), "read.csv(", "the name of a file")
fails(exact_test("shift", 1:3, 4:6), "exact_shift", "shift is not a test")

# a file that was read without regard to its missing header
bare <- tempfile()
writeLines(c("c,300", "c,22.5", "c,7", "t,12", "t,1"), bare)
warned <- function(expression) tryCatch({ expression; "" }, warning = conditionMessage)
tell(grepl("header = FALSE", warned(exact_test("ranksum", read.csv(bare))), fixed = TRUE), "R: a name that is a number")
tell(grepl("'300'", warned(exact_shift(read.csv(bare, check.names = FALSE)))), "R: an unchanged one")
tell(warned(exact_test("ranksum", read.csv(bare, header = FALSE))) == "" &&
       warned(exact_test("signedrank", data.frame(matrix(c(1, 2, 3, 5), 2)))) == "" &&
       warned(exact_test("friedman", data.frame("2019" = 1:3, "2020" = 2:4))) == "", "R: other names")

# ---- names of other programs

for (said in names(exact_elsewhere)) {
  words <- strsplit(exact_elsewhere[[said]], " ")[[1]]
  tell(all(startsWith(vapply(words, function(word) exact_help("refused: value of TEST", word), ""), paste0(said, " ("))),
       paste("R: help of the word,", said))
}
fails(exact_test("Mann-Whitney", 1:3, 4:6), "Mann-Whitney is ranksum", "the name Mann-Whitney")
fails(exact_test("wilcox.test", 1:3, 4:6), c("ranksum", "signedrank"), "the name wilcox.test")
fails(exact_test("kruskal.test", v ~ gr, data = d), "Kruskal-Wallis is kw", "the name kruskal.test")
fails(exact_test("Fisher.test", 1:3, 4:6), "the name is fisher", "the name Fisher.test")
fails(exact_test("ranksum", 1:3, 4:6, tail = "two.sided"), "alternative", "R's word for a tail")
fails(exact_test("fisher", matrix(1:4, 2), odds = 1 / 3, tail = "less"), "\"3/2\"", "odds that are no simple decimal")

# ---- what an answer prints, and what is asked in R's words

printed <- function(answer) paste(capture.output(print(answer)), collapse = "\n")
shows <- function(answer, ..., what) tell(all(vapply(c(...), grepl, NA, printed(answer), fixed = TRUE)), paste("R, print:", what))
d <- data_of("rotarod")
shows(exact_test("ranksum", value ~ group, data = d, tail = "less"), "Exact Wilcoxon rank sum test", "groups c (12), t (12)",
      "W = 120 (of t)", "50388/2704156", "alternative hypothesis: values of t are less than those of c", what = "ranksum")
shows(exact_test("kw", value ~ group, data = data_of("motivation")), "Exact Kruskal-Wallis test", what = "kw")
for (answer in list(exact_test("kw", value ~ group, data = data_of("motivation")), exact_test("friedman", data_of("rounding")),
                    exact_test("cochran", data_of("diphtheria")), exact_test("zelen", data_of("rabbits")),
                    exact_test("fisher", matrix(c(3, 1, 0, 1, 4, 2), 2)))) {
  tell(is.null(answer$alternative) && !grepl("alternative", printed(answer)), paste("R, print: no alternative,", answer$method))
}
shows(exact_test("ansari", c(1, 4), c(2, 3), tail = "less"), "C = 4", "values of y are more spread out", what = "ansari")
shows(exact_test("sign", c(1, 2, -4)), "B = 2", "differences are less or greater than 0", what = "differences")
shows(exact_test("signedrank", d[1:3, "value", drop = FALSE]), "T+", what = "a data frame of one column")
shows(exact_test("stratranksum", data_of("teeth"), order = c("VC", "OJ"), tail = "greater"), "strata 2 sum 40", "(of OJ)",
      "values of OJ are greater than those of VC", what = "stratranksum")
shows(exact_test("fisher", as.matrix(data_of("tea")), odds = "2/1", tail = "all"), "less = 0.9502 = 305/321", what = "odds")
shows(exact_shift(1:3, 4:6, miss = "1/5"), "shift of y relative to x", "groups x (3), y (3)", "80 percent", what = "a shift")
names_told <- vapply(exact_tests, `[`, "", 1)
tell(!anyDuplicated(names_told) && all(lengths(exact_tests) %in% c(2, 5)), "R: a full name for each test")
words <- readLines(file.path(exact_state$folder, "..", "completions", "words"))
tests <- unlist(strsplit(sub("^test ", "", words[startsWith(words, "test ")]), " "))
tell(setequal(names(exact_tests), c(tests, "drill")), "R: all tests have a name")
options <- gsub("-", "_", sub("^(option|flag) --([^ ]+).*", "\\2", words[grepl("^(option|flag) ", words)]))
divided <- c("stage", "parts", "part")
tell(setequal(union(exact_options, exact_shift_options), setdiff(options, divided)), "R: all options are known")

# the letters of R's own functions, on data without ties
shows(exact_test("ranksum", 1:3, c(2.5, 4, 5)), "W = 14 (of y)", "U = 8 (of y), W of wilcox.test = 1", what = "U")
shows(exact_test("kendall", data_of("tuna")), "tau = 0.4444", what = "tau")
shows(exact_test("friedman", data_of("rounding")), "S = 10.636", "Friedman chi-squared", "before its correction", what = "S")
has_letter <- function(ours, letter, theirs) {
  tell(isTRUE(all.equal(ours$letters[[letter]], unname(theirs))), paste("R's own:", letter))
}
set.seed(1)
x <- rnorm(6)
y <- rnorm(7)
z <- rnorm(5)
has_letter(exact_test("ranksum", x, y), "W of wilcox.test", wilcox.test(x, y)$statistic)
has_letter(exact_test("ranksum", x, y), "U", wilcox.test(y, x)$statistic)
has_letter(exact_test("ranksum", round(x), round(y)), "W of wilcox.test",
           suppressWarnings(wilcox.test(round(x), round(y)))$statistic)
has_letter(exact_test("signedrank", x, y[-1], paired = TRUE), "V of wilcox.test", wilcox.test(x, y[-1], paired = TRUE)$statistic)
has_letter(exact_test("signedrank", x), "V of wilcox.test", wilcox.test(x)$statistic)
groups <- data.frame(g = rep(c("x", "y", "z"), 6:8), v = c(x, y, z, 0.01, 0.02, 0.03))
has_letter(exact_test("kw", groups), "H", kruskal.test(v ~ g, groups)$statistic)
tell(is.null(exact_test("kw", groups[c(1:3, 7:9), ], scores = "savage")$letters), "R: other scores have no letter")
has_letter(exact_test("friedman", as.data.frame(matrix(c(x, y, z), 6))), "S",
           friedman.test(matrix(c(x, y, z), 6))$statistic)
has_letter(exact_test("kendall", x, y[-1], paired = TRUE), "tau", cor.test(x, y[-1], method = "kendall")$estimate)

# R's own functions, on data without ties, where they are exact
x <- c(1.1, 2.7, 3.9, 5.2, 8.4)
y <- c(2.1, 4.4, 6.3, 7.7, 9.8, 10.5)
same <- function(ours, theirs, what) tell(isTRUE(all.equal(ours$p.value, theirs$p.value)), paste("R's own:", what))
for (side in c("two.sided", "less", "greater")) {
  same(exact_test("ranksum", x, y, alternative = side), wilcox.test(x, y, alternative = side), paste("wilcox.test", side))
  same(exact_test("ranksum", x, y, alternative = side, order = c("y", "x")), wilcox.test(y, x, alternative = side),
       paste("wilcox.test, turned", side))
  same(exact_test("signedrank", x, y[-6], paired = TRUE, alternative = side),
       wilcox.test(x, y[-6], paired = TRUE, alternative = side), paste("paired", side))
  same(exact_test("signedrank", x - 3, alternative = side), wilcox.test(x - 3, alternative = side), paste("one sample", side))
  same(exact_test("kendall", x, y[c(2, 1, 4, 3, 5)], paired = TRUE, alternative = side),
       cor.test(x, y[c(2, 1, 4, 3, 5)], method = "kendall", alternative = side), paste("cor.test", side))
  same(exact_test("fisher", matrix(c(3, 1, 1, 3), 2), alternative = side),
       fisher.test(matrix(c(3, 1, 1, 3), 2), alternative = side), paste("fisher.test", side))
  tell(exact_test("ranksum", x, y, alternative = side)$alternative == side, paste("R: the alternative", side))
}
for (side in c("less", "greater")) {
  same(exact_test("ansari", x, y, alternative = side), ansari.test(x, y, alternative = side), paste("ansari.test", side))
  spread <- exact_test("mood", c(-9, 0.1, 9), c(-1, 0, 1, 2), alternative = side)$p.value
  tell((spread < 0.5) == (side == "greater"), paste("R: mood", side))
  same(exact_test("fisher", matrix(c(3, 1, 1, 3), 2), odds = "2/1", alternative = side),
       fisher.test(matrix(c(3, 1, 1, 3), 2), or = 2, alternative = side), paste("fisher.test with odds", side))
}
tell(exact_test("ranksum", x, y, tail = "less")$p.value == exact_test("ranksum", x, y, alternative = "greater")$p.value,
     "R: a tail is of the second sample")
tea <- as.matrix(data_of("tea"))
fails(exact_test("fisher", tea, odds = "2/1"), c("odds", "tail", "alternative"), "odds without a tail")
fails(exact_test("fisher", tea, odds = "2/1", alternative = "two.sided"), c("odds", "two-sided"), "odds on both sides")
fails(exact_test("kw", x, y, alternative = "less"), c("kw", "alternative"), "an alternative that kw does not have")
fails(exact_test("zelen", data_of("rabbits"), alternative = "less"), c("zelen", "alternative"), "nor does zelen")
fails(exact_test("ranksum", x, y, alternative = "less", tail = "less"), c("alternative", "tail"), "two ways to ask")
fails(exact_test("ranksum", x, y, tial = "less"), c("'tial'", "'tail'"), "a misspelt option")
fails(exact_test("ranksum", x, y, distributoin = TRUE), "'distribution'", "another")
fails(exact_test("ranksum", x, y, NULL, FALSE, "less"), "no name", "an option without its name")
fails(exact_shift(x, y, mis = "1/5"), "'miss'", "a misspelt option of a shift")
fails(exact_test("ranksum", x, y, program = "/no/such"), c("/no/such", "EXACT"), "no program")
fails(exact_test("ranksum", factor(x), y), "factor", "a factor for numbers")
rows <- as.data.frame(exact_test("ranksum", 1:3, 4:6))
tell(identical(rows$tail, c("less", "greater", "two")) && identical(rows$numerator, c("20", "1", "2")) &&
       all(c("statistic", "p.value", "method", "alternative") %in% names(rows)), "R: a row a tail")
tell(rows$alternative[2] == "values of y are greater than those of x", "R: what a tail says")
limits <- as.data.frame(exact_shift(1:3, 4:6, miss = "1/5"))
tell(identical(unlist(limits[1:4]), c(estimate = 3, conf.low = 2, conf.high = 4, conf.level = 0.8)), "R: a shift as a row")
