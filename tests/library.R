# Tries the library from R on the problems of `library`; a line for each: 0 where it came right, else 1.
arguments <- commandArgs(trailingOnly = TRUE)
source(file.path(arguments[1], "clients", "exact.R"))
here <- exact_library()
bytes_of <- function(file) readBin(file, "raw", file.size(file))

tell <- function(right, what) cat(if (isTRUE(right)) 0 else 1, "R, library:", what, "\n")

# a problem's words, a line each, and its file, the first of them behind the first that is one
is_wanted <- function(problem) {
  words <- strsplit(rawToChar(bytes_of(file.path(problem, "words"))), "\n", fixed = TRUE, useBytes = TRUE)[[1]]
  names <- readLines(file.path(problem, "words"), encoding = "UTF-8")[-1]
  file <- Find(file.exists, file.path(problem, names[names != ""]))
  data <- if (is.null(file)) raw() else bytes_of(file)
  room <- 0
  repeat {
    answer <- .Call(here$answer, words, data, room)
    if (answer$status != 6) break
    room <- max(2^18, 16 * room)
  }
  said <- paste0(answer$report, "-- standard error\n", answer$line, "-- status ", answer$status, "\n")
  identical(charToRaw(said), bytes_of(file.path(problem, "wanted")))
}
for (problem in arguments[-1]) tell(is_wanted(problem), problem)

# a file as its columns, and as its text
is_same <- function(command, rows) {
  answer <- function(file) .Call(here$answer, c(command, "f.csv"), file, 0)
  identical(answer(rows), answer(charToRaw(exact_text(rows))))
}
set.seed(1)
numbers <- c(0, 1e-4, 0.1 + 0.2, 1e15, 10^runif(500, -4, 17) * c(1, -1))
one <- vapply(numbers, function(number) is_same("raw", list(label = c("x", "x", "y"), value = c(0, 1, number))), NA)
tell(all(one), "numbers of a column")
rows <- exact_rows(data.frame(label = c("a, \"b\"\nc\u00e9", NA, ""), v = c(1, 1e-9, NA)), NULL, NULL, FALSE)
tell(is_same("ranksum", rows) && is_same(c("ranksum", "--missing=drop"), rows), "labels of a column")
tell(is_same("signedrank", list(first = c(1, 5, 2, 9), second = c(3, 4))), "a shorter column")
tell(is_same("signedrank", list(first = c(1, 5), second = numeric())), "a column of nothing")
tell(is_same("sign", list(value = numeric())) && is_same("sign", list()), "no rows, no columns")
