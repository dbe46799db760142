\name{exact_library}
\alias{exact_library}
\title{Run the Tests in This Process}
\description{Loads the proved program as a library. From then on, runs that name no program use it, within this process.}
\usage{
exact_library(folder = Sys.getenv("EXACT_LIBRARY", NA))
}
\arguments{
  \item{folder}{the folder of \file{rexact.so}. Without it these are tried: the folder in the environment variable
    \env{EXACT_LIBRARY}, that of the package, and \file{../lib} of the program}
}
\details{
  A run then starts no process and writes no file, which pays off for many small runs. But it cannot be interrupted, and
  too small a stack ends the session, so leave long runs to the program.
}
\value{The library, invisibly. Pass it as \code{program} to use it for single runs.}
