"""Exact nonparametric tests in Python, computed by the program `exact`.

    >>> import exact
    >>> report = exact.run("ranksum", {"x": [1, 2, 3], "y": [4, 5, 6]})
    >>> report
    <exact.Report ranksum: group 3 x, group 3 y; W 15 (U 9, W of wilcox.test 0); less 1, greater 1/20, two 1/10>
    >>> report.greater
    Fraction(1, 20)
    >>> report.statistic, report.pvalue, f"{report.pvalue:.3f}"
    (Fraction(15, 1), Fraction(1, 10), '0.100')
    >>> exact.run("signedrank", zip([1, 2, 4], [2, 4, 7]), tail="greater").pvalue
    Fraction(1, 8)
    >>> exact.run("fisher", [[3, 1], [1, 3]], distribution=True).distribution[0]
    (Fraction(0, 1), 1)
    >>> exact.run("fisher", [[3, 1], [1, 3]], odds=2).greater
    Fraction(48, 107)
    >>> exact.run("ranksum", {"x": [1, 2, None], "y": [4, 5, 6]})  # doctest: +ELLIPSIS
    Traceback (most recent call last):
    ...
    exact.BadData: refused: row 4 field 2: missing
    fill it in, or leave such rows out with missing="drop" (...REFUSALS.md#missing)
    >>> exact.run("ranksum", {"x": [1, 2, None], "y": [4, 5, 6]}, missing="drop").dropped
    1
    >>> found = exact.shift({"x": [1, 2, 3], "y": [4, 5, 6]}, miss=0.2)
    >>> found.estimate, found.lower, found.upper, found.miss
    (Fraction(3, 1), Fraction(2, 1), Fraction(4, 1), Fraction(1, 5))

Data frames of pandas and polars are read by column name, as is any mapping from names to columns:

    >>> rats = {"drug": list("ccctttt"), "time": [300, 300, 271, 22, 75, 18, 163]}  # or pandas.DataFrame(...)
    >>> exact.run("ranksum", rats, group="drug", value="time", tail="less").pvalue
    Fraction(1, 35)
    >>> patients = {"before": [1.5, 2, 4, 3], "after": [2, 4, 7.25, 3.75], "id": [1, 2, 3, 4]}
    >>> exact.run("signedrank", patients, columns=["before", "after"]).greater
    Fraction(1, 16)

The statistic of two samples belongs to the second sample: the label that comes later in the data, or in `order`. The
categories of an ordered column of pandas give the order. For pairs, differences are the second value minus the first.
`tail` refers to this statistic. `alternative` means what it means in R and in scipy: whether the *first* sample is less
or greater than the second.

Each run is a process of its own, so it can be interrupted, and a crash does not end your session. For many small runs,
`exact.library()` computes the same answers within this process, through libexact.so.

This is one file without dependencies. Numbers are passed on as the shortest text that reads back as the same number;
texts and Decimals as they are. None, NaN, pandas.NA and NaT count as missing. A float with more than 18 decimals, such
as 3.3333333333333333e-06, is rounded to 18 decimals, with a warning. If that would make two different values equal, or
one of them zero, the run is refused as out of range.
"""
from __future__ import annotations

import codecs
import csv
import dataclasses
import errno
import functools
import io
import math
import os
import re
import shutil
import site
import subprocess
import sys
import sysconfig
import tempfile
import warnings
from collections.abc import Iterable, Iterator, Mapping, Sequence, Set
from decimal import Decimal
from fractions import Fraction
from typing import Any, Callable, Literal, Optional, Union

Tail = Literal["all", "less", "greater", "two"]
Alternative = Literal["two-sided", "two.sided", "less", "greater"]
Scores = Literal["wilcoxon", "ansari", "mood", "savage", "median", "raw"]
Separator = Literal["comma", "semicolon", "tab"]
Missing = Literal["refuse", "drop"]
Odds = Union[Fraction, Decimal, float, int, str]

__version__ = "0.1.0"
__commit__ = ""
"""The commit that a package was built from; empty if the file is used alone."""

# the folder of the program in an installed package
_HERE = os.path.dirname(os.path.abspath(__file__))
_BROUGHT = "exact_program"

__all__ = [
    "BadData", "Fraction", "Library", "NoMemory", "ReadFault", "Refused", "Report", "Shift", "TooWide", "Usage",
    "WriteFault", "library", "read", "read_shift", "run", "shift",
]


class Refused(Exception):
    """There is no report. `line` is the program's message and `status` its exit status; the text adds what helps."""

    status = 0

    def __init__(self, line: str = "", test: str = "") -> None:
        self.line = line
        self.test = test
        super().__init__(line, test)

    def __str__(self) -> str:
        return f"{self.line}\n{_help(self.line, self.test)}"


class Usage(Refused):
    """An argument is refused, or an option does not fit the data."""

    status = 2


class BadData(Refused):
    """The data have a fault. The message gives the row and the field of the file; the header is row 1."""

    status = 3


class TooWide(Refused):
    """The problem is beyond 128 bits."""

    status = 4


class ReadFault(Refused):
    """The file could not be read."""

    status = 5


class WriteFault(Refused):
    """The report could not be written."""

    status = 6


class NoMemory(Refused):
    """Memory ran out."""

    status = 7


REFUSALS = {kind.status: kind for kind in Refused.__subclasses__()}
_LONGEST_FILE = 1_048_576

# what helps, by what stands behind the last colon of the program's message
HELPS = {
    "missing": 'fill it in, or leave such rows out with missing="drop"',
    "not a number": "write numbers with a decimal point, without units or thousands separators",
    "out of range": "round the value to 18 decimals, or rescale the column so that all values are below 10^18",
    "not a count": "cells must be whole numbers of at most 1000000",
    "not 0 or 1": "code yes and no as 1 and 0",
    "a group too many": "look for two spellings of the same label",
    "field count": "select the fields that the test reads with columns",
    "too many columns": "select the fields that the test reads with columns",
    "ends too early": "there are too few groups, pairs, blocks or rows",
    "total": "swap rows and columns of a table, or simulate: coin, beyond 2 by 2 fisher.test(simulate.p.value = TRUE)",
    "statistic": "round or rescale the values, or simulate the same distribution",
    "command line": "umbrella needs peak, drill needs number and no data, and plain excludes nodes",
    "value of TEST": "there is no test of this name; ranksum, signedrank, kw and fisher are some of the names",
    "value of --tail": 'tail is "all", "less", "greater" or "two"; R\'s words belong to alternative',
    "value of --odds": 'give a fraction of whole numbers from 1 to 1000, such as "3/2"',
    "value of --miss": 'give a fraction below 1 of whole numbers from 1 to 1000, such as "1/20"',
    "read fault": "check that the file exists and that you may read it",
    "no memory": "round the values if that does no harm: fewer different values need less memory",
}

# what to take for a test that has another name elsewhere; names in small letters, without `test`, `exact` and marks
ELSEWHERE = {
    "Mann-Whitney is ranksum": "mannwhitney mannwhitneyu mannwhitneywilcoxon wilcoxonmannwhitney mw mwu wmw u",
    "Wilcoxon's rank sum test is ranksum": "wilcoxonranksum wilcoxonranksums ranksums",
    "Wilcoxon's signed rank test is signedrank": "wilcoxonsignedrank wilcoxonsignedranks wilcoxsign signedranks",
    "Wilcoxon is ranksum for two samples, signedrank for pairs": "wilcoxon wilcox",
    "a permutation test is raw for two samples, rawsigned for pairs": "permutation perm randomization fisherpitman",
    "instead of a t-test, raw compares two samples and rawsigned pairs": "t tind trel t1samp student welch",
    "the sign test is sign": "signs binom binomial",
    "McNemar is mcnemar": "mcnem mcnemars",
    "Ansari-Bradley is ansari": "ansaribradley ab siegeltukey",
    "Mood's test of spread is mood": "moods moodscale moodspread",
    "the Brown-Mood median test is median": "moodmedian moodsmedian brownmood",
    "Savage is savage": "savagescores exponentialscores",
    "Kruskal-Wallis is kw": "kruskal kruskalwallis kruskalwallish",
    "Jonckheere-Terpstra is jt": "jonckheere jonckheereterpstra terpstra",
    "Mack-Wolfe is umbrella": "mackwolfe",
    "Friedman is friedman": "friedmanchisquare friedmanrank friedmanranksum",
    "Page is page": "pagetrend pagel pages",
    "Cochran's Q is cochran": "cochranq cochransq cochrans q",
    "Fisher's exact test is fisher": "fishers freemanhalton fisherfreemanhalton",
    "the exact counterpart of the chi-squared test is fisher": "chisq chi2 chisquare chisquared chi2contingency",
    "linear-by-linear association is linear": "linearbylinear lbl armitage cochranarmitage proptrend",
    "Mantel-Haenszel is strata": "mantelhaenszel mantelhaen cochranmantelhaenszel cmh mh",
    "the homogeneity of odds ratios is tested by zelen": "breslowday homogeneity zelens",
    "stratranksum adds up rank sums; van Elteren weights them": "vanelteren elteren stratifiedwilcoxon",
    "Kendall's tau is kendall": "kendalltau kendalls kendallstau tau cor",
    "there is no Spearman test; kendall tests the same null hypothesis": "spearman spearmanr rho",
    "Wald-Wolfowitz is runs": "waldwolfowitz waldwolfowitzruns run",
}


def _named_elsewhere(test: str) -> str | None:
    """What to take for a word that is no test's name."""
    word = re.sub("test|exact", "", re.sub("[^a-z0-9]", "", test.lower()))
    if word in LETTERS:
        return f"the name is {word}"
    return next((said for said, names in ELSEWHERE.items() if word in names.split()), None)


def _help(line: str, test: str = "") -> str:
    """What helps after a refusal, and the place of the page about it."""
    cause = re.sub("^--[^ ]+ with .*", "option with test", line.split(": ")[-1])
    link = re.sub("[^a-z]+", "-", cause.lower()).strip("-")
    named = _named_elsewhere(test) if cause == "value of TEST" else None
    return f"{named or HELPS.get(cause, 'see')} ({_pages()}/REFUSALS.md#{link})"


def _pages() -> str:
    """The folder of the pages that were installed with this module or with the program, else that of the repository."""
    own = [sysconfig.get_path("data"), site.getuserbase(), os.path.join(_HERE, "..")] if _own_program() else []
    bases = [*own, _beside_program("..")]
    folders = [os.path.normpath(os.path.join(base, "share", "doc", "exact", "docs")) for base in bases if base]
    return next(filter(os.path.isdir, folders), "docs")


def _beside_program(*way: str) -> str | None:
    """The path that leads this way from the folder of the program, if there is a program."""
    program = shutil.which(os.environ.get("EXACT") or _own_program() or "exact")
    return os.path.join(os.path.dirname(os.path.realpath(program)), *way) if program else None


class Ratio(Fraction):
    """A Fraction that formats like a float, `f"{report.two:.4f}"`, as do the results of arithmetic with it."""

    __slots__ = ()

    def __repr__(self) -> str:
        return f"Fraction({self.numerator}, {self.denominator})"

    def __format__(self, spec: str) -> str:
        return format(float(self) if spec[-1:] in tuple("eEfFgG%") else str(self), spec)


def _kept(name: str) -> Callable[..., Any]:
    """The operation of this name of fractions, whose result is a Ratio where it is a fraction."""
    operation = getattr(Fraction, name)

    @functools.wraps(operation)
    def kept(*values: Any) -> Any:
        result = operation(*values)
        return Ratio(result) if type(result) is Fraction else result

    return kept


for _name in "add radd sub rsub mul rmul truediv rtruediv mod rmod pow rpow neg pos abs round".split():
    setattr(Ratio, f"__{_name}__", _kept(f"__{_name}__"))


# the letters of the statistics, by the names of all tests; the quotients that no letter names have an empty one
LETTERS = {
    "signedrank": "T+", "sign": "B", "rawsigned": "T", "mcnemar": "T", "ranksum": "W", "ansari": "C", "mood": "M",
    "savage": "T", "median": "T", "raw": "T", "kw": "", "jt": "J", "umbrella": "A", "friedman": "", "page": "L",
    "cochran": "", "fisher": "", "linear": "T", "strata": "", "zelen": "", "stratranksum": "W", "kendall": "K",
    "runs": "", "drill": "W",
}


@dataclasses.dataclass(frozen=True, repr=False)
class Report:
    """A report. Its p-values are exact fractions, or None for a tail that was not requested or does not exist."""

    test: str
    sizes: tuple[str, ...]
    """The lines between the test and the statistic as printed, without the line about dropped rows."""
    statistic: Fraction
    total: int
    dropped: int | None = None
    """With missing="drop", the number of rows that were left out."""
    less: Fraction | None = None
    greater: Fraction | None = None
    two: Fraction | None = None
    nodes: tuple[tuple[str, int], ...] = ()
    distribution: tuple[tuple[Fraction, int], ...] = ()
    text: str = ""
    """The report as it was printed."""

    @property
    def pvalue(self) -> Fraction:
        """The p-value of the requested tail; the two-sided one if more than one tail was requested."""
        asked = [value for value in (self.less, self.greater, self.two) if value is not None]
        value = asked[0] if len(asked) == 1 else self.two
        if value is None:
            raise ValueError('with odds there is no two-sided p-value: ask for tail="less" or tail="greater"')
        return value

    @property
    def letters(self) -> dict[str, Fraction]:
        """The same statistic in other books and programs, by its letter there; empty if the report does not give it.

        "U" is the Mann-Whitney statistic of the second sample, and "W of wilcox.test" that of the first, which R's
        wilcox.test and scipy's mannwhitneyu print. "H" is the Kruskal-Wallis statistic, "S" the Friedman statistic,
        both before the correction for ties that kruskal.test and friedman.test make. "tau" is Kendall's tau-a, which
        is the tau of cor.test and kendalltau if there are no ties.

            >>> import exact
            >>> report = exact.run("kw", {"a": [1, 2], "b": [3, 5], "c": [4, 6]})
            >>> report.statistic, report.letters
            (Fraction(173, 2), {'H': Fraction(26, 7)})
        """
        return _letters(self.test, self.sizes, self.statistic)

    def __repr__(self) -> str:
        tails = {"less": self.less, "greater": self.greater, "two": self.two}
        told = ", ".join(f"{tail} {value}" for tail, value in tails.items() if value is not None)
        others = ", ".join(f"{letter} {value}" for letter, value in self.letters.items())
        statistic = f"{LETTERS.get(self.test) or 'statistic'} {self.statistic}" + (f" ({others})" if others else "")
        return f"<exact.Report {self.test}: {', '.join(self.sizes)}; {statistic}; {told}>"


def _letters(test: str, sizes: Sequence[str], statistic: Fraction) -> dict[str, Fraction]:
    """The letters of `Report.letters`, from the lines of the sizes and the statistic."""
    words = [line.split(" ") for line in sizes]
    groups = [int(line[1]) for line in words if line[0] == "group"]
    if test == "ranksum":
        first, second = groups
        u = statistic - Fraction(second * (second + 1), 2)
        return {"U": u, "W of wilcox.test": first * second - u}
    if test == "kw" and "scores wilcoxon" in sizes:
        n = sum(groups)
        return {"H": 12 * statistic / (n * (n + 1)) - 3 * (n + 1)}
    if test == "friedman":
        n, k = int(words[0][1]), int(words[0][3])
        return {"S": 12 * statistic / (n * k * (k + 1)) - 3 * n * (k + 1)}
    if test == "kendall" and words[0][3] != "1":
        n = int(words[0][3])
        return {"tau": 2 * statistic / (n * (n - 1))}
    return {}


@dataclasses.dataclass(frozen=True, repr=False)
class Shift:
    """The estimated shift of the second sample relative to the first, with exact confidence limits."""

    sizes: tuple[str, ...]
    """The lines of the groups as printed."""
    differences: int
    """The number of differences between a value of the second sample and one of the first."""
    estimate: Fraction
    """Their median, the Hodges-Lehmann estimate."""
    lower: Fraction | None
    """The confidence limits, or None if no limits miss as little as was asked."""
    upper: Fraction | None
    total: int
    miss: Fraction
    """The fraction of all rearrangements that the limits miss, at most what was asked: 1 minus the confidence level."""
    dropped: int | None = None
    """With missing="drop", the number of rows that were left out."""
    text: str = ""
    """The report as it was printed."""

    def __repr__(self) -> str:
        limits = "no limits" if self.lower is None else f"limits {self.lower} to {self.upper}"
        return f"<exact.Shift {', '.join(self.sizes)}; estimate {self.estimate}; {limits}; miss {self.miss}>"


def run(
    test: str,
    data: object = None,
    *,
    value: object = None,
    group: object = None,
    stratum: object = None,
    columns: Iterable[int | str] | None = None,
    tail: Tail | None = None,
    alternative: Alternative | None = None,
    scores: Scores | None = None,
    order: Iterable[object] | str | None = None,
    peak: int | None = None,
    row_scores: Iterable[int] | str | None = None,
    column_scores: Iterable[int] | str | None = None,
    odds: Odds | None = None,
    missing: Missing | None = None,
    separator: Separator | None = None,
    header: bool | None = None,
    number: int | None = None,
    distribution: bool = False,
    plain: bool = False,
    nodes: bool = False,
    program: str | Library | None = None,
) -> Report:
    """The report of a test.

    data: A data frame of pandas, polars or pyarrow, or a list of records (dicts), whose columns are the fields. A
    mapping: for a test of groups from labels to samples, for all other tests from names to columns. Rows: a list of
    lists or tuples, a zip of two lists, or a numpy array; in a list of numbers or of labels, each is a row of its own.
    A text or a path: the name of an existing file. None: no file, for `drill`. Anything else is a TypeError, because
    it could be read in two ways.
    value, group, stratum: The names of these columns in a data frame, in records, or in a mapping of columns.
    columns: The names of the columns, in the order in which the test reads them: ["before", "after"]. Or the numbers of
    the fields, counted from 1.
    tail: "less", "greater" or "two", a line of the report; it refers to the statistic, which is that of the second
    sample. "all", or nothing, gives all of them.
    alternative: "less", "greater" or "two-sided" as in scipy and R: whether the *first* sample is less or greater.
    order: The labels in their order, as ["x", "y"].
    odds: The odds ratio of the null hypothesis: 2, 1.5, Fraction(3, 2) or "3/2".
    header: For a file, whether its first row is a header. Without it a first row that looks like data is a ValueError.
    scores, peak, row_scores, ...: The options of the program.
    program: The path of the program. Without it the library is used if `library` loaded it, then the path in the
    environment variable EXACT, then the program that was installed with this module, then the one on the PATH.

        >>> import exact
        >>> rats = {"drug": list("ccctttt"), "time": [300, 300, 271, 22, 75, 18, 163]}  # or pandas.DataFrame(...)
        >>> # do the controls stay longer?
        >>> exact.run("ranksum", rats, group="drug", value="time", alternative="greater").pvalue
        Fraction(1, 35)
    """
    if test == "shift":
        raise ValueError("shift is an estimate, not a test: call exact.shift(data)")
    source = _source(test, data, _picked(stratum, group, value, columns), separator, header)
    options = {
        "tail": _tail(test, tail, alternative, odds, source.fields), "scores": scores, "order": order, "peak": peak,
        "row_scores": row_scores, "column_scores": column_scores, "columns": source.columns, "separator": separator,
        "number": number, "odds": _ratio(odds), "missing": missing, "distribution": distribution, "plain": plain,
        "nodes": nodes,
    }
    return read(_text(test, source, program, options))


def shift(
    data: object,
    *,
    value: object = None,
    group: object = None,
    columns: Iterable[int | str] | None = None,
    miss: Odds | None = None,
    order: Iterable[object] | str | None = None,
    missing: Missing | None = None,
    separator: Separator | None = None,
    header: bool | None = None,
    program: str | Library | None = None,
) -> Shift:
    """The shift of the second sample relative to the first, with exact confidence limits.

    data: A mapping from two labels to samples, a data frame, rows of a label and a value, or a file, as for `run`.
    miss: 1 minus the confidence level, as 0.05, Fraction(1, 20) or "1/20"; 1/20 if it is not given.
    The other arguments are those of `run`.
    """
    source = _source("shift", data, _picked(None, group, value, columns), separator, header)
    options = {
        "miss": _ratio(miss), "order": order, "columns": source.columns, "missing": missing, "separator": separator
    }
    return read_shift(_text("shift", source, program, options))


def library(folder: str | os.PathLike[str] | None = None) -> Library:
    """Loads libexact.so. From now on, runs that name no program use it, within this process.

    A run then starts no process and writes no file, and threads run side by side. But a run cannot be interrupted, and
    too small a stack ends the whole process, so leave long runs to the program.
    folder: Where libexact.so is. Without it these are tried: the folder in the environment variable EXACT_LIBRARY, that
    of this file, that of the program that was installed with it, `../lib` of the program on the PATH, and the places
    where the system looks.
    """
    global _library
    beside = _beside_program("..", "lib")
    asked = folder or os.environ.get("EXACT_LIBRARY")
    near = [os.path.dirname(os.path.realpath(__file__)), os.path.join(_HERE, _BROUGHT)]
    places = [asked] if asked else [*near, *([beside] if beside else [])]
    paths = [os.path.join(place, "libexact.so") for place in places]
    _library = Library(next(filter(os.path.exists, paths), "libexact.so.0" if not asked else paths[0]))
    return _library


class Library:
    """The program within this process, by libexact.so: the `program` of a run, or of all runs after `library`."""

    def __init__(self, path: str | os.PathLike[str]) -> None:
        import ctypes  # which not every Python has

        self._types = ctypes
        self._answer = ctypes.CDLL(os.fspath(path)).exact_answer
        piece = [ctypes.c_char_p, ctypes.c_size_t]
        self._answer.argtypes = [*piece, *piece, *piece, *piece, ctypes.POINTER(ctypes.c_size_t)]
        self._answer.restype = ctypes.c_uint8

    def answer(self, words: Iterable[str], data: bytes) -> tuple[int, str, str]:
        """The status, the report and the message of one run; these are the bytes of the file that the words name."""
        types = self._types
        encoded = [os.fsencode(word) for word in words]
        if any(b"\0" in word for word in encoded):
            raise ValueError("embedded null byte")
        packed = b"".join(word + b"\0" for word in encoded)
        room, told, counts = 1 << 14, types.create_string_buffer(96), (types.c_size_t * 2)()
        while True:
            out = types.create_string_buffer(room)
            status: int = self._answer(packed, len(packed), data, len(data), out, room, told, len(told), counts)
            if status != WriteFault.status:
                texts = types.string_at(out, counts[0]), types.string_at(told, counts[1])
                report, line = (text.decode(errors="replace") for text in texts)
                return status, report, line
            room *= 16

    def answer_of(self, command: str, path: str | None, file: bytes | None, flags: list[str]) -> tuple[int, str, str]:
        """The same for a run over the file of this path or of these bytes.

        A file that cannot be read is refused only if the words are not.
        """
        if path is None:
            return self.answer([command, *([] if file is None else ["data.csv"]), *flags], file or b"")
        words = [command, path, *flags]
        try:
            with open(path, "rb") as source:
                return self.answer(words, source.read(_LONGEST_FILE + 1))
        except OSError:
            status, report, line = self.answer(words, b"")
            return (ReadFault.status, "", "refused: read fault") if status == BadData.status else (status, report, line)


_library: Library | None = None


def _text(command: str, source: _Source, program: str | Library | None, options: Mapping[str, object]) -> str:
    """What the program prints; a refusal is raised."""
    flags = [_word(name, value) for name, value in options.items() if value is not None and value is not False]
    program = program or _library or os.environ.get("EXACT") or _own_program() or "exact"
    run_by = program.answer_of if isinstance(program, Library) else _Process(program).answer_of
    status, report, line = run_by(command, source.path, source.file, flags)
    if status:
        raise REFUSALS[status](line.rstrip("\n"), command)
    return report


class _Process:
    """The program in a process of its own."""

    def __init__(self, path: str) -> None:
        self._path = path

    def answer_of(self, command: str, path: str | None, file: bytes | None, flags: list[str]) -> tuple[int, str, str]:
        """The status, the report and the message of one run over the file of this path or of these bytes."""
        with tempfile.TemporaryDirectory() as folder:
            if file is not None:
                path = os.path.join(folder, "data.csv")
                with open(path, "wb") as out:
                    out.write(file)
            words = [self._path, command, *([] if path is None else [path]), *flags]
            try:
                done = subprocess.run(words, stdin=subprocess.DEVNULL, capture_output=True, check=False)
            except FileNotFoundError:
                raise FileNotFoundError(errno.ENOENT, _NO_PROGRAM, self._path) from None
        if done.returncode not in REFUSALS:
            done.check_returncode()
        return done.returncode, done.stdout.decode(errors="replace"), done.stderr.decode(errors="replace")


_NO_PROGRAM = "the program exact was not found: give its path as program= or in the environment variable EXACT"


def _own_program() -> str | None:
    """The program that was installed with this module, if there is one."""
    path = os.path.join(_HERE, _BROUGHT, "exact")
    return path if os.path.exists(path) else None


def command() -> None:
    """Runs the program with the arguments of the command line: the command `exact` of an installed package."""
    os.execvp(_own_program() or "exact", ["exact", *sys.argv[1:]])


def read(text: str) -> Report:
    """Reads the text of a report, in which each line is a keyword and its values."""
    found: dict[str, Any] = {"sizes": [], "nodes": [], "distribution": [], "text": text}
    scale = 1
    for line in text.splitlines():
        word, _, rest = line.partition(" ")
        parts = rest.split(" ")
        if word == "test":
            found["test"] = rest
        elif word == "statistic":
            value, scale = map(int, rest.split("/"))
            found["statistic"] = Ratio(value, scale)
        elif word in ("total", "dropped"):
            found[word] = int(rest)
        elif word in ("less", "greater", "two"):
            found[word] = Ratio(parts[0])
        elif word == "nodes":
            found["nodes"].append((parts[0], int(parts[1])))
        elif word == "at":
            found["distribution"].append((Ratio(int(parts[0]), scale), int(parts[1])))
        else:
            found["sizes"].append(line)
    return Report(**{name: tuple(value) if isinstance(value, list) else value for name, value in found.items()})


def read_shift(text: str) -> Shift:
    """Reads the report of a shift."""
    found: dict[str, Any] = {"sizes": (), "text": text}
    for line in text.splitlines()[1:]:
        word, _, rest = line.partition(" ")
        if word in ("differences", "total", "dropped"):
            found[word] = int(rest)
        elif word in ("lower", "upper") and rest == "none":
            found[word] = None
        elif word in ("estimate", "lower", "upper", "miss"):
            found[word] = Ratio(rest.split(" ")[0])
        else:
            found["sizes"] += (line,)
    return Shift(**found)


def _word(name: str, value: object) -> str:
    """An option as a word of the command line."""
    flag = "--" + name.replace("_", "-")
    if value is True:
        return flag
    if not isinstance(value, str) and isinstance(value, Iterable):
        value = ",".join(str(item) for item in value)
    return f"{flag}={value}"


def _ratio(value: Odds | None) -> str | None:
    """A fraction, a whole number or a decimal as P/Q; what is none of these is left to the program to refuse."""
    if value is None:
        return None
    text = _field(value)
    try:
        ratio = Fraction(text)
    except (ValueError, ZeroDivisionError):
        return text
    return text if "/" in text else f"{ratio.numerator}/{ratio.denominator}"


# the tests whose statistic falls as the first sample rises: `less` of the first sample is `greater` of the second
_OF_SECOND = frozenset("signedrank sign rawsigned ranksum mood savage median raw stratranksum drill".split())


def _tail(test: str, tail: Tail | None, alternative: Alternative | None, odds: object, fields: int) -> str | None:
    """The tail that `tail` or `alternative` asks for; differences in one column are already those of one sample."""
    if alternative is None:
        return tail
    sides = {"two-sided": "two", "two.sided": "two", "less": "less", "greater": "greater"}
    if tail is not None:
        raise ValueError("give alternative= or tail=, not both")
    if alternative not in sides:
        raise ValueError(f'alternative is "two-sided", "less" or "greater", not {alternative!r}')
    if test in ("kw", "friedman", "cochran", "zelen"):
        raise ValueError(f"{test} has a single p-value without sides: leave alternative out")
    side = sides[alternative]
    if odds is not None and side == "two":
        raise ValueError('with odds there is no two-sided p-value: say alternative="less" or alternative="greater"')
    return {"less": "greater", "greater": "less"}.get(side, side) if test in _OF_SECOND and fields > 1 else side


# ---- the rows of data of any kind

_Columns = Mapping[str, Sequence[object]]
_Numbers = Optional[Sequence[object]]
# the tests for which a mapping is one from labels to samples
_OF_GROUPS = frozenset("ranksum ansari mood savage median raw kw jt umbrella shift".split())


def _picked(
    stratum: object, group: object, value: object, columns: Iterable[int | str] | None
) -> tuple[list[object], _Numbers]:
    """The names of the columns that are selected by name, in the order in which a test reads them, and the numbers."""
    named = [name for name in (stratum, group, value) if name is not None]
    if columns is None:
        return named, None
    if named:
        raise ValueError("select columns by columns= or by value=, group= and stratum=, not by both")
    if isinstance(columns, str):
        return [], columns.split(",")
    listed = list(columns)
    return (list(listed), None) if any(isinstance(column, str) for column in listed) else ([], listed)


@dataclasses.dataclass
class _Source:
    """A file, by its path or by its bytes (of neither there is none), the fields that a test reads, and how many."""

    path: str | None
    file: bytes | None
    columns: _Numbers
    fields: int


def _source(
    command: str,
    data: object,
    picked: tuple[list[object], _Numbers],
    separator: str | None,
    header: bool | None,
) -> _Source:
    """The file that the data are, or that is made of them."""
    names, columns = picked
    count = None if columns is None else len(columns)
    if isinstance(data, (str, os.PathLike)):
        path = os.fspath(data)
        if names:
            raise ValueError("columns of a file are selected by number, as columns=[2, 3]")
        bare = _bytes_of(path) if header is False else None
        rows = _rows_of_file(path, separator) if bare is None else _rows_of_bytes(bare, separator)
        if header is None:
            _ask(path, rows, columns)
        width = len(rows[0]) if rows else 2
        if bare is None:
            return _Source(path, None, columns, count or width)
        first = _SEPARATORS.get(separator or "", ",").join(f"field{i}" for i in range(1, width + 1))
        return _Source(None, first.encode() + b"\n" + bare, columns, count or width)
    if header is not None:
        raise ValueError("header= belongs to a file that is given by its path")
    if data is None:
        if names:
            raise ValueError("there are no data to select columns from")
        return _Source(None, None, columns, 2)
    titles, table = _table(command, data, names, columns)
    return _Source(None, _file(titles, table), columns, count or len(titles))


_SEPARATORS = {"semicolon": ";", "tab": "\t"}


def _bytes_of(path: str) -> bytes | None:
    """The bytes of a file without a byte order mark, or None if it cannot be read: that is for the program to say."""
    try:
        with open(path, "rb") as source:
            return source.read(_LONGEST_FILE + 1).removeprefix(codecs.BOM_UTF8)
    except OSError:
        return None


def _rows_of_file(path: str, separator: str | None) -> list[list[str]]:
    """The rows of a file that may be read twice, or none."""
    return _rows_of_bytes((_bytes_of(path) if os.path.isfile(path) else None) or b"", separator)


def _rows_of_bytes(file: bytes, separator: str | None) -> list[list[str]]:
    """The rows that these bytes have, or none: what is wrong with them is for the program to say."""
    lines = io.StringIO(file.decode("utf-8", "replace"), newline="")
    try:
        return [row for row in csv.reader(lines, delimiter=_SEPARATORS.get(separator or "", ",")) if row]
    except csv.Error:
        return []


def _is_number(text: str) -> bool:
    return re.fullmatch(r"\s*[-+]?([0-9]+\.?[0-9]*|\.[0-9]+)([eE][-+]?[0-9]+)?\s*", text) is not None


def _ask(path: str, rows: list[list[str]], columns: _Numbers) -> None:
    """Asks whether the first row is a header, if it has a number above a column of numbers."""
    fields = range(1, len(rows[0]) + 1) if rows else range(0)
    for field in fields if columns is None else [field for field in fields if str(field) in map(str, columns)]:
        column = [row[field - 1] for row in rows if field <= len(row)]
        below = [text for text in column[1:] if text.strip() not in ("", "NA")]
        if below and all(map(_is_number, [column[0], *below])):
            raise ValueError(
                f"the first row of {path} looks like data: {column[0]!r} stands above a column of numbers. Say "
                "header=False if it is data, or header=True if it is the header"
            )


def _table(
    command: str, data: object, names: list[object], numbers: _Numbers
) -> tuple[list[str], list[list[object]]]:
    """A header and the rows below it."""
    columns = _columns_of(data, bool(names) or command not in _OF_GROUPS)
    if columns is not None:
        if not names:
            _ask_of_names(command, data, columns)
        return _rows_of_columns(columns, names, _place_of_group(command, numbers))
    if isinstance(data, Mapping):
        samples = {label: _cells(sample) for label, sample in data.items()}
        return ["label", "value"], [[label, value] for label, sample in samples.items() for value in sample]
    if names:
        raise ValueError(f"{_kind(data)} has no column names: give a data frame or records")
    rows = _rows(data)
    return [f"field{i}" for i in range(1, len(rows[0]) + 1)] if rows else ["field1"], rows


def _ask_of_names(command: str, data: object, columns: _Columns) -> None:
    """Warns of a data frame whose names are numbers above numbers, as those of a file that was read without a header.

    Names such as "1" and "2" count the columns. Treatments and columns of tables may well have numbers for names.
    """
    if command not in _OF_GROUPS | {"stratranksum", "signedrank", "sign", "rawsigned", "kendall"}:
        return
    for place, name in enumerate(columns if isinstance(data, (Mapping, list)) else _names_of_frame(data)):
        if isinstance(name, str) and _is_number(name) and name not in (str(place), str(place + 1)):
            below = list(filter(None, map(_field, columns[name])))
            if below and all(map(_is_number, below)):
                warnings.warn(f"a column of numbers is named {name!r}: was a file without a header read?", stacklevel=5)
                return


def _place_of_group(command: str, numbers: _Numbers) -> int | None:
    """The place of the column of groups among the columns, if the test has groups."""
    place = 1 if command == "stratranksum" else 0 if command in _OF_GROUPS else None
    if place is None or numbers is None:
        return place
    number = str(numbers[place]) if place < len(numbers) else ""
    return int(number) - 1 if number.isdigit() else None


def _columns_of(data: object, is_by_columns: bool) -> _Columns | None:
    """The columns by their names: of a data frame, of records, or of a mapping from names to columns."""
    if isinstance(data, Mapping):
        return {str(name): _cells(column) for name, column in data.items()} if is_by_columns else None
    if isinstance(data, list) and data and any(isinstance(row, Mapping) for row in data):
        return _columns_of_records(data)
    return _columns_of_frame(data)


def _columns_of_records(records: list[Any]) -> _Columns:
    names = list(records[0]) if isinstance(records[0], Mapping) else []
    if any(not isinstance(record, Mapping) or set(record) != set(names) for record in records):
        raise ValueError("the records do not all have the same names")
    return {str(name): [record[name] for record in records] for name in names}


def _columns_of_frame(data: Any) -> _Columns | None:
    """The columns of a frame; None if the data are not a frame."""
    names: Any = _names_of_frame(data)
    if names is None and not hasattr(data, "__dataframe__"):
        return None
    try:
        listed = list(names)
        if len({str(name) for name in listed}) < len(listed):
            raise ValueError("two columns have the same name")
        return {str(name): _cells(data[name]) for name in listed}
    except (TypeError, LookupError) as fault:
        raise TypeError(f"{_kind(data)} does not give its columns by name: {_WANTED}") from fault


def _names_of_frame(data: Any) -> Any:
    """The column names of a pyarrow table, a structured array of numpy, or a frame of pandas or polars."""
    if hasattr(data, "column_names"):
        return data.column_names
    structured = getattr(getattr(data, "dtype", None), "names", None)
    return structured if structured is not None else getattr(data, "columns", None)


def _rows_of_columns(
    columns: _Columns, names: list[object], place: int | None
) -> tuple[list[str], list[list[object]]]:
    """The columns of these names, or all of them, side by side; ordered categories of the groups order the rows."""
    header = [str(name) for name in names] or list(columns)
    unknown = [name for name in header if name not in columns]
    if unknown:
        raise ValueError(f"there is no column {unknown[0]!r}: the columns are {', '.join(map(repr, columns))}")
    picked = [columns[name] for name in header]
    if len({len(column) for column in picked}) > 1:
        raise ValueError(f"the columns do not all have the same length: {[len(column) for column in picked]}")
    group = picked[place] if place is not None and 0 <= place < len(picked) else None
    order: Iterable[int] = range(len(picked[0]) if picked else 0)
    if isinstance(group, _Ordered):
        ranks = [group.levels.get(label, len(group.levels)) for label in group]
        order = sorted(order, key=ranks.__getitem__)
    return header, [[column[row] for column in picked] for row in order]


class _Ordered(list[object]):
    """The values of a column whose categories have an order, and the rank of each category."""

    levels: Mapping[object, int] = {}


# what numbers of single or half precision are called by numpy and pandas, polars and pyarrow
_SINGLE = frozenset(["float16", "float32", "Float32", "halffloat", "float"])


def _cells(column: object) -> list[object]:
    """The values of a column or of a sample."""
    if isinstance(column, (str, bytes, Mapping, Set)) or hasattr(column, "columns") or not isinstance(column, Iterable):
        raise TypeError(f"{_kind(column)} is not a column or a sample: give a list of values")
    kind: Any = getattr(column, "dtype", getattr(column, "type", None))
    if str(kind) in _SINGLE and hasattr(column, "to_numpy"):
        # the numbers of numpy keep their precision, those of Python do not
        return list(column.to_numpy())
    if not getattr(kind, "ordered", False) or not hasattr(kind, "categories"):
        return list(column)
    cells = _Ordered(column)
    cells.levels = {level: rank for rank, level in enumerate(kind.categories)}
    return cells


def _rows(data: Any) -> list[list[object]]:
    """The rows of data that are rows."""
    is_array = any(hasattr(data, name) for name in ("tolist", "to_list", "to_pylist"))
    if isinstance(data, bytes) or not (is_array or isinstance(data, (Sequence, Iterator))):
        raise TypeError(f"{_kind(data)} cannot be read as data: {_WANTED}")
    rows: list[list[object]] = []
    for row in _cells(data):
        if isinstance(row, (Mapping, Set)) or hasattr(row, "columns"):
            raise TypeError(f"{_kind(row)} is not a row: give a list or a tuple of its fields")
        rows.append(list(row) if isinstance(row, Iterable) and not isinstance(row, (str, bytes)) else [row])
    return rows


_WANTED = "give a data frame, a mapping, a list of rows or a numpy array"


def _kind(data: object) -> str:
    """What the data are called in a message."""
    return f"a value of {type(data).__module__}.{type(data).__qualname__}"


def _file(header: list[str], rows: list[list[object]]) -> bytes:
    """The bytes of a file with these rows."""
    fields = [[_field(value) for value in row] for row in rows]
    if any(type(text) is _Long for row in fields for text in row):
        fields = _rounded(fields)
    file = io.StringIO(newline="")
    out = csv.writer(file)
    out.writerow(header)
    out.writerows(fields)
    return file.getvalue().encode("utf-8")


_DECIMALS = 18


class _Long(str):
    """The text of a float that has more decimals than the program takes."""


def _field(value: Any) -> str:
    """A value as the text of its field, which is empty for a missing value."""
    if type(value).__name__ in ("NAType", "NaTType", "MaskedConstant"):
        return ""
    if hasattr(value, "as_py"):
        value = value.as_py()
    if getattr(getattr(value, "dtype", None), "kind", "") == "f":
        # each precision of numpy has a shortest text of its own
        text = "" if value != value else str(value)
    elif isinstance(value, float):
        text = "" if math.isnan(value) else repr(value)
    else:
        return _exact_field(value.item() if hasattr(value, "item") else value)
    is_long = (len(text) > _DECIMALS or "e-" in text) and _decimals(text) > _DECIMALS
    return _Long(text) if is_long else text


def _exact_field(value: Any) -> str:
    """The text of a value that is not a float."""
    if value is None or isinstance(value, Decimal) and value.is_nan():
        return ""
    return str(int(value)) if isinstance(value, bool) else str(value)


def _decimals(text: str) -> int:
    """How many decimals a number has; `inf` has none."""
    exponent = Decimal(text).as_tuple().exponent
    return -exponent if isinstance(exponent, int) else 0


def _rounded(fields: list[list[str]]) -> list[list[str]]:
    """The fields with long floats rounded; unchanged if that would make different values equal, or one of them 0."""
    told, were = [], {Decimal(0): Decimal(0)}
    found = []
    for row, cells in enumerate(fields, 2):
        found.append(list(cells))
        for field, text in enumerate(cells, 1):
            number = Decimal(text) if type(text) is _Long or _is_number(text) else None
            if number is None:
                continue
            if type(text) is _Long:
                told.append(f"row {row} field {field}: {text}")
                found[-1][field - 1] = f"{number:.{_DECIMALS}f}"
            if were.setdefault(Decimal(found[-1][field - 1]), number) != number:
                return fields
    more = f" and {len(told) - 1} more" if len(told) > 1 else ""
    warnings.warn(f"rounded to {_DECIMALS} decimals: {told[0]}{more}", stacklevel=5)
    return found
