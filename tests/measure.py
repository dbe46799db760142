"""Measures a program on made data, and prints the rows of tables such as those of docs/REACH.md.

usage: measure.py PROGRAM TABLE [TEST...]        the rows of all tests, or of those that are named

TABLE   largest  the largest inputs of each command: what it answers, within a minute and a gigabyte
        growth   how large a problem of each shape may be, within a second, and within a minute and a gigabyte
        fisher   tables of counts, beside `fisher.test` of R, whose time is taken within R
        peers    problems that R or its packages coin, exactRankTests and kSamples answer exactly, beside those
        divided  the dearest part of a divided run, beside the undivided run
        inside   call against call: that of the library in this process, with the reading of the bytes and the report of all
                 tails, beside those of R, its packages and scipy for one p, each timed within its own process. PROGRAM is
                 libexact.so, as tools/make_library makes it

Times are processor seconds of the whole process, which other work on the machine lengthens; memory is the greatest
that lay in the machine, and up to some 12 MB it may be that of Python, from which the process starts.
"""
import ctypes
import math
import os
import random
import resource
import subprocess
import sys
import tempfile
import time
from dataclasses import dataclass
from pathlib import Path

EXAMPLES = Path(__file__).resolve().parent.parent / "examples"
MEGABYTES = 1024


@dataclass(frozen=True)
class Run:
    """How a run ended: what it wrote, its status, which is negative where a signal ended it, and what it took."""

    text: str
    status: int
    seconds: float
    megabytes: float

    def answer(self):
        """What came, in a few words."""
        if self.status == 0:
            return "answered"
        return self.text.strip().replace("refused: ", "") or "more than a minute"


def run(words, text, seconds=60, megabytes=MEGABYTES):
    """A run on a file, for so many processor seconds and with so much memory at most."""

    def limit():
        resource.setrlimit(resource.RLIMIT_CPU, (seconds, seconds))
        resource.setrlimit(resource.RLIMIT_AS, (megabytes << 20, megabytes << 20))

    Path("f.csv").write_text(text, encoding="utf-8")
    with open("out", "wb") as out, open("err", "wb") as err:
        process = subprocess.Popen([PROGRAM, *words], stdout=out, stderr=err, preexec_fn=limit)
        _, status, used = os.wait4(process.pid, 0)
    process.returncode = os.waitstatus_to_exitcode(status)
    said = "out" if process.returncode == 0 else "err"
    return Run(
        Path(said).read_text(encoding="utf-8", errors="replace"), process.returncode, used.ru_utime + used.ru_stime,
        used.ru_maxrss / 1024,
    )


# ---- made data


def csv(rows, header=None):
    header = header or [f"c{place}" for place in range(len(rows[0]))]
    return "".join(",".join(map(str, row)) + "\n" for row in [header, *rows])


def distinct(number, dice, place=0, spread=1):
    """So many different numbers with three decimals, about normal."""
    made = {}
    while len(made) < number:
        made[round(dice.gauss(place, spread), 3)] = None
    return list(made)


def samples(sizes, dice, apart=0.6, wider=1.0, step=None):
    """Samples, each greater than the one before and the later ones spread more; without ties, or in steps."""
    values = iter(distinct(2 * sum(sizes), dice, spread=3))
    known = set()
    rows = []
    for group, size in enumerate(sizes):
        for _ in range(size):
            value = round(dice.gauss(group * apart, wider if group else 1), 3)
            if step:
                value = round(value / step)
            else:
                while value in known:
                    value = round(value + next(values), 3)
                known.add(value)
            rows.append([f"g{group}", value])
    return csv(rows)


def differences(number, dice, place=60, spread=200):
    return csv([[round(dice.gauss(place, spread)) or 1] for _ in range(number)])


def blocks(number, treatments, dice):
    return csv([[round(dice.gauss(0.3 * j, 1), 3) for j in range(treatments)] for _ in range(number)])


def outcomes(number, treatments, dice):
    return csv([[int(dice.random() < 0.3 + 0.06 * j) for j in range(treatments)] for _ in range(number)])


def table(rows, columns, subjects, dice, association=0.25):
    """Of the subjects, who are shared among the rows, a part have a column that goes with the row."""
    cells = [[0] * columns for _ in range(rows)]
    for subject in range(subjects):
        row = subject % rows
        near = (row * columns // rows + dice.randrange(2)) % columns
        cells[row][near if dice.random() < association else dice.randrange(columns)] += 1
    return csv(cells)


def strata(number, size, dice):
    rows = []
    for place in range(number):
        first = sum(dice.random() < 0.6 for _ in range(size // 2))
        second = sum(dice.random() < 0.4 for _ in range(size // 2))
        rows.append([f"s{place}", first, size // 2 - first, second, size // 2 - second])
    return csv(rows)


def strata_of_samples(number, size, dice):
    rows = []
    for place in range(number):
        values = distinct(size, dice)
        rows += [[f"s{place}", f"g{2 * j // size}", round(value + j // (size // 2), 3)] for j, value in enumerate(values)]
    return csv(rows)


def bivariate(number, dice, ties=None):
    first = distinct(number, dice)
    second = [round(value + dice.gauss(0, 1), 3) for value in first]
    if ties:
        first = [round(value * ties[0] / 6) for value in first]
        second = [round(value * ties[1] / 6) for value in second]
    return csv(list(zip(first, second)))


def sequence(sizes, dice):
    labels = ["a"] * sizes[0] + ["b"] * sizes[1]
    return csv([[label] for label in dice.sample(labels, len(labels))])


# ---- how large a problem may be

# the test's words, the shape in words, and the file of size n
GROWTH = [
    *(
        ([test], "two samples of n", lambda n, dice, wider=wider: samples([n, n], dice, 0.6 * (wider == 1), wider))
        for test, wider in [("ranksum", 1), ("median", 1), ("ansari", 2), ("mood", 2), ("shift", 1), ("savage", 1)]
    ),
    (["raw"], "two samples of n, values with three decimals", lambda n, dice: samples([n, n], dice)),
    (["signedrank"], "n differences", differences),
    (["sign"], "n differences", differences),
    (["rawsigned"], "n differences, whole numbers up to some hundreds", differences),
    *((["kw"], f"{k} groups of n", lambda n, dice, k=k: samples([n] * k, dice)) for k in (3, 4, 5)),
    *((["jt"], f"{k} groups of n", lambda n, dice, k=k: samples([n] * k, dice)) for k in (3, 4, 5, 8)),
    *(
        (["umbrella", "--peak", "2"], f"{k} groups of n", lambda n, dice, k=k: samples([n] * k, dice))
        for k in (3, 4, 5, 8)
    ),
    *((["friedman"], f"n blocks of {k}", lambda n, dice, k=k: blocks(n, k, dice)) for k in range(3, 9)),
    *((["page"], f"n blocks of {k}", lambda n, dice, k=k: blocks(n, k, dice)) for k in (4, 8)),
    *((["cochran"], f"n blocks of {k}", lambda n, dice, k=k: outcomes(n, k, dice)) for k in (6, 8)),
    *(
        (["fisher"], f"{r} by {c} of n", lambda n, dice, r=r, c=c: table(r, c, n, dice))
        for r, c in [(3, 3), (4, 4), (2, 20), (3, 9), (5, 5), (5, 9), (6, 6), (8, 8), (8, 64)]
    ),
    *(
        (["linear"], f"{r} by {c} of n", lambda n, dice, r=r, c=c: table(r, c, n, dice))
        for r, c in [(3, 5), (4, 4), (5, 5), (8, 8)]
    ),
    *(
        ([test], f"n tables of 2 by 2 of {size}", lambda n, dice, size=size: strata(n, size, dice))
        for test in ("strata", "zelen") for size in (4, 10, 20)
    ),
    *(
        (["stratranksum"], f"n strata of {size}", lambda n, dice, size=size: strata_of_samples(n, size, dice))
        for size in (4, 10, 40)
    ),
    (["kendall"], "n pairs without ties", bivariate),
    (["kendall"], "n pairs of some 12 by 4 values", lambda n, dice: bivariate(n, dice, (12, 4))),
    (["runs"], "n and n", lambda n, dice: sequence([n, n], dice)),
]


def grow(words, shape, made):
    """The row of a test and a shape: the largest sizes that three made sets have, and the least and most they take."""

    def tried(n, seed, seconds=60):
        return run([words[0], "f.csv", *words[1:]], made(n, random.Random(f"{shape} {n} {seed}")), seconds)

    def fits(n):
        return all(tried(n, seed, 1).status not in (3, 4) for seed in (1, 2, 3))

    def within(n, seconds):
        return all(one.status == 0 and one.seconds <= seconds for one in (tried(n, s, seconds) for s in (1, 2, 3)))

    def greatest(holds, low, high):
        """The greatest number from low to high of which this holds, found by halving; low is one."""
        while low < high:
            middle = (low + high + 1) // 2
            low, high = (middle, high) if holds(middle) else (low, middle - 1)
        return low

    def told(n):
        if n == 0:
            return "–"
        runs = [tried(n, seed) for seed in (1, 2, 3)]
        least, most = (f"{pick(one.seconds for one in runs):.2g}" for pick in (min, max))
        memory = max(one.megabytes for one in runs)
        size = f"all that fit: n = {n}" if n == whole else f"n = {n}"
        return f"{size}, {least if least == most else f'{least} to {most}'} s" + (f", {memory:.0f} MB" if memory > 20 else "")

    whole = greatest(fits, 1, 200)
    second = greatest(lambda n: within(n, 1), 0, whole)
    minute = second
    while minute < whole and within(minute + 1, 60):
        minute += 1
    return f"| `{' '.join(words)}` | {shape} | {told(second)} | {'the same' if minute == second else told(minute)} |"


def growth(tests):
    print("| test | problem | within a second | within a minute and a gigabyte |\n|---|---|---|---|")
    for words, shape, made in GROWTH:
        if not tests or words[0] in tests:
            print(grow(words, shape, made), flush=True)


# ---- the largest inputs

LONGEST = 1048576


def filled(begin, byte, end=""):
    """A file of as many bytes as may be, filled up in the middle."""
    return begin + byte * (LONGEST - len(begin) - len(end)) + end


def few_among(many, few, first="", label="g"):
    """Many of one sample and few of another, all different, the few spread among them."""
    every = (many + few) // (few + 1)
    rows = [[label + str(int(place % every == every - 1 and place // every < few)), place] for place in range(many + few)]
    return csv([[first, *row] for row in rows] if first else rows)


def eight_groups(ones):
    """Ten thousand subjects, of whom so many groups have one each."""
    rows = [["g0", place] for place in range(10000 - ones)] + [[f"g{k + 1}", 1000 * k + 0.5] for k in range(ones)]
    return csv(rows)


def wide_table(rows, subjects):
    """Eight by 64 columns, of which as many have a subject as there are."""
    return csv([[int(column < subjects and column % rows == row) for column in range(64)] for row in range(rows)])


def pieces(number):
    """As many pieces of a run, which fill a file with the first line of their head."""

    def joined(line):
        return "".join(
            f"piece 1\nname {'7' * 64}\nparts {number}\npart {part}\nhead 2\n{line}\ntotal {number}\ngreater 0 1\nend\n"
            for part in range(number)
        )

    return joined("v" * ((LONGEST - len(joined(""))) // number))


FEW_TESTS = ("ranksum", "median", "ansari", "mood", "savage", "raw", "shift")
LARGEST = [
    *(([test], "9,989 and 11 values, all different", lambda: few_among(9989, 11)) for test in FEW_TESTS),
    *(([test], "9,996 and 4 values, all different", lambda: few_among(9996, 4)) for test in FEW_TESTS),
    *(
        ([test], "10,000 different values, all differences positive", lambda: csv([[n] for n in range(1, 10001)]))
        for test in ("signedrank", "sign", "rawsigned")
    ),
    *(
        ([test], "10,000 differences, 126 of them not zero", lambda: csv([[n if n < 127 else 0] for n in range(1, 10001)]))
        for test in ("signedrank", "sign", "rawsigned")
    ),
    (
        ["rawsigned"], "85 differences of 36 digits, of both signs",
        lambda: csv([[f"{(-1) ** n * (10**18 - 1 - n**7)}.{n**9:018}"] for n in range(1, 86)]),
    ),
    (["mcnemar"], "counts of 1,000,000, 126 that differ", lambda: csv([[1000000, 63], [63, 1000000]])),
    (["kw"], "8 groups, 9,993 values and one each", lambda: eight_groups(7)),
    (["kw"], "8 groups of 6", lambda: samples([6] * 8, random.Random(1))),
    (["kw"], "8 groups of 2", lambda: samples([2] * 8, random.Random(1))),
    *(
        (words, what, made)
        for words in (["jt"], ["umbrella", "--peak", "4"])
        for what, made in [
            ("8 groups, 9,993 values and one each", lambda: eight_groups(7)),
            ("8 groups of 6", lambda: samples([6] * 8, random.Random(1))),
        ]
    ),
    *(
        ([test], what, made)
        for test in ("friedman", "page")
        for what, made in [
            ("10,000 blocks of 2, 126 without a tie", lambda: csv([[1, 2 if n < 126 else 1] for n in range(10000)])),
            ("8 blocks of 8", lambda: blocks(8, 8, random.Random(1))),
        ]
    ),
    (["cochran"], "10,000 blocks of 2, 126 that differ", lambda: csv([[1, int(n >= 126)] for n in range(10000)])),
    (["cochran"], "20 blocks of 8, half of each", lambda: csv([[n % 2, 1 - n % 2] * 4 for n in range(20)])),
    (["fisher"], "2 by 64, 130 subjects", lambda: table(2, 64, 130, random.Random(1))),
    (["fisher"], "2 by 64, 64,000,000 subjects, 5 of them in one row", lambda: csv([[int(c < 5) for c in range(64)], [1000000] * 64])),
    (["fisher"], "8 by 64, 45 subjects, each in a column", lambda: wide_table(8, 45)),
    (["fisher"], "8 by 64, 44 subjects", lambda: table(8, 64, 44, random.Random(1))),
    (["linear"], "8 by 64, 45 subjects, each in a column", lambda: wide_table(8, 45)),
    (["linear"], "8 by 64, 44 subjects", lambda: table(8, 64, 44, random.Random(1))),
    *(
        ([test], what, made)
        for test in ("strata", "zelen")
        for what, made in [
            ("10,000 of four subjects", lambda: strata(10000, 4, random.Random(1))),
            ("10,000, of which 63 have more than one labelling", lambda: csv([["s", 1, 0, 0, 1] if n < 63 else ["s", 1, 0, 0, 0] for n in range(10000)])),
        ]
    ),
    (
        ["zelen"], "10,000 of two, whose sum is 11 more than its least",
        lambda: csv([["s", 0, 1, 1, 0] if n >= 11 else ["s", 1, 0, 0, 1] for n in range(10000)]),
    ),
    (["strata"], "10,000 with odds, 63 of them with two labellings", lambda: csv([["s", 1, 0, 0, 1] if n < 63 else ["s", 0, 0, 0, 0] for n in range(10000)])),
    (["stratranksum"], "one of 9,989 and 11 values", lambda: few_among(9989, 11, "s")),
    (["stratranksum"], "one of 9,996 and 4 values", lambda: few_among(9996, 4, "s")),
    (
        ["stratranksum"], "5,000 of two, 126 of them with both samples",
        lambda: csv([[n // 2, f"g{n % 2 if n < 252 else 0}", n] for n in range(10000)]),
    ),
    (["kendall"], "120 pairs of one first value, 33 second ones", lambda: csv([[1, min(n, 33)] for n in range(120)])),
    (["kendall"], "33 pairs without ties", lambda: csv([[n, n * 7 % 33] for n in range(33)])),
    (["kendall"], "33 different second values, first ones tied by eight", lambda: csv([[n // 8, n * 7 % 33] for n in range(33)])),
    (["runs"], "9,989 and 11", lambda: csv([["b" if n % 900 == 7 and n < 9900 else "a"] for n in range(10000)])),
    (["merge"], "64 pieces, 1,048,576 bytes or a few less", lambda: pieces(64)),
    (["merge"], "one piece of 1,048,576 bytes", lambda: pieces(1)),
    # files of as many bytes as may be
    (["ranksum"], "two labels of half a million letters", lambda: filled(f"g,v\n{'x' * 524000},1\n", "y", ",2\n")),
    (["signedrank"], "a value of a million zeros", lambda: filled("d\n", "0", "\n")),
    (["rawsigned"], "a value of a million decimals", lambda: filled("d\n0.", "0", "\n")),
    (["fisher"], "a count of a million zeros", lambda: filled("a,b\n1,1\n1,", "0", "\n")),
    (["ranksum"], "line feeds alone", lambda: "\n" * LONGEST),
    (["ranksum"], "a header of a million fields", lambda: filled("g,v", ",", "\nx,1\ny,2\n")),
    (["ranksum", "--columns", "1,2"], "a header of a million fields", lambda: filled("g,v", ",", "\nx,1\ny,2\n")),
    (["friedman"], "a million quotes", lambda: '"' * LONGEST),
    (["strata"], "names of a hundred letters", lambda: csv([["s" * 90, 0, 0, 0, 1]] * 10000)),
    (["runs"], "labels of a hundred letters", lambda: csv([["ab"[n == 7] * 103] for n in range(10000)])),
]


def largest(tests):
    print("| command | input | answer | seconds | MB |\n|---|---|---|---|---|")
    for words, what, made in LARGEST:
        if tests and words[0] not in tests:
            continue
        options = ["--odds", "3/1"] if "odds" in what else []
        text = made()
        assert len(text.encode()) <= LONGEST, (words, what, len(text.encode()))
        one = run([words[0], "f.csv", *words[1:], *options], text)
        took = f"{one.seconds:.2f} | {one.megabytes:.0f}" if one.status >= 0 else "– | –"
        print(f"| `{' '.join(words + options)}` | {what} | {one.answer()} | {took} |", flush=True)


# ---- beside fisher.test

R = r"""
for (file in commandArgs(TRUE)) {
    table <- as.matrix(read.csv(file))
    for (space in c(2e5, 2e6, 2e7, 2e8)) {
        p <- tryCatch(fisher.test(table, workspace = space)$p.value, error = function(fault) NULL)
        if (!is.null(p)) break
    }
    set.seed(1)
    drawn <- fisher.test(table, simulate.p.value = TRUE, B = 1e5)$p.value
    if (is.null(p)) { cat("- - -", drawn, "\n"); next }
    took <- sapply(1:5, function(i) sum(system.time(fisher.test(table, workspace = space))[1:2]))
    cat(sprintf("%.3g", p), space, min(took), sprintf("%.4f", drawn), "\n")
}
"""
# rows, columns, subjects, seed
TABLES = [
    (5, 5, 50, 26), (5, 6, 50, 1), (5, 6, 50, 2), (5, 6, 50, 3), (6, 6, 40, 1), (6, 6, 45, 1), (6, 6, 45, 2),
    (8, 8, 30, 1), (8, 8, 35, 1), (4, 8, 45, 1), (8, 4, 45, 1), (4, 9, 60, 28), (5, 9, 50, 1), (3, 10, 75, 1),
    (4, 12, 60, 1), (3, 20, 75, 27), (2, 20, 125, 1),
]
# and files of the examples
PUBLISHED = ("mehta_patel", "oral_lesions", "wide_table", "wide_table_of_four")


def stream(seed):
    """A fixed stream of numbers, each below the one that is sent."""
    number = 0
    while True:
        below = yield number
        seed = (6364136223846793005 * seed + 1442695040888963407) % 2**64
        number = (seed >> 33) % below


def counted(rows, columns, subjects, seed):
    """A table whose subjects are shared among the rows, a quarter of them in a column that goes with the row."""
    numbers = stream(seed)
    next(numbers)
    cells = [[0] * columns for _ in range(rows)]
    for subject in range(subjects):
        row = subject % rows
        if numbers.send(100) < 25:
            column = (row * columns // rows + numbers.send(2)) % columns
        else:
            column = numbers.send(columns)
        cells[row][column] += 1
    return csv(cells)


def fisher(_):
    texts = {f"{r} by {c} of {n}, seed {seed}": counted(r, c, n, seed) for r, c, n, seed in TABLES}
    texts |= {name: (EXAMPLES / name).with_suffix(".csv").read_text(encoding="utf-8") for name in PUBLISHED}
    files = []
    for place, text in enumerate(texts.values()):
        files.append(f"{place}.csv")
        Path(files[-1]).write_text(text, encoding="utf-8")
    Path("fisher.R").write_text(R, encoding="utf-8")
    told = subprocess.run(["Rscript", "fisher.R", *files], capture_output=True, text=True, check=True).stdout
    print("| table | p | seconds | MB | p of R | its simulation | seconds of R | workspace |\n|---|---|---|---|---|---|---|---|")
    for (name, text), line in zip(texts.items(), told.splitlines()):
        runs = [run(["fisher", "f.csv", "--tail", "two"], text) for _ in range(5)]
        p = runs[0].answer()
        if runs[0].status == 0:
            part, whole = map(int, runs[0].text.split()[-2].split("/"))
            p = f"{part / whole:.3g}"
        least = min(one.seconds for one in runs)
        theirs, space, took, drawn = line.split()
        memory = max(one.megabytes for one in runs)
        print(f"| {name} | {p} | {least:.3f} | {memory:.0f} | {theirs} | {drawn} | {took} | {space} |", flush=True)


# ---- beside other exact tests of R

# the test's words, the problem, the file, and who else answers it: a package and its call on `d`
TWO = [65, 65]
PEERS = [
    (["ranksum"], "65 and 65, all different", lambda dice: samples(TWO, dice), {
        "stats": "wilcox.test(d[[2]] ~ d[[1]], exact = TRUE)",
        "coin": "coin::wilcox_test(d[[2]] ~ factor(d[[1]]), distribution = 'exact')",
        "exactRankTests": "exactRankTests::wilcox.exact(d[[2]] ~ factor(d[[1]]), exact = TRUE)",
    }),
    (["ranksum"], "65 and 65 with ties", lambda dice: samples(TWO, dice, step=0.25), {
        "coin": "coin::wilcox_test(d[[2]] ~ factor(d[[1]]), distribution = 'exact')",
        "exactRankTests": "exactRankTests::wilcox.exact(d[[2]] ~ factor(d[[1]]), exact = TRUE)",
    }),
    (["ansari"], "55 and 55, all different", lambda dice: samples([55, 55], dice, 0, 2), {
        "stats": "ansari.test(d[[2]] ~ factor(d[[1]]), exact = TRUE)",
        "coin": "coin::ansari_test(d[[2]] ~ factor(d[[1]]), distribution = 'exact')",
        "exactRankTests": "exactRankTests::ansari.exact(d[[2]] ~ factor(d[[1]]), exact = TRUE)",
    }),
    (["mood"], "20 and 20, all different", lambda dice: samples([20, 20], dice, 0, 2), {
        "coin": "coin::mood_test(d[[2]] ~ factor(d[[1]]), distribution = 'exact')",
    }),
    (["savage"], "12 and 12, all different", lambda dice: samples([12, 12], dice), {
        "coin": "coin::savage_test(d[[2]] ~ factor(d[[1]]), distribution = 'exact')",
    }),
    (["median"], "65 and 65, all different", lambda dice: samples(TWO, dice), {
        "coin": "coin::median_test(d[[2]] ~ factor(d[[1]]), mid.score = '0.5', distribution = 'exact')",
    }),
    (["raw"], "25 and 25, three decimals", lambda dice: samples([25, 25], dice), {
        "coin": "coin::oneway_test(d[[2]] ~ factor(d[[1]]), distribution = 'exact')",
        "exactRankTests": "exactRankTests::perm.test(round(1000 * d[[2]]) ~ factor(d[[1]]), exact = TRUE)",
    }),
    (["signedrank"], "126 differences with ties", lambda dice: differences(126, dice, 2, 8), {
        "coin": "coin::wilcoxsign_test(d[[1]] ~ rep(0, 126), zero.method = 'Wilcoxon', distribution = 'exact')",
        "exactRankTests": "exactRankTests::wilcox.exact(d[[1]], exact = TRUE)",
    }),
    (["rawsigned"], "60 differences", lambda dice: differences(60, dice), {
        "exactRankTests": "exactRankTests::perm.test(d[[1]], exact = TRUE)",
    }),
    (["kendall"], "33 pairs without ties", lambda dice: bivariate(33, dice), {
        "stats": "cor.test(d[[1]], d[[2]], method = 'kendall', exact = TRUE)",
    }),
    (["strata"], "15 tables of ten", lambda dice: strata(15, 10, dice), {
        "stats": "mantelhaen.test(array(t(as.matrix(d[, c(2, 4, 3, 5)])), c(2, 2, 15)), exact = TRUE)",
    }),
    (["kw"], "3 groups of 5", lambda dice: samples([5, 5, 5], dice), {
        "kSamples": "kSamples::qn.test(split(d[[2]], d[[1]]), test = 'KW', method = 'exact', Nsim = 1e7)",
    }),
    (["jt", "--tail", "greater"], "3 groups of 5", lambda dice: samples([5, 5, 5], dice), {
        "kSamples": "kSamples::jt.test(split(d[[2]], d[[1]]), method = 'exact', Nsim = 1e7)",
    }),
]
PEER = r"""
words <- commandArgs(TRUE)
d <- read.csv(words[1])
call <- parse(text = words[2])
p_of <- function(x) {
    if (isS4(x)) return(as.numeric(coin::pvalue(x)))
    if (inherits(x, "kSamples")) return(tail(unlist(x[[if (is.null(x$qn)) "JT" else "qn"]]), 1))
    x$p.value
}
setTimeLimit(elapsed = 120)
told <- tryCatch({
    suppressWarnings(suppressMessages(p <- p_of(eval(call))))
    took <- sapply(1:5, function(i) sum(system.time(suppressWarnings(eval(call)))[1:2]))
    sprintf("%.6f %.3f", p, min(took))
}, error = function(fault) "- -")
cat(told)
"""


def peers(tests):
    print("| test | problem | p | seconds | package | its p | its seconds |\n|---|---|---|---|---|---|---|")
    Path("peer.R").write_text(PEER, encoding="utf-8")
    for words, what, made, others in PEERS:
        if tests and words[0] not in tests:
            continue
        text = made(random.Random(f"{what} {words[0]}"))
        Path("peer.csv").write_text(text, encoding="utf-8")
        runs = [run([words[0], "f.csv", *words[1:]], text) for _ in range(5)]
        least = min(one.seconds for one in runs)
        p = runs[0].text.split()[-1]
        for package, call in others.items():
            told = subprocess.run(["Rscript", "peer.R", "peer.csv", call], capture_output=True, text=True, check=True)
            theirs, took = told.stdout.split()
            print(f"| `{words[0]}` | {what} | {p} | {least:.3f} | {package} | {theirs} | {took} |", flush=True)


# ---- call against call

# the test's words, the problem, the file, and who else answers it: of R a call on `d`, of scipy one on its columns
TABLE = "tryCatch(fisher.test(d), error = function(fault) fisher.test(d, workspace = 2e7))"
INSIDE = [
    (["ranksum"], "40 and 40, all different", lambda dice: samples([40, 40], dice), {
        "stats": "wilcox.test(d[[2]] ~ d[[1]], exact = TRUE)",
        "scipy": "stats.mannwhitneyu(*split(d), method='exact')",
    }),
    (["ranksum"], "65 and 65 with ties", lambda dice: samples(TWO, dice, step=0.25), {
        "exactRankTests": "exactRankTests::wilcox.exact(d[[2]] ~ factor(d[[1]]), exact = TRUE)",
    }),
    *(
        (["ansari"], f"{n} and {n}, all different", lambda dice, n=n: samples([n, n], dice, 0, 2), {
            "stats": "ansari.test(d[[2]] ~ factor(d[[1]]), exact = TRUE)",
            "scipy": "stats.ansari(*split(d))",
        })
        for n in (20, 40)
    ),
    (["mood"], "20 and 20, all different", lambda dice: samples([20, 20], dice, 0, 2), {
        "coin": "coin::mood_test(d[[2]] ~ factor(d[[1]]), distribution = 'exact')",
    }),
    (["signedrank"], "40 differences, all different", lambda dice: csv([[n] for n in distinct(40, dice, 0.4)]), {
        "stats": "wilcox.test(d[[1]], exact = TRUE)",
        "scipy": "stats.wilcoxon(d[0], method='exact')",
    }),
    (["signedrank"], "126 differences with ties", lambda dice: differences(126, dice, 2, 8), {
        "exactRankTests": "exactRankTests::wilcox.exact(d[[1]], exact = TRUE)",
    }),
    (["kendall"], "33 pairs without ties", lambda dice: bivariate(33, dice), {
        "stats": "cor.test(d[[1]], d[[2]], method = 'kendall', exact = TRUE)",
        "scipy": "stats.kendalltau(d[0], d[1], method='exact')",
    }),
    (["kw"], "3 groups of 5", lambda dice: samples([5, 5, 5], dice), {
        "kSamples": "kSamples::qn.test(split(d[[2]], d[[1]]), test = 'KW', method = 'exact', Nsim = 1e7)",
    }),
    (["jt", "--tail", "greater"], "3 groups of 5", lambda dice: samples([5, 5, 5], dice), {
        "kSamples": "kSamples::jt.test(split(d[[2]], d[[1]]), method = 'exact', Nsim = 1e7)",
    }),
    *(
        (["friedman"], f"{n} blocks of {k}, no ties", lambda dice, n=n, k=k: blocks(n, k, dice), {
            # its tables have P(X > x): three quarters of a step below
            "SuppDists": "list(p.value = SuppDists::pFriedman("
            f"friedman.test(as.matrix(d))$statistic - {18 / (n * k * (k + 1))}, {k}, {n}, FALSE))",
        })
        for n, k in [(8, 5), (15, 4), (20, 3)]
    ),
    (["page", "--tail", "greater"], "8 blocks of 5, no ties", lambda dice: blocks(8, 5, dice), {
        "scipy": "stats.page_trend_test(list(zip(*d)), method='exact')",
    }),
    (["strata"], "15 tables of ten", lambda dice: strata(15, 10, dice), {
        "stats": "mantelhaen.test(array(t(as.matrix(d[, c(2, 4, 3, 5)])), c(2, 2, 15)), exact = TRUE)",
    }),
    (["fisher"], "2 by 2 of 40", lambda dice: table(2, 2, 40, dice), {
        "stats": TABLE,
        "scipy": "stats.fisher_exact(list(zip(*d)))",
    }),
    *(
        (["fisher"], f"{r} by {c} of {n}", lambda dice, r=r, c=c, n=n: table(r, c, n, dice), {"stats": TABLE})
        for r, c, n in [(3, 3, 40), (4, 4, 40), (4, 4, 60), (3, 10, 40), (5, 5, 40), (4, 9, 40), (3, 5, 70), (8, 8, 35)]
    ),
    (["fisher"], "4 by 4 of 64, the same table each time", lambda dice: table(4, 4, 64, random.Random(7)), {"stats": TABLE}),
]
# R and Python within which a call is timed: the p, and the least seconds that one of many calls takes
INSIDE_R = PEER.replace("commandArgs(TRUE)\nd <- read.csv(words[1])", """commandArgs(TRUE)
d <- read.csv(words[1])
if (grepl("^fisher", words[2])) d <- as.matrix(d)""").replace(
    "took <- sapply(1:5, function(i) sum(system.time(suppressWarnings(eval(call)))[1:2]))",
    """times <- max(1, min(1000, ceiling(0.1 / max(1e-5, system.time(suppressWarnings(eval(call)))[3]))))
    took <- sapply(1:5, function(i) system.time(for (j in 1:times) suppressWarnings(eval(call)))[3] / times)""",
).replace("%.6f %.3f", "%.6f %.7f")
INSIDE_PYTHON = r"""
import csv, sys, timeit, warnings
from scipy import stats
warnings.simplefilter("ignore")
rows = list(csv.reader(open(sys.argv[1])))[1:]
d = [[float(x) if x.lstrip("-")[:1].isdigit() else x for x in column] for column in zip(*rows)]
def split(d):
    labels = list(dict.fromkeys(d[0]))
    return [[x for label, x in zip(*d) if label == it] for it in labels]
if "fisher" in sys.argv[2]:
    d = [[int(x) for x in column] for column in d]
call = compile(sys.argv[2], "call", "eval")
found = eval(call)
p = found[1] if isinstance(found, tuple) else found.pvalue
timer = timeit.Timer("eval(call)", globals=globals())
times = timer.autorange()[0]
print(f"{p:.6f} {min(timer.repeat(5, times)) / times:.7f}")
"""


def in_process(words, text):
    """The p that the library's report ends with, and the least seconds that one of many calls takes."""
    call = ctypes.CDLL(PROGRAM).exact_answer
    call.restype = ctypes.c_uint8
    packed, data = ("\0".join([words[0], "f.csv", *words[1:]]) + "\0").encode(), text.encode()
    out, told, counts = ctypes.create_string_buffer(1 << 16), ctypes.create_string_buffer(96), (ctypes.c_size_t * 2)()
    sizes = [ctypes.c_size_t(it) for it in (len(packed), len(data), len(out), len(told))]

    def once():
        begun = time.perf_counter()
        status = call(packed, sizes[0], data, sizes[1], out, sizes[2], told, sizes[3], counts)
        assert status == 0, told.value
        return time.perf_counter() - begun

    begun, taken = time.perf_counter(), [once() for _ in range(5)]
    while time.perf_counter() - begun < 0.5:
        taken.append(once())
    return out.raw[: counts[0]].split()[-1].decode(), min(taken)


def of_peer(package, call):
    """The p of a peer's call on the file, and its seconds."""
    command = ["Rscript", "inside.R"] if package != "scipy" else ["/usr/bin/python3", "inside.py"]
    told = subprocess.run([*command, "peer.csv", call], capture_output=True, text=True, check=False).stdout.split()
    return told if len(told) == 2 else ["-", "-"]


# peers that read tables of sums, which were computed once: their rows are shown, and not counted
TABLES_READ = {"SuppDists"}


def inside(tests):
    print("| test | problem | p | seconds | peer | its p | its seconds | times ahead |\n|---|---|---|---|---|---|---|---|")
    Path("inside.R").write_text(INSIDE_R, encoding="utf-8")
    Path("inside.py").write_text(INSIDE_PYTHON, encoding="utf-8")
    best = {}
    for words, what, made, others in INSIDE:
        if tests and words[0] not in tests:
            continue
        text = made(random.Random(f"{what} {words[0]}"))
        Path("peer.csv").write_text(text, encoding="utf-8")
        p, seconds = in_process(words, text)
        for package, call in others.items():
            theirs, took = of_peer(package, call)
            ahead = "-" if took == "-" else f"{float(took) / seconds:.1f}"
            print(f"| `{words[0]}` | {what} | {p} | {seconds:.6f} | {package} | {theirs} | {took} | {ahead} |", flush=True)
            if took != "-" and package not in TABLES_READ:
                best[what, words[0]] = min(best.get((what, words[0]), math.inf), float(took) / seconds)
    if best:
        mean = math.exp(sum(map(math.log, best.values())) / len(best))
        behind = sum(it < 1 for it in best.values())
        print(f"\n{len(best)} problems, the best peer of each: geometric mean {mean:.1f} times ahead, behind on {behind}")


# ---- divided runs

# the test's words, the problem, the file, and the stages and numbers of parts
DIVIDED = [
    (["rawsigned"], "44 differences of ten digits", lambda dice: long_differences(44, dice), [(4, 4), (12, 64)]),
    (["rawsigned"], "60 differences of ten digits", lambda dice: long_differences(60, dice), [(12, 64)]),
    (["kw"], "3 groups of 14", lambda dice: samples([14] * 3, dice), [(3, 4), (5, 64)]),
    (["kw"], "4 groups of 7", lambda dice: samples([7] * 4, dice), [(3, 64)]),
    (["kw"], "5 groups of 4", lambda dice: samples([4] * 5, dice), [(3, 64)]),
    (["kw", "--scores", "raw"], "4 groups of 4, six digits", lambda dice: long_samples([4] * 4, dice), [(3, 4), (3, 64)]),
    (["cochran"], "20 blocks of 8", lambda dice: outcomes(20, 8, dice), [(3, 4), (4, 64)]),
    (["friedman"], "24 blocks of 4", lambda dice: blocks(24, 4, dice), [(3, 4)]),
    (["friedman"], "8 blocks of 5", lambda dice: blocks(8, 5, dice), [(2, 16)]),
    (["friedman"], "8 blocks of 6", lambda dice: blocks(8, 6, dice), [(2, 16)]),
    (["umbrella", "--peak", "2"], "5 groups of 9", lambda dice: samples([9] * 5, dice), [(4, 16)]),
    (["kendall"], "50 pairs with ties", lambda dice: bivariate(50, dice, (12, 4)), [(3, 16)]),
    (["linear"], "5 by 5 of 50", lambda dice: table(5, 5, 50, dice), [(1, 16)]),
    (["fisher"], "5 by 5 of 50", lambda dice: table(5, 5, 50, dice), [(1, 16)]),
]


def long_differences(number, dice):
    return csv([[dice.randrange(10**9, 10**10) * dice.choice((1, 1, -1))] for _ in range(number)])


def long_samples(sizes, dice):
    return csv([[f"g{g}", dice.randrange(10**5, 10**6)] for g, size in enumerate(sizes) for _ in range(size)])


def divided(tests):
    print("| test | problem | undivided: s, MB | stage, parts | dearest part: s, MB | s of all |\n|---|---|---|---|---|---|")
    for words, what, made, cuts in DIVIDED:
        if tests and words[0] not in tests:
            continue
        text = made(random.Random(f"{what} {words[0]}"))
        tail = ["--tail", "two" if words[0] in ("fisher", "linear", "umbrella", "kendall", "rawsigned") else "greater"]
        command = [words[0], "f.csv", *words[1:], *tail]
        whole = run(command, text, 120, 4 * MEGABYTES)
        told = f"{whole.seconds:.2f}, {whole.megabytes:.0f}" if whole.status == 0 else whole.answer()
        for stage, count in cuts:
            options = ["--stage", str(stage), "--parts", str(count)]
            parts = [run([*command, *options, "--part", str(part)], text, 120, 4 * MEGABYTES) for part in range(count)]
            most, room = max(one.seconds for one in parts), max(one.megabytes for one in parts)
            ended = all(one.status == 0 for one in parts)
            dearest = f"{most:.2f}, {room:.0f}" if ended else "not all ended"
            every = f"{sum(one.seconds for one in parts):.2f}"
            print(f"| `{' '.join(words)}` | {what} | {told} | {stage}, {count} | {dearest} | {every} |", flush=True)


PROGRAM = os.path.realpath(sys.argv[1])
with tempfile.TemporaryDirectory() as folder:
    os.chdir(folder)
    TABLES_OF = {"largest": largest, "growth": growth, "fisher": fisher, "peers": peers, "inside": inside, "divided": divided}
    TABLES_OF[sys.argv[2]](sys.argv[3:])
    os.chdir(EXAMPLES)
